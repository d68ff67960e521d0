#!/bin/sh
# Prints the SBOM of dist/, as SPDX 2.3 in JSON.
#
#     packaging/sbom.sh VERSION COMMIT TOOLCHAIN VERDICT
#
# VERDICT is the file with the last line of the library's proof. What the gate counted stands in
# build/gate.log, with the commit, if `make test` ran here.
set -eu
[ $# = 4 ] || { echo "usage: packaging/sbom.sh VERSION COMMIT TOOLCHAIN VERDICT" >&2; exit 2; }
cd "$(dirname "$0")/.."
gate=$(grep -sqx "$2" build/gate.log && grep ' parts passed, ' build/gate.log || :)
crates=$(grep -c '^[a-z]' crates.txt)
edits=$(find crates/*/must-fail -name '*.edit' | wc -l)
for file in dist/*; do
    printf '%s %s\n' "$(sha256sum "$file" | cut -d ' ' -f 1)" "${file#dist/}"
done | jq -Rn --arg version "$1" --arg commit "$2" --arg toolchain "$3" --arg verdict "$(cat "$4")" \
    --arg gate "${gate:-not known where this was made}" --arg proved "$crates crates, $edits edits that have to be refused" \
    --arg compiler "$(${CC:-cc} --version | head -n 1)" --arg linker "$(ld --version | head -n 1)" \
    --arg flags "the toolchain: -O3 for x86-64-v2; cc: CFLAGS='${CFLAGS:-}' LDFLAGS='${LDFLAGS:-}'" \
    --arg created "$(date -u -d "@$SOURCE_DATE_EPOCH" +%Y-%m-%dT%H:%M:%SZ)" '
def id: "SPDXRef-" + gsub("[^A-Za-z0-9.-]"; "-");
def package: {downloadLocation: "NOASSERTION", filesAnalyzed: false, copyrightText: "NOASSERTION",
    licenseConcluded: "NOASSERTION"} + .;
[inputs | split(" ") | {sum: .[0], name: .[1]}] as $files |
{
    spdxVersion: "SPDX-2.3", dataLicense: "CC0-1.0", SPDXID: "SPDXRef-DOCUMENT",
    name: "jadvolni-\($version)",
    documentNamespace: "urn:uuid:\($commit[0:8])-\($commit[8:12])-\($commit[12:16])-\($commit[16:20])-\($commit[20:32])",
    creationInfo: {created: $created, creators: ["Tool: packaging/sbom.sh"]},
    comment: "Proved: \($proved). The library: \($verdict). The gate: \($gate). Compiler flags: \($flags).",
    packages: ([
        {SPDXID: "SPDXRef-sources", name: "jadvolni", versionInfo: $version, licenseDeclared: "MIT OR Apache-2.0",
            sourceInfo: "commit \($commit)"},
        {SPDXID: "SPDXRef-toolchain", name: "rattle", versionInfo: $toolchain, licenseDeclared: "NOASSERTION"},
        {SPDXID: "SPDXRef-cc", name: "cc", versionInfo: "\($compiler), \($linker)", licenseDeclared: "NOASSERTION"}
    ] + [$files[] | {SPDXID: (.name | id), name, versionInfo: $version, packageFileName: .name,
        licenseDeclared: "MIT OR Apache-2.0", checksums: [{algorithm: "SHA256", checksumValue: .sum}]}] | map(package)),
    relationships: ([$files[] | {spdxElementId: "SPDXRef-DOCUMENT", relationshipType: "DESCRIBES", relatedSpdxElement: (.name | id)},
            {spdxElementId: (.name | id), relationshipType: "GENERATED_FROM", relatedSpdxElement: "SPDXRef-sources"}]
        + [("toolchain", "cc") | {spdxElementId: "SPDXRef-\(.)", relationshipType: "BUILD_TOOL_OF", relatedSpdxElement: "SPDXRef-sources"}])
}'
