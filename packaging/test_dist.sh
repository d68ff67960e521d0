#!/bin/sh
# What `make test-dist` does: tries the archives of dist/ as users get them.
#
# As root it does so in a system of Debian that debootstrap makes, once, in ROOT: without network, and
# with no toolchain. Else the part that needs no root runs here. LAST is the folder of the library of
# the release before, if there is one; FUZZ how many seconds each target of libFuzzer runs.
set -eu
[ $# = 0 ] || { echo "usage: packaging/test_dist.sh" >&2; exit 2; }
cd "$(dirname "$0")/.."
root=${ROOT:-$PWD/build/system} suite=${SUITE:-trixie}
has() { command -v "$1" > /dev/null || { echo "skipped: there is no $1"; return 1; }; }
has_archives() { ls "$2"/*."$1" > /dev/null 2>&1; } # KIND FOLDER
[ -f dist/SHA256SUMS ] || { echo "make test-dist: there is no dist/SHA256SUMS; make dist writes it" >&2; exit 1; }
(cd dist && sha256sum --quiet -c SHA256SUMS)
# An unfinished system is made anew, and nothing else is removed.
[ -e "$root/made" ] || [ -d "$root/debootstrap" ] || [ -z "$(ls -A "$root" 2> /dev/null)" ] || {
    echo "make test-dist: ROOT=$root has other files than a system that debootstrap made" >&2
    exit 1
}

# Printed first, and not only at the end of a long run.
lacking=''
has_archives deb dist || lacking=", dist/*.deb (make dist writes them where debhelper and dh-python are)"
has_archives crate dist || lacking="$lacking, dist/*.crate (make dist writes them where cargo is)"
for tool in jq lintian abidiff clang python3-config node chromium debootstrap unshare; do
    command -v "$tool" > /dev/null || lacking="$lacking, $tool"
done
[ "$(id -u)" = 0 ] || lacking="$lacking, root"
[ -z "$lacking" ] || echo "make test-dist skips the parts that need what it lacks: ${lacking#, }"
if has jq && ! jq -e -f packaging/sbom_check.jq dist/*.spdx.json > /dev/null; then
    echo "the SBOM lacks what SPDX 2.3 asks for" >&2
    exit 1
fi
given=$(mktemp -d)
trap 'rm -rf "$given"' EXIT
trap 'exit 130' INT TERM HUP # (dash ends without the line above)

# The gate of the released sources, which are no clone, as far as it runs with an `rt` that only knows `fmt`.
tar xzf dist/jadvolni-*-sources.tar.gz -C "$given"
printf '#!/bin/sh\n[ "$1" = fmt ]\n' > "$given/rt"
chmod 755 "$given/rt"
(cd "$given"/jadvolni-*-sources && RT=$given/rt tools/gate.sh) > build/sources.log 2>&1 || :
grep -q 'layout passed' build/sources.log || { cat build/sources.log; exit 1; }
echo "passed: sources: $(grep -c ' passed after ' build/sources.log) parts of the gate"
rm -r "${given:?}"/*
if has_archives deb dist && has lintian; then
    lintian --allow-root --fail-on error,warning dist/*.deb
    echo "passed: lintian"
fi
if [ -z "${LAST:-}" ]; then
    echo "skipped: abidiff has no release before, whose folder LAST would name"
elif has abidiff; then
    # (new calls are no fault: without the option they would be status 4)
    abidiff --no-added-syms "$LAST/libjadvolni.so" build/libjadvolni.so
    echo "passed: abidiff with $LAST"
fi
fuzzed() { # NAME COMPILER SOURCE..: a target of libFuzzer, over the archive
    name=$1
    shift
    "$@" -g -O1 -fsanitize=fuzzer,address,undefined -fno-sanitize-recover=all -Iinclude build/libjadvolni.a -o build/fuzzed
    # (Python keeps memory to its end)
    ASAN_OPTIONS=detect_leaks=0 build/fuzzed -max_total_time="${FUZZ:-600}" -verbosity=0 -print_final_stats=1 \
        -artifact_prefix=build/ 2> build/fuzz.log || { tail -n 20 build/fuzz.log >&2; exit 1; }
    echo "passed: $name: $(sed -n 's/^stat::number_of_executed_units: *//p' build/fuzz.log) random inputs"
}
links_fuzzers() {
    echo 'int LLVMFuzzerTestOneInput(const char *text, unsigned long size) { return size && !text; }' > "$given/none.c"
    clang -fsanitize=fuzzer,address "$given/none.c" -o "$given/none" 2> /dev/null || { echo "skipped: clang links no libFuzzer"; return 1; }
    rm "$given"/none*
}
if has clang && links_fuzzers; then
    fuzzed "C++ wrapper" clang++ -std=c++17 tests/c/fuzz_wrapper.cpp
    if has python3-config; then
        # shellcheck disable=SC2046 # (several words)
        fuzzed "extension for Python" clang tests/c/fuzz_python.c bindings/python/src/*.c \
            $(python3-config --embed --includes --ldflags)
    fi
fi
if has node && has chromium; then
    rm -rf build/jadvolni-page-*
    tar xzf dist/jadvolni-page-*.tar.gz -C build
    PAGE=$(echo "$PWD"/build/jadvolni-page-*) node --test tests/page/page.test.mjs > build/page.log || { cat build/page.log; exit 1; }
    echo "passed: page: $(sed -n 's/^# pass //p' build/page.log) tests in $(chromium --version 2> /dev/null)"
fi
cp dist/* packaging/as_user.sh "$given"
if [ "$(id -u)" != 0 ] || ! has debootstrap || ! has unshare; then
    echo "skipped: the packages, for which it takes root, debootstrap and unshare"
    env -i PATH=/usr/bin:/bin HOME="$given" sh "$given/as_user.sh" "$given"
    exit
fi
if [ ! -e "$root/made" ]; then
    rm -rf "$root"
    debootstrap --variant=minbase --include=g++,cargo,cmake,make,man-db,nodejs,pkg-config,python3-dev,python3-venv "$suite" "$root" > build/debootstrap.log
    # Debian's images of this kind leave manual pages out, and so would dpkg.
    rm -f "$root"/etc/dpkg/dpkg.cfg.d/*
    touch "$root/made"
fi
rm -rf "$root/given"
cp -R "$given" "$root/given"
# shellcheck disable=SC2016 # (the inner shell has its own words)
unshare --mount --net --pid --fork sh -c 'mount -t proc proc "$0/proc" && exec chroot "$0" /usr/bin/env -i \
    PATH=/usr/sbin:/usr/bin:/sbin:/bin HOME=/given sh /given/as_user.sh /given packages' "$root"
rm -rf "$root/given"
