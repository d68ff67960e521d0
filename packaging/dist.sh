#!/bin/sh
# What `make dist` does: writes dist/, the archives of a release, from a clean tree at a commit.
#
#     packaging/dist.sh [check]    check: only checks that it can, before anything is built
#
# The Makefile has proved and built what goes into them. If this machine lacks what an archive needs,
# that archive is left out, with a message. Two runs at one commit give the same bytes.
set -eu
export LC_ALL=C TZ=UTC PYTHONDONTWRITEBYTECODE=1 PIP_DISABLE_PIP_VERSION_CHECK=1
# These would change the archives.
unset CPPFLAGS INCLUDEDIR LIBDIR MANDIR MAKEFLAGS TAR_OPTIONS
unset DEB_BUILD_OPTIONS DEB_BUILD_PROFILES DPKG_DEB_COMPRESSOR_LEVEL DPKG_DEB_COMPRESSOR_TYPE
# So would these settings of a user.
export GIT_CONFIG_COUNT=4 GIT_CONFIG_KEY_0=tar.umask GIT_CONFIG_VALUE_0=0002 GIT_CONFIG_KEY_1=log.showSignature GIT_CONFIG_VALUE_1=false
export GIT_CONFIG_KEY_2=core.autocrlf GIT_CONFIG_VALUE_2=false GIT_CONFIG_KEY_3=core.attributesFile GIT_CONFIG_VALUE_3=/dev/null
umask 022
case $* in '' | check) ;; *) echo "usage: packaging/dist.sh [check]" >&2; exit 2 ;; esac
cd "$(dirname "$0")/.."
top=$PWD rt=${RT:-rt}
fail() { echo "make dist: $1" >&2; exit 1; }
has() { # WHAT TOOL..: whether what needs these tools can be made
    what=$1
    shift
    for tool; do
        command -v "$tool" > /dev/null || { echo "left out: $what, since there is no $tool"; return 1; }
    done
}
without() { for tool; do command -v "$tool" > /dev/null || fail "there is no $tool"; done; }

without git cc nm objdump tar gzip python3 jq
git rev-parse --verify -q HEAD > /dev/null || fail "$top is no clone with a commit"
[ -z "$(git status --porcelain)" ] || fail "the tree isn't clean: commit, or put aside what git status lists"
SOURCE_DATE_EPOCH=$(git log -1 --format=%ct) commit=$(git rev-parse HEAD)
export SOURCE_DATE_EPOCH
version=$(sed -n 's/.*JADVOLNI_VERSION_STRING "\(.*\)"/\1/p' include/jadvolni.h)
for file in bindings/rust/Cargo.toml bindings/python/pyproject.toml; do
    grep -qx "version = \"$version\"" "$file" || fail "$file has another version than jadvolni.h, $version"
done
grep -qx "  \"version\": \"$version\"," bindings/js/package.json ||
    fail "bindings/js/package.json has another version than jadvolni.h, $version"
number=$(echo "$version" | awk -F . '{ print 10000 * $1 + 100 * $2 + $3 }')
grep -qx "#define JADVOLNI_VERSION $number" include/jadvolni.h ||
    fail "JADVOLNI_VERSION of jadvolni.h isn't $number, as for $version"
grep -qx "    $number" crates/jadvolni/src/version.rt ||
    fail "crates/jadvolni/src/version.rt has another version than jadvolni.h, $version"
grep -q "\*\*State\*\*: version $version," README.md || fail "README.md has another version than jadvolni.h, $version"
grep -qx "## $version" CHANGELOG.md || fail "CHANGELOG.md has no part for version $version"
[ "${1:-}" != check ] || exit 0

work=$(mktemp -d)
trap 'rm -rf "$work"' EXIT
trap 'exit 130' INT TERM HUP # (dash ends without the line above)
rm -rf dist
mkdir dist
unlinked() { # PAGE: a page without its links to files that a package lacks
    sed 's,](docs/,](../../docs/,g; s,\[\([^]]*\)\](\.\./\.\./\([^)#]*/\)\1[^)]*),`\2\1` of the sources,g
        s,\[\([^]]*\)\](\.\./\.\./\([^)#]*\)[^)]*),\1 (`\2` of the sources),g; s,\[\([^]]*\)\]([^)]*),\1,g' "$1"
}
packed() { # FILE FOLDER..: a tarball of folders of $work/tree, whose files have one time and one owner
    file=$1
    shift
    tar -C "$work/tree" --sort=name --owner=0 --group=0 --numeric-owner --mode=u=rwX,go=rX --mtime="@$SOURCE_DATE_EPOCH" \
        -c "$@" | gzip -9n > "dist/$file"
}

echo "sources"
# (a crate has the folder jadvolni-VERSION)
git archive --format=tar --prefix="jadvolni-$version-sources/" HEAD | gzip -9n > "dist/jadvolni-$version-sources.tar.gz"
sed -n "/^## $version\$/,/^## /{/^## /!p}" CHANGELOG.md | sed '1{/^$/d}' > "$work/changes"
unlinked "$work/changes" > "dist/CHANGES-$version.md"
sed "s/@VERSION@/$version/g" packaging/README.release.md > dist/README.md

echo "assembly"
packaging/assembly.sh "$work/jadvolni.S" "$work/verdict"

name=jadvolni-$version-linux-x86_64
echo "$name"
make -s install DESTDIR="$work/tree" PREFIX="/$name" > /dev/null
# In the folder of a user pkg-config tells where it stands, with a backslash before each blank: quotes would double it.
sed -i "s|=/$name|=\${pcfiledir}/../..|; s|\"||g" "$work/tree/$name/lib/pkgconfig/jadvolni.pc"
mkdir "$work/tree/$name/src"
cp "$work/jadvolni.S" "$work/tree/$name/src"
cp dist/README.md "$work/tree/$name"
unlinked SECURITY.md > "$work/tree/$name/SECURITY.md"
packed "$name.tar.gz" "$name"

# What manylinux2014 allows: glibc 2.17, and no library but glibc's.
echo "wheel"
AUDITWHEEL_PLAT=manylinux2014_x86_64 JADVOLNI_LIBRARY="$top/build/libjadvolni.a" CFLAGS='' LDFLAGS='' \
    python3 -c 'import sys; sys.path[0] = "bindings/python"; import build_wheel; print(build_wheel.build_wheel("dist"))' > "$work/wheel"
python3 -m zipfile -e "dist/$(cat "$work/wheel")" "$work/wheel.d"
extension=$work/wheel.d/jadvolni/_core.abi3.so
newest=$( { echo GLIBC_2.17; objdump -T "$extension" | grep -o 'GLIBC_[0-9.]*'; } | sort -V | tail -n 1)
[ "$newest" = GLIBC_2.17 ] || fail "the wheel asks for $newest, and manylinux2014 has GLIBC_2.17"
others=$(objdump -p "$extension" | awk '$1 == "NEEDED" && $2 != "libc.so.6" { print $2 }')
[ -z "$others" ] || fail "the wheel asks for $others, which manylinux2014 may lack"

if has 'the Rust crates' cargo; then
    echo "crates"
    git archive HEAD bindings/rust | tar x -C "$work"
    for crate in jadvolni jadvolni-sys; do
        cp LICENSE-APACHE LICENSE-MIT NOTICE "$work/bindings/rust/$crate"
        unlinked bindings/rust/README.md > "$work/bindings/rust/$crate/README.md"
    done
    sed -i 's|"../../README.md"|"../README.md"|' "$work/bindings/rust/jadvolni/src/lib.rs"
    (cd "$work/bindings/rust" && JADVOLNI_LIB_DIR="$top/build" cargo -q package --workspace --offline --locked --target-dir "$work/cargo")
    cp "$work"/cargo/package/*.crate dist
fi

echo "JavaScript, and the page to try a format on"
mkdir "$work/tree/package"
cp bindings/js/*.js bindings/js/*.d.ts bindings/js/package.json build/jadvolni.wasm \
    LICENSE-APACHE LICENSE-MIT NOTICE "$work/tree/package"
unlinked bindings/js/README.md > "$work/tree/package/README.md"
packed "jadvolni-$version.tgz" package
cp -R build/page "$work/tree/jadvolni-page-$version"
packed "jadvolni-page-$version.tar.gz" "jadvolni-page-$version"

if has 'the Debian packages' dpkg-buildpackage dh dh_python3; then
    echo "Debian packages"
    tree=$work/debian/jadvolni maintainer=$(git log -1 --format='%an <%ae>')
    mkdir "$work/debian" "$tree"
    cp -R packaging/debian "$tree"
    sed -i "s/@MAINTAINER@/$(printf '%s\n' "$maintainer" | sed 's,[\/&],\\&,g')/" "$tree/debian/control"
    printf 'jadvolni (%s) unstable; urgency=medium\n\n  * Version %s.\n\n -- %s  %s\n' "$version" "$version" \
        "$maintainer" "$(date -Rud "@$SOURCE_DATE_EPOCH")" > "$tree/debian/changelog"
    (cd "$tree" && TREE=$top WHEEL=$work/wheel.d dpkg-buildpackage -b -us -uc -d) > "$work/log" 2>&1 ||
        { tail -n 40 "$work/log" >&2; fail "the Debian packages aren't built"; }
    cp "$work"/debian/*.deb dist
fi

echo "SBOM"
packaging/sbom.sh "$version" "$commit" "$("$rt" version)" "$work/verdict" > "$work/sbom.json"
mv "$work/sbom.json" "dist/jadvolni-$version.spdx.json"
(cd dist && sha256sum -- * > ../build/SHA256SUMS && mv ../build/SHA256SUMS SHA256SUMS)
chmod 644 dist/*
(cd dist && ls -l | awk 'NR > 1 { print $5, $9 }')
