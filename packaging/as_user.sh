#!/bin/sh
# The part of `make test-dist` that runs as a user does, in FOLDER, which has the archives.
#
#     as_user.sh FOLDER [packages]    packages: installs Debian's packages too, and takes them away
set -eu
[ $# -gt 0 ] || { echo "usage: as_user.sh FOLDER [packages]" >&2; exit 2; }
cd "$1"
is() { # NAME COMMAND..: the command has to print what README shows
    name=$1
    shift
    if said=$("$@" 2>&1) && [ "$said" = "err Overflow 19" ]; then echo "passed: $name"; else
        echo "FAILED: $name: $said" >&2
        exit 1
    fi
}
block() { # KIND: the README's blocks of a kind, `console` where it names none
    awk -v kind="$1" '/^```/ { inside = !inside; there = inside && kind == ($0 == "```" ? "console" : substr($0, 4)); next } there' README.md
}
has() { command -v "$1" > /dev/null || { echo "skipped: there is no $1"; return 1; }; }
given() { ls ./*."$1" > /dev/null 2>&1 || { echo "skipped: no archive is a .$1"; return 1; }; }
if command -v rt > /dev/null; then echo "rt is on the PATH, as on no user's machine" >&2; exit 1; fi

for file in *.tar.gz *.tgz *.crate; do [ ! -e "$file" ] || tar xzf "$file"; done
tree=$(echo "$PWD"/jadvolni-*-linux-x86_64)
sources=${tree%-linux-x86_64}-sources
printf 'c u64 18446744073709551616\n' > line
cat > ten.cpp << 'END'
#include <cstdint>
#include <iostream>
#include <jadvolni_columns.hpp>

int main()
{
    const auto read = jadvolni::parse<std::uint64_t>("18446744073709551616");
    std::cout << "err " << read.name() << ' ' << read.place() << '\n';
}
END
mkdir -p project
cat > project/CMakeLists.txt << END
cmake_minimum_required(VERSION 3.13)
project(caller C)
find_package(jadvolni 0.2 REQUIRED)
add_executable(caller $sources/examples/c/ten_lines.c)
target_link_libraries(caller jadvolni::jadvolni)
END
callers() { # WHOSE [PREFIX]: in C, C++ and CMake, over what pkg-config and CMake find
    # shellcheck disable=SC2046 # (several words)
    cc "$sources/examples/c/ten_lines.c" -o ten $(pkg-config --cflags --libs jadvolni)
    is "$1: C by pkg-config" ./ten
    # shellcheck disable=SC2046
    c++ -std=c++17 ten.cpp -o ten $(pkg-config --cflags --libs jadvolni)
    is "$1: C++ by pkg-config" ./ten
    has cmake || return 0
    rm -rf made
    { cmake -S project -B made -DCMAKE_PREFIX_PATH="${2:-}" && cmake --build made; } > cmake.log 2>&1 || { cat cmake.log; exit 1; }
    is "$1: C by CMake" made/caller
}

if has pkg-config; then
    (export PKG_CONFIG_PATH="$tree/lib/pkgconfig" LD_LIBRARY_PATH="$tree/lib" && callers tarball "$tree")
    ln -s "$tree" "a folder"
    eval "cc $sources/examples/c/ten_lines.c -o ten $(PKG_CONFIG_PATH="$PWD/a folder/lib/pkgconfig" pkg-config --cflags --libs jadvolni)"
    is "tarball in a folder with a blank: C by pkg-config" env LD_LIBRARY_PATH="$tree/lib" ./ten
fi
block c > "$tree/ten.c"
block console | grep -v '^\$ ' > wanted
block console | sed -n 's/^\$ //p' > commands
(cd "$tree" && sh -e ../commands) | diff - wanted
echo "passed: tarball: $(wc -l < commands) commands of its README"
cc -I"$tree/include" "$sources/examples/c/ten_lines.c" "$tree/src/jadvolni.S" -o ten
is "tarball: C over the assembly" ./ten

if has cargo && given crate; then
    mkdir src
    cp "$sources/bindings/rust/jadvolni/examples/ten_lines.rs" src/main.rs
    {
        printf '[package]\nname = "caller"\nversion = "0.0.0"\nedition = "2021"\n[workspace]\nmembers = [%s]\n' \
            "$(printf '"%s", ' jadvolni-*.crate | sed 's/\.crate"/"/g')"
        block toml
    } > Cargo.toml
    export CARGO_TERM_QUIET=true
    is "crates: Rust by cargo" sh -c "$(block sh)"
    JADVOLNI_LIB_DIR=$tree/lib cargo test --offline --all-features -p jadvolni -p jadvolni-sys > cargo.log 2>&1 || { cat cargo.log; exit 1; }
    echo "passed: crates: $(sed -n 's/^test result: ok. \([1-9][0-9]*\) passed.*/\1/p' cargo.log | paste -sd+) tests of their own"
fi

if has node; then
    cat > call.mjs << 'END'
import { parse } from "./package/index.js";
try {
    parse("18446744073709551616", "u64");
} catch (wrong) {
    console.log("err", wrong.kind, wrong.place);
}
END
    flag=$(node -p 'parseInt(process.versions.node) < 24 ? "--experimental-wasm-memory64" : "--no-deprecation"')
    is "npm package: JavaScript" node "$flag" call.mjs
fi

python3 -m venv venv
venv/bin/pip -q install --no-index jadvolni-*.whl
pages=$(find . \( -path ./venv -o -path "./${sources##*/}" \) -prune -o -name '*.md' -print; find venv -path '*/jadvolni-*/METADATA')
# shellcheck disable=SC2086 # (several words)
if grep '](' $pages | grep -v '](#'; then echo "FAILED: a page's link leads out of its package" >&2; exit 1; fi
echo "passed: links of $(echo "$pages" | wc -l) pages"
JADVOLNI_LIBRARY="$tree/lib/libjadvolni.a" venv/bin/python -m unittest discover -s "$sources/bindings/python/tests" 2> wheel.log || { cat wheel.log; exit 1; }
echo "passed: wheel: $(sed -n '/^Ran/p' wheel.log)"

if [ "${2:-}" != packages ] || ! given deb; then exit; fi
all() { find / -xdev \( -path /proc -o -path "$PWD" -o -path /tmp -o -path /var -o -name __pycache__ \) -prune -o -print | sort; }
ours='libjadvolni-dev libjadvolni0 lexint python3-jadvolni'
# shellcheck disable=SC2086 # (several words)
dpkg -r $ours > dpkg.log 2>&1 # (what a run that failed has left)
all > before
dpkg -i ./*.deb > dpkg.log
callers packages
is "packages: lexint" sh -c 'lexint < line'
is "packages: python3" python3 -c '
import jadvolni
try:
    jadvolni.parse("18446744073709551616", "u64")
except jadvolni.ParseError as wrong:
    print("err", wrong.kind, wrong.place)'
for page in "3 jadvolni_parse_u64" "1 lexint" "1 jad"; do
    # shellcheck disable=SC2086
    man $page | grep -q -i jadvolni || { echo "FAILED: packages: man $page" >&2; exit 1; }
done
echo "passed: packages: man"
# shellcheck disable=SC2086
dpkg -r $ours > dpkg.log
all > after
diff before after
echo "passed: packages: nothing is left"
