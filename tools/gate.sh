#!/bin/sh
# The gate, `make test`: the toolchain's own gate from nothing, and then what no prover does.
#
# Each part is a command. Its output goes to build/PART.log, whose last line is shown: if that begins
# with `skipped:`, this machine lacks what the part needs. Parts that take seconds come first: if one
# fails, no long one begins. The last line counts the parts.
set -u
[ $# = 0 ] || { echo "usage: tools/gate.sh" >&2; exit 2; }
cd "$(dirname "$0")/.." || exit 1
export RT="${RT:-rt}" PYTHONUNBUFFERED=1
begin=$(date +%s) passed=0 failed=0 skipped=0
copy=$(mktemp -d) || exit 1
trap 'rm -rf "$copy"' EXIT
# A script's background jobs ignore Ctrl-C, so TERM ends the whole process group.
trap 'trap "" TERM; kill 0; wait; exit 130' INT HUP
mkdir -p build

say() { printf '%5d s  %s\n' $(($(date +%s) - begin)) "$1"; }

part() { # NAME COMMAND..
    name=$1 log=build/$1.log start=$(date +%s)
    shift
    if "$@" > "$log" 2>&1; then
        case $(tail -n 1 "$log") in
            skipped:*) skipped=$((skipped + 1)) ended=skipped ;;
            *) passed=$((passed + 1)) ended=passed ;;
        esac
    else
        failed=$((failed + 1)) ended=FAILED
        tail -n 40 "$log"
    fi
    say "$name $ended after $(($(date +%s) - start)) s: $(tail -n 1 "$log")"
}

# Prints the last line, which the SBOM of the commit quotes. If a part failed, so does the gate.
total() {
    echo "$passed parts passed, $failed failed, $skipped skipped" | tee build/gate.log
    if [ -e .git ] && [ -z "$(git status --porcelain)" ]; then git rev-parse HEAD >> build/gate.log; fi
    test "$failed" = 0
}

# setup.cfg says what flake8 asks of all Python, and mypy of that under tools/ and bench/.
lint() {
    lacking=''
    for checker in "flake8 tools bench bindings examples tests" mypy; do
        if command -v "${checker%% *}" > /dev/null; then
            $checker || return 1
        else
            lacking="$lacking ${checker%% *}"
        fi
    done
    test -z "$lacking" || echo "skipped: there is no$lacking"
}

# `rt fmt`, run in the copy, changes no file, and every must-fail edit can be applied.
layout() {
    looked=0 wrong=0
    for crate in crates/*; do
        said=$(cd "$copy/$crate" && "$RT" fmt) || return 1
        looked=$((looked + 1))
        if echo "$said" | grep -E '^rt: formatted|BAD EDIT'; then
            wrong=$((wrong + 1))
            echo "$crate isn't as rt fmt lays it out, or has an edit that can't be applied"
        fi
    done
    echo "$looked crates looked at, $wrong to mend"
    test "$wrong" = 0
}

# `rt ci` has to count every crate and every must-fail edit. An edit that is refused only because a
# proof names what it removed tests no contract. `rt ci` reports most of these; the others end with an
# error at a record or a module of proofs/.
proofs() {
    rm -rf build/wasm # left by `make wasm`: `rt ci` would find crates there that crates.txt doesn't list
    edits=$(find crates/*/must-fail -name '*.edit' | wc -l)
    wanted=$(($(grep -c '^[a-z]' crates.txt) + edits))
    "$RT" ci 2>&1 | tee build/ci.log | grep --line-buffered '^rt: ' >&3
    if grep -E 'only because a proof file names|must be: \./proofs/.*: (record|module) `' build/ci.log
    then
        echo "an edit is refused for a lost name"
        return 1
    fi
    tail -n 1 build/ci.log | tee /dev/stderr | grep -qx "$wanted passed, 0 failed"
}

# `rt ci` leaves the programs that it builds, but no library that another command can use. So the
# libraries that callers need are built once more in a copy, in parallel, and the callers run there. The
# copy starts with the libraries that are built here: `rt ci` sets them aside, and proves all anew.
in_copy() { # NAME COMMAND..
    name=$1
    shift
    (cd "$copy" && "$@") > "$copy/$name.log" 2>&1
    echo $? > "$copy/$name.status"
}
report() { # NAME
    wait "$beside"
    cat "$copy/$1.log"
    return "$(cat "$copy/$1.status")"
}

# Both builds of the program, in parallel.
devices() {
    python3 tools/devices.py crates/lexint/out/lexint &
    python3 tools/devices.py crates/lexint/out/lexint.by-rattle && wait $!
}

# `make vendor` names a crate or a line that a user has changed, and keeps it; its copies equal the originals.
vendor() {
    user="$copy/a user"
    set -- make -s vendor DEST="$user" WITH="lexical_fields lexical_fixed lexical_formats lexical_laws lexical_literals lexical_tables"
    mkdir -p "$user" crates/lexical_util/out
    "$@" && test ! -e "$user/crates/lexical_util/out" || return 1
    echo >> "$user/crates/lexical_util/README.md"
    "$@" 2>&1 | grep 'crates/lexical_util has other contents' || return 1
    cp crates/lexical_util/README.md "$user/crates/lexical_util"
    for crate in crates/lexical_*; do diff -rx out "$crate" "$user/$crate" || return 1; done
    for file in LICENSE-* NOTICE; do cmp "$file" "$user/crates/$file" || return 1; done
    sed -i 's/^lexical_digits:/& lexical_old/' "$user/crates.txt"
    "$@" 2>&1 | grep "crates.txt has 'lexical_digits: lexical_old" || return 1
    sed -i 's/ lexical_old//' "$user/crates.txt"
    "$@"
    test "$(grep '^lexical_' crates.txt | sort)" = "$(sort "$user/crates.txt")"
}

# (a release's sources are no clone, but may lie within another project's)
files() { if [ -e .git ]; then git ls-files -z; else find . \( -name out -o -path ./build \) -prune -o -type f -print0; fi; }
files | xargs -0 cp --parents -t "$copy"
part lint lint
part layout layout
part rows python3 tools/rows.py --check
part tests-of-documents python3 tools/test_documents.py
part documents python3 tools/documents.py --check
part house python3 tools/house.py
part vendor vendor
part break-off tests/break_off.py
part lacking tests/lacking.py
test "$failed" = 0 || { total; exit 1; }
cp -a --parents -t "$copy" crates/*/out/rlib 2> /dev/null
{
    in_copy libraries make -s build/libjadvolni.a
    {
        in_copy javascript make -s test-js
        in_copy page make -s test-page
    } &
    in_copy programs python3 tools/must_not_compile.py
    in_copy callers make -s test-c
    wait
} &
beside=$!
part proofs proofs 3>&1
part devices devices
part answers python3 tools/run_rows.py
part shells tests/shell_snippet.sh crates/lexint/out/lexint
part jad tests/jad.sh crates/jad/out/jad
part libraries report libraries
part javascript report javascript
part page report page
part programs report programs
part callers report callers
part calls bench/calls --library "$copy/build/libjadvolni.a"
total
