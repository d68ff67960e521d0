#!/bin/sh
# Runs jad over arguments of all kinds, and the lines for shells of crates/jad/README.md.
#
#     tests/jad.sh PROGRAM
#
# PROGRAM is jad as it was built. The exit status is 1 where a run ends in another way.
set -eu

[ -f "${1:-}" ] || { echo "usage: tests/jad.sh PROGRAM, which make jad builds" >&2; exit 2; }
program=$(realpath "$1")
top=$(dirname "$0")/..
room=$(mktemp -d)
trap 'rm -r "$room"' EXIT
trap 'exit 130' INT TERM HUP # (dash ends without the line above)
ln -s "$program" "$room/jad"
usage='usage: jad TYPE [--format NAME | --radix N] [--] TEXT; man jad lists TYPE and NAME'
runs=0 failed=0

wrong() { # WHAT
    failed=$((failed + 1))
    printf '%s: it ends with status %s\n' "$1" "$status"
    cat "$room/output" "$room/error"
}

# the line and its line feed, and nothing where it is empty
line() { [ -z "$1" ] || printf '%s\n' "$1"; }

ends() { # STATUS OUTPUT ERROR ARGUMENT..
    wanted=$1 status=0
    line "$2" > "$room/output.wanted"
    line "$3" > "$room/error.wanted"
    shift 3
    "$program" "$@" > "$room/output" 2> "$room/error" || status=$?
    runs=$((runs + 1))
    if [ "$status" != "$wanted" ] || ! cmp "$room/output" "$room/output.wanted" ||
        ! cmp "$room/error" "$room/error.wanted"; then
        wrong "jad $*"
    fi
}

number() { ends 0 "$@"; }

fault() { ends 1 "" "$@"; }

misuse() { ends 2 "" "$usage" "$@"; }

number 80 "" u16 80
number -5 "" i64 -5
number 80 "" u16 -- 80
number 340282366920938463463374607431768211455 "" u128 340282366920938463463374607431768211455
number 255 "" u8 --radix 16 fF
number -31 "" i8 --radix 16 -- -1F
number 31 "" u8 --format c 0x1F
number 1000 "" u16 --format python 1_000
number 1000 "" u16 --format cpp14 "1'000"
fault 'jad: invalid digit at byte 1' u16 --format cpp14 1_000
fault "jad: invalid digit at byte 1" u16 --format python "1'000"
fault 'jad: invalid digit at byte 1' u16 0x1F
fault 'jad: overflow at byte 4' u16 65536
fault 'jad: underflow at byte 3' i8 -129
fault 'jad: overflow at byte 38' u128 340282366920938463463374607431768211456
fault 'jad: invalid digit at byte 0' u16 --radix
fault 'jad: invalid digit at byte 0' u16 --
fault 'jad: missing digit at byte 0' u16 ''
fault 'jad: invalid digit at byte 0' u16 ' 80'
fault 'jad: invalid digit at byte 2' u16 '80
'
fault 'jad: invalid digit at byte 0' u16 "$(printf '\377')"
ends 0 "$usage" "" --help
misuse
misuse --help u16
misuse u16
misuse u9 80
misuse '' 80
misuse u16 80 81
misuse u16 80 81 82
misuse u16 --format nope 80
misuse u16 --format 80
misuse u16 --radix 37 80
misuse u16 --radix 1 80
misuse u16 --radix '' 80
misuse u16 --radix 16 --format c 80
misuse u16 --radix 16 -- -- 80

# Each name is one that the program knows, and stands on its manual page.
names=$(sed -n 's/^ *("\([a-z0-9_]*\)", .*/\1/p' "$top/crates/lexical_formats/src/names.rt")
[ -n "$names" ]
for name in $names; do
    runs=$((runs + 1)) status=0
    "$program" u8 --format "$name" 1 > "$room/output" 2> "$room/error" || status=$?
    if [ "$status" -gt 1 ] || ! grep -qw "$name" "$top/packaging/jad.1.in"; then
        wrong "--format $name, known and on the page"
    fi
done

# A refused write has a sentence.
for where in '> /dev/full' '>&-'; do
    runs=$((runs + 1)) status=0
    : > "$room/output"
    sh -c "\"\$0\" u16 80 $where" "$program" 2> "$room/error" || status=$?
    if [ "$status" != 2 ] || ! grep -qx 'jad: ..*' "$room/error"; then
        wrong "jad u16 80 $where"
    fi
done

# shellcheck disable=SC2016 # (the backquotes are the page's, and the script expands the names)
{
    sed -n '/^```sh$/,/^```$/{/^```/d;p;}' "$top/crates/jad/README.md"
    echo 'echo "$port $mask $offset"'
} > "$room/script"
for shell in sh dash bash ksh mksh posh yash zsh; do
    command -v "$shell" > "$room/error" || continue
    for port in 80 65536; do
        runs=$((runs + 1)) status=0
        PORT=$port x=-5 PATH=$room:$PATH "$shell" "$room/script" > "$room/output" 2> "$room/error" || status=$?
        case "$port $status $(cat "$room/output")" in
            "80 0 80 31 -5" | "65536 1 ") ;;
            *) wrong "$shell: the page's lines for $port" ;;
        esac
    done
done
# A line that reads a port takes it as one text, whatever that is.
for line in 1 2; do
    runs=$((runs + 1)) status=0
    sed -n "${line}p" "$room/script" > "$room/line"
    PORT='-- 80' PATH=$room:$PATH sh "$room/line" > "$room/output" 2> "$room/error" || status=$?
    [ "$status" = 1 ] || wrong "line $line of the page for -- 80"
done
echo "jad: $runs runs, $failed failed"
[ "$failed" = 0 ]
