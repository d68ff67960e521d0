#!/bin/sh
# Runs the script of crates/lexint/README.md over texts that a careless one would get wrong.
#
#     tests/shell_snippet.sh PROGRAM
#
# PROGRAM is lexint as it was built. Every shell that is there runs every text, and shellcheck reads the script. The exit
# status is 1 where an answer is another one.
set -eu

[ -f "${1:-}" ] || { echo "usage: tests/shell_snippet.sh PROGRAM, which make lexint builds" >&2; exit 2; }
program=$(realpath "$1")
page=$(dirname "$0")/../crates/lexint/README.md
room=$(mktemp -d)
trap 'rm -r "$room"' EXIT
trap 'exit 130' INT TERM HUP # (dash ends without the line above)
ln -s "$program" "$room/lexint"
# shellcheck disable=SC2016 # (the backquotes are the page's)
sed -n '/^```sh$/,/^```$/{/^```/d;p;}' "$page" > "$room/script"
runs=0 failed=0

# answers WANTED STATUS TEXT: the script prints what is wanted, and ends with 0 where STATUS is 0, else with another status.
answers() {
    status=0
    printed=$(PATH=$room:$PATH "$shell" "$room/script" "$3" 2>"$room/reason") || status=$?
    runs=$((runs + 1))
    if [ "$printed" != "$1" ] || [ "$((status != 0))" != "$2" ]; then
        failed=$((failed + 1))
        printf '%s: "%s" prints "%s" with status %s\n' "$shell" "$3" "$printed" "$status"
        cat "$room/reason"
    fi
}

reads() { answers "port $1" 0 "$2"; }

refuses() { answers "" 1 "$1"; }

all_texts() {
    reads 80 80
    reads 0 0
    reads 7 007
    reads 80 +80
    reads 65535 65535
    refuses 65536
    refuses ''
    refuses -
    refuses -1
    refuses -n
    refuses ' 80'
    refuses '80 '
    refuses '8 0'
    refuses '80 f mantissa_radix 16'
    refuses "$(printf '80\r')"
    refuses "$(printf '80\t')"
    refuses '*'
    refuses '[0-9]'
    refuses '?'
    refuses '%d'
    refuses '80\n'
    refuses '80\c'
    # shellcheck disable=SC2016 # (no shell may expand it)
    refuses '$(echo 80)'
    refuses '80; echo 81'
    refuses "$(printf '80\nf mantissa_radix 16')"
    refuses "$(printf 'x\nc u16 80')"
    refuses "$(printf '\n80')"
    refuses '80
'
}

for shell in sh dash bash ksh mksh posh yash zsh; do
    if command -v "$shell" > "$room/reason"; then
        all_texts
    fi
done
if command -v shellcheck > "$room/reason"; then
    shellcheck --shell=sh "$room/script" || failed=$((failed + 1))
fi
echo "the shell script of lexint's page: $runs runs, $failed failed"
[ "$failed" = 0 ]
