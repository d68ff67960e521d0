#!/bin/sh
# Copies an archive, and has each of its functions begin at a multiple of 64 bytes.
#
#     packaging/align.sh FROM TO
#
# The processor reads code by lines of 32 and 64 bytes, and how a loop lies in these decides up to an eighth of its time. Without
# this, what a function is linked with decides it. Where GNU's objcopy (2.33 or later) isn't there, it only copies.
set -eu
refuse() { echo "packaging/align.sh: $1" >&2; exit 1; }
is_archive() { [ -f "$1" ] && head -c 8 -- "$1" | grep -q '^!<arch>$'; }

[ $# = 2 ] || { echo "usage: packaging/align.sh FROM TO" >&2; exit 2; }
is_archive "$1" || refuse "$1 is no archive"
[ ! -e "$2" ] || [ -f "$2" ] || refuse "$2 is no file"
rm -f -- "$2.new"
objcopy -D --set-section-alignment '.text.*=64' -- "$1" "$2.new" && is_archive "$2.new" || {
    echo "objcopy aligns no functions: the library's speed depends on what it is linked with" >&2
    cp -- "$1" "$2.new"
}
mv -- "$2.new" "$2"
