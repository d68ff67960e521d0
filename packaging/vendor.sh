#!/usr/bin/env bash
# What `make vendor` does: copies the parser, what it stands on and the libraries that WITH names
# into the repository DEST, with their lines of crates.txt, and the licences into crates/.
# It looks at all of it before it writes.
set -euf -o pipefail
cd "$(dirname "$0")/.."
line() { { sed -n "s/ *#.*//; s/^ *$1 *:/$1:/p" "$2" || :; } 2> /dev/null | xargs; } # NAME FILE
refuse() { echo "make vendor: $1" >&2; exit 1; }
names='' libraries=$(grep -o '^lexical_[^:]*' crates.txt | xargs)
for name in lexical_parse_integer ${WITH:-}; do
    [[ " $libraries " == *" $name "* ]] || refuse "WITH has $name, which is none of $libraries"
    names+="$(sed -n "s/^$name://p" crates.txt) $name "
done
names=$(printf '%s\n' $names | sort -u | xargs)
[ -d "${DEST:-}" ] || refuse "DEST='${DEST:-}' is no folder: say which, as in DEST=../yours"
to=$(realpath -- "$DEST")
[[ ! $to/crates -ef crates ]] || refuse "DEST=$DEST is this repository: say which is yours"
for name in $names; do
    [[ ! -e $to/crates/$name && ! -L $to/crates/$name ]] ||
        diff -rqx out "crates/$name" "$to/crates/$name" &> /dev/null ||
        refuse "$to/crates/$name has other contents, so nothing was copied"
    # A line of a version before may have stayed, and lack what the crate stands on now.
    theirs=$(line "$name" "$to/crates.txt") ours=$(line "$name" crates.txt)
    [[ ${theirs:-$ours} == "$ours" ]] ||
        refuse "$to/crates.txt has '$theirs' where '$ours' has to be, so nothing was copied"
done
{ mkdir -p "$to/crates" && : >> "$to/crates.txt" && aside=$(mktemp -dp "$to/crates"); } \
    2> /dev/null || refuse "$to can't be written to"
trap 'rm -rf "$aside"' EXIT
tar -C crates -c --exclude=out $names | tar -C "$aside" -xo
cp -n LICENSE-APACHE LICENSE-MIT NOTICE "$to/crates"
[ -z "$(tail -c 1 "$to/crates.txt")" ] || echo >> "$to/crates.txt"
for name in $names; do
    [ -e "$to/crates/$name" ] || mv "$aside/$name" "$to/crates"
    grep -q "^ *$name *:" "$to/crates.txt" || grep "^$name:" crates.txt >> "$to/crates.txt"
done
echo "$to has $names: let your crate's line in crates.txt name them"
