#!/bin/sh
# Writes the assembly of the library, which any cc takes, and the last line of the library's proof.
#
#     packaging/assembly.sh jadvolni.S VERDICT
#
# The toolchain's clang compiles a module to the archive. Here it also compiles that module to assembly,
# which has to assemble to the archive's code and constants.
set -eu
[ $# = 2 ] || { echo "usage: packaging/assembly.sh jadvolni.S VERDICT" >&2; exit 2; }
cd "$(dirname "$0")/.."
target=$1 verdict=$2 archive=$PWD/build/libjadvolni.a
kit=$(dirname "$(dirname "$(readlink -f "$(command -v "${RT:-rt}")")")")
[ -e "$kit/bin/rtlib.py" ] || { echo "${RT:-rt} isn't a toolchain's own rt, which this copies" >&2; exit 1; }
work=$(mktemp -d)
trap 'rm -rf "$work"' EXIT
trap 'exit 130' INT TERM HUP # (dash ends without the line above)

# A toolchain of links, but for a clang that also writes assembly, and for rt and rtlib.py, which look for the
# toolchain beside themselves.
mkdir -p "$work/kit/bin" "$work/kit/toolchain/bin"
for path in "$kit"/* "$kit"/bin/* "$kit"/toolchain/* "$kit"/toolchain/bin/*; do
    link=$work/kit/${path#"$kit"/}
    [ -e "$link" ] || ln -s "$path" "$link"
done
rm "$work/kit/bin/rt" "$work/kit/bin/rtlib.py" "$work/kit/toolchain/bin/clang"
cp "$kit/bin/rt" "$kit/bin/rtlib.py" "$work/kit/bin"
cat > "$work/kit/toolchain/bin/clang" << END
#!/bin/sh
set -e
"$kit/toolchain/bin/clang" "\$@"
case " \$* " in *" -o module.o "*) "$kit/toolchain/bin/clang" "\$@" -S -fno-addrsig -Wno-error -o "$work/jadvolni.S";; esac
END
chmod 755 "$work/kit/toolchain/bin/clang"
(cd crates/jadvolni && "$work/kit/bin/rt" lib) > "$work/log" 2>&1 || { tail -n 20 "$work/log" >&2; exit 1; }
packaging/align.sh crates/jadvolni/out/libjadvolni.a "$work/aligned.a"
cmp "$work/aligned.a" "$archive"
# Functions begin where they do in the archive.
awk '/^\t\.section\t"?\.text\./ { begins = 1 }
    begins && sub(/^\t\.p2align\t4/, "\t.p2align\t6") { begins = 0 }
    { print }' "$work/jadvolni.S" > "$work/aligned.S"
mv "$work/aligned.S" "$work/jadvolni.S"
grep '^logic=proved' "$work/log" > "$verdict"

# An object's instructions without padding, which can be encoded in several ways, and its constants.
code_of() {
    objdump -drw --no-show-raw-insn "$1" | grep -v -e nop -e 'file format' -e 'xchg *%ax,%ax'
    objdump -sr "$1" | awk '/^Contents of|^RELOCATION/ { there = /\.rodata/ } there'
}
"$kit/toolchain/bin/clang" -c "$work/jadvolni.S" -o "$work/assembled.o"
(cd "$work" && ar x "$archive")
code_of "$work/jadvolni.o" > "$work/wanted"
code_of "$work/assembled.o" | cmp - "$work/wanted"
[ "$(wc -l < "$work/wanted")" -gt 1000 ]

# cc's assembler may pad in another way, so its result is run over the test vectors instead.
cc -shared -nostdlib "$work/jadvolni.S" -o "$work/lib.so"
python3 tools/c_calls.py "$work/lib.so"
mv "$work/jadvolni.S" "$target"
