#!/bin/sh
# Proves and builds a crate and those below it, and says on standard error how far it is.
#
#     tools/build.sh CRATE    a program, which is also run with its args and no input, or the library for C
#     tools/build.sh          only checks that there is a toolchain; if there is none, it says so and fails
#
# Crates that don't depend on each other are built in parallel. The toolchain's output for a crate goes to
# out/CRATE.log; its last lines are shown if the crate isn't proved.
# RT names the toolchain's command, if it isn't `rt`.
set -eu
cd "$(dirname "$0")/.."
rt=${RT:-rt}
exec 1>&2
# A script's background jobs ignore Ctrl-C, so TERM ends the whole process group.
trap 'trap "" TERM; kill 0; exit 130' INT
command -v "$rt" > /dev/null || {
    echo "there is no \`$rt\` on the PATH: install the Rattle toolchain, or name its command," \
        "as in make RT=/path/to/rt"
    exit 1
}

# The crates that a crate depends on.
below() { sed -n "s/^$1\( [^:]*\)\{0,1\}: *//p" crates.txt; }

# All crates below a crate, each after those below it, and then the crate itself; some appear twice.
crates_below() {
    for crate_below in $(below "$1"); do crates_below "$crate_below"; done
    echo "$1"
}

build() { # CRATE NUMBER
    where="$2 of $count  $1" log=out/$1.log start=$(date +%s) command=lib
    echo "$where: proving and building .."
    if [ -f "crates/$1/src/main.rt" ]; then
        command="run -- $(cat "crates/$1/args" 2> /dev/null || :)"
    fi
    # shellcheck disable=SC2086 # (a command and its words)
    (cd "crates/$1" && "$rt" $command < /dev/null) > "$log" 2>&1 || {
        tail -n 40 "$log"
        echo "$where: not built; $log has all that was said"
        echo "\`$rt version\` says: $("$rt" version 2>&1 || :); README.md says which logic it has to be"
        return 1
    }
    echo "$where: done in $(($(date +%s) - start)) s"
}

# Waits for the crates that are being built.
built() {
    failed=0
    for job in $jobs; do wait "$job" || failed=1; done
    jobs='' beside=''
    test "$failed" = 0
}

if [ $# -eq 0 ]; then exit; fi
mkdir -p out
crates=$(crates_below "$1" | awk '!there[$0]++')
count=$(echo "$crates" | wc -l) number=0 jobs='' beside=''
for crate in $crates; do
    for crate_below in $(below "$crate"); do
        case " $beside " in *" $crate_below "*) built ;; esac
    done
    number=$((number + 1))
    build "$crate" "$number" &
    jobs="$jobs $!" beside="$beside $crate"
done
built
