#!/bin/sh
# gate.sh NAME..: runs rt ci, with nothing changed before it, and fails where it fails, and where a must-fail edit
# is bad, which rt ci only tells. Its last line, the count, goes to target/count and is not shown. What rt ci has proved
# then stands in crates/*/out: the program is taken from there, and make makes the files NAME.. over it.

mkdir -p target
# A checkout where rt check or rt lib has worked gets its own libraries back from rt ci, and with them what was kept,
# over which rt lib proves what has changed: make does that. Elsewhere rt ci's own are left, for the files NAME.. alone.
earlier=$(ls -d crates/*/out/rlib crates/*/out/incremental 2>/dev/null)
if [ -z "$earlier" ]; then
    trap 'rm -rf crates/*/out/rlib' EXIT
    trap 'exit 1' HUP INT TERM
fi
{ rt ci; echo $?; } | {
    n=0 bad=
    while IFS= read -r line; do
        test $n -lt 2 || printf '%s\n' "$a"
        case $line in "rt: ok"*", "[0-9]*" bad"*) bad=$line ;; esac
        a=$b b=$line n=$((n + 1))
    done
    if [ "$b" = 0 ] && [ -z "$bad" ]; then
        echo "$a" >target/count
    else
        echo "$a"
        test -z "$bad" || echo "bad must-fail edits, as told above: they count as failed here" >&2
        exit 1
    fi
} || exit
rm -rf target/staticlib target/bin target/mir
mkdir -p target/bin
cp crates/flash/out/flash target/bin/flash || exit
test -z "$earlier" || exit 0
printf '%s\n' "$@" | xargs -n 1 -P 2 make --no-print-directory OVER_CI=1
