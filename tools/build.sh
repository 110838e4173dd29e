#!/bin/sh
# build.sh KIND CRATE OUT: builds a crate with calls for C over the libraries that stand in crates/*/out, which are
# proved. KIND staticlib makes the archive OUT, as `rt lib` does; KIND mir makes the file OUT, the crate's MIR as rt
# keeps that of each library. The crate itself is proved first, in either case, over what rt lib kept of it or an
# earlier build here. The exit status is rattle's.

kind=$1 crate=$2 out=$PWD/$3 top=$PWD
kept=$top/crates/$crate/out/incremental
test -d "$kept" || kept=$top/target/kept/$crate
log=$top/target/$kind-$crate.log
kit=$(dirname "$(rt doc)")
mkdir -p "$(dirname "$out")" "$kept"
set -- --crate-name "$crate" src/lib.rt --extern "std=$kit/rlibs/std.rlib" -L "dependency=$kit/rlibs"
for used in $(sed -n "s/^$crate\( staticlib\)\{0,1\}: *//p" crates.txt); do
    set -- "$@" --extern "$used=$top/crates/$used/out/rlib/$used.rlib"
done
for below in $(sh tools/below.sh "$crate" | grep -vx "$crate"); do
    set -- "$@" -L "dependency=$top/crates/$below/out/rlib"
done
# A library's folder has .rt and .antt files, which rt ci refuses anywhere in a checkout but where it makes them.
made=$(mktemp -d) || exit
trap 'rm -rf "$made"' EXIT
trap 'exit 1' HUP INT TERM
case $kind in
staticlib) to=$made/made.a && set -- "$@" --crate-type staticlib --toolchain "$kit/toolchain" ;;
mir) to=$made/made.rlib ;;
esac
cd "crates/$crate" || exit
"$kit/bin/rattle" build "$@" --antt-project "$kit/rattle/logic/antt-project.json" --logic-built "$kit/logic_built" \
    --incremental "$kept" --jobs 2 -o "$to" </dev/null >"$log" 2>&1
status=$?
case $status$kind in
0mir) mv "$to/toolchain/mir.json" "$out" ;;
0staticlib) mv "$to" "$out" ;;
*) tail -n 20 "$log" >&2 ;;
esac
exit "$status"
