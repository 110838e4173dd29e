#!/bin/sh
# prove.sh VERB CRATE: runs `rt VERB` in the crate's folder and shows one line for each crate that it proves, the k-th
# of the n that this one stands on, itself included; those unchanged since the last time have none. All that rt says
# is kept in target/rt.log; if it fails, the end of that is shown. The exit status is rt's.

log=$PWD/target/rt.log
mkdir -p target
order=$(sh tools/below.sh "$2")
all=$(echo "$order" | wc -l)
{ (cd "crates/$2" && rt "$1" </dev/null 2>&1); echo "rt: exit status $?"; } | tee "$log" | {
    while IFS= read -r line; do
        case $line in
        "rt: exit status "*) status=${line##* } ;;
        "crate "*": modules loaded="*) name=${line#crate } && name=${name%%:*} ;;
        "logic=proved "*) printf '%2d of %d  %s\n' "$(echo "$order" | grep -nx "$name" | cut -d: -f1)" "$all" "$name" ;;
        esac
    done
    test "$status" = 0 || tail -n 20 "$log" >&2
    exit "$status"
}
