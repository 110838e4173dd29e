#!/bin/sh
# Compares every place that has the numbers that come back with the one list, docs/NUMBERS.md. A difference is
# told with its place, < as in the list and > as there; the exit status is then 1.

export LC_ALL=C
list=docs/NUMBERS.md
work=target/numbers
there=$work/there
mkdir -p $work
status=0

fail() {
    echo "numbers: $1" >&2
    status=1
}

# What was found there is what the list has: all of it, or no more than that.
same() {
    sort $there | diff $work/$1 - >$work/diff && return
    fail "$file differs from $list"
    sed -n '/^[<>]/p' $work/diff >&2
}
within() {
    test -s $there || fail "$file has no numbers"
    sort $there | comm -13 $work/${1:-numbers} - >$work/diff
    test ! -s $work/diff && return
    fail "$file differs from $list"
    sed 's/^/> /' $work/diff >&2
}

# `BadReply` and `bad_reply` as BAD_REPLY.
upper() {
    sed 's/\([a-z]\)\([A-Z]\)/\1_\2/g' | tr a-z A-Z
}

# A row of the list: its name with the number, and with the words. C2 and the radio module have tables of
# their own; a name behind the prefix has one number, and a number one name.
row='^| \([0-9][0-9]*\) | `PREFIX_\([A-Z_]*\)` | \(.*\) | \(.*\) |$'
for family in c2 radio; do
    this=$(echo "$row" | sed "s/PREFIX/$(echo $family | tr a-z A-Z)/")
    sed -n "s/$this/\2 \1/p" $list | grep -v '^ERR_' | sort >$work/$family.numbers
    sed -n "s/$this/\2 \3: \4/p" $list | grep -v '^ERR_' | sort >$work/$family.words
    test -s $work/$family.numbers || fail "$list has no rows of $family"
done
this=$(echo "$row" | sed 's/PREFIX_/RADIO_ERR_/')
sed -n "s/$this/\2 \1/p" $list | sort >$work/codes
sed -n "s/$this/\2 \3: \4/p" $list | sort >$work/codes.words
sort -u $work/c2.numbers $work/radio.numbers >$work/numbers
count=$(wc -l <$work/numbers)
for field in 1 2; do
    twice=$(cut -d' ' -f$field $work/numbers | sort | uniq -d)
    test -z "$twice" || fail "$list has $twice twice"
done

# Refusals are an enum, ends of sessions and jobs are constants; those of the radio module stand in its lowest crate.
refusals='/^pub enum Refusal/,/^}/s/^ *\([A-Za-z]*\) = \([0-9]*\),$/\1 \2/p'
constants='s/^pub const \([A-Z_]*\): u32 = \([0-9]*\);$/\1 \2/p'
file=crates/numbers/src/lib.rt
{ sed -n "$refusals" $file | upper; sed -n "$constants" $file crates/radio_command/src/lib.rt; } | sort -u >$there
same numbers
file=compare/src/second/numbers.rs
sed -n "$constants" $file >$there
same numbers
file=crates/numbers/specs/Numbers.antt
sed -n 's/^\([a-z_]*\) = \([0-9]*\)$/\1 \2/p' $file crates/radio_command/specs/Numbers.antt | upper >$there
same numbers
file=include/c2.h
sed -n '/C2_STEP_/d;s/^ *C2_\([A-Z_]*\) = \([0-9]*\).*/\1 \2/p' $file >$there
same c2.numbers
file=include/radio.h
sed -n '/RADIO_ERR_/d;s/^ *RADIO_\([A-Z_]*\) = \([0-9]*\)\([, ].*\)*$/\1 \2/p' $file >$there
same radio.numbers
sed -n 's/^ *RADIO_ERR_\([A-Z_]*\) = \([0-9]*\)\([, ].*\)*$/\1 \2/p' $file >$there
same codes
file=crates/radio_target/specs/Deeds.antt
sed -n 's/^err_\([a-z_]*\) = \([0-9]*\)$/\1 \2/p' $file | upper >$there
within codes
worded() {
    file=include/$2_text.h
    sed -n "/^ *case $1_/{s/.*$1_\(.*\):/\1/;N;s/\n *return \"\(.*\)\";/ \1/;p;}" $file >$there
}
worded C2 c2
same c2.words
worded RADIO radio
sed -i '/^ERR_/d' $there
same radio.words
worded RADIO_ERR radio
same codes.words
file=bench/src/plain/wire.rs
sed -n "$refusals" $file | upper >$there
within
file=bench/src/plain/session.rs
sed -n 's/^ *Outcome::\([A-Za-z]*\).* => (\([0-9]*\), .*),$/\1 \2/p' $file | upper >$there
within
file=bench/src/plain/session/face.rs
sed -n 's/^ *(\([0-9]*\), .*) .*=> Some(Outcome::\([A-Za-z]*\).*),$/\2 \1/p' $file | upper >$there
within
file=bench/src/plain/radio.rs
sed -n 's/^const \([A-Z_]*\): u32 = \([0-9]*\);$/\1 \2/p' $file >$there
within radio.numbers

test $status = 0 && echo "ok     numbers: $count, alike wherever they stand"
exit $status
