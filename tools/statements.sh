#!/bin/sh
# Compares docs/STATEMENTS.md with the crates: each name in it exists, and its map has each module of
# definitions that needs belief, no other. What differs is told; the exit status is then 1.

export LC_ALL=C
page=docs/STATEMENTS.md
work=target/statements
mkdir -p $work
status=0

fail() {
    echo "statements: $1" >&2
    status=1
}

# This text stands in one of these files, not as a part of a longer name.
stands() {
    text=$1
    shift
    grep -qE -e "(^|[^A-Za-z0-9_-])$text(\$|[^A-Za-z0-9_-])" "$@" /dev/null 2>/dev/null
}

# A function of a crate, a definition of a module, or a crate, an edit or a name anywhere.
exists() {
    case $1 in
    */*) true ;;
    *::*) stands "fn ${1##*::}" "crates/${1%%::*}/src" -r ;;
    [A-Z]*.*) stands "pub (record |data )?${1#*.}" $(grep -E "/specs/(.*/)?${1%%.*}\.antt$" $work/sources) ;;
    *) test -d "crates/$1" || ls crates/*/must-fail/"$1".edit >/dev/null 2>&1 || stands "$1" $(cat $work/sources) ;;
    esac
}

# What rt leaves in out/ is no source.
find crates -path 'crates/*/out' -prune -o \( -name '*.antt' -o -name '*.rt' \) -print >$work/sources
grep -o '`[^`]*`' $page | tr -d '`' | sort -u >$work/names
while read -r name; do
    exists "$name" || fail "$page names $name, which is nowhere"
done <$work/names

# A row of the map has a crate, or nothing for the crate of the row before, and its modules.
sed -n '/^| Crate /,/^$/p' $page | sed 1,2d | while IFS='|' read -r _ crate modules _; do
    crate=$(echo $crate | tr -d '`')
    before=${crate:-$before}
    for module in $(echo "$modules" | tr -d ',;'); do echo "$before $module"; done
done | sort >$work/map
grep '/specs/[A-Z].*\.antt$' $work/sources | grep -v -e /Code/ -e '/Lib\.antt$' -e '/Code\.antt$' |
    sed 's|crates/\(.*\)/specs/\(.*\).antt|\1 \2|' | grep -v '^c2_wire_probe ' | sort >$work/modules
diff $work/map $work/modules >$work/diff || {
    fail "the map of $page (<) has other modules than crates/ (>)"
    sed -n '/^[<>]/p' $work/diff >&2
}

test $status = 0 && echo "ok     statements: $(wc -l <$work/names) names, $(wc -l <$work/map) modules on the map"
exit $status
