#!/bin/sh
# below.sh CRATE: the crates of crates.txt that this one needs, one to a line, each after those that it uses, itself
# last.

awk -v wanted="$1" '
    function need(name,    below, i, n) {
        if (name in seen || !(name in needs))
            return
        seen[name] = 1
        n = split(needs[name], below, " ")
        for (i = 1; i <= n; i++)
            need(below[i])
        print name
    }
    /^[a-z]/ {
        name = $1
        sub(/:.*/, "", name)
        sub(/^[^:]*:/, "")
        needs[name] = $0
    }
    END { need(wanted) }' crates.txt
