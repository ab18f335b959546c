#!/bin/sh
# Prints the crates given and every crate of this repository that they stand on, lowest first, a line each:
#   tools/below.sh mea
# Ends with 1 where crates.txt has no crate of a name that was given, and with 2 where there is no crates.txt.
set -u
cd "$(dirname "$0")/.." || exit 2
[ -r crates.txt ] || exit 2
awk -v wanted="$*" '
    function visit(name,    deps, i, count) {
        if (name in seen) return
        seen[name] = 1
        count = split(below[name], deps, " ")
        for (i = 1; i <= count; i++) if (deps[i] in below) visit(deps[i])
        print name
    }
    /^[a-z]/ {
        split($0, halves, ":")
        split(halves[1], words, " ")
        below[words[1]] = halves[2]
    }
    END {
        count = split(wanted, names, " ")
        for (i = 1; i <= count; i++) {
            if (names[i] in below) visit(names[i])
            else { print "no such crate: " names[i] > "/dev/stderr"; failed = 1 }
        }
        exit failed
    }
' crates.txt
