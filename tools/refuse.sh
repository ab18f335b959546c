#!/bin/sh
# Runs a program with each of its allocations refused in turn: once that one alone, once that one and all after it. A run
# must end with status 6 after a front of the text that the program writes with ample memory, or with that whole text and
# its status. One that does neither is told, and so is one that a signal ends; then the last status is 1.
#
#   tools/refuse.sh INPUT PROGRAM WORDS..    as: tools/refuse.sh tools/scripts/locks.txt crates/mea_play/out/mea_play play
#
# It needs a C compiler, and a program that is linked to libc dynamically, as programs of `rt run` are.
set -u
here=$(cd "$(dirname "$0")" && pwd)
input=${1:?usage: refuse.sh INPUT PROGRAM WORDS..}
shift
work=$(mktemp -d)
trap 'rm -rf "$work"' EXIT
cc -O1 -shared -fPIC -o "$work/refuse.so" "$here/refuse.c" -ldl || exit 2

# run REFUSED OUTPUT PROGRAM WORDS..: REFUSED is a setting of refuse.c.
run() {
    refused=$1 output=$2
    shift 2
    env "$refused" LD_PRELOAD="$work/refuse.so" timeout 60 "$@" < "$input" > "$output" 2> /dev/null
}

run REFUSE_COUNT="$work/count" "$work/whole" "$@"
ample=$?
count=$(od -An -t d8 "$work/count" | tr -d ' ')
short=0 whole=0 wrong=0
for how in REFUSE_AT REFUSE_FROM; do
    number=1
    while [ "$number" -le "$count" ]; do
        run $how=$number "$work/part" "$@"
        status=$?
        size=$(wc -c < "$work/part")
        if [ $status -eq $ample ] && cmp -s "$work/part" "$work/whole"; then
            whole=$((whole + 1))
        elif [ $status -eq 6 ] && head -c "$size" "$work/whole" | cmp -s - "$work/part"; then
            short=$((short + 1))
        else
            wrong=$((wrong + 1))
            echo "$how=$number: status $status, $size bytes"
        fi
        number=$((number + 1))
    done
done
echo "$count allocations: $short runs ended for want of memory, $whole as with ample memory, $wrong otherwise"
[ $wrong -eq 0 ] && [ "$count" -gt 0 ]
