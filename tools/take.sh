#!/bin/sh
# Copies crates of this repository, and all that they stand on, into another repository:
#   tools/take.sh FOLDER mea mea_futures
# It writes the folders FOLDER/crates/NAME without what checks left there and without the edits that must fail, their
# lines at the end of FOLDER/crates.txt, and the licence and the notice beside them. A folder that is there already
# stays, where it is the same; where it is not, nothing is copied.
# Ends with 0 where all is there, with 1 where nothing was copied, and with 2 in the middle of a copy that failed.
set -u
if [ $# -lt 2 ]; then
    echo "usage: tools/take.sh FOLDER CRATE.." >&2
    exit 1
fi
if [ ! -d "$1" ]; then
    echo "take.sh: there is no folder $1" >&2
    exit 1
fi
to=$(cd "$1" && pwd) || exit 1
shift
cd "$(dirname "$0")/.." || exit 1
names=$(tools/below.sh "$@") || exit 1
for name in $names; do
    if [ -e "$to/crates/$name" ] && ! diff -rq -x out -x must-fail "crates/$name" "$to/crates/$name" > /dev/null; then
        echo "take.sh: $to/crates/$name is there already, and another; nothing was copied" >&2
        exit 1
    fi
done
mkdir -p "$to/crates" || exit 2
for name in $names; do
    if [ -e "$to/crates/$name" ]; then
        echo "$name stays"
        continue
    fi
    tar -C crates -cf - --exclude="$name/out" --exclude="$name/must-fail" "$name" | tar -C "$to/crates" -xf - || exit 2
    if ! grep -q "^$name[ :]" "$to/crates.txt" 2> /dev/null; then
        grep "^$name[ :]" crates.txt >> "$to/crates.txt" || exit 2
    fi
    echo "$name"
done
cp LICENSE "$to/crates/LICENSE.nookwhisk" || exit 2
cp NOTICE "$to/crates/NOTICE.nookwhisk" || exit 2
if [ -e "$to/crates/mea_wait" ] && ! grep -qw Wait "$to/HANDLES" 2> /dev/null; then
    echo "take.sh: these crates take locks, so $to/HANDLES has to allow Wait, as its one line 'Handles allowed: Wait.' does" >&2
fi
