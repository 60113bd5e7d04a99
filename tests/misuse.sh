#!/bin/sh
# Two misuses of a temporary origin that the borrow check refuses: using a record's own origin while a temporary one stands, and using a temporary origin after its end.
# Each tests/misuse/NAME.snippet is made a crate in a copy of the repository: the check must refuse it with the borrow error named below, at the line marked 'refused here',
# and must prove tests/misuse/NAME.right, which differs in that line. Prints a line for each; ends with status 0 only if all is so.
set -u
here=$(cd "$(dirname "$0")" && pwd) || exit 1
copy=$(mktemp -d) || exit 1
trap 'rm -rf "$copy"' EXIT
tar -C "$here/.." --exclude=out -cf - crates crates.txt | tar -C "$copy" -xf - || exit 1
cd "$copy" || exit 1
mkdir -p crates/misuse/src && echo 'misuse: origin kinds refusal' >> crates.txt || exit 1
cd crates/misuse || exit 1
source=src/lib.rt
failed=0

# refused NAME CODE: the only error is CODE, at the marked line
refused() {
    cp "$here/misuse/$1.snippet" "$source" || exit 1
    line=$(grep -n 'refused here' "$source" | cut -d: -f1)
    if rt check > log 2>&1; then
        echo "$1: ACCEPTED, and should be refused"; failed=1
    elif [ "$(grep -c 'error' log)" = 1 ] && grep -q "$source:$line:[0-9]*: error\[$2\]" log; then
        echo "$1: refused, $2"
    else
        echo "$1: refused otherwise than by $2:"; tail -n 5 log; failed=1
    fi
}

# proved NAME: the corrected snippet is proved
proved() {
    cp "$here/misuse/$1.right" "$source" || exit 1
    if rt check > log 2>&1 && grep -q '^fn misuse::placed: proved' log; then
        echo "$1, corrected: proved"
    else
        echo "$1, corrected: NOT PROVED:"; tail -n 5 log; failed=1
    fi
}

refused own_origin borrow-e0503
proved own_origin
refused after_end borrow-e0382
proved after_end
exit $failed
