#!/bin/sh
# Starts one of the programs on the words given, and has it proved and built first where that is still to do:
#   launch/start.sh grouter|reroute|unavoidable|congestion_map WORD..
# Its own statuses are 0 for --help, 126 where the program could not be proved or built, and 127 without a toolchain.
set -eu

top=$(CDPATH='' cd -- "$(dirname -- "$0")/.." && pwd)
name=$1
shift
program=$top/crates/$name/out/$name

# the help is a block of docs/FORMATS.md
for word; do
    if [ "$word" = --help ]; then
        exec sed -n "/^\`\`\`help-$name\$/,/^\`\`\`\$/ { /^\`\`\`/d; p; }" "$top/docs/FORMATS.md"
    fi
done
[ $# -gt 0 ] || echo "$name: ./$name --help shows the words, with an example of each command" >&2

# is_new: whether the program is newer than all that it is made from
is_new() {
    [ -x "$program" ] || return 1
    set -- "$top/crates.txt"
    for crate in $(awk -v program="$name" -f "$top/launch/needed.awk" "$top/crates.txt" | sed 's/:.*//'); do
        set -- "$@" "$top/crates/$crate"
    done
    [ -z "$(find "$@" \( -name out -o -name must-fail \) -prune -o -type f -newer "$program" -print)" ]
}
is_new || "$top/launch/prove.sh" "$name"

# The C library raises, as lists are freed, the size from which a list has pages of its own, and then keeps the pages of workers
# that ended. With a fixed size four workers on 219,000 nets take 629 MiB in place of 974, and no more time.
MALLOC_MMAP_THRESHOLD_=${MALLOC_MMAP_THRESHOLD_:-131072}
export MALLOC_MMAP_THRESHOLD_

exec "$program" "$@"
