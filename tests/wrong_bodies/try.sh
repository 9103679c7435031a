#!/bin/sh
# Tries wrong bodies that the gate has no time for: the prover must refuse each.
#
#   tests/wrong_bodies/try.sh [CRATE ..]
#
# tests/wrong_bodies/CRATE/NAME.edit has the form of the edits in crates/CRATE/must-fail, which `rt ci` tries. They are tried
# on a copy of the repository, which begins with the libraries that are built here. Without words all crates are tried, which
# takes two hours and more; it fails where one body is not refused.
set -eu

top=$(CDPATH='' cd -- "$(dirname -- "$0")/../.." && pwd)
here=$top/tests/wrong_bodies
[ $# -gt 0 ] || set -- $(cd "$here" && ls -d -- */ | tr -d /)

room=$(mktemp -d)
trap 'rm -rf "$room"' EXIT
(cd "$top" && tar cf - --exclude=incremental --exclude=must-fail crates crates.txt HANDLES) | tar xf - -C "$room"
for crate; do
    mkdir "$room/crates/$crate/must-fail"
    cp "$here/$crate"/*.edit "$room/crates/$crate/must-fail"
done

cd "$room"
status=0
for crate; do
    rt must-fail "$crate" || status=1
done
exit $status
