#!/bin/sh
# Proves and builds one of the programs, and says on standard error how far it is:
#   launch/prove.sh grouter|reroute|unavoidable|congestion_map
#
# The toolchain's gate proves crates side by side that don't stand on each other. It runs on a copy that has only the crates
# which the program stands on, and not their must-fail edits: those are the repository's own gate's (.ci/run). What either gate
# proved the other takes over, as long as the text is the same.
set -eu

top=$(CDPATH='' cd -- "$(dirname -- "$0")/.." && pwd)
name=$1
say() { echo "$name: $*" >&2; }

if ! command -v rt >/dev/null 2>&1; then
    say "the Rattle toolchain is missing: there is no command 'rt' on the PATH"
    exit 127
fi
wanted=$(cat "$top/TOOLCHAIN")
found=$(rt version 2>/dev/null || true)
[ "$found" = "$wanted" ] || say "the toolchain here is '$found', and this text was proved by '$wanted'"

room=$(mktemp -d)
prover=
# leave STATUS: ends the prover too, where it still runs; its checks may write a moment longer than it does
leave() {
    [ -z "$prover" ] || { kill "$prover" 2>/dev/null && wait "$prover"; } || true
    rm -rf "$room" 2>/dev/null || { sleep 2 && rm -rf "$room"; }
    trap - EXIT
    exit "$1"
}
trap 'leave 126' EXIT
trap 'leave 129' HUP
trap 'echo >&2; say "stopped; what is proved by now is kept"; leave 130' INT
trap 'leave 143' TERM

# the copy; the gate wants the top of a repository
mkdir "$room/.git" "$room/crates"
cp "$top/HANDLES" "$room"
awk -v program="$name" -f "$top/launch/needed.awk" "$top/crates.txt" >"$room/crates.txt"
crates=$(sed 's/:.*//' "$room/crates.txt")
for crate in $crates; do
    mkdir "$room/crates/$crate"
    for part in "$top/crates/$crate"/*; do
        case ${part##*/} in
        out | must-fail) ;;
        *) cp -R "$part" "$room/crates/$crate" ;;
        esac
    done
done

begin=$(date +%s)
processors=$(getconf _NPROCESSORS_ONLN 2>/dev/null || echo 1)
: >"$room/log"
# far HOW: how far the gate is, in the words of launch/progress.awk
far() {
    awk -v "$1" -v seconds="$(($(date +%s) - begin))" -v processors="$processors" -f "$top/launch/progress.awk" \
        "$top/docs/AUDIT.md" "$room/crates.txt" "$room/log"
}

say "proving and building it on $processors processors; later starts are immediate"
(cd "$room" && exec rt ci) >"$room/log" 2>&1 </dev/null &
prover=$!
[ -t 2 ] || say "$(far now=1)"
told=0
is_running=true
while $is_running; do
    sleep 2
    kill -0 "$prover" 2>/dev/null || is_running=false
    if [ -t 2 ]; then
        printf '\r%s: %s\033[K' "$name" "$(far now=1)" >&2
    else
        lines=$(far "shown=$told")
        if [ -n "$lines" ]; then
            echo "$lines" | sed "s/^/$name: /" >&2
            told=$((told + $(echo "$lines" | wc -l)))
        fi
    fi
done
[ ! -t 2 ] || echo >&2
status=0
wait "$prover" || status=$?
prover=

if [ "$status" -ne 0 ]; then
    # what was said of each crate that failed, or else the last lines
    awk '/^== / { part = "" } { part = part $0 "\n" } /^rt: .* NOT PROVED$/ { printf "%s", part; part = ""; many++ } END { exit !many }' \
        "$room/log" >&2 || tail -n 20 "$room/log" >&2
    say "the program could not be proved or built"
    if [ "$found" = "$wanted" ]; then
        say "the toolchain is the one that proved this text. A changed crate has to be mended as the lines above say; else look for want of memory or disk"
    else
        say "the toolchain here is '$found', and this text was proved by '$wanted': put the 'rt' of that version first on the PATH, and start again"
    fi
    exit 126
fi

# As old as the copy, so that a change that came meanwhile counts as newer; and put in place whole, since the old one may be running.
out=$top/crates/$name/out
mkdir -p "$out"
cp "$room/crates/$name/out/$name" "$out/$name.new"
touch -r "$room/crates.txt" "$out/$name.new"
mv "$out/$name.new" "$out/$name"
say "proved and built in $((($(date +%s) - begin + 59) / 60)) min"
leave 0
