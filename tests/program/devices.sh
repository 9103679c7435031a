#!/bin/sh
# Runs the built programs on devices and names that fail, end early or mean one file, and compares status, report and what is left
# with what docs/FORMATS.md says.
#
#   tests/program/devices.sh [GROUTER [UNAVOIDABLE [REROUTE [CONGESTION_MAP]]]]
#
# By hand, outside the gate: some three minutes, of which one case takes 20 seconds. It reads 2^30 bytes four times, and takes up to
# 3 GiB of memory for that. Without words it takes the programs that `rt ci` left in crates/*/out. It prints a line for each case, then
# how many passed, failed and were left out, and fails where one did. A case is left out where the system has no such device, or gives
# it to root alone.
#
# In every case it is also asked that no input changed, and that there is no file which no run may leave.
set -u
export LC_ALL=C
# a file system of its own, for a small device that goes with it
if [ -z "${DEVICES_ALONE-}" ] && unshare -m true 2>/dev/null; then
    DEVICES_ALONE=yes exec unshare -m "$0" "$@"
fi

top=$(CDPATH='' cd -- "$(dirname -- "$0")/../.." && pwd)
examples=$top/examples

room=$(mktemp -d)
trap 'rm -rf "$room"' EXIT
chmod 755 "$room"
mkdir "$room/files" "$room/whole" "$room/kept"

# take NAME FILE: copies the built program
take() {
    if [ ! -f "$2" ]; then
        echo "FAILED: the program is not built: $2"
        exit 1
    fi
    cp "$2" "$room/$1" && chmod 755 "$room/$1"
}
take grouter "${1:-$top/crates/grouter/out/grouter}"
take unavoidable "${2:-$top/crates/unavoidable/out/unavoidable}"
take reroute "${3:-$top/crates/reroute/out/reroute}"
take congestion_map "${4:-$top/crates/congestion_map/out/congestion_map}"
cd "$room/files" || exit 1

passed=0
failed=0
left_out=0
# what the cases that come are about, where they are to be told from the others; and how many of those failed
about=
about_failed=0

# ---- cases

# judge NAME STATUS: compares the status that was got and what was said with what is wanted, and the folder with what was kept
judge() {
    if [ "$got" -ne "$2" ]; then
        why="status $got, and not $2; it said: $(head -c 100 "$room/said")"
    elif ! cmp -s "$room/wanted" "$room/said"; then
        why="it said: $(head -c 300 "$room/said")"
    elif [ -s "$room/complained" ]; then
        why="it complained: $(head -c 300 "$room/complained")"
    elif ! why=$(look); then
        restore
    else
        passed=$((passed + 1))
        echo "ok: $about$1"
        return
    fi
    failed=$((failed + 1))
    [ -z "$about" ] || about_failed=$((about_failed + 1))
    echo "FAILED: $about$1: $why"
}

# keep: what is in the folder now has to stay as it is
keep() {
    rm -rf "$room/kept"
    cp -Rp . "$room/kept"
}
# restore: puts back what was to be kept
restore() {
    for each in "$room/kept"/*; do
        [ ! -f "$each" ] || [ -L "$each" ] || cmp -s "$each" "${each##*/}" || cp -p "$each" .
    done
}
# look: fails where what was to be kept was not, and says which file changed
look() {
    for each in "$room/kept"/*; do
        if [ -L "$each" ]; then
            [ -L "${each##*/}" ] || { echo "the link ${each##*/} is gone" && return 1; }
        elif [ -f "$each" ]; then
            cmp -s "$each" "${each##*/}" || { echo "the file ${each##*/} changed" && return 1; }
        fi
    done
}

# said LINES: what is wanted of the report
said() {
    if [ -n "$1" ]; then printf '%s\n' "$1"; fi >"$room/wanted"
}

# expect NAME STATUS LINES WORD..: runs the program on the words; each of the lines ends in a line feed
expect() {
    name=$1 status=$2
    said "$3"
    shift 3
    "$program" "$@" </dev/null >"$room/said" 2>"$room/complained"
    got=$?
    judge "$name" "$status"
}

# left NAME FILE WHOLE [HOW]: the file has the bytes of another one. Where HOW is 'front' it may end earlier, or not be there, and where
# HOW is 'none' it is not there. It is removed.
left() {
    : >"$room/wanted"
    : >"$room/said"
    : >"$room/complained"
    got=0
    case ${4:-whole} in
    whole) cmp -s "$2" "$3" || got=1 ;;
    front) [ ! -e "$2" ] || head -c "$(wc -c <"$2")" "$3" | cmp -s - "$2" || got=1 ;;
    none) [ ! -e "$2" ] || got=1 ;;
    esac
    judge "$1" 0
    rm -f "$2"
}

# leave_out NAME WHY
leave_out() {
    left_out=$((left_out + 1))
    echo "left out: $1: $2"
}

# The two designs have outputs of more than 64 KiB: many nets over two edges, and few nets over many edges.
awk 'BEGIN { n = 12000; print "grid 3 1 1\nvertical capacity 4\nhorizontal capacity 4\nminimum width 1\nminimum spacing 1\nvia spacing 1"
    print "0 0 10 10\nnum net", n; for (k = 0; k < n; k++) printf "n %d 2 1\n5 5 1\n25 5 1\n", k; print 0 }' >many.gr
printf '%s\n' 'grid 150 150 1' 'vertical capacity 4' 'horizontal capacity 4' 'minimum width 1' 'minimum spacing 1' 'via spacing 1' '0 0 10 10' \
    'num net 1' 'a 0 2 1' '5 5 1' '25 5 1' 0 >wide.gr
cp "$examples"/*.gr "$examples"/*.routes "$examples"/*.cert .
printf '%s' 'edits 0' >none.edits

# Each program with each of its outputs, which stands as OUT here. A run that makes two has the other one in side.routes or side.cert.
# A name of MAP has to end in .csv or .svg, so all do here.
outputs='route, its routes|grouter|route many.gr OUT side.cert --phases 1 --rounds 0
route, its certificate|grouter|route wide.gr side.routes OUT --phases 1 --rounds 0
make|grouter|make OUT --nets 5000
eco|grouter|eco many.gr many.routes none.edits OUT
climb|grouter|climb wide.gr wide.routes wide.cert OUT --turns 1
guide|grouter|guide many.gr many.routes OUT
reroute|reroute|many.gr many.routes OUT --rounds 0 --passes 0
unavoidable|unavoidable|wide.gr wide.routes wide.cert OUT
unavoidable, by routes alone|unavoidable|wide.gr wide.routes OUT
congestion_map|congestion_map|wide.gr wide.routes OUT'
for design in many wide; do
    "$room/grouter" route $design.gr $design.routes $design.cert --phases 1 --rounds 0 >/dev/null
done
keep

# for_outputs FUNCTION: calls it for each line; it has the line's name in `output`, and the words in `words`
for_outputs() {
    number=0
    while IFS='|' read -r output program words; do
        program=$room/$program
        number=$((number + 1))
        whole=$room/whole/$number
        "$1" </dev/null
    done <<LINES
$outputs
LINES
}
# with OUT: the words with this name in the place of OUT
with() {
    echo "$words" | sed "s|OUT|$1|"
}
# beside NAME: the other file of a run whose output failed: ROUTES are whole and CERT isn't begun
beside() {
    case $words in
    *side.cert*) left "$1: no certificate" side.cert - none ;;
    *side.routes*) left "$1: whole routes" side.routes wide.routes ;;
    esac
}

whole_run() {
    # shellcheck disable=SC2046
    "$program" $(with out.csv) >"$whole.report" 2>"$room/complained"
    got=$?
    cp "$whole.report" "$room/wanted"
    cp "$whole.report" "$room/said"
    judge "$output: a whole run" 0
    mv out.csv "$whole"
    rm -f side.routes side.cert
    [ "$(wc -c <"$whole")" -gt 80000 ]
    got=$?
    judge "$output: it writes more than a pipe holds" 0
}
for_outputs whole_run

# ---- full devices

ln -s /dev/full full.csv
keep
full() {
    # shellcheck disable=SC2046
    expect "$output: a full device" 7 'refused 7' $(with full.csv)
    beside "$output: a full device"
    # shellcheck disable=SC2046
    "$program" $(with out.csv) </dev/null >/dev/full 2>"$room/complained"
    got=$?
    said ''
    : >"$room/said"
    judge "$output: a report to a full device" 7
    left "$output: whole, before such a report" out.csv "$whole"
    rm -f side.routes side.cert
}
for_outputs full
program=$room/grouter
sed 's/^num net .*/num net 0/; /^num/q' many.gr >"$room/no_nets.gr"
echo 0 >>"$room/no_nets.gr"
expect 'nothing to be written to a full device' 0 'guides 0' guide "$room/no_nets.gr" /dev/null full.csv
expect 'nothing is written to a full device, and a certificate behind it' 0 'nets 0
forced 0
rounded 0
rounds 0
overflow 0
wirelength 0
peak 0/1
bound 0/1' route "$room/no_nets.gr" full.csv out.cert
rm -f out.cert

mkdir "$room/small"
if mount -t tmpfs -o size=64k none "$room/small" 2>/dev/null; then
    small() {
        # shellcheck disable=SC2046
        expect "$output: a file system with too little room" 7 'refused 7' $(with "$room/small/out.csv")
        beside "$output: a file system with too little room"
        left "$output: the front of its text there" "$room/small/out.csv" "$whole" front
        head -c 65536 /dev/zero >"$room/small/filled"
        # shellcheck disable=SC2046
        expect "$output: a file system without room" 7 'refused 7' $(with "$room/small/out.csv")
        beside "$output: a file system without room"
        left "$output: nothing of it there" "$room/small/out.csv" /dev/null front
        rm "$room/small/filled"
    }
    for_outputs small
    umount "$room/small"
else
    leave_out 'a small file system' 'none can be mounted'
fi

# ---- limits

# A write beyond the limit fails where the signal XFSZ is ignored. Else the system ends the program: 25 is the signal's number.
limit() {
    said 'refused 7'
    # shellcheck disable=SC2046
    (trap '' XFSZ && ulimit -f 40 && exec "$program" $(with out.csv)) </dev/null >"$room/said" 2>"$room/complained"
    got=$?
    judge "$output: a limit of 20,480 bytes" 7
    beside "$output: a limit of 20,480 bytes"
    left "$output: the front of its text within the limit" out.csv "$whole" front
    said ''
    # shellcheck disable=SC2046,SC3045
    got=$(exec 2>/dev/null; (ulimit -f 40 && ulimit -c 0 && exec "$program" $(with out.csv)) </dev/null >"$room/said" 2>"$room/complained"; echo $?)
    judge "$output: such a limit, and its signal" $((128 + 25))
    beside "$output: such a limit, and its signal"
    left "$output: the front of its text at the signal" out.csv "$whole" front
}
for_outputs limit

# With few files open at once the run is whole, or an input or an output can't be opened; what is made is whole. Three are held where
# standard streams might be closed.
few_files() {
    for many in 4 6 7 8 9 10; do
        title="$output: no more than $((many - 3)) open files beside the three of the shell"
        # shellcheck disable=SC2046
        set -- $(with out.csv)
        # shellcheck disable=SC3045
        (ulimit -n $many && exec "$program" "$@") </dev/null >"$room/said" 2>"$room/complained"
        got=$?
        case $got in
        0) cp "$whole.report" "$room/wanted" ;;
        6) said 'refused 6' ;;
        *) said 'refused 7' ;;
        esac
        case $got in
        0 | 6) judge "$title" $got ;;
        *) judge "$title" 7 ;;
        esac
        [ ! -e out.csv ] || left "$title: what it made" out.csv "$whole"
        rm -f side.routes side.cert
    done
}
for_outputs few_files

# ---- reports that nobody reads

closed_report() {
    : >"$room/wanted"
    # shellcheck disable=SC2046
    { sleep 0.1 && "$program" $(with out.csv) </dev/null 2>"$room/complained"; echo $? >"$room/status"; } | :
    got=$(cat "$room/status")
    : >"$room/said"
    judge "$output: a report to a pipe that is closed" 7
    left "$output: whole, before such a pipe" out.csv "$whole"
    rm -f side.routes side.cert
    # shellcheck disable=SC2046
    "$program" $(with out.csv) </dev/null >&- 2>"$room/complained"
    got=$?
    judge "$output: no standard output" 7
    left "$output: whole, without standard output" out.csv "$whole"
    rm -f side.routes side.cert
    # the files get the numbers of what is closed
    # shellcheck disable=SC2046
    "$program" $(with out.csv) <&- >&- 2>&-
    got=$?
    : >"$room/said"
    : >"$room/complained"
    judge "$output: nothing that a program is given by the shell" 7
    left "$output: whole, without all these" out.csv "$whole"
    rm -f side.routes side.cert
    # shellcheck disable=SC2046
    "$program" $(with out.csv) <&- >"$room/said" 2>&-
    got=$?
    : >"$room/complained"
    cp "$whole.report" "$room/wanted"
    judge "$output: no standard input and no standard error" 0
    left "$output: whole, without these" out.csv "$whole"
    rm -f side.routes side.cert
}
for_outputs closed_report

# A cut of five hundred edges far from the origin is shown twice, in more bytes than a pipe holds.
program=$room/unavoidable
awk 'BEGIN { far = "100000000"; print "grid 2 500 1\nvertical capacity 10000\nhorizontal capacity 2\nminimum width 1\nminimum spacing 1"
    print "via spacing 1\n" far "0000 " far "0000 10 10\nnum net 750"
    for (k = 0; k < 750; k++) { y = far sprintf("%04d", k % 500 * 10 + 5); printf "n %d 2 1\n%s %s 1\n%s %s 1\n", k, far "0005", y, far "0015", y }
    print 0 }' >across.gr
awk 'BEGIN { for (k = 0; k < 750; k++) { y = "100000000" sprintf("%04d", k % 500 * 10 + 5)
    printf "n %d (1000000000005,%s,1)-(1000000000015,%s,1) !\n", k, y, y } }' >across.routes
{
    printf '%s\n' 'grouter certificate 1' 'nets 750' 'forced 0' 'overflow 500' 'wirelength 750' 'peak 2/1' 'bound 0/1' 'prices 1498'
    yes 0 | head -n 1498
} >across.cert
{
    printf '%s\n' 'grouter certificate 1' 'nets 750' 'forced 0' 'overflow 500' 'wirelength 750' 'peak 2/1' 'bound 3/2' 'prices 1498'
    awk 'BEGIN { for (row = 1; row < 500; row++) print "32768\n0\n0"; print 32768 }'
} >"$room/across.cert"
{ "$program" across.gr across.routes across.cert out.cert </dev/null 2>"$room/complained"; echo $? >"$room/status"; } | head -c 5 >"$room/said"
got=$(cat "$room/status")
printf bound >"$room/wanted"
judge 'the first five bytes of a report that a pipe does not hold' 7
left 'its certificate, whole' out.cert "$room/across.cert"
rm across.gr across.routes across.cert

# ---- inputs and outputs that are pipes

program=$room/grouter
number=1
cp "$room/whole/1.report" "$room/wanted"
# drip: the text in pieces that come one after another
drip() {
    head -c 10 many.gr
    sleep 0.1
    tail -c +11 many.gr | head -c 5000
    sleep 0.1
    tail -c +5011 many.gr
}
drip | "$program" route /dev/stdin out.csv side.cert --phases 1 --rounds 0 >"$room/said" 2>"$room/complained"
got=$?
judge 'a design from a pipe, piece by piece' 0
left 'its routes' out.csv "$room/whole/1"
left 'its certificate' side.cert many.cert
"$program" route /dev/stdin out.csv side.cert --phases 1 --rounds 0 <many.gr >"$room/said" 2>"$room/complained"
got=$?
cp "$room/whole/1.report" "$room/wanted"
judge 'a design from standard input' 0
left 'its routes, from standard input' out.csv "$room/whole/1"
rm -f side.cert
mkfifo "$room/in" "$room/routes" "$room/cert"
timeout 60 cp few_exits.gr "$room/in" &
timeout 60 cp few_exits.routes "$room/routes" &
timeout 60 cp few_exits.cert "$room/cert" &
expect 'three inputs that are named pipes' 0 'yes
nets 8
forced 0
beyond 0
overflow 4
wirelength 59
peak 3/2
bound 178793/550306' judge "$room/in" "$room/routes" "$room/cert"
wait
printf '' | "$program" route /dev/stdin out.csv side.cert >"$room/said" 2>"$room/complained"
got=$?
said 'refused 3 11 0 grid'
judge 'an empty pipe' 3
"$program" route /dev/stdin out.csv side.cert <&- >"$room/said" 2>"$room/complained"
got=$?
said 'refused 6'
judge 'standard input that is closed' 6
for stream in /dev/stderr /dev/fd/2; do
    "$program" make $stream </dev/null >"$room/said" 2>&-
    got=$?
    : >"$room/complained"
    said 'refused 7'
    judge "a design to $stream, which is closed" 7
done

mkfifo pipe.csv
piped() {
    timeout 60 cat pipe.csv >"$room/piped" &
    # shellcheck disable=SC2046
    expect "$output: to a named pipe" 0 "$(cat "$whole.report")" $(with pipe.csv)
    wait
    left "$output: what was read there" "$room/piped" "$whole"
    rm -f side.routes side.cert
    timeout 60 head -c 5 pipe.csv >"$room/piped" &
    # shellcheck disable=SC2046
    expect "$output: to a named pipe that is closed early" 7 'refused 7' $(with pipe.csv)
    wait
    beside "$output: to a named pipe that is closed early"
    rm -f "$room/piped"
}
for_outputs piped
rm pipe.csv
program=$room/grouter
"$program" route one_net.gr /dev/stdout side.cert </dev/null 2>"$room/complained" | cat >"$room/said"
got=0
cat one_net.routes - >"$room/wanted" <<'REPORT'
nets 1
forced 0
rounded 0
rounds 0
overflow 0
wirelength 2
peak 1/2
bound 1/2
REPORT
judge 'routes and report in one pipe' 0
rm -f side.cert
expect 'routes that nobody wants' 0 "$(tail -n 8 "$room/wanted")" route one_net.gr /dev/null side.cert
left 'the certificate alone' side.cert one_net.cert

# ---- inputs without end

# endless NAME STATUS LINE WORD..: refused at 2^30 + 1 bytes, within 6 GiB
endless() {
    name=$1 status=$2
    said "$3"
    shift 3
    # shellcheck disable=SC3045
    yes 'a 0 !' | (ulimit -v 6291456 && exec "$program" "$@") >"$room/said" 2>"$room/complained"
    got=$?
    judge "$name" "$status"
}
endless 'a design without end' 3 'refused 3 13' route /dev/zero out.routes out.cert
endless 'routes without end' 4 'refused 4 35' measure one_net.gr /dev/stdin
endless 'a certificate without end' 4 'refused 4 35' judge one_net.gr one_net.routes /dev/zero
endless 'edits without end' 4 'refused 4 35' eco one_net.gr one_net.routes /dev/stdin out.routes
# the text of a design is not kept, that of routes is
said 'refused 3 13'
# shellcheck disable=SC3045
(ulimit -v 300000 && exec "$program" route /dev/zero out.routes out.cert) </dev/null >"$room/said" 2>"$room/complained"
got=$?
judge 'a design without end, and little memory' 3
said 'refused 8'
# shellcheck disable=SC3045
yes 'a 0 !' | (ulimit -v 300000 && exec "$program" measure one_net.gr /dev/stdin) >"$room/said" 2>"$room/complained"
got=$?
judge 'routes without end, and little memory' 8
left 'no routes of these' out.routes - none
left 'no certificate of these' out.cert - none

# ---- two names of one file

# Each program on few_exits, with each of its inputs named anew as its output; and then both outputs of `route`.
mkdir folder
ln -s . here
keep
about='one file: '
spelled() {
    words=$(echo "$words" | sed 's/many\./few_exits./g; s/wide\./few_exits./g; s/--turns 1/--turns 4/')
    for input in $words; do
        case $input in
        few_exits.* | none.edits) ;;
        *) continue ;;
        esac
        cp "$input" "$room/given"
        for way in './' 'folder/../' 'here/' 'its whole path' 'a symbolic link' 'a hard link'; do
            cp "$input" given.csv
            keep
            case $way in
            'a symbolic link') ln -s given.csv alias.csv && out=alias.csv ;;
            'a hard link') ln given.csv alias.csv && out=alias.csv ;;
            'its whole path') out=$PWD/given.csv ;;
            *) out=${way}given.csv ;;
            esac
            # shellcheck disable=SC2046
            expect "$output: in the place of $input, by $way" 7 'refused 7' $(with "$out" | sed "s| $input| given.csv|; s|^$input|given.csv|")
            rm -f alias.csv given.csv side.routes side.cert
        done
    done
}
for_outputs spelled
rm -rf "$room/kept"
rm -f given.csv
keep
program=$room/grouter
cp one_net.gr given.gr
keep
# shellcheck disable=SC2094
"$program" route /dev/stdin given.gr side.cert <given.gr >"$room/said" 2>"$room/complained"
got=$?
said 'refused 7'
judge 'routes in the place of standard input' 7
rm -f given.gr side.cert
keep
for way in './both' 'here/both' 'a symbolic link' 'a hard link' 'a symbolic link to nothing'; do
    out='alias'
    case $way in
    'a symbolic link') : >both && ln -s both alias ;;
    'a hard link') echo before >both && ln both alias ;;
    'a symbolic link to nothing') ln -s both alias ;;
    *) out=$way ;;
    esac
    expect "a certificate in the place of routes, by $way" 7 'refused 7' route one_net.gr both "$out"
    left "the routes, whole, by $way" both one_net.routes
    rm -f alias
done
"$program" route one_net.gr /dev/stdout side.cert </dev/null >both 2>"$room/complained"
got=$?
# a user expects both texts, or neither
if [ $got -eq 0 ]; then
    cp both "$room/said"
    cat one_net.routes - >"$room/wanted" <<'REPORT'
nets 1
forced 0
rounded 0
rounds 0
overflow 0
wirelength 2
peak 1/2
bound 1/2
REPORT
    judge 'routes and report in one file' 0
else
    : >"$room/said"
    said ''
    judge 'routes and report in one file' 7
fi
rm -f both side.cert
about=
rm here

# ---- folders, and what nobody may

mkdir folder.csv
: >kept
chmod 444 kept
keep
refused_outputs() {
    for out in folder.csv missing/out.csv one_net.gr/out.csv loop.csv missing.csv; do
        [ $out != loop.csv ] || ln -s loop.csv loop.csv
        [ $out != missing.csv ] || ln -s missing/out.csv missing.csv
        # shellcheck disable=SC2046
        expect "$output: to $out" 7 'refused 7' $(with $out)
        beside "$output: to $out"
        rm -f loop.csv missing.csv
    done
    long=$(printf '%0300d' 0).csv
    # shellcheck disable=SC2046
    expect "$output: to a name of 304 bytes" 7 'refused 7' $(with "$long")
    beside "$output: to a name of 304 bytes"
    ln -s out.csv new.csv
    # shellcheck disable=SC2046
    expect "$output: to a link to a file that is not there" 0 "$(cat "$whole.report")" $(with new.csv)
    left "$output: the file that the link means" out.csv "$whole"
    rm -f new.csv side.routes side.cert
}
for_outputs refused_outputs
refused_inputs() {
    for input in $words; do
        case $input in
        many.* | wide.* | none.edits) ;;
        *) continue ;;
        esac
        ln -s loop loop
        for bad in folder missing missing/many.gr one_net.gr/many.gr loop; do
            # shellcheck disable=SC2046
            expect "$output: $bad in the place of $input" 6 'refused 6' $(with out.csv | sed "s| $input| $bad|; s|^$input|$bad|")
            left "$output: nothing from $bad" out.csv - none
        done
        rm loop
    done
}
for_outputs refused_inputs

# as_nobody: by whom files are opened where permissions are to count
as_nobody=
if [ "$(id -u)" -eq 0 ]; then
    as_nobody='setpriv --reuid=65534 --regid=65534 --clear-groups'
fi
if $as_nobody true 2>/dev/null; then
    mkdir "$room/closed" "$room/open"
    chmod 555 "$room/closed"
    chmod 777 "$room/open"
    forbidden() {
        for where in "$room/closed/out.csv" "$room/open/kept.csv"; do
            echo 'what was there before' >"$room/open/kept.csv"
            chmod 444 "$room/open/kept.csv"
            # shellcheck disable=SC2046
            (exec $as_nobody "$program" $(with "$where" | sed "s|side|$room/open/side|")) </dev/null >"$room/said" 2>"$room/complained"
            got=$?
            said 'refused 7'
            judge "$output: to ${where##*/open/}, which nobody may write" 7
            echo 'what was there before' >"$room/before"
            left "$output: and it stays" "$room/open/kept.csv" "$room/before"
            left "$output: and no other is there" "$room/closed/out.csv" - none
            rm -f "$room/open"/*
        done
    }
    for_outputs forbidden
    cp one_net.gr "$room/open/secret.gr"
    chmod 000 "$room/open/secret.gr"
    said 'refused 6'
    (exec $as_nobody "$room/grouter" route "$room/open/secret.gr" "$room/open/a.routes" "$room/open/a.cert") </dev/null >"$room/said" 2>"$room/complained"
    got=$?
    judge 'a design that nobody may read' 6
    left 'and no routes of it' "$room/open/a.routes" - none
else
    leave_out 'files that nobody may write' 'there is no setpriv'
fi

# ---- names

bad=$(printf 'a\377.csv')
cp one_net.gr "$bad"
keep
no_text() {
    usage=$("$program" 2>/dev/null)
    count=$(echo "$words" | wc -w)
    at=1
    while [ $at -le "$count" ]; do
        # shellcheck disable=SC2046
        expect "$output: word $at is no text" 2 "$usage" $(with out.csv | awk -v at=$at -v bad="$bad" '{ $at = bad; print }')
        at=$((at + 1))
    done
    # shellcheck disable=SC2046
    expect "$output: a further word that is no text" 2 "$usage" $(with out.csv) "$bad"
    left "$output: nothing by such words" out.csv - none
}
for_outputs no_text
rm -f "$bad"
keep
no_name() {
    usage=$("$program" 2>/dev/null)
    for input in $words; do
        case $input in
        *.* | OUT) ;;
        *) continue ;;
        esac
        set --
        for word in $(with out.csv); do
            [ "$word" != "$input" ] && { [ "$input" != OUT ] || [ "$word" != out.csv ]; } || word=
            set -- "$@" "$word"
        done
        expect "$output: no name in the place of $input" 2 "$usage" "$@"
    done
    left "$output: nothing without a name" out.csv - none
}
for_outputs no_name
program=$room/grouter
measured='nets 1
forced 0
beyond 0
overflow 0
wirelength 2
peak 1/2'
for file in 'é ü.gr' "$(printf 'two\nlines.gr')" "a'\"\\.gr" '*' ' ' '~'; do
    cp one_net.gr "./$file"
    expect "a design with the name $(echo "$file" | tr '\n' ' ')" 0 "$measured" measure "$file" one_net.routes
    rm -f "./$file"
done

# ---- what all runs left

rm -rf folder folder.csv
ls >"$room/said"
printf '%s\n' cut_off.routes detour.cert detour.gr detour.routes detour_edited.gr detour_edited.routes few_exits.cert few_exits.gr few_exits.routes \
    few_exits_climbed.cert few_exits_cut.cert full.csv kept many.cert many.gr many.routes misspelled.gr none.edits one_net.cert one_net.gr \
    one_net.routes overstated.cert three_layers.cert three_layers.gr three_layers.routes wide.cert wide.gr wide.routes >"$room/wanted"
: >"$room/complained"
got=0
judge 'no other file was made' 0

echo "$passed passed, $failed failed, $left_out left out; of the failed ones $about_failed are about two names of one file"
[ "$failed" -eq 0 ]
