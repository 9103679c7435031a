#!/bin/sh
# Runs the built programs on real files, and compares their status and what they wrote, byte for byte, with what
# docs/FORMATS.md says.
#
#   tests/program/check.sh [GROUTER [UNAVOIDABLE [REROUTE [CONGESTION_MAP]]]]
#
# Without words it takes the programs that `rt ci` left in crates/*/out, and has one built where there is none. It
# prints a line for each case, then how many passed and failed, and fails where one did.
#
# The routes were worked out by hand, and the certificates and reports from them by a program of another make. In these runs
# each net has only one route of least weight at the prices of the loads before it, so none of the texts rests on a choice
# that is left to the program.
set -u
export LC_ALL=C

top=$(CDPATH='' cd -- "$(dirname -- "$0")/../.." && pwd)
here=$top/tests/program
examples=$top/examples

room=$(mktemp -d)
trap 'rm -rf "$room"' EXIT
mkdir "$room/files" "$room/files/folder"

# take NAME FILE: copies the built program, and has it built where there is none
take() {
    if [ ! -f "$2" ]; then
        # it ends with the program's own status, which for no words is 2
        (cd "$top/crates/$1" && rt run) </dev/null >&2
    fi
    if [ ! -f "$2" ]; then
        echo "FAILED: the program is not built: $2"
        echo "0 passed, 1 failed"
        exit 1
    fi
    cp "$2" "$room/$1" && chmod +x "$room/$1"
}
take grouter "${1:-$top/crates/grouter/out/grouter}"
take unavoidable "${2:-$top/crates/unavoidable/out/unavoidable}"
take reroute "${3:-$top/crates/reroute/out/reroute}"
take congestion_map "${4:-$top/crates/congestion_map/out/congestion_map}"
program=$room/grouter
cp "$examples"/*.gr "$room/files"
cd "$room/files" || exit 1

passed=0
failed=0

usage_of_grouter='refused 2
usage: grouter route|measure|judge|make|trial|eco|climb|guide'

# judge NAME STATUS: compares the status that was got, and what was said, with what is wanted
judge() {
    if [ "$got" -ne "$2" ]; then
        why="status $got, and not $2"
    elif ! cmp -s "$room/wanted" "$room/said"; then
        why="it wrote: $(head -c 300 "$room/said")"
    elif [ -s "$room/complained" ]; then
        why="it complained: $(head -c 300 "$room/complained")"
    else
        passed=$((passed + 1))
        echo "ok: $1"
        return
    fi
    failed=$((failed + 1))
    echo "FAILED: $1: $why"
}

# expect NAME STATUS LINES WORD..: runs the program on the words; each of the lines ends in a line feed
expect() {
    name=$1 status=$2 lines=$3
    shift 3
    if [ -n "$lines" ]; then printf '%s\n' "$lines"; fi >"$room/wanted"
    "$program" "$@" </dev/null >"$room/said" 2>"$room/complained"
    got=$?
    judge "$name" "$status"
}

# expect_unheard NAME STATUS WORD..: the same, where nothing can be written
expect_unheard() {
    name=$1 status=$2
    shift 2
    : >"$room/wanted"
    : >"$room/said"
    "$program" "$@" </dev/null >/dev/full 2>"$room/complained"
    got=$?
    judge "$name" "$status"
}

# A row of three tiles with one net of two pins, in 144 bytes. What begins at these bytes can be given: the vertical capacity
# (29), the horizontal one (51), the width (67), the lower-left corner and the tile (101), and the count of nets with all
# that follows (119).
row() {
    printf 'grid 3 1 1\nvertical capacity %s\nhorizontal capacity %s\nminimum width %s\nminimum spacing 1\nvia spacing 1\n%s\nnum net %s\n' \
        "${1:-4}" "${2:-4}" "${3:-1}" "${4:-0 0 10 10}" "${5:-$one_net}"
}
one_net='1
a 0 2 1
5 5 1
25 5 1
0'

# refused NAME STATUS LINE: the text in refused.gr has this refusal
refused() {
    expect "$1" "$2" "$3" route refused.gr a.routes a.cert
    rm refused.gr
}

# made NAME FILE WANTED: the run before made this file with these bytes
made() {
    cp "$3" "$room/wanted"
    : >"$room/complained"
    cp "$2" "$room/said"
    got=0
    judge "$1" 0
    rm "$2"
}

# ---- designs that are routed

routed() {
    example=$1
    shift
    expect "the example $example" 0 "$(cat "$here/$example.report")" route "$example.gr" a.routes a.cert "$@"
    made "the routes of $example" a.routes "$examples/$example.routes"
    made "the certificate of $example" a.cert "$examples/$example.cert"
}
routed one_net
routed detour --phases 1
routed three_layers --phases 1 --workers 1
routed few_exits
expect 'no rounds of repair' 0 "$(sed 's/^rounds 4$/rounds 0/' "$here/three_layers.report")" route three_layers.gr a.routes a.cert --phases 1 --rounds 0
made 'routes without repair' a.routes "$examples/three_layers.routes"
rm a.cert

# two nets along a side of three tiles, on which only one has room
row 2 2 1 '0 0 10 10' '2
a 0 2 1
5 5 1
25 5 1
b 1 2 1
5 5 1
25 5 1
0' | sed 's/^grid 3 1 1$/grid 3 2 1/' >along.gr
expect 'a net that goes round in the first round of repair' 0 'nets 2
forced 0
rounded 4
rounds 1
overflow 0
wirelength 6
peak 1/1
bound 51032/68451' route along.gr a.routes a.cert --phases 1
printf '%s\n' 'a 0' '(5,15,1)-(25,15,1)' '(5,5,1)-(5,15,1)' '(25,5,1)-(25,15,1)' '!' 'b 1' '(5,5,1)-(25,5,1)' '!' >"$room/along.routes"
made 'its routes' a.routes "$room/along.routes"
printf '%s\n' 'grouter certificate 1' 'nets 2' 'forced 0' 'overflow 0' 'wirelength 6' 'peak 1/1' 'bound 51032/68451' 'prices 7' \
    12758 8587 12758 8587 8587 8587 8587 >"$room/along.cert"
made 'its certificate' a.cert "$room/along.cert"

row 0 4 1 '0 0 10 10' 0 >'no nets.gr'
expect 'a design without nets, under a name with a space' 0 'nets 0
forced 0
rounded 0
rounds 0
overflow 0
wirelength 0
peak 0/1
bound 0/1' route 'no nets.gr' 'no nets.routes' a.cert
: >"$room/empty"
made 'no routes' 'no nets.routes' "$room/empty"
rm a.cert

row 0 4 1 '-10 -10 10 10' '1
a 0 2 1
-5 -5 1
15 -5 1
0' | sed "s/\$/$(printf '\r')/" >folder/crlf.gr
expect 'line ends of two bytes, negative places, in a folder' 0 "$(cat "$here/one_net.report")" route folder/crlf.gr a.routes folder/a.cert
printf '%s\n' 'a 0' '(-5,-5,1)-(15,-5,1)' '!' >"$room/crlf.routes"
made 'routes at negative places' a.routes "$room/crlf.routes"
made 'a certificate in a folder' folder/a.cert "$examples/one_net.cert"

# each of the two edges has capacity 4 and the load 24000, and so each net costs two edges of the same price
many=12000
row 4 4 1 '0 0 10 10' "$(awk -v n=$many 'BEGIN { print n; for (k = 0; k < n; k++) printf "n %d 2 1\n5 5 1\n25 5 1\n", k; print 0 }')" >many.gr
awk -v n=$many 'BEGIN { for (k = 0; k < n; k++) printf "n %d\n(5,5,1)-(25,5,1)\n!\n", k }' >"$room/many.routes"
expect 'twelve thousand nets' 0 'nets 12000
forced 0
rounded 47992
rounds 4
overflow 47992
wirelength 24000
peak 6000/1
bound 6000/1' route many.gr a.routes a.cert --workers 4 --seed 3
made 'twelve thousand routes' a.routes "$room/many.routes"
rm a.cert

# whole NAME DESIGN NETS WIRELENGTH PEAK BOUND GREATEST: a design with room for all is routed in one phase, the routes are
# accepted, and the greatest bound is found that any prices show
whole() {
    name=$1 design=$2
    measured="nets $3
forced 0
beyond 0
overflow 0
wirelength $4
peak $5"
    expect "$name" 0 "$(echo "$measured" | sed 's/^beyond 0$/rounded 0\nrounds 0/')
bound $6" route "$design" a.routes a.cert --phases 1
    expect "$name, judged" 0 "yes
$measured
bound $6" judge "$design" a.routes a.cert
    "$room/unavoidable" "$design" a.routes a.cert b.cert </dev/null >"$room/shown" 2>"$room/complained"
    got=$?
    echo "bound $7" >"$room/wanted"
    grep '^bound' "$room/shown" >"$room/said"
    judge "$name, its greatest bound" 0
    rm "$design" a.routes a.cert b.cert
}
# All prices are equal, since 8 times a load is less than twice a capacity. The third net has its pins at each fifth tile of the
# first 14,996. The bound is 2 (2 * 19,999 + 14,995) edges by 100 * 19,999. Each of the first edges has three nets in every
# routing, so a price on some of them alone shows their peak.
row 4 100 1 '0 0 10 10' "$(awk 'BEGIN { print 3; print "a 0 2 1\n5 5 1\n199995 5 1"; print "b 1 3 1\n5 5 1\n50005 5 1\n199995 5 1"
    print "c 2 3000 1"; for (k = 0; k < 3000; k++) print 50 * k + 5, 5, 1 }')" | sed 's/^grid 3 1 1$/grid 20000 1 1/' >long.gr
whole 'long routes, and a net of three thousand pins' long.gr 3 54993 3/50 54993/999950 3/50
# More than a million vertices, of which a net joins three in a row. Its two edges have index 4, and of the 2,197,898 others each
# costs less; so the bound is 2 * 2 * 12758 by 4 (2 * 12758 + 2197898 * 11556). Half of the net over each of the two edges of
# its corner, by two ways, is a mixed routing with loads of 1, so no prices show more than 1/4.
row 4 4 | sed 's/^grid 3 1 1$/grid 1100 1000 1/' >wide.gr
whole 'a million vertices' wide.gr 1 2 1/2 6379/12699467402 1/4

# what stood in the files before is replaced
head -c 1000 many.gr >a.routes
head -c 1000 many.gr >a.cert
routed one_net

# ---- routes that are measured and judged

# The routes and certificates of examples/ are copied in, and every number that is wanted here was worked out by hand.
cp "$examples"/*.routes "$examples"/*.cert .
measured='nets 3
forced 0
beyond 0
overflow 0
wirelength 11
peak 1/2'
expect 'routes are measured' 0 "$measured" measure detour.gr detour.routes
expect 'routes and their certificate are accepted' 0 "yes
$measured
bound 41633/378056" judge detour.gr detour.routes detour.cert
expect 'a route that lacks a via' 1 'no 47 0' judge detour.gr cut_off.routes detour.cert
expect 'a route that lacks a via, measured' 1 'no 47 0' measure detour.gr cut_off.routes
expect 'a bound that the prices do not show' 1 'no 52 1/2 41633/378056' judge detour.gr detour.routes overstated.cert

expect 'guides are written' 0 'guides 3' guide detour.gr detour.routes a.guide
made 'the guides' a.guide "$examples/detour.guide"
expect 'no guides of a route that lacks a via' 1 'no 47 0' guide detour.gr cut_off.routes a.guide
expect 'no file of guides for an objection' 6 'refused 6' measure a.guide detour.routes
row 0 4 1 '1099511627747 0 10 10' 0 >far.gr
expect 'a design that guides can not hold' 3 'refused 3 23' guide far.gr missing.routes a.guide
expect 'guides that can not be created' 7 'refused 7' guide detour.gr detour.routes folder
rm far.gr

# ---- edits of routed designs

# unmade NAME FILE: no run made this file
unmade() {
    : >"$room/wanted"
    : >"$room/said"
    : >"$room/complained"
    got=0
    [ ! -e "$2" ] || got=1
    judge "$1" 0
}

# refuses NAME STATUS LINES WORD..: eco says these lines of three names, and makes no file
refuses() {
    name=$1 status=$2 lines=$3
    shift 3
    expect "$name" "$status" "$lines" eco "$@" out.routes
    unmade "$name: no routes" out.routes
}

# Three nets in a row of three tiles: each has one set that joins its pins.
crowd='3
a 0 2 1
5 5 1
25 5 1
b 1 2 1
5 5 1
25 5 1
c 2 2 1
5 5 1
25 5 1
0'
row 0 4 1 '0 0 10 10' "$crowd" >crowd.gr
printf '%s\n' 'a 0' '(5,5,1)-(25,5,1)' '!' 'b 1' '(5,5,1)-(25,5,1)' '!' 'c 2' '(5,5,1)-(25,5,1)' '!' >crowd.routes
printf '%s' 'edits 1 drop 1' >a.edits
expect 'a net is dropped' 0 'nets 2
forced 0
kept 2
routed 0
overflow 0
wirelength 4
peak 1/1' eco crowd.gr crowd.routes a.edits out.routes
printf '%s\n' 'a 0' '(5,5,1)-(25,5,1)' '!' 'c 2' '(5,5,1)-(25,5,1)' '!' >"$room/out.routes"
made 'the routes of the others' out.routes "$room/out.routes"
printf '%s' 'edits 2 drop 1 add d 1 2 1 5 5 1 25 5 1' >a.edits
edited='nets 3
forced 0
kept 2
routed 1
overflow 4
wirelength 6
peak 3/2'
expect 'an id that was dropped is added' 0 "$edited" eco crowd.gr crowd.routes a.edits out.routes
printf '%s\n' 'd 1' '(5,5,1)-(25,5,1)' '!' >>"$room/out.routes"
made 'the routes with that of the net that came' out.routes "$room/out.routes"
printf '%s' 'edits 1 drop 9' >a.edits
refuses 'an edit of a net that is not there' 9 'refused 9 62 0 9' crowd.gr crowd.routes a.edits
printf '%s' 'edits 1 drop' >a.edits
refuses 'edits that end too early' 4 'refused 4 61 12' crowd.gr crowd.routes a.edits

# Edits that are refused, each alone and behind one that is made. The design has one layer, whose edges along y are walls.
row 0 4 1 '0 0 10 10' "$crowd" | sed 's/^grid 3 1 1$/grid 3 2 1/' >rows.gr
while IFS='|' read -r number field edit; do
    printf 'edits 1 %s' "$edit" >a.edits
    refuses "an edit that $number refuses" 9 "refused 9 $number 0$field" rows.gr crowd.routes a.edits
    printf 'edits 3 drop 2 %s drop 2' "$edit" >a.edits
    refuses "an edit that $number refuses, behind another" 9 "refused 9 $number 1$field" rows.gr crowd.routes a.edits
done <<'EDITS'
62| 9|change 9 0 1
62| 8|change 8 1 1023 31 5 0
63| 1|add d 1 1 1023 31 5 0
64| 2|add d 3 3 1 5 5 2 30 20 1 5 21 1
64| 0|change 1 2 1023 -1 5 1 5 5 0
65| 1|add d 3 2 1023 5 5 1 5 15 0
65| 0|change 1 1 1 5 5 2
67||add d 3 1 1023 5 5 1
67||change 1 2 1023 5 5 1 5 15 1
68| 1|add d 3 2 1022 5 5 1 5 15 1
68| 2|change 1 4 1 5 5 1 15 5 1 15 15 1 5 15 1
EDITS
printf '%s' 'edits 3 drop 1 add d 1 0 1 add e 1 0 1' >a.edits
refuses 'an id that an edit before it added' 9 'refused 9 63 2 1' crowd.gr crowd.routes a.edits
rm rows.gr

# The steps of this example have one lightest set each; see examples/README.md.
edited_example='nets 3
forced 0
kept 1
routed 2
overflow 0
wirelength 19
peak 1/2'
expect 'the example detour, edited' 0 "$edited_example" eco detour.gr detour.routes "$examples/detour.edits" out.routes
expect 'its routes, measured on the edited design' 0 "$(echo "$edited_example" | sed 's/^kept 1$/beyond 0/; /^routed/d')" measure detour_edited.gr out.routes
made 'its routes' out.routes "$examples/detour_edited.routes"
printf 'edits 0\r\n' >none.edits
expect 'no edits' 0 'nets 3
forced 0
kept 3
routed 0
overflow 0
wirelength 11
peak 1/2' eco detour.gr detour.routes none.edits out.routes
made 'the routes that were given' out.routes "$examples/detour.routes"
printf '%s' 'clk 0 (35,5,2)-(39,19,2) (35,15,1)-(35,15,2) (0,10,1)-(15,15,1) (35,15,1)-(5,15,1) (5,15,2)-(5,15,1) (5,5,2)-(5,15,2)! data 1 9
    (5,5,1)-(5,5,2) (5,5,2)-(5,25,2) (5,25,2)-(5,25,1) (5,25,2)-(5,15,2)!' >other.routes
expect 'routes of another make, and a net without a block' 0 "$edited_example" eco detour.gr other.routes "$examples/detour.edits" out.routes
made 'their edited routes' out.routes "$examples/detour_edited.routes"

# the first of these that comes ends the run, and nothing behind it is read
echo grid >bad.gr
row 0 0 >cut.gr
printf '%s' 'edits 1 dorp 1' >bad.edits
refuses 'no design to be edited' 3 'refused 3 11 5 number' bad.gr missing.routes missing.edits
refuses 'a net that is cut off, and no edits' 5 'refused 5 4 0 1' cut.gr missing.routes missing.edits
refuses 'routes that are missing, and no edits' 6 'refused 6' detour.gr missing.routes bad.edits
refuses 'no route text, and no edits' 4 'refused 4 31 9' detour.gr crowd.gr missing.edits
refuses 'an objection, and edits that are none' 1 'no 47 0' detour.gr cut_off.routes bad.edits
refuses 'an objection, and edits that are missing' 1 'no 47 0' detour.gr cut_off.routes missing.edits
refuses 'a net without a block, before its edits' 1 'no 43 1' crowd.gr one_net.routes missing.edits
refuses 'edits that are missing' 6 'refused 6' detour.gr detour.routes missing.edits
refuses 'edits in a folder' 6 'refused 6' detour.gr detour.routes folder
refuses 'a word that begins no edit' 4 'refused 4 61 8' detour.gr detour.routes bad.edits
truncate -s 1073741825 long
refuses 'edits that are too long' 4 'refused 4 35' detour.gr detour.routes long
rm long bad.gr cut.gr bad.edits
expect 'routes of edits in a folder that is missing' 7 'refused 7' eco detour.gr detour.routes none.edits missing/out.routes
expect_unheard 'edited routes whose report can not be said' 7 eco detour.gr detour.routes none.edits out.routes
made 'edited routes without a report' out.routes "$examples/detour.routes"
expect_unheard 'an objection before edits that can not be said' 1 eco detour.gr cut_off.routes none.edits out.routes
expect_unheard 'a refused edit that can not be said' 9 eco crowd.gr crowd.routes a.edits out.routes
unmade 'no routes of what can not be said' out.routes
for same in detour.gr detour.routes none.edits; do
    expect "edited routes in the place of $same" 2 "$usage_of_grouter" eco detour.gr detour.routes none.edits "$same"
done
expect 'no name for the edited routes' 2 "$usage_of_grouter" eco detour.gr detour.routes none.edits
expect 'an option of no command' 2 "$usage_of_grouter" eco detour.gr detour.routes none.edits out.routes --rounds 1
unmade 'no routes where the words are no command' out.routes
rm crowd.gr crowd.routes other.routes a.edits none.edits

# judged NAME STATUS LINES: a.routes and a.cert are judged by the example one_net
judged() {
    expect "$1" "$2" "$3" judge one_net.gr a.routes a.cert
    rm a.routes a.cert
}
cp "$examples/one_net.cert" a.cert
printf 'x 0 77 (0, 0, 1) - (29, 9, 1) (25,5,1)-(25,5,1)!' >a.routes
judged 'routes of another make' 0 'yes
nets 1
forced 0
beyond 0
overflow 0
wirelength 2
peak 1/2
bound 1/2'
for reason in '41 0:a 9 !' '42 0:a 0 (5,5,1)-(25,5,1)! a 0 !' '43 0:' \
    '44 0 1:a 0 (0,0,1)-(30,10,1) (5,5,1)-(31,5,1)!' '47 0:a 0 (5,5,1)-(15,5,1)!'; do
    cp "$examples/one_net.cert" a.cert
    printf '%s' "${reason#*:}" >a.routes
    judged "the reason ${reason%%:*}" 1 "no ${reason%%:*}"
done
printf 'clk 0 (15,15,1)-(5,15,1) (5,5,1)-(15,15,1)!' >a.routes
expect 'the reason 45 0 1' 1 'no 45 0 1' measure detour.gr a.routes
printf 'clk 0 (5,5,2)-(5,25,2) (5,5,1)-(5,15,1)!' >a.routes
expect 'the reason 46 0 1, a wall' 1 'no 46 0 1' measure detour.gr a.routes
for reason in '48 1 0:s/overflow 0/overflow 1/' '49 3 2:s/wirelength 2/wirelength 3/' '50 1/4 1/2:s,peak 1/2,peak 2/8,' \
    '51 nets 2 1:s/nets 1/nets 2/' '51 forced 1 0:s/forced 0/forced 1/' '52 5/1 1/2:s,bound 1/2,bound 5/1,' \
    '52 none 1/2:s,bound 1/2,bound none,'; do
    sed "${reason#*:}" "$examples/one_net.cert" >a.cert
    cp "$examples/one_net.routes" a.routes
    judged "the reason ${reason%%:*}" 1 "no ${reason%%:*}"
done
for refusal in '31 2:a 0!:' '32 20:a 0 !:s/certificate 1/certificate 3/' '33 90:a 0 !:0,/12758/s//40000/' '34 27:a 0 !:s/nets 1/nets 4294967296/'; do
    text=${refusal#*:}
    sed "${text#*:}" "$examples/one_net.cert" >a.cert
    printf '%s' "${text%%:*}" >a.routes
    judged "the refusal ${refusal%%:*}" 4 "refused 4 ${refusal%%:*}"
done
expect 'routes that are missing' 6 'refused 6' judge one_net.gr missing.routes detour.cert
expect 'a certificate that is missing' 6 'refused 6' judge one_net.gr detour.routes missing.cert
expect_unheard 'a verdict that can not be said' 7 judge detour.gr detour.routes detour.cert
expect_unheard 'an objection that can not be said' 1 judge detour.gr cut_off.routes detour.cert
# a text that has to be refused ends the run before the next file is opened
echo grid >bad.gr
row 0 0 >cut.gr
expect 'no design, and no routes' 3 'refused 3 11 5 number' judge bad.gr missing.routes missing.cert
expect 'a net that is cut off, and no routes' 5 'refused 5 4 0 1' measure cut.gr missing.routes
expect 'no route text, and no certificate' 4 'refused 4 31 9' judge one_net.gr detour.gr missing.cert
rm bad.gr cut.gr
truncate -s 1073741825 long
expect 'a design that is too long' 3 'refused 3 13' measure long detour.routes
expect 'a route text that is too long' 4 'refused 4 35' measure detour.gr long
expect 'a certificate that is too long' 4 'refused 4 35' judge detour.gr detour.routes long
rm long ./*.routes ./*.cert

# ---- congestion that no router avoids

# The exits of the block have room for six of its eight nets. In one_net and among the twelve thousand nets the given certificates
# state all that can be shown of the peak, so the new ones are the given ones.
cp "$examples"/*.routes "$examples"/*.cert .
program=$room/unavoidable
expect 'a block with too few exits' 0 "$(cat "$here/few_exits.findings")" few_exits.gr few_exits.routes few_exits.cert new.cert
made 'the certificate of its exits' new.cert "$examples/few_exits_cut.cert"
expect 'the block, by its routes alone' 0 "$(cat "$here/few_exits.findings")" few_exits.gr few_exits.routes new.cert
made 'the certificate of its exits, by the routes alone' new.cert "$examples/few_exits_cut.cert"
expect 'a net with room' 0 'bound 1/2
bottleneck 0
overflow 0
cut 0
routes 0' one_net.gr one_net.routes one_net.cert new.cert
made 'a certificate that is as good as any' new.cert "$examples/one_net.cert"
printf '%s\n' 'grouter certificate 1' 'nets 12000' 'forced 0' 'overflow 47992' 'wirelength 24000' 'peak 6000/1' 'bound 6000/1' \
    'prices 2' 1 1 >many.cert
expect 'twelve thousand nets over two edges' 0 'bound 6000/1
bottleneck 0
overflow 47992
cut 2
(5,5,1)-(15,5,1) 32768
(15,5,1)-(25,5,1) 32768
routes 47992' many.gr "$room/many.routes" many.cert new.cert
made 'their certificate' new.cert many.cert
# shown NAME DESIGN NETS WIRELENGTH OVERFLOW PEAK PRICES BOUND EDGES: of a.routes, whose certificate claims no bound, the edges are
# shown to have this bound, and to be where all of the overflow is; so they are where no certificate is given
shown() {
    {
        printf '%s\n' 'grouter certificate 1' "nets $3" 'forced 0' "overflow $5" "wirelength $4" "peak $6" 'bound 0/1' "prices $7"
        yes 0 | head -n "$7"
    } >a.cert
    priced=$(echo "$9" | sed 's/$/ 32768/')
    count=$(echo "$9" | grep -c .)
    found="bound $8
bottleneck $count
$priced
overflow $5
cut $count
$priced
routes $5"
    expect "$1" 0 "$found" "$2" a.routes a.cert new.cert
    mv new.cert a.cert
    expect "$1, by the routes alone" 0 "$found" "$2" a.routes new.cert
    made "$1, by the routes alone: the certificate" new.cert a.cert
    rm "$2" a.routes a.cert
}
# across CAPACITY NETS: nets from left to right over two columns of 24 tiles, each along its row, and as many to a row as can be
across() {
    row 10000 "$1" 1 '0 0 10 10' "$(awk -v n="$2" 'BEGIN { print n
        for (k = 0; k < n; k++) { y = k % 24 * 10 + 5; printf "n %d 2 1\n5 %d 1\n15 %d 1\n", k, y, y } }')" | sed 's/^grid 3 1 1$/grid 2 24 1/' >across.gr
    awk -v n="$2" 'BEGIN { for (k = 0; k < n; k++) { y = k % 24 * 10 + 5; printf "n %d (5,%d,1)-(15,%d,1) !\n", k, y, y } }' >a.routes
}
edges=$(awk 'BEGIN { for (y = 5; y < 240; y += 10) printf "(5,%d,1)-(15,%d,1)\n", y, y }')
across 2 36
shown 'a cut of 24 edges' across.gr 36 36 24 2/1 70 3/2 "$edges"
across 40 720
shown 'the same with hundreds of nets' across.gr 720 720 480 3/2 70 3/2 "$edges"
row 0 2 1 '0 0 10 10' '2
a 0 3 1
15 5 1
5 5 1
25 5 1
b 1 3 1
15 5 1
5 5 1
25 5 1' >middle.gr
printf '%s\n' 'a 0 (5,5,1)-(25,5,1) !' 'b 1 (5,5,1)-(25,5,1) !' >a.routes
shown 'nets with a pin on both sides' middle.gr 2 4 4 2/1 2 2/1 '(5,5,1)-(15,5,1)
(15,5,1)-(25,5,1)'
row 0 2 1 '0 0 10 10' "$(awk 'BEGIN { print 5; for (k = 0; k < 5; k++) printf "n %d 2 1\n5 5 1\n15 5 1\n", k }')" |
    awk '/^grid/ { $0 = "grid 2 1 2" } /capacity|width|spacing/ { $0 = $0 " " $NF } { print }' >layers.gr
awk 'BEGIN { for (k = 0; k < 5; k++) print "n", k, k < 3 ? "(5,5,1)-(15,5,1) !" : "(5,5,1)-(5,5,2) (5,5,2)-(15,5,2) (15,5,1)-(15,5,2) !" }' >a.routes
shown 'a tile edge that is open on two layers' layers.gr 5 9 6 3/1 2 5/2 '(5,5,1)-(15,5,1)
(5,5,2)-(15,5,2)'
# better routes, what no routing on the nets' grounds does better, and both judged
program=$room/reroute
expect 'the block routed better' 0 'nets 8
forced 0
routed 8
rerouted 0
rounds 30
overflow 4
wirelength 49
peak 3/2
given 0 0' few_exits.gr better.routes
program=$room/unavoidable
expect 'what none does better' 0 "$(cat "$here/few_exits.findings")" few_exits.gr better.routes better.cert
program=$room/grouter
expect 'the better routes and their certificate' 0 'yes
nets 8
forced 0
beyond 0
overflow 4
wirelength 49
peak 3/2
bound 4/3' judge few_exits.gr better.routes better.cert
rm better.routes better.cert
program=$room/grouter
measured='nets 12000
forced 0
beyond 0
overflow 47992
wirelength 24000
peak 6000/1'
expect 'twelve thousand routes are measured' 0 "$measured" measure many.gr "$room/many.routes"
expect 'twelve thousand routes are accepted' 0 "yes
$measured
bound 6000/1" judge many.gr "$room/many.routes" many.cert
rm many.cert
expect 'the certificate of the exits is accepted' 0 'yes
nets 8
forced 0
beyond 0
overflow 4
wirelength 59
peak 3/2
bound 4/3' judge few_exits.gr few_exits.routes few_exits_cut.cert
program=$room/unavoidable
expect 'an objection' 1 'no 47 0' detour.gr cut_off.routes detour.cert new.cert
expect 'an objection to routes alone' 1 'no 47 0' detour.gr cut_off.routes new.cert
expect 'a bound that is not shown' 1 'no 52 1/2 41633/378056' detour.gr detour.routes overstated.cert new.cert
usage='refused 2
usage: unavoidable IN ROUTES [CERT] NEW'
expect 'no words to unavoidable' 2 "$usage"
expect 'no name for the new certificate' 2 "$usage" few_exits.gr few_exits.routes
expect 'a new certificate in the place of the given one' 2 "$usage" few_exits.gr few_exits.routes few_exits.cert few_exits.cert
expect 'a new certificate in the place of the routes' 2 "$usage" few_exits.gr few_exits.routes few_exits.routes
expect 'an option of no program' 2 "$usage" few_exits.gr few_exits.routes few_exits.cert new.cert --rounds 3
expect 'a name that is an option' 2 "$usage" few_exits.gr few_exits.routes few_exits.cert --help
expect 'words that are no text' 2 "$usage" few_exits.gr few_exits.routes few_exits.cert "$(printf '\377.cert')"
expect 'no design to be shown' 3 'refused 3 11 0 grid' few_exits.routes few_exits.gr few_exits.cert new.cert
expect 'no routes to be shown' 4 'refused 4 31 8' few_exits.gr few_exits.cert missing.cert new.cert
expect 'a certificate that is none' 4 'refused 4 32 0' few_exits.gr few_exits.routes detour.routes new.cert
row 0 0 >cut.gr
expect 'a net that is cut off, and no new certificate' 5 'refused 5 4 0 1' cut.gr missing.routes missing.cert new.cert
rm cut.gr
expect 'a certificate that is missing, and no new one' 6 'refused 6' few_exits.gr few_exits.routes missing.cert new.cert
expect 'a new certificate in a folder that is missing' 7 'refused 7' few_exits.gr few_exits.routes few_exits.cert missing/new.cert
expect_unheard 'findings that can not be said' 7 few_exits.gr few_exits.routes few_exits.cert new.cert
made 'a new certificate without a report' new.cert "$examples/few_exits_cut.cert"
expect_unheard 'an objection to routes that can not be said' 1 detour.gr cut_off.routes detour.cert new.cert

# ---- certificates that climb

# climbs NAME DESIGN ROUTES CERT NEW LINES [OPTION VALUE]: the report has these lines, and NEW is made with the bytes of that file
climbs() {
    name=$1 climbed_in=$2 climbed_by=$3 climbed_from=$4 wanted_new=$5 lines=$6
    shift 6
    expect "$name" 0 "$lines" climb "$climbed_in" "$climbed_by" "$climbed_from" new.cert "$@"
    made "$name: its certificate" new.cert "$wanted_new"
}

# Two ways round a square, of which the routes take one, whichever it is. The first turn takes the other one, and then all loads
# are 2.
program=$room/grouter
row 2 2 1 '0 0 10 10' '1
a 0 2 1
5 5 1
15 15 1
0' | sed 's/^grid 3 1 1$/grid 2 2 1/' >square.gr
expect 'two ways round a square' 0 'nets 1
forced 0
rounded 0
rounds 0
overflow 0
wirelength 2
peak 1/1
bound 5234/11613' route square.gr a.routes a.cert --phases 1
climbs 'one turn, which comes to the given prices' square.gr a.routes a.cert a.cert 'turn 0
bound 5234/11613' --turns 1
# square_cert BOUND PRICE PRICE PRICE PRICE
square_cert() {
    printf '%s\n' 'grouter certificate 1' 'nets 1' 'forced 0' 'overflow 0' 'wirelength 2' 'peak 1/1' "bound $1" 'prices 4' "$2" "$3" "$4" "$5"
}
square_cert 1/2 12758 12758 12758 12758 >"$room/square.cert"
climbs 'two turns, which come to both ways' square.gr a.routes a.cert "$room/square.cert" 'turn 2
bound 1/2' --turns 2
climbs 'four turns, of which the second is the first with its bound' square.gr a.routes a.cert "$room/square.cert" 'turn 2
bound 1/2'
climbs 'from there nothing is greater' square.gr a.routes "$room/square.cert" "$room/square.cert" 'turn 0
bound 1/2' --turns 00000000000000000016
printf '%s' 'a 0 9 (15,15,1)-(15,5,1) (5,5,1)-(15,5,1)!' >a.routes
square_cert 5234/11613 12758 10468 12758 10468 >"$room/way.cert"
square_cert 0/1 0 0 0 0 >a.cert
climbs 'prices that show nothing' square.gr a.routes a.cert "$room/way.cert" 'turn 1
bound 5234/11613' --turns 1
square_cert 1/3 12758 10468 12758 10468 >a.cert
climbs 'a bound below what the prices show' square.gr a.routes a.cert "$room/way.cert" 'turn 0
bound 5234/11613' --turns 1
square_cert 2/4 1 1 1 1 >a.cert
square_cert 1/2 1 1 1 1 >"$room/ones.cert"
climbs 'the given prices, where later ones show as much' square.gr a.routes a.cert "$room/ones.cert" 'turn 0
bound 1/2'
rm square.gr a.routes a.cert

# Each net of few_exits has one route of least weight in each of the turns, so all of them were worked out.
climbs 'too few turns for a greater bound' few_exits.gr few_exits.routes few_exits.cert few_exits.cert 'turn 0
bound 178793/550306'
climbs 'sixteen turns' few_exits.gr few_exits.routes few_exits.cert "$examples/few_exits_climbed.cert" 'turn 14
bound 108395/137376' --turns 16
climbs 'a bound that no mixture is below' few_exits.gr few_exits.routes few_exits_cut.cert few_exits_cut.cert 'turn 0
bound 4/3'
expect 'the certificate of sixteen turns is accepted' 0 'yes
nets 8
forced 0
beyond 0
overflow 4
wirelength 59
peak 3/2
bound 108395/137376' judge few_exits.gr few_exits.routes few_exits_climbed.cert

# A budget of one piece for a route of two. After i turns the edges have half of their capacity for each, and the wirelength twice
# its budget; so the edges get cheaper by 12 places of the table in each turn.
# row_cert BOUND PRICE-OF-A-PIECE PRICE
row_cert() {
    printf '%s\n' 'grouter certificate 2' 'nets 1' 'forced 0' 'overflow 0' 'wirelength 2' 'peak 2/1' "bound $1" "budget 1 $2" 'prices 2' "$3" "$3"
}
row_cert 0/1 7 0 >a.cert
row_cert 2/1 7 0 >"$room/row.cert"
climbs 'a price of the wirelength alone' one_net.gr one_net.routes a.cert "$room/row.cert" 'turn 0
bound 2/1' --turns 16
row_cert 0/1 0 0 >a.cert
row_cert 31720/44303 12758 9481 >"$room/row.cert"
climbs 'one turn with a budget' one_net.gr one_net.routes a.cert "$room/row.cert" 'turn 1
bound 31720/44303' --turns 1
row_cert 4314/2249 12758 92 >"$room/row.cert"
climbs 'sixteen turns with a budget' one_net.gr one_net.routes a.cert "$room/row.cert" 'turn 16
bound 4314/2249' --turns 16
rm a.cert

# 12,000 nets of one set each, from as many threads as there are
printf '%s\n' 'grouter certificate 1' 'nets 12000' 'forced 0' 'overflow 47992' 'wirelength 24000' 'peak 6000/1' 'bound 6000/1' \
    'prices 2' 1 1 >many.cert
climbs 'a climb of twelve thousand nets' many.gr "$room/many.routes" many.cert many.cert 'turn 0
bound 6000/1'
rm many.cert

row 4 4 1 '0 0 10 10' '1
a 0 2 1
5 5 1
5 5 2
0' | awk '/^grid/ { $0 = "grid 1 1 2" } /capacity|width|spacing/ { $0 = $0 " " $NF } { print }' >stack.gr
printf '%s\n' 'a 0' '(5,5,1)-(5,5,2)' '!' >a.routes
printf '%s\n' 'grouter certificate 1' 'nets 1' 'forced 0' 'overflow 0' 'wirelength 1' 'peak none' 'bound none' 'prices 0' >a.cert
climbs 'a design without an edge' stack.gr a.routes a.cert a.cert 'turn 0
bound none'
rm stack.gr a.routes a.cert

# climbs_not NAME STATUS LINES NAME NAME NAME: climb says these lines, and makes no file
climbs_not() {
    name=$1 status=$2 lines=$3
    shift 3
    expect "$name" "$status" "$lines" climb "$@" new.cert
    unmade "$name: no certificate" new.cert
}
climbs_not 'an objection to routes that are to climb' 1 'no 47 0' detour.gr cut_off.routes detour.cert
climbs_not 'a bound that is not shown, and no climb' 1 'no 52 1/2 41633/378056' detour.gr detour.routes overstated.cert
climbs_not 'no design that could climb' 3 'refused 3 11 0 grid' few_exits.routes few_exits.gr few_exits.cert
climbs_not 'no routes that could climb' 4 'refused 4 31 8' few_exits.gr few_exits.cert missing.cert
climbs_not 'no certificate that could climb' 4 'refused 4 32 0' few_exits.gr few_exits.routes detour.routes
row 0 0 >cut.gr
climbs_not 'a net that is cut off, and no climb' 5 'refused 5 4 0 1' cut.gr missing.routes missing.cert
rm cut.gr
climbs_not 'a certificate that is missing, and no climb' 6 'refused 6' few_exits.gr few_exits.routes missing.cert
truncate -s 1073741825 long
climbs_not 'a certificate that is too long to climb' 4 'refused 4 35' few_exits.gr few_exits.routes long
rm long
expect 'a climb into a folder that is missing' 7 'refused 7' climb few_exits.gr few_exits.routes few_exits.cert missing/new.cert
expect_unheard 'a climb that can not be said' 7 climb few_exits.gr few_exits.routes few_exits.cert new.cert
made 'its certificate without a report' new.cert few_exits.cert
expect_unheard 'an objection before a climb that can not be said' 1 climb detour.gr cut_off.routes detour.cert new.cert
for same in few_exits.gr few_exits.routes few_exits.cert; do
    expect "a climb in the place of $same" 2 "$usage_of_grouter" climb few_exits.gr few_exits.routes few_exits.cert "$same"
done
expect 'no name for what a climb finds' 2 "$usage_of_grouter" climb few_exits.gr few_exits.routes few_exits.cert
for words in '--turns 0' '--turns 17' '--turns' '--turns=2' '--turns +2' '--turns 000000000000000000002' '--turns 2 --turns 2' '--phases 2'; do
    # shellcheck disable=SC2086
    expect "a climb with the words $words" 2 "$usage_of_grouter" climb few_exits.gr few_exits.routes few_exits.cert new.cert $words
done
unmade 'no certificate of what is no climb' new.cert

# ---- new routes

# Each net of these designs has one shortest route on open edges, and they leave no overflow.
program=$room/reroute
expect 'routes from none' 0 'nets 3
forced 0
routed 2
rerouted 0
rounds 0
overflow 0
wirelength 11
peak 1/2
given 0 0' detour.gr new.routes
made 'routes of two nets, and of one with a pin' new.routes "$examples/detour.routes"
expect 'routes by four workers, from routes' 0 'nets 3
forced 0
routed 0
rerouted 0
rounds 0
overflow 0
wirelength 11
peak 1/2
given 0 11' detour.gr detour.routes new.routes --workers 4 --seed 7
made 'routes that nothing is better than' new.routes "$examples/detour.routes"
head -n 7 "$examples/detour.routes" >few.routes
expect 'a net without a block' 0 'nets 3
forced 0
routed 1
rerouted 0
rounds 0
overflow 0
wirelength 11
peak 1/2
given 0 7' detour.gr few.routes new.routes
made 'routes of all nets' new.routes "$examples/detour.routes"
rm few.routes
# Batches are large enough for several workers from some 20,000 nets on.
awk 'BEGIN {
    print "grid 200 200 2\nvertical capacity 0 6\nhorizontal capacity 6 0\nminimum width 1 1\nminimum spacing 1 1"
    print "via spacing 1 1\n0 0 10 10\nnum net 20000"
    for (i = 0; i < 20000; i++) {
        x = i * 7919 % 190; y = i * 104729 % 193
        printf "n%d %d 2 1\n%d %d 1\n%d %d 1\n", i, i, 10 * x + 5, 10 * y + 5, 10 * (x + 1 + i % 9) + 5, 10 * (y + i % 7) + 5
    }
    print 0
}' >batches.gr
"$program" batches.gr one.routes --rounds 4 --passes 1 >one.report
expect 'routes of 20,000 nets by four workers' 0 "$(cat one.report)" batches.gr new.routes --rounds 4 --passes 1 --workers 4
made 'the routes that one worker finds' new.routes one.routes
rm -f one.routes one.report
# In rounds of negotiation a batch is smaller: eight nets of 20,000. Each tenth net here is long and runs where more do than have
# room, so that these eight are work enough for two workers.
awk 'BEGIN {
    print "grid 200 200 2\nvertical capacity 0 6\nhorizontal capacity 6 0\nminimum width 1 1\nminimum spacing 1 1"
    print "via spacing 1 1\n0 0 10 10\nnum net 20000"
    for (i = 0; i < 20000; i++) {
        x = i * 7919 % 150; y = i * 104729 % 193; far = 1
        if (i % 10 == 0) { y = 60 + y % 60; far = 40 }
        printf "n%d %d 2 1\n%d %d 1\n%d %d 1\n", i, i, 10 * x + 5, 10 * y + 5, 10 * (x + far) + 5, 10 * (y + i % 7) + 5
    }
    print 0
}' >rivals.gr
"$program" rivals.gr one.routes --rounds 4 --passes 0 >one.report
expect 'long nets on full edges by four workers' 0 "$(cat one.report)" rivals.gr new.routes --rounds 4 --passes 0 --workers 4
made 'the routes that one worker finds for long nets' new.routes one.routes
rm -f one.routes one.report rivals.gr

# The bound of so many nets is worked out by several threads at once: as many as two are seen, where there are two processors.
"$room/grouter" route batches.gr many.routes many.cert --phases 1 --rounds 0 >"$room/said"
"$room/grouter" judge batches.gr many.routes many.cert >"$room/said" &
judging=$!
threads=1
while grep -q '^State:[[:space:]]*[^ZX]' "/proc/$judging/status" 2>/dev/null; do
    seen=$(ls "/proc/$judging/task" 2>/dev/null | wc -l)
    [ "$seen" -le "$threads" ] || threads=$seen
    [ "$threads" -lt 2 ] || break
done
wait "$judging"
got=$?
: >"$room/complained"
{ [ "$threads" -ge 2 ] || [ "$(nproc)" -lt 2 ]; } || echo 'one thread alone' >"$room/complained"
cp "$room/said" "$room/wanted"
judge 'a bound by several threads' 0
rm -f batches.gr many.routes many.cert
expect 'an objection to given routes' 1 'no 47 0' detour.gr cut_off.routes new.routes
usage='refused 2
usage: reroute IN [ROUTES] NEW'
expect 'no words to reroute' 2 "$usage"
expect 'new routes in the place of the given ones' 2 "$usage" detour.gr detour.routes detour.routes
expect 'a round more than there may be' 2 "$usage" detour.gr new.routes --rounds 401
expect 'words to reroute that are no text' 2 "$usage" detour.gr "$(printf '\377.routes')"
expect 'no design to be rerouted' 3 'refused 3 11 0 grid' detour.routes new.routes
expect 'no routes to begin with' 4 'refused 4 31 8' detour.gr detour.cert new.routes
row 0 0 >cut.gr
expect 'a net that is cut off, and no new routes' 5 'refused 5 4 0 1' cut.gr new.routes
rm cut.gr
expect 'routes that are missing, and no new ones' 6 'refused 6' detour.gr missing.routes new.routes
expect 'new routes in a folder that is missing' 7 'refused 7' detour.gr missing/new.routes
expect_unheard 'new routes whose report can not be said' 7 detour.gr new.routes
made 'new routes without a report' new.routes "$examples/detour.routes"

# ---- maps of congestion

# The pictures and the table were made by a plain program of another make.
program=$room/congestion_map
measured='nets 8
forced 0
beyond 0
overflow 4
wirelength 59
peak 3/2'
ln -s "$examples" examples
expect 'a picture with a cut' 0 "$measured" examples/few_exits.gr few_exits.routes few_exits.svg --cut few_exits_cut.cert
made 'its text, which the README shows' few_exits.svg "$top/docs/pictures/few_exits.svg"
expect 'a table of both layers' 0 "$measured" few_exits.gr few_exits.routes few_exits.csv --layers
made 'its text' few_exits.csv "$here/few_exits.csv"
"$program" three_layers.gr examples/three_layers.routes three_layers.svg --greater >"$room/reported"
made 'a picture of the fuller direction' three_layers.svg "$here/three_layers.svg"
# U+FFFE and U+FFFF, which XML doesn't allow, and U+1FFFE, which it does
odd=$(printf 'a\357\277\276<b\357\277\277c\360\237\277\276.gr')
cp few_exits.gr "$odd"
expect 'a picture of a design with an odd name' 0 "$measured" "$odd" few_exits.routes odd.svg
printf '<title>a\357\277\275&lt;b\357\277\275c\360\237\277\276.gr</title>\n' >title
sed -n '/^<title>/p' odd.svg >odd.title
made 'its title, which is text of XML' odd.title title
rm "$odd" odd.svg title
usage='refused 2
usage: congestion_map IN ROUTES MAP [--cut CERT] [--layer L] [--layers] [--greater]'
expect 'no words to congestion_map' 2 "$usage"
expect 'a map of no form' 2 "$usage" few_exits.gr few_exits.routes few_exits.png
expect 'a table of one map' 2 "$usage" few_exits.gr few_exits.routes few_exits.csv --greater
expect 'routes that are none of the design' 1 'no 47 0' detour.gr cut_off.routes detour.svg
expect 'a cut of another design' 1 'no 51 prices 16 33' few_exits.gr few_exits.routes few_exits.svg --cut detour.cert
expect 'a layer that is missing' 1 'no 53 3 2' few_exits.gr few_exits.routes few_exits.svg --layer 3
expect 'a map in a folder that is missing' 7 'refused 7' few_exits.gr few_exits.routes missing/few_exits.svg
expect_unheard 'a map that can not be reported' 7 few_exits.gr few_exits.routes few_exits.csv --layers
made 'its text without a report' few_exits.csv "$here/few_exits.csv"
rm examples ./*.routes ./*.cert
program=$room/grouter

# ---- designs that are made

two_by_two='grid 2 2 2
vertical capacity 0 8
horizontal capacity 8 0
minimum width 1 1
minimum spacing 1 1
via spacing 1 1
0 0 10 10
num net 2
n0 0 6 1
8 0 1
1 17 1
11 19 1
14 6 1
1 7 1
11 7 1
n1 1 3 1
3 16 1
5 18 1
1 2 1
0'
printf '%s\n' "$two_by_two" >"$room/made.gr"
expect 'a design is made' 0 'made 2 nets' make small.gr --nets 2 --seed 7 --cols 2 --layers 2 --rows 2
made 'its text' small.gr "$room/made.gr"
expect 'a design in a folder that is missing' 7 'refused 7' make missing/small.gr
expect_unheard 'a made design that can not be reported' 7 make small.gr --seed 7 --cols 2 --rows 2 --layers 2 --nets 2
made 'its text without a report' small.gr "$room/made.gr"
expect_unheard 'a trial that can not be reported' 7 trial 7 --cols 2 --rows 2 --layers 2 --nets 2

# made designs are routed by several workers, and the routes and the certificates are accepted: of the report only the lines
# that no choice of routes changes are compared
accepted() {
    name=$1
    shift
    "$program" make seven.gr --seed 7 "$@" >"$room/said"
    "$program" route seven.gr seven.routes seven.cert --workers 4 --phases 2 --rounds 1 >"$room/routed"
    "$program" judge seven.gr seven.routes seven.cert >"$room/judged" 2>"$room/complained"
    got=$?
    grep -E '^(nets|forced|overflow|wirelength|peak|bound)' "$room/routed" | sed '1i yes' >"$room/wanted"
    grep -v '^beyond' "$room/judged" >"$room/said"
    judge "$name, routed by four workers and judged" 0
    "$program" measure seven.gr seven.routes >"$room/said" 2>"$room/complained"
    got=$?
    sed -e '/^yes$/d' -e '/^bound/d' "$room/judged" >"$room/wanted"
    judge "$name, measured" 0
    rm seven.gr seven.routes seven.cert
}
accepted 'a made design'
accepted 'a made design of a thousand nets' --cols 64 --rows 64 --nets 1000
"$program" trial 7 >"$room/wanted"
"$program" trial 7 >"$room/said"
got=$?
judge 'a trial says the same twice' 0
tail -n 1 "$room/said" >"$room/last" && mv "$room/last" "$room/said"
echo 'judge yes' >"$room/wanted"
judge 'a trial ends with a yes' 0

# ---- words that are no command

usage=$usage_of_grouter
expect 'no words' 2 "$usage"
expect 'a command without its names' 2 "$usage" route
expect 'a name too few' 2 "$usage" route one_net.gr a.routes
expect 'a name too many' 2 "$usage" route one_net.gr a.routes a.cert b.cert
expect 'two names that are one' 2 "$usage" route one_net.gr a.routes a.routes
expect 'another command' 2 "$usage" check one_net.gr a.routes a.cert
expect 'an option of another command' 2 "$usage" judge one_net.gr a.routes a.cert --seed 3
expect 'a name too many to measure' 2 "$usage" measure one_net.gr a.routes a.cert
expect 'a name too few to judge' 2 "$usage" judge one_net.gr a.routes
expect 'a trial without a number' 2 "$usage" trial seven
expect 'a trial of a number that is too great' 2 "$usage" trial 18446744073709551616
expect 'a made design that is too wide' 2 "$usage" make a.gr --cols 1025
expect 'a made design of one layer' 2 "$usage" make a.gr --layers 1
expect 'a command in capitals' 2 "$usage" ROUTE one_net.gr a.routes a.cert
expect 'a name that begins with a dash' 2 "$usage" route one_net.gr -a.routes a.cert
expect 'an empty name' 2 "$usage" route one_net.gr '' a.cert
expect 'a word that is no text' 2 "$usage" route "$(printf '\377.gr')" a.routes a.cert
expect 'an option without a value' 2 "$usage" route one_net.gr a.routes a.cert --phases
expect 'an option in one word' 2 "$usage" route one_net.gr a.routes a.cert --phases=2
expect 'an option twice' 2 "$usage" route one_net.gr a.routes a.cert --phases 2 --phases 2
expect 'an option before the names' 2 "$usage" route --phases 2 one_net.gr a.routes a.cert
expect 'too many rounds' 2 "$usage" route one_net.gr a.routes a.cert --rounds 17
expect 'an option that is none' 2 "$usage" route one_net.gr a.routes a.cert --rows 2
expect 'an option that is cut short' 2 "$usage" route one_net.gr a.routes a.cert --phase 2
expect 'help' 2 "$usage" route --help
expect 'a version' 2 "$usage" --version
expect 'no workers' 2 "$usage" route one_net.gr a.routes a.cert --workers 0
expect 'too many workers' 2 "$usage" route one_net.gr a.routes a.cert --workers 9
expect 'a signed value' 2 "$usage" route one_net.gr a.routes a.cert --workers +2
expect 'a seed that is too great' 2 "$usage" route one_net.gr a.routes a.cert --seed 18446744073709551616
expect 'a budget that is too great' 2 "$usage" route one_net.gr a.routes a.cert --budget 4398046511105
expect 'a budget' 0 "$(cat "$here/one_net.report")
budget 4" route one_net.gr a.routes a.cert --budget 0004
made 'the routes within a budget' a.routes "$examples/one_net.routes"
rm a.cert

# ---- texts that are no design

row | sed 's/horizontal capacity/horizontal capcity/' >refused.gr
refused 'a word that is misspelt' 3 'refused 3 11 42 capacity'
expect 'the example misspelled' 3 'refused 3 11 44 capacity' route misspelled.gr a.routes a.cert
row | head -c 139 >refused.gr
refused 'a text that ends too early' 3 'refused 3 11 139 number'
row 4 4 1 '1099511627777 0 10 10' >refused.gr
refused 'a number that is too great' 3 'refused 3 12 101'
echo 'grid 2048 2048 3' >refused.gr
refused 'a grid that is too great' 3 'refused 3 14 15'
row 4 4 1 '0 0 0 10' >refused.gr
refused 'a tile without width' 3 'refused 3 15 105'
row 262145 >refused.gr
refused 'a capacity that is too great' 3 'refused 3 16 29'
row 4 4 1024 >refused.gr
refused 'a width that is too great' 3 'refused 3 17 67'
row 4 4 1 '0 0 10 10' 4194305 >refused.gr
refused 'too many nets' 3 'refused 3 18 119'
row 4 4 1 '0 0 10 10' '2
a 0 2 1
5 5 1
25 5 1
b 0 2 1' >refused.gr
refused 'an id that two nets have' 3 'refused 3 19 144 0'
row 4 4 1 '0 0 10 10' '1
a 7 2 1
5 5 1
31 5 1' >refused.gr
refused 'a pin outside the grid' 3 'refused 3 20 135 7 1'
row 4 4 1 '0 0 10 10' '1
a 7 2 1
5 5 1
25 5 2' >refused.gr
refused 'a pin above the layers' 3 'refused 3 21 140 7 1'
row 4 4 1 '0 0 10 10' '1
a 0 2 1
5 5 1
25 5 1
1
0 0 1 2 0 1 3' >refused.gr
refused 'an adjustment between tiles that are no neighbours' 3 'refused 3 22 154 0'
: >refused.gr
refused 'an empty file' 3 'refused 3 11 0 grid'

# ---- designs that can't be routed

row 0 0 1 '0 0 10 10' '2
a 3 2 1
5 5 1
7 3 1
b 9 2 1
5 5 1
25 5 1
0' >refused.gr
refused 'a net that is cut off' 5 'refused 5 4 9 1'

# ---- files and devices

expect 'a file that is missing' 6 'refused 6' route missing.gr a.routes a.cert
expect 'a folder' 6 'refused 6' route folder a.routes a.cert
expect 'routes in a folder that is missing' 7 'refused 7' route one_net.gr missing/a.routes a.cert
expect 'a certificate in a folder that is missing' 7 'refused 7' route one_net.gr a.routes missing/a.cert
made 'routes without a certificate' a.routes "$examples/one_net.routes"
expect_unheard 'a report that can not be written' 7 route one_net.gr a.routes a.cert
made 'routes without a report' a.routes "$examples/one_net.routes"
made 'a certificate without a report' a.cert "$examples/one_net.cert"

# a file that the run has opened or made is not made anew
cp one_net.gr own.gr
expect 'routes that are the design under another spelling' 7 'refused 7' route own.gr ./own.gr a.cert
made 'a design that no routes of another spelling replaced' own.gr "$examples/one_net.gr"
cp one_net.gr own.gr
ln -s own.gr linked.gr
expect 'routes that are the design through a link' 7 'refused 7' route own.gr linked.gr a.cert
made 'a design that no linked routes replaced' own.gr "$examples/one_net.gr"
rm linked.gr
unmade 'no certificate where the routes are the design' a.cert
expect 'a certificate that is the routes under another spelling' 7 'refused 7' route one_net.gr a.routes ./a.routes
made 'routes that no certificate replaced' a.routes "$examples/one_net.routes"

# no file is made anew that standard output goes to, and none gets the number of a standard stream that is closed
cp one_net.gr own.gr
printf '%s\n' 'refused 7' | cat one_net.gr - >"$room/whole"
# shellcheck disable=SC2094
"$program" make own.gr --nets 2 </dev/null >>own.gr 2>"$room/complained"
got=$?
: >"$room/wanted"
: >"$room/said"
judge 'a design in the place of standard output' 7
made 'a report that no design lies on' own.gr "$room/whole"
"$program" route one_net.gr a.routes a.cert </dev/null >&- 2>"$room/complained"
got=$?
: >"$room/wanted"
: >"$room/said"
judge 'a report without standard output' 7
made 'its routes, without the report' a.routes "$examples/one_net.routes"
made 'its certificate, without the report' a.cert "$examples/one_net.cert"
"$program" make /dev/stderr --nets 2 </dev/null >"$room/said" 2>&-
got=$?
printf '%s\n' 'refused 7' >"$room/wanted"
: >"$room/complained"
judge 'a design to a standard error that is closed' 7
"$program" measure one_net.gr /dev/stdin <&- >"$room/said" 2>"$room/complained"
got=$?
printf '%s\n' 'refused 6' >"$room/wanted"
judge 'routes from a standard input that is closed' 6

expect_unheard 'a refusal that can not be said: no command' 2 route
expect_unheard 'a refusal that can not be said: a missing file' 6 route missing.gr a.routes a.cert

# a table of 2^23 vertices in 40,000,000 bytes
awk '/^grid/ { $0 = "grid 2048 2048 2" } /capacity|width|spacing/ { $0 = $0 " " $NF } { print }' one_net.gr >vast.gr
printf '%s\n' 'refused 8' >"$room/wanted"
# shellcheck disable=SC3045
(ulimit -v 40000 && exec "$program" route vast.gr a.routes a.cert) </dev/null >"$room/said" 2>"$room/complained"
got=$?
judge 'want of memory' 8
cp "$examples/one_net.routes" a.routes
echo 'edits 0' >a.edits
# shellcheck disable=SC3045
(ulimit -v 40000 && exec "$program" eco vast.gr a.routes a.edits out.routes) </dev/null >"$room/said" 2>"$room/complained"
got=$?
judge 'want of memory for an edited design' 8
unmade 'no routes where memory is wanting' out.routes
cp "$examples/one_net.cert" a.cert
printf '%s\n' 'refused 8' >"$room/wanted"
# shellcheck disable=SC3045
(ulimit -v 40000 && exec "$program" climb vast.gr a.routes a.cert new.cert) </dev/null >"$room/said" 2>"$room/complained"
got=$?
judge 'want of memory for a climb' 8
unmade 'no certificate where memory is wanting' new.cert
rm a.routes a.edits a.cert

# two million blocks in 12,000,000 bytes, within six times that
yes 'a 0 !' | head -c 12000000 >"$room/blocks.routes"
printf '%s\n' 'no 47 0' >"$room/wanted"
# shellcheck disable=SC3045
(ulimit -v 70000 && exec "$program" measure one_net.gr "$room/blocks.routes") </dev/null >"$room/said" 2>"$room/complained"
got=$?
judge 'blocks without segments take little memory' 1
rm "$room/blocks.routes"

# ---- the launchers

# They stand beside the built programs here, which are newer than all else, so that nothing is left to prove.
house=$room/house
mkdir -p "$house/docs"
cp -R "$top/launch" "$top/grouter" "$top/reroute" "$top/unavoidable" "$top/congestion_map" "$house"
cp "$top/docs/FORMATS.md" "$house/docs"
printf '%s\n' grouter: reroute: unavoidable: congestion_map: >"$house/crates.txt"
for each in grouter reroute unavoidable congestion_map; do
    mkdir -p "$house/crates/$each/out"
    cp "$room/$each" "$house/crates/$each/out"
done
for each in grouter reroute unavoidable congestion_map; do
    program=$house/$each
    help=$(awk -v name="$each" '/^```/ { inside = $0 == "```help-" name; next } inside' "$top/docs/FORMATS.md")
    [ -n "$help" ]
    got=$?
    : >"$room/wanted"
    : >"$room/said"
    judge "$each: there is a text of help" 0
    expect "$each: help" 0 "$help" --help
    expect "$each: help behind other words" 0 "$help" route --help
    "$room/$each" </dev/null >"$room/wanted"
    "$program" </dev/null >"$room/said" 2>"$room/hint"
    got=$?
    judge "$each: no words" 2
    echo "$each: ./$each --help shows the words, with an example of each command" >"$room/wanted"
    mv "$room/hint" "$room/said"
    got=0
    judge "$each: a line on help, where there are no words" 0
done
program=$house/grouter
expect 'the launcher hands on words and status' 3 'refused 3 11 44 capacity' route misspelled.gr a.routes a.cert
ln -s "$house/grouter" "$room/linked"
program=$room/linked
expect 'a link to the launcher starts it' 3 'refused 3 11 44 capacity' route misspelled.gr a.routes a.cert
rm "$room/linked"
program=$room/grouter

# ---- what all runs left

ls -R . >"$room/said"
printf '%s\n' .: along.gr detour.gr detour_edited.gr few_exits.gr folder many.gr misspelled.gr 'no nets.gr' one_net.gr three_layers.gr vast.gr '' ./folder: crlf.gr >"$room/wanted"
: >"$room/complained"
got=0
judge 'no other file was made' 0

echo "$passed passed, $failed failed"
[ "$failed" -eq 0 ]
