# How far the gate is, from its log. Behind `shown` crates a line for each further one that is done, or with now=1 one line:
#   proved 12 of 34 crates, route_judge last; 6 min so far, about 14 min left
# The files are docs/AUDIT.md, whose table of five columns has what crates cost in processor seconds, the crates that are wanted,
# and the log.
FILENAME ~ /AUDIT\.md$/ {
    if (split($0, cell, "|") == 7 && gsub(/[ `]/, "", cell[2])) cost[cell[2]] = cell[3] + 0
    next
}
FILENAME ~ /crates\.txt$/ {
    sub(/:.*/, "")
    if (!cost[$0]) cost[$0] = 100
    is_wanted[$0] = 1
    count++
    left += cost[$0]
    next
}
$1 == "rt:" && $2 in is_wanted && (/ is kept: / || / proved$/ && !/NOT PROVED/) {
    left -= cost[$2]
    if (/ proved$/) spent += cost[$2]
    names[++done] = $2
}

END {
    # Crates that wait for each other keep no more than four processors busy, and not all of the time. What is half done counts as
    # a minute a processor.
    busy = processors < 4 ? processors : 4
    pace = spent > 600 ? (spent + 60 * busy) / (seconds + 1) : 0.75 * busy
    time = int(seconds / 60) " min so far, " (done == count ? "building" : "about " int(left / pace / 60 + 1) " min left")
    if (now) print "proved " done + 0 " of " count " crates" (done ? ", " names[done] " last; " : "; ") time
    else for (at = shown + 1; at <= done; at++) print at " of " count " crates: " names[at] "; " time
}
