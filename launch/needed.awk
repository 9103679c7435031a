# The lines of crates.txt of a program, -v program=NAME, and of all crates that it stands on.
/^[a-z]/ {
    name = $1
    sub(/:$/, "", name)
    line[name] = $0
    names[++count] = name
}

function need(name,    words, many, at) {
    if (!(name in line) || name in needed) return
    needed[name] = 1
    many = split(line[name], words, /[: ]+/)
    for (at = 2; at <= many; at++) need(words[at])
}

END {
    need(program)
    for (at = 1; at <= count; at++) if (names[at] in needed) print line[names[at]]
}
