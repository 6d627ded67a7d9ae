# The crates of crates.txt that those named stand on, and these themselves, lowest first:
# awk -F: -v tops="NAME .." -f tools/ship/below.awk crates.txt
/^#/ || NF < 2 { next }
{
    # A static library's row has a word behind its name.
    sub(/ .*/, "", $1)
    order[++count] = $1
    needs[$1] = $2
}
END {
    split(tops, names, " ")
    for (i in names) needed[names[i]] = 1
    for (i = count; i >= 1; i--)
        if (order[i] in needed) {
            split(needs[order[i]], names, " ")
            for (k in names) needed[names[k]] = 1
        }
    for (i = 1; i <= count; i++)
        if (order[i] in needed) print order[i]
}
