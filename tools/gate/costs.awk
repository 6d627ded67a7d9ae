# Prints a row for each call and each state of the tables of costs: a row of several says the same of each.
# A cell of several parts, "5; 1000", says another thing of each: of few elements and of 1000, or of the limits
# that the state names. What vectors cost they cost of each element; a last column has the requests of `()`. What bytes
# and texts cost of 1000 they cost at each limit. A row without calls is of those in the row above. A table without
# states has calls that make something of nothing. An empty cell is 0.
BEGIN {
    FS = " *[|] *"
    others = split("0 1 3 23 255", other, " ")
    elements = split("u8,u32,i64,[i64; 13],()", element, ",")
}

# Where the clone of a value stands that stands so afterwards, or the source of one that is made.
function twin(name, state, after) {
    if (state ~ /^(–|limit)/) return "–"
    if (is_made) return name ~ /clone/ && after == "shared" && state !~ /^shared/ ? "shared" : "same"
    return state ~ /^shared/ && after != "same" ? "sole" : "same"
}

function print_rows(state, part,    i, j, k, cell, value, front, after, back, asked) {
    for (j = states_at + 1; j <= NF; j++) {
        value = split($j, cell, "; ") < 2 ? $j : cell[part]
        if (value == "") value = 0
        if (j == after_at) after = value
        if (j <= after_at) front = front " | " value
        else if (j == after_at + 1) back = " | " value " | "
        else asked[j - after_at - 1] = value
    }
    for (i = 1; i <= calls; i++) {
        value = " | " twin(call[i], state, after) back
        print "| `" call[i] "` | " state front value asked[1] " |"
        # Arrays are of no other elements, and bytes alone are written or compared.
        if (is_vectors && call[i] !~ /array|write|==/)
            for (k = 1; k <= elements; k++)
                print "| `" call[i] "` | " state ": " element[k] " | " after value asked[1 + (element[k] == "()")] " |"
    }
}

/^#/ {
    is_small = /Bytes|Texts/
    is_vectors = /^## Vectors/
}

/^[|]/ { gsub(/^[|] *| *[|]$/, "") }

$1 == "Call" {
    states_at = $2 ~ /Before|Source|Limit/ ? 2 : 1
    is_made = /Made/
    for (i = 1; i <= NF; i++) if ($i ~ /^(After|Made)$/) after_at = i
}

/^(`|[|] [a-z])/ && NF > 3 {
    if ($1) calls = split(substr($1, 2, length($1) - 2), call, "`, `")
    states = states_at == 1 ? split("–", state) : split($2, state, ", ")
    for (j = 1; j <= states; j++) {
        limits = 0
        if (split(state[j], named, ": ") == 2) limits = split(named[2], limit, "; ")
        for (k = 1; k <= limits; k++) print_rows(named[1] ": " limit[k], k)
        if (!limits) print_rows(state[j], 1)
        many = state[j]
        if (many ~ /^(shared )?(room|full)$/) {
            many = many " of 1000"
            print_rows(many, 2)
        }
        if (is_small && many ~ /of 1000$/) for (k = 1; k <= others; k++) print_rows(many ": " other[k], 2)
    }
}
