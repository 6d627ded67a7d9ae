# A large script and its answers, worked out by the rules of docs/SCRIPT.md with awk's own arrays and texts:
# awk -v part=PART -v counted=0|1 -v script=FILE -v answers=FILE [-v many=NUMBER] -f tools/gate/large.awk
# PART is names, owners, list, sizes, random, memory, line, or texts, prose, quoted and bytes, which only a store has.
# NUMBER is that of names, owners, items in a line, or twice that of random commands: 70,000 without it.

function says(command, answer) {
    print command > script
    print answer > answers
}

# Numbers from `first` to at most `last`, `step` apart, with commas between them. By halves, since awk copies a
# text that it appends to.
function numbers(first, last, step,    half) {
    if (first + step > last) return first
    half = first + step * int((last - first) / step / 2)
    return numbers(first, half, step) "," numbers(half + step, last, step)
}

# So many of a text.
function times(count, text,    all) {
    all = ""
    while (count > 0) {
        if (count % 2) all = all text
        text = text text
        count = int(count / 2)
    }
    return all
}

# The answer to how much memory was shared, which a store doesn't give.
function ends(blocks, copied, moved) {
    if (counted) print "blocks " blocks " copied " copied " moved " moved > answers
}

# More names than have a slot each, and more blocks than a table of thousands.
function names(    i, count) {
    count = many
    for (i = 1; i <= count; i++) says("vec from_list n" i " [" i "]", "ok")
    for (i = 1; i <= count; i++) says("vec contents n" i, "[" i "]")
    for (i = 2; i <= count; i += 2) says("vec drop n" i, "ok")
    for (i = 1; i <= count; i++) says("vec len n" i, i % 2 ? 1 : "refused no-name")
    for (i = 2; i <= count; i += 2) says("vec clone n" (i - 1) " n" i, "ok")
    for (i = 1; i <= count; i++) says("vec push n" i " 0", "ok")
    for (i = 1; i <= count; i++) says("vec contents n" i, "[" (i % 2 ? i : i - 1) ",0]")
    # Of each pair the first name's push copies, and the second one is alone by then.
    ends(count, count / 2, 0)
}

# More owners than a byte or two of them count. Where a count of so few bits would be back at one, a clone is changed.
function owners(    i, count, copied) {
    count = many
    says("vec from_list a [1,2,3]", "ok")
    for (i = 1; i <= count; i++) {
        says("vec clone a b" i, "ok")
        if (i == 1 || i == 255 || i == 256 || i == 257 || i == 65535 || i == 65536 || i == 65537 || i == count) {
            says("vec unique a", "false")
            says("vec push b" i " 4", "ok")
            says("vec contents a", "[1,2,3]")
            says("vec contents b" i, "[1,2,3,4]")
            says("vec unique b" i, "true")
            says("vec drop b" i, "ok")
            says("vec clone a b" i, "ok")
            copied += 3
        }
    }
    for (i = count; i > 1; i--) says("vec drop b" i, "ok")
    says("vec unique a", "false")
    says("vec drop b1", "ok")
    says("vec unique a", "true")
    says("vec push a 4", "ok")
    says("vec contents a", "[1,2,3,4]")
    ends(1, copied, 0)
}

# Many numbers in one line, and in one answer.
function line(    whole) {
    whole = numbers(1, many, 1)
    says("vec from_list a [" whole "]", "ok")
    says("vec contents a", "[" whole "]")
    says("vec retain a [" times(many / 2, "+-") "]", "ok")
    says("vec contents a", "[" numbers(1, many, 2) "]")
    ends(1, 0, 0)
}

# Many letters likewise.
function prose(    whole) {
    whole = times(many, "x")
    says("text from_str t \"" whole "\"", "ok")
    says("text replace t u \"x\" \"yy\" 18446744073709551615", "ok")
    says("text contents u", "\"" times(2 * many, "y") "\"")
}

# Many escapes likewise.
function quoted(    whole) {
    whole = times(many / 4, "\\n\\\"\\\\\\u{7f}")
    says("text from_str t \"" whole "\"", "ok")
    says("text contents t", "\"" whole "\"")
}

# Many bytes likewise.
function byte_list(    whole) {
    whole = times(many - 1, "7,") "7"
    says("bytes from_list b [" whole "]", "ok")
    says("bytes contents b", "[" whole "]")
}

# Makes a value of so many items, and reads it. The third word names it.
function makes(call, whole, count,    words) {
    split(call, words, " ")
    says(call " " whole, "ok")
    says(words[1] " len " words[3], count)
    says(words[1] " contents " words[3], whole)
    says(words[1] " capacity " words[3], count)
}

# Clones a value, and pushes an item to the clone, which has a block of its own then.
function pushes(kind, from, whole, to, item, longer, capacity) {
    says(kind " clone " from " " to, "ok")
    says(kind " push " to " " item, "ok")
    says(kind " capacity " to, capacity)
    says(kind " contents " to, longer)
    says(kind " contents " from, whole)
}

# A list of 100,000 numbers: made at once, pushed one by one, changed while it is shared and while it isn't.
function list(    i, count, whole) {
    count = 100000
    whole = numbers(1, count, 1)
    makes("vec from_list a", "[" whole "]", count)
    pushes("vec", "a", "[" whole "]", "b", 7, "[" whole ",7]", 2 * count)
    says("vec insert b 50000 8", "ok")
    says("vec read b 50000", 8)
    says("vec read b 50001", 50001)
    says("vec remove b 50000", 8)
    says("vec write b 99999 9", "ok")
    says("vec read b 99999", 9)
    says("vec read a 99999", count)
    says("vec read a 100000", "refused index")
    says("vec pop b", 7)
    says("vec drain b 1000..100001", "refused range")
    says("vec drain b 1000..99000", "[" numbers(1001, 99000, 1) "]")
    says("vec splice b 1000..1000 [" numbers(1001, 99000, 1) "]", "[]")
    says("vec contents b", "[" numbers(1, count - 1, 1) ",9]")
    says("vec capacity b", 2 * count)
    says("vec truncate b 50000", "ok")
    says("vec contents b", "[" numbers(1, 50000, 1) "]")
    says("vec extend b [" whole "]", "ok")
    says("vec len b", 150000)
    says("vec clear b", "ok")
    says("vec capacity b", 2 * count)
    says("vec clone a c", "ok")
    says("vec retain c [" times(count / 2, "+-") "]", "ok")
    says("vec contents c", "[" numbers(1, count, 2) "]")
    says("vec clone a d", "ok")
    says("vec truncate d 60000", "ok")
    says("vec contents d", "[" numbers(1, 60000, 1) "]")
    says("vec capacity d", 60000)
    says("vec clone a e", "ok")
    says("vec clear e", "ok")
    says("vec contents a", "[" whole "]")
    says("vec unique a", "true")
    says("vec from_elem f 5 " count, "ok")
    says("vec contents f", "[" times(count - 1, "5,") "5]")
    says("vec reserve f 1", "ok")
    says("vec capacity f", 2 * count)
    says("vec new p", "ok")
    for (i = 1; i <= count; i++) says("vec push p " i, "ok")
    says("vec contents p", "[" whole "]")
    says("vec capacity p", 131072)
    for (i = count; i > count - 1000; i--) says("vec pop p", i)
    says("vec capacity p", 131072)
    # A name that was shared and cleared has no block. Copied: all for the push and for the marks, and what the cut
    # keeps. Moved: by the reservation, and by the pushes, whose block grew from 4 to 8 and so on up to 131072.
    ends(6, count + count + 60000, count + 131068)
}

# Bytes and texts of 100,000 bytes.
function texts(    i, count, letters, bytes, upper) {
    count = 100000
    letters = times(count / 10, "abcdefghij")
    upper = times(count / 10, "ABCDEFGHIJ")
    makes("text from_str t", "\"" letters "\"", count)
    pushes("text", "t", "\"" letters "\"", "u", "\"\303\251\"", "\"" letters "\303\251\"", 2 * count)
    says("text truncate u 100001", "refused boundary")
    says("text pop u", "\"\303\251\"")
    says("text insert_str u 50000 \"" upper "\"", "ok")
    says("text contents u", "\"" substr(letters, 1, 50000) upper substr(letters, 50001) "\"")
    says("text remove u 50000", "\"A\"")
    says("text insert u 50000 \"A\"", "ok")
    says("text truncate u 60000", "ok")
    says("text contents u", "\"" substr(letters, 1, 50000) substr(upper, 1, 10000) "\"")
    says("text push_str u \"" letters "\"", "ok")
    says("text len u", 160000)
    says("text replace t r \"cd\" \"\" 18446744073709551615", "ok")
    says("text contents r", "\"" times(count / 10, "abefghij") "\"")
    says("text replace t s \"j\" \"\342\202\254\" 9999", "ok")
    says("text len s", count + 2 * 9999)
    says("text contents s", "\"" times(9999, "abcdefghi\342\202\254") "abcdefghij\"")
    says("text repeat t v 3", "ok")
    says("text contents v", "\"" letters letters letters "\"")
    says("text clone t w", "ok")
    says("text ascii_upper w", "ok")
    says("text contents w", "\"" upper "\"")
    says("text to_ascii_upper t x", "ok")
    says("text contents x", "\"" upper "\"")
    says("text contents t", "\"" letters "\"")
    says("text new p", "ok")
    for (i = 0; i < count; i++) says("text push p \"" substr(letters, i + 1, 1) "\"", "ok")
    says("text contents p", "\"" letters "\"")
    says("text capacity p", 131072)
    says("text clear p", "ok")
    says("text capacity p", 131072)
    bytes = times(count / 10 - 1, "97,98,99,100,101,102,103,104,105,106,") "97,98,99,100,101,102,103,104,105,106"
    says("bytes from_text t b", "ok")
    says("bytes contents b", "[" bytes "]")
    says("bytes clone b c", "ok")
    says("bytes push c 255", "ok")
    says("bytes capacity c", 2 * count)
    says("bytes contents c", "[" bytes ",255]")
    says("text from_bytes c y", "refused not-utf8")
    says("bytes pop c", 255)
    says("bytes insert c 50000 0", "ok")
    says("bytes read c 50000", 0)
    says("bytes remove c 50000", 0)
    says("bytes write c 99999 1", "ok")
    says("bytes read c 99999", 1)
    says("bytes read b 99999", 106)
    says("bytes insert_slice c 0 [" bytes "]", "ok")
    says("bytes len c", 2 * count)
    says("bytes truncate c " count, "ok")
    says("bytes contents c", "[" bytes "]")
    says("bytes extend c [" bytes "]", "ok")
    says("bytes contents c", "[" bytes "," bytes "]")
    says("text from_bytes c y", "ok")
    says("text contents y", "\"" letters letters "\"")
}

# Room for so many more, in a block of so much room that has `len`.
function grown(len, more, room,    least) {
    least = 2 * room
    if (least < len + more) least = len + more
    return least < 4 ? 4 : least
}

# A list of n elements in a full block, shared and changed, then sole and changed, then cut.
function list_of(n,    half, room) {
    half = int(n / 2)
    room = grown(n, 1, n)
    says("vec from_elem a 5 " n, "ok")
    says("vec capacity a", n)
    says("vec clone a b", "ok")
    says("vec push b 7", "ok")
    says("vec capacity b", room)
    says("vec len b", n + 1)
    says("vec read b " (n - 1), 5)
    says("vec read b " n, 7)
    says("vec unique a", "true")
    says("vec len a", n)
    says("vec push a 8", "ok")
    says("vec capacity a", room)
    says("vec pop a", 8)
    says("vec truncate a " half, "ok")
    says("vec len a", half)
    says("vec capacity a", room)
    says("vec clone b c", "ok")
    says("vec truncate c " half, "ok")
    says("vec capacity c", half ? half < 4 ? 4 : half : 0)
    says("vec write b 0 1", "ok")
    says("vec read c 0", half ? 5 : "refused index")
    says("vec len b", n + 1)
    says("vec drop a", "ok")
    says("vec drop b", "ok")
    says("vec drop c", "ok")
    copied += n + half
    moved += n
}

# A text of n bytes, and bytes, made at once: inline up to 15, and then in a full block.
function text_of(n,    half, room, longer) {
    half = int(n / 2)
    room = n > 15 ? n : 15
    longer = n > 15 ? grown(n, 1, n) : n < 15 ? 15 : 32
    says("text from_str s \"a\"", "ok")
    says("text repeat s t " n, "ok")
    says("text len t", n)
    says("text capacity t", room)
    says("text clone t u", "ok")
    says("text push u \"b\"", "ok")
    says("text len u", n + 1)
    says("text capacity u", longer)
    says("text len t", n)
    says("text pop u", "\"b\"")
    says("text truncate u " half, "ok")
    says("text len u", half)
    says("text capacity u", longer)
    says("bytes from_text t b", "ok")
    says("bytes capacity b", room)
    says("bytes clone b c", "ok")
    says("bytes push c 255", "ok")
    says("bytes capacity c", longer)
    says("bytes read c " n, 255)
    says("bytes read c " (n - 1), 97)
    says("bytes len b", n)
    says("bytes pop c", 255)
    says("bytes truncate c " half, "ok")
    says("bytes len c", half)
    says("text drop s", "ok")
    says("text drop t", "ok")
    says("text drop u", "ok")
    says("bytes drop b", "ok")
    says("bytes drop c", "ok")
}

# Lists and texts at each power of two and on both sides of it.
function sizes(    k, beside) {
    copied = moved = 0
    for (k = 1; k <= 24; k++)
        for (beside = -1; beside <= 1; beside++) {
            if (k <= 21) list_of(2 ^ k + beside)
            if (!counted) text_of(2 ^ k + beside)
        }
    ends(0, copied, moved)
}

# Values of 32 MiB with changes that need little more memory, and smaller ones that come and go. The program is given
# not much more.
function memory(    n, i) {
    n = 2 ^ 22
    says("vec from_elem a 5 " n, "ok")
    for (i = 0; i < 100; i++) {
        says("vec pop a", 5)
        says("vec insert a " n - 1 " 6", "ok")
        says("vec splice a " n - 2 ".. [7]", "[5,6]")
        says("vec push a 8", "ok")
        says("vec drain a " n - 2 "..", "[7,8]")
        says("vec extend a [5,9]", "ok")
        says("vec remove a " n - 2, 5)
        says("vec write a " n - 2 " 5", "ok")
        says("vec reserve a 1", "ok")
        says("vec clone a b", "ok")
        says("vec drop b", "ok")
        says("vec push a 6", "ok")
        says("vec truncate a " n - 1, "ok")
        says("vec push a 5", "ok")
        says("vec read a " n - 1, 5)
        says("vec capacity a", n)
    }
    says("vec drop a", "ok")
    for (i = 0; i < 300; i++) {
        says("vec from_elem a 5 65536", "ok")
        says("vec clone a b", "ok")
        says("vec push b 6", "ok")
        says("vec splice b 65530.. [1]", "[5,5,5,5,5,5,6]")
        says("vec clone b c", "ok")
        says("vec truncate c 65000", "ok")
        says("vec clear b", "ok")
        says("vec drop a", "ok")
        says("vec drop b", "ok")
        says("vec drop c", "ok")
    }
    ends(0, 300 * (65536 + 65000), 0)
    if (counted) return
    n = 8 * n
    says("text from_str s \"abcdefgh\"", "ok")
    says("text repeat s t " n / 8, "ok")
    for (i = 0; i < 100; i++) {
        says("text pop t", "\"h\"")
        says("text insert t " n - 2 " \"x\"", "ok")
        says("text remove t " n - 2, "\"x\"")
        says("text truncate t " n - 3, "ok")
        says("text insert_str t " n - 3 " \"fg\"", "ok")
        says("text reserve t 1", "ok")
        says("text push_str t \"h\"", "ok")
        says("text clone t u", "ok")
        says("text drop u", "ok")
        says("text capacity t", n)
    }
    says("bytes from_text t b", "ok")
    says("text drop t", "ok")
    for (i = 0; i < 100; i++) {
        says("bytes pop b", 104)
        says("bytes insert b " n - 2 " 1", "ok")
        says("bytes remove b " n - 2, 1)
        says("bytes truncate b " n - 3, "ok")
        says("bytes extend b [102,103]", "ok")
        says("bytes push b 104", "ok")
        says("bytes write b " n - 1 " 104", "ok")
        says("bytes capacity b", n)
    }
}

# A number below n: the same ones at each run, with any awk.
function below(n) {
    seed = seed * 16807 % 2147483647
    return int(seed / 2147483647 * n)
}

# A length: of each order of magnitude as often, and often a power of two or one beside it.
function near(most) {
    return below(2) ? int(2 ^ (below(64 * most) / 64)) : 2 ^ below(most + 1) + below(3) - 1
}

function pick(words,    word, count) {
    count = split(words, word, " ")
    return word[1 + below(count)]
}

# The room of a new block for n elements.
function fresh(n) { return n && n < 4 ? 4 : n }

function is_shared(x) { return holders[block[x]] > 1 }

# Takes a name from its block, if it has one.
function leave(x) {
    if (block[x] && !--holders[block[x]]) blocks--
    block[x] = 0
}

# Gives a name alone a block of so much room: some are copied from one that it shares, or all move that stay.
function settle(x, copies, stays, space) {
    if (is_shared(x)) {
        copied += copies
        leave(x)
    } else if (space > room[x]) moved += stays
    if (!block[x] && space) {
        holders[block[x] = ++made] = 1
        blocks++
    }
    room[x] = space
}

# A new name. Held are the bytes, or for an element of a list its four letters and a comma.
function make(x, type, content, space) {
    kind[x] = type
    held[x] = content
    room[x] = block[x] = 0
    settle(x, 0, 0, space)
}

# Answers a command that makes room for so many more, and puts a part in place of what stands from `start` up to `end`.
# A shared block is copied where a command of its kind always writes, and into one of so much room or more.
function edit(x, words, said, start, end, part, more, copies, least,    stays, space) {
    says(words, said)
    if (said ~ /^refused/ || start == end && !more && words ~ /pop|truncate|clear|extend|push_str/) return
    stays = length(held[x]) / unit[kind[x]] - end + start
    space = is_shared(x) ? least : room[x]
    settle(x, copies, stays, stays + more > space ? grown(stays, more, space) : space)
    held[x] = part_of(held[x], kind[x], 0, start) part part_of(held[x], kind[x], end, stays)
}

# So many elements of what is held, from an index on.
function part_of(text, type, i, n) { return substr(text, unit[type] * i + 1, unit[type] * n) }

# As commands and answers have them: elements, and one of them.
function several(type, part,    letter) {
    if (type == "text") return "\"" part "\""
    if (type == "bytes") for (letter in code) gsub(letter, code[letter] ",", part)
    return "[" substr(part, 1, length(part) - 1) "]"
}
function one(type, part) { return type == "text" ? "\"" part "\"" : type == "bytes" ? code[part] : substr(part, 1, 4) }

# Asks a value something or changes it, at an index that may be past what it has.
function use(x, type, word,    n, i, more, words, part, given, end, taken, beyond, run, keep) {
    n = length(held[x]) / unit[type]
    i = below(9) ? below(n + 1) : n + below(3)
    more = word ~ /^(push|insert|write)$/ ? 1 : near(below(9) ? 5 : 12)
    words = type " " word " " x " "
    part = part_of(pool[type], type, below(4096), more)
    given = word ~ /^(push|insert|write)$/ ? one(type, part) : several(type, part)
    beyond = type == "text" ? "refused boundary" : "refused index"
    taken = i < n ? one(type, part_of(held[x], type, i, 1)) : beyond
    if (word == "capacity") says(words, room[x])
    else if (word == "len") says(words, n)
    else if (word == "unique") says(words, is_shared(x) ? "false" : "true")
    else if (word == "read") says(words i, taken)
    else if (word == "contents" && below(n) < 1000) says(words, several(type, held[x]))
    else if (word ~ /^(push|push_str|extend)$/) edit(x, words given, "ok", n, n, part, more, n, room[x])
    else if (word ~ /^insert/) edit(x, words i " " given, i > n ? beyond : "ok", i, i, part, more, n, room[x])
    else if (word == "write") edit(x, words i " " given, i < n ? "ok" : beyond, i, i + 1, part, 1, n, fresh(n))
    else if (word == "remove") edit(x, words i, taken, i, i + 1, "", 0, n, fresh(n))
    else if (word == "truncate") edit(x, words i, "ok", i < n ? i : n, n, "", 0, i, fresh(i))
    else if (word == "clear") edit(x, words, "ok", 0, n, "", 0, 0, 0)
    else if (word == "pop") {
        i = n ? n - 1 : 0
        taken = n ? one(type, part_of(held[x], type, i, 1)) : "none"
        edit(x, words, taken, i, n, "", 0, n, fresh(type == "text" ? i : n))
    } else if (word == "reserve") {
        says(words "9223372036854775808", "refused capacity")
        edit(x, words more, "ok", n, n, "", more, n, room[x])
    } else if (word ~ /^(drain|splice)$/) {
        end = i && !below(20) ? i - 1 : i + near(below(9) ? 4 : 16)
        if (end > n && below(9)) end = n
        taken = i > end || end > n ? "refused range" : several(type, part_of(held[x], type, i, end - i))
        if (word == "drain") part = given = ""
        words = words (i && below(2) ? ">" i - 1 : i) ".." (end && below(2) ? "=" end - 1 : end) " " given
        edit(x, words, taken, i, end, part, length(part) / 5, n, fresh(n))
    } else if (word == "retain") {
        part = given = ""
        for (i = 0; i < n; i += run) {
            run = near(n < 1000 ? 4 : 14)
            if (run > n - i) run = n - i
            given = given times(run, keep ? "+" : "-")
            if (keep) part = part part_of(held[x], type, i, run)
            keep = !keep
        }
        says(words "[" given "-]", "refused marks")
        edit(x, words "[" given "]", "ok", 0, n, part, length(part) / 5, n, fresh(n))
    }
}

# Makes a value that isn't inline under a new name, of another name's where there is one.
function begin(x, type, from,    n, part) {
    n = 16 + near(below(30) ? 16 : 20)
    part = part_of(pool[type], type, below(4096), n < 5000 ? n : 16)
    if (from in kind && kind[from] != "vec" && length(held[from]) > 15 && below(2)) {
        n = 1 + int(n / length(held[from]))
        says(kind[from] " repeat " from " " x " " n, "ok")
        make(x, kind[from], times(n, held[from]), n * length(held[from]))
    } else if (from in kind) {
        type = kind[from] == "vec" ? "vec" : pick("bytes text")
        says(type (type == kind[from] ? " clone " : " from_" kind[from] " ") from " " x, "ok")
        kind[x] = type
        held[x] = held[from]
        room[x] = room[from]
        if (block[x] = block[from]) holders[block[x]]++
    } else if (type == "vec" && below(3)) {
        says("vec from_elem " x " " one(type, part) " " n, "ok")
        make(x, type, times(n, substr(part, 1, 5)), n)
    } else {
        says(type (type == "text" ? " from_str " : " from_list ") x " " several(type, part), "ok")
        make(x, type, part, length(part) / unit[type])
    }
}

# Random commands on few names.
function random(    i, x, words) {
    unit["vec"] = 5
    unit["bytes"] = unit["text"] = 1
    words = "capacity capacity len contents push pop insert remove truncate clear reserve "
    words_of["vec"] = words "read write extend unique retain drain splice"
    words_of["bytes"] = words "read write extend insert_slice"
    words_of["text"] = words "push_str insert_str"
    for (seed = i = 1; i < 10000; i++) {
        pool["vec"] = pool["vec"] (below(4) ? 1000 + below(9000) : -100 - below(900)) ","
        x = 97 + below(26)
        code[sprintf("%c", x)] = x
        pool["text"] = pool["bytes"] = pool["text"] sprintf("%c", x)
    }
    for (i = 1; i <= many / 2; i++) {
        x = "n" below(9)
        if (!(x in kind)) {
            says("vec len " x, "refused no-name")
            begin(x, counted ? "vec" : pick("vec bytes text"), "n" below(18))
        } else if (below(10)) use(x, kind[x], pick(words_of[kind[x]]))
        else {
            says(kind[x] " new " x, "refused taken")
            if (!counted) says((kind[x] == "vec" ? "text" : "vec") " len " x, "refused kind")
            says(kind[x] " drop " x, "ok")
            leave(x)
            delete kind[x]
        }
    }
    for (x in kind) says(kind[x] " contents " x, several(kind[x], held[x]))
    ends(blocks, copied, moved)
}

BEGIN {
    if (!many) many = 70000
    if (part == "names") names()
    else if (part == "owners") owners()
    else if (part == "list") list()
    else if (part == "texts") texts()
    else if (part == "sizes") sizes()
    else if (part == "line") line()
    else if (part == "prose") prose()
    else if (part == "quoted") quoted()
    else if (part == "bytes") byte_list()
    else if (part == "random") random()
    else if (part == "memory") memory()
    else { print "there is no part " part > "/dev/stderr"; exit 1 }
}
