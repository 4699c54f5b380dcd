# Writes mutated texts into the folder `room`, and every beginning of some texts, each into a file whose name begins with its word. The
# files that are read are seeds; before each stand its word and how many texts it gives, as in `words=plan texts=400 seed.csv`, or
# texts=cut for its beginnings. `random` is the first state of the generator, x' = 16807 x mod 2^31-1. Texts are bytes: LC_ALL=C.
BEGIN {
    for (k = 0; k < 256; k++) { byte[k] = sprintf("%c", k); code[byte[k]] = k }
    numbers = split("0 1 2 4 15 16 29 30 60 61 240 241 270 271 360 361 1439 1440 2000000 2000001 9720 9721 10079 10080 10081 20160 20161 " \
        "100000 100001 1000000 1000001 10000000 10000001 100000000 100000001 4294967295 4294967296 " \
        "9999999999 10000000000 0000000015 00000000015 18446744073709551616 -1 +1 1.0 1e3 0x1 1_0 nan", number, " ")
    stamps = split("2026-03-02 2026-03-03 2000-01-03 1999-12-27 2099-12-28 2100-01-04 2026-02-30 1999-01-01T00:00 1998-12-31T23:59 " \
        "2100-12-31T23:59 2101-01-01T00:00 2026-03-02T00:00 2026-03-02T00:01 2026-03-01T23:59 2026-03-08T23:59 2026-03-09T00:00 " \
        "2026-03-02T24:00 2026-03-02T08:60 2026-02-29T08:00 2024-02-29T08:00 2026-13-01T00:00 2026-3-2T8:0 2026-03-02T08:00Z", stamp, " ")
    words_there = split("week place leg driver rest worked past order did WEEK off HUB P D1 D2 A Q", word, " ")
    marks = split("DRIVE WORK READY OFF DAILY WEEKLY", mark, " ")
    # no UTF-8: a byte alone, an overlong form, half of a pair, past the last character, a beginning; then UTF-8, marks and quotes
    order_mark = "\357\273\277"
    odds = split("\377|\200|\300\200|\355\240\200|\364\220\200\200|\342\202|\303\251|\357\273\277|\342\200\250|" \
        "\"|\"\"|\"x\"|,|,,|\t| |\r|\r\n|\n|\n\n|\r\r\n|\"\n", odd, "|")
    odd[++odds] = byte[0]
    counts = split("15 16 17 63 64 65 119 120 121 1024 1025", count, " ")
    of_rows = "\n\n,,,\"0129:-T.placeorderivkdsmtODAILYWF\r"
    long_text = 1048576
}

# chance N: a number from 0 to N-1
function chance(n) {
    random = random * 16807 % 2147483647
    return random % n
}

# put TEXT AT NEW GONE: the text with NEW in the place of so many bytes after the first AT
function put(text, at, new, gone) { return substr(text, 1, at) new substr(text, at + gone + 1) }

# turned BYTE: the byte with one bit turned
function turned(one, bit) {
    if (one == "") return ""
    bit = 2 ^ chance(8)
    return byte[code[one] + (int(code[one] / bit) % 2 ? -bit : bit)]
}

# times TEXT N: the text so many times
function times(text, n, all) {
    for (all = ""; n > 0; n = int(n / 2)) { if (n % 2) all = all text; text = text text }
    return all
}

# in_bytes TEXT: one or a few bytes changed, or the text cut
function in_bytes(text, kind, at) {
    kind = chance(7)
    at = chance(length(text) + 1)
    if (kind == 0) return put(text, at, turned(substr(text, at + 1, 1)), 1)
    if (kind == 1) return put(text, at, "", 1)
    if (kind == 2) return put(text, at, substr(text, at + 1, 1), 0)
    if (kind == 3) return put(text, at, byte[chance(256)], 0)
    if (kind == 4) return substr(text, 1, at)
    if (kind == 5) return put(text, at, odd[1 + chance(odds)], chance(3))
    return (chance(2) ? order_mark : odd[1 + chance(odds)]) text
}

# numbered ROW N: the row, and so many more, each with a name of its own
function numbered(row, n, all, k, at) {
    all = row
    at = index(row, ",") + index(substr(row, index(row, ",") + 1) ",", ",")
    for (k = 2; k <= n; k++) all = all "\n" substr(row, 1, at - 1) k substr(row, at)
    return all
}

# in_rows TEXT: rows doubled, moved, swapped, ended otherwise, made many, made long, dropped
function in_rows(text, kind, rows, row, a, b, k) {
    rows = split(text, row, "\n")
    a = 1 + chance(rows); b = 1 + chance(rows)
    kind = chance(9)
    k = row[a]
    if (kind == 0) row[a] = k "\n" k
    else if (kind == 1) row[b] = row[b] "\n" k
    else if (kind == 2) { row[a] = row[b]; row[b] = k }
    else if (kind == 3) row[a] = k "\r"
    else if (kind == 4) row[a] = k "\r" row[b]
    # a plan of many orders that a driver may carry takes long: there are too many of them, or there is no driver
    else if (kind == 5 && rows < 40) row[a] = numbered(k, k ~ /^order/ && text ~ /driver/ ? 121 : count[1 + chance(counts)])
    else if (kind == 6) row[a] = k times(",", 1 + chance(5000))
    text = ""
    for (k = 1; k <= rows; k++) if (kind != 7 || k != a) text = text row[k] (k < rows ? "\n" : "")
    if (kind == 8) gsub(/\n/, chance(2) ? "\r" : "\r\n", text)
    return text
}

# alike FIELD: a field of its kind in its place: a number, the next number, a stamp, or a word
function alike(field, kind) {
    kind = chance(3)
    if (field ~ /^[0-9]+$/ && length(field) < 15) return kind ? number[1 + chance(numbers)] : field + 2 * chance(2) - 1
    if (field ~ /^[0-9]+-/) return stamp[1 + chance(stamps)]
    if (field ~ /^[A-Z][A-Z]/) return mark[1 + chance(marks)]
    return word[1 + chance(words_there)]
}

# unlike FIELD: any field in its place
function unlike(field, kind) {
    kind = chance(8)
    if (kind == 0) return number[1 + chance(numbers)]
    if (kind == 1) return stamp[1 + chance(stamps)]
    if (kind == 2) return word[1 + chance(words_there)]
    if (kind == 3) return "\"" field "\""
    if (kind == 4) return substr("\"\"" field "\"", 1 + chance(3))
    if (kind == 5) return times("N", 31 + chance(3))
    if (kind == 6) return times(chance(10), 1 + chance(20000))
    return chance(2) ? "" : field odd[1 + chance(odds)]
}

# in_fields TEXT: fields replaced, swapped, doubled, dropped
function in_fields(text, kind, rows, row, fields, field, a, k, b) {
    rows = split(text, row, "\n")
    a = 1 + chance(rows)
    fields = split(row[a], field, ",")
    if (fields == 0) return text
    k = 1 + chance(fields); b = 1 + chance(fields)
    kind = chance(14)
    if (kind == 0) { text = field[k]; field[k] = field[b]; field[b] = text }
    else if (kind == 1) field[k] = field[k] "," field[b]
    else if (kind > 2) field[k] = kind < 6 ? unlike(field[k]) : alike(field[k])
    row[a] = ""
    for (b = 1; b <= fields; b++) if (kind != 2 || b != k) row[a] = row[a] (b > 1 ? "," : "") field[b]
    text = ""
    for (b = 1; b <= rows; b++) text = text row[b] (b < rows ? "\n" : "")
    return text
}

# by_chance TEXT: bytes by chance, of any kind or of the kind of rows, after the first row or alone
function by_chance(text, all, kind, k) {
    kind = chance(3)
    if (kind < 2) all = substr(text, 1, index(text, "\n"))
    for (k = chance(300); k > 0; k--) all = all (kind ? substr(of_rows, 1 + chance(length(of_rows)), 1) : byte[chance(256)])
    return all
}

# mutated TEXT: a mutant, by one to three changes; now and then the text made as long as may be, or a byte longer
function mutated(text, changes, kind) {
    for (changes = 1 + chance(3) * chance(2); changes > 0; changes--) {
        kind = chance(20)
        if (kind < 4) text = in_bytes(text)
        else if (kind < 10) text = in_rows(text)
        else text = in_fields(text)
    }
    kind = chance(250)
    if (kind < 2 && length(text) < long_text) return text times("\n", long_text - length(text) + kind)
    return kind < 15 ? by_chance(text) : text
}

# written TEXT: writes a text into a file of its own, whose name begins with its words
function written(text, file) {
    file = sprintf("%s/%s-%04d", room, kind_of_words, ++made)
    printf "%s", text > file
    close(file)
}

# ended: writes the texts of the seed that was read
function ended(k) {
    if (asked == "cut") for (k = 0; k <= length(seed); k++) written(substr(seed, 1, k))
    else for (k = 0; k < asked; k++) written(mutated(seed))
}

FNR == 1 { ended(); kind_of_words = words; asked = texts; seed = "" }
{ seed = seed $0 "\n" }
END { ended() }
