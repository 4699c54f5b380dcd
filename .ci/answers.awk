# Judges answers of the desk by the forms that docs/TEXTS.md lists. Each stands between lines `text NAME` and `status N`; the name
# begins with `check` for a check text. Tells each answer of another form, and each form that no text had, and then counts.
BEGIN {
    n = "(0|[1-9][0-9]*)"
    name = "[!#-+--~]+"
    day = "[12][0-9][0-9][0-9]-[01][0-9]-[0-3][0-9]"
    stamp = day "T[0-2][0-9]:[0-5][0-9]"
    refusals = split("long|utf8 #|word #|fields # #|number # #|stamp # #|count places #|count legs #|count drivers #|count orders #|" \
        "depot|range # #|double #|unknown # #|past NAME rest|past NAME worked|past NAME weekly #|past NAME off #|" \
        "past NAME sum # #|past NAME long #|line NAME off #|line NAME long #|history NAME", form, "|")
    for (k = 1; k <= refusals; k++) {
        pattern[k] = "^refused " form[k] "$"
        gsub(/#/, n, pattern[k])
        gsub(/NAME/, name, pattern[k])
    }
    verdict = "^" name " (lawful|broken H([1-9]|1[0-2]) " n ")$"
    head[1] = "^week " day "$"
    head[2] = "^cost " n "$"
    head[3] = "^bound " n "$"
    head[4] = "^state (proved|labels|nodes)$"
    head[5] = "^nodes [1-9][0-9]*$"
    body = "^(driver " name " cost " n "|past " name " [ -~]+|order " name " (by " name " " stamp "|out " n ")|" stamp " (ready " n \
        "|off " n " (plain|daily|weekly)|drive " name " " n "|serve " name " " n "|load " n "))$"
}

# is_report: whether the lines are a report of a first draft, whose bound is its cost where that is proved, and never more
function is_report(k, cost, bound) {
    for (k = 1; k <= 5; k++) if (line[k] !~ head[k]) return 0
    for (k = 6; k < lines; k++) if (line[k] !~ body) return 0
    if (line[lines] != "draft 1") return 0
    cost = substr(line[2], 6) + 0
    bound = substr(line[3], 7) + 0
    return line[4] == "state proved" ? bound == cost : bound <= cost
}

# are_verdicts: whether each line is a verdict
function are_verdicts(k) {
    for (k = 1; k <= lines; k++) if (line[k] !~ verdict) return 0
    return 1
}

# refusal STATUS: whether the one line is a refusal that goes with the status; counts its form
function refusal(status, k, words, word) {
    if (lines != 1) return 0
    words = split(line[1], word, " ")
    for (k = 1; k <= words; k++) if (length(word[k]) > 32) return 0
    for (k = 1; k <= refusals; k++) {
        if (line[1] ~ pattern[k]) {
            met[form[k]]++
            return (form[k] == "history NAME") == (status == 4)
        }
    }
    return 0
}

# is_listed STATUS: whether the page lists such an answer
function is_listed(status) {
    if (status == 0) return text ~ /^check/ ? are_verdicts() : is_report()
    return (status == 3 || status == 4 && text !~ /^check/) && refusal(status)
}

/^text [a-z]+-[0-9]+$/ { text = $2; lines = 0; next }
/^status [0-9]+$/ {
    texts++
    ended[$2]++
    if (!is_listed($2 + 0)) {
        wrong++
        printf "%s, text %s: status %d, %d lines: %s\n", program, text, $2, lines, substr(line[1], 1, 200)
    }
    text = ""
    next
}
{ line[++lines] = $0 }
END {
    if (text != "") { wrong++; printf "%s, text %s: no status\n", program, text }
    for (k = 1; k <= refusals; k++) if (!met[form[k]]) { wrong++; printf "%s: no text was refused %s\n", program, form[k] }
    if (counts) for (k = 1; k <= refusals; k++) printf "%6d refused %s\n", met[form[k]], form[k]
    printf "%s: %d texts, %d answered, %d and %d refused with 3 and 4\n", program, texts, ended[0], ended[3], ended[4]
    exit (wrong > 0)
}
