# Prints the manual page in roff, from the rows of man/make.

# A text as roff has it: each character stands for itself, and no line begins with a request.
function roff(text) {
    gsub(/\\/, "\\e", text)
    gsub(/-/, "\\-", text)
    gsub(/'/, "\\(aq", text)
    gsub(/`/, "\\(ga", text)
    gsub(/\^/, "\\(ha", text)
    gsub(/~/, "\\(ti", text)
    if (text ~ /^\./) text = "\\&" text
    return text
}
function bold(text) { return "\\fB" roff(text) "\\fR" }
function name_of(text) { gsub(/[<>]/, "", text); return text }
function italic(text) { return text == "" ? "" : "\\fI" roff(name_of(text)) "\\fR" }
function item(head, text) { print ".TP"; print head; print roff(text) }

# The names of an option and its value.
function option_head(names, value, word, count, k, head) {
    count = split(names, word, ", ")
    for (k = 1; k <= count; k++) head = head (k > 1 ? ", " : "") bold(word[k])
    return head (value == "" ? "" : " " italic(value))
}

# A block is the lines of a help's text, one behind the other, that begin with spaces; `block` has `lines` of
# them. It is a table where a row has a text of its own: behind two spaces or more, at the place where its
# next line begins, or else where another row has one (behind three or more, if its next line begins elsewhere).
# What isn't a table is shown as it is.
function indent_of(line) { match(line, /^ */); return RLENGTH }
function place_of(k, n, next_indent, best) {
    best = 0
    next_indent = k < lines ? indent_of(block[k + 1]) : 0
    if (next_indent > 2 && is_gap(block[k], next_indent)) return next_indent
    for (n = 4; n < length(block[k]); n++)
        if (is_gap(block[k], n) && shared(k, n) && (next_indent <= 2 || substr(block[k], n - 2, 1) == " ")) best = n
    return best
}
function is_gap(line, n) {
    return n > 3 && substr(line, n - 1, 2) == "  " && substr(line, n + 1, 1) != " " && n < length(line)
}
function shared(k, n, other) {
    for (other = 1; other <= lines; other++)
        if (other != k && (indent_of(block[other]) == n || indent_of(block[other]) == 2 && is_gap(block[other], n))) return 1
    return 0
}
function trimmed(text) { gsub(/^ +| +$/, "", text); return text }
function end_block(k, place, tables) {
    if (lines == 0) return
    for (k = 1; k <= lines; k++) {
        place = indent_of(block[k]) == 2 ? place_of(k) : -1
        places[k] = place
        if (place != 0) tables = 1
    }
    if (!tables) {
        print ".PP"; print ".RS 4"; print ".nf"
        for (k = 1; k <= lines; k++) print roff(substr(block[k], 3))
        print ".fi"; print ".RE"
    } else for (k = 1; k <= lines; k++) {
        if (places[k] < 0) print roff(trimmed(block[k]))
        else if (places[k] > 0) {
            print ".TP"
            print bold(trimmed(substr(block[k], 1, places[k])))
            print roff(substr(block[k], places[k] + 1))
        } else if (k < lines && places[k + 1] < 0) { print ".TP"; print bold(trimmed(block[k])) }
        else { print ".PP"; print bold(trimmed(block[k])) }
    }
    lines = 0
    open = 0
}
# A line of a help's text: of a paragraph, or of a block.
function text_line(line) {
    if (line ~ /^ /) { block[++lines] = line; return }
    end_block()
    if (line == "") { open = 0; return }
    if (!open && !headed) print ".PP"
    open = 1
    headed = 0
    print roff(line)
}
function end_command() { end_block(); open = 0 }
function heading(text) { print ".SH " text; headed = 1 }

{ rows[NR] = $0 }
$1 == "command" { order[++commands] = $3 }
$1 == "about" { about[$2] = $3 }
$1 == "usage" { usage[$2] = usage[$2] (usage[$2] == "" ? "" : "\n") $3 }

# print_rows KIND COMMAND: the items of a command, or the lines of a text.
function print_rows(kind, command, k, part, shown) {
    for (k = 1; k <= NR; k++) {
        split(rows[k], part, "\t")
        if (part[1] != kind || part[2] != command) continue
        if (kind == "argument") item(italic(part[3]), part[4])
        else if (kind == "option") item(option_head(part[3], part[4]), part[5])
        else if (kind == "status") item(bold(part[3]), part[4])
        else if (kind == "example") {
            shown = part[3] ~ /^\$ / || shown && part[3] != ""
            text_line((shown ? "  " : "") part[3])
        } else text_line(part[3])
    }
    end_command()
}
# The usage of a command: its own words bold, and those that stand for others in italics.
function usage_line(text, word, count, k, line) {
    count = split(text, word, " ")
    for (k = 1; k <= count; k++)
        line = line (k > 1 ? " " : "") (word[k] ~ /^(<.*>|\[.*\](\.\.\.)?)$/ ? italic(word[k]) : bold(word[k]))
    return line
}

END {
    print ".\\\" Made by man/make from the helps of s161."
    print ".TH S161 1 " date " \"" version "\" Talusdish"
    heading("NAME")
    text = about["-"]
    print "s161 \\- " roff(tolower(substr(text, 1, 1)) substr(text, 2))
    heading("SYNOPSIS")
    for (k = 1; k <= commands; k++) {
        if (k > 1) print ".br"
        print usage_line(usage[order[k]])
    }
    heading("DESCRIPTION")
    print_rows("description", "-")
    heading("OPTIONS")
    print_rows("option", "-")
    heading("COMMANDS")
    for (k = 1; k <= commands; k++) {
        print ".SS " order[k]
        headed = 0
        print roff(about[order[k]]) "."
        print ".PP"
        print usage_line(usage[order[k]])
        print_rows("argument", order[k])
        print_rows("option", order[k])
        print_rows("text", order[k])
    }
    heading("\"EXIT STATUS\"")
    print_rows("status", "-")
    heading("FILES")
    item("\\fIPREFIX\\fR" roff("/share/s161/examples"), "Kernels to begin with, where the program was installed below PREFIX.")
    heading("EXAMPLES")
    print_rows("example", "-")
    heading("\"SEE ALSO\"")
    print roff("README.md of the project, and docs/kernel-writers.md there: what a kernel finds on this machine.")
}
