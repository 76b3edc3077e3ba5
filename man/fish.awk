# Prints the completion for fish, from the items of man/make.

function quoted(text) {
    gsub(/\\/, "\\\\", text)
    gsub(/'/, "\\'", text)
    return "'" text "'"
}
# The line of a command, `-` for none yet.
function line(command, rest, text) {
    print "complete -c s161 -n " (command == "-" ? "__fish_use_subcommand" : "'__fish_seen_subcommand_from " command "'") \
        " " rest (text == "" ? "" : " -d " quoted(text))
}
function offered(kind) {
    if (kind == "flag") return ""
    if (kind == "files") return " -r -F"
    if (kind ~ /^words /) return " -x -a " quoted(substr(kind, 7))
    return " -x"
}

BEGIN {
    print "# The completion of s161 in fish. Made by man/make from the helps of s161."
    print ""
    print "complete -c s161 -f"
}
$1 == "command" { names = names (names == "" ? "" : " ") $2; line("-", "-a " $2, $3) }
$1 == "option" { line($2, (substr($3, 1, 2) == "--" ? "-l " substr($3, 3) : "-s " substr($3, 2)) offered($5), $6) }
$1 == "argument" {
    if ($4 ~ /^files/ && !($2 in files)) { files[$2] = 1; line($2, "-F", "") }
    if ($4 ~ /^files /) line($2, "-a " quoted(substr($4, 7)), $5)
    if ($4 == "commands") line($2, "-a " quoted(names), $5)
}
