# Prints the completion for zsh, from the items of man/make.

# A text between single quotes, in which a bracket and a colon stand for themselves.
function quoted(text) {
    gsub(/\\/, "\\\\", text)
    gsub(/:/, "\\:", text)
    gsub(/\[/, "\\[", text)
    gsub(/\]/, "\\]", text)
    gsub(/'/, "'\\''", text)
    return text
}
function action(kind) {
    if (kind == "commands") return "_s161_commands"
    if (kind == "files") return "_files"
    if (kind ~ /^files /) return "_s161_files_or_words " substr(kind, 7)
    if (kind ~ /^words /) return "(" substr(kind, 7) ")"
    return " "
}
function option_spec(name, value, kind, text) {
    if (text == "Print help" || text == "Print version") return "'(- *)" name "[" quoted(text) "]'"
    if (kind == "flag") return "'" name "[" quoted(text) "]'"
    return "'" name "=[" quoted(text) "]:" quoted(value) ":" action(kind) "'"
}

$1 == "command" { order[++count] = $2; about[$2] = $3 }
$1 == "option" { specs[$2] = specs[$2] "\n" option_spec($3, $4, $5, $6) }
$1 == "argument" {
    place = ++places[$2]
    head = $3 ~ /\.\.\.$/ || $4 == "commands" ? "*:" : place (optional($3) ? "::" : ":")
    specs[$2] = specs[$2] "\n'" head quoted(plain($3)) ":" action($4) "'"
}
function optional(name) { return name ~ /^\[/ }
function plain(name) { gsub(/[<>.]|\[|\]/, "", name); return name }
function print_specs(text, space, end, line, n, k) {
    n = split(substr(text, 2), line, "\n")
    for (k = 1; k <= n; k++) print space line[k] (k < n ? " \\" : end)
}

END {
    print "#compdef s161"
    print "# The completion of s161 in zsh. Made by man/make from the helps of s161."
    print ""
    print "_s161_commands() {"
    print "    local -a commands"
    print "    commands=("
    for (k = 1; k <= count; k++) print "        '" order[k] ":" quoted(about[order[k]]) "'"
    print "    )"
    print "    _describe -t commands command commands"
    print "}"
    print ""
    print "# Files, and words that stand for one."
    print "_s161_files_or_words() {"
    print "    local -a words_of_its_own"
    print "    words_of_its_own=(${(M)@:#@*})"
    print "    _alternative \"words:word:($words_of_its_own)\" 'files:file:_files'"
    print "}"
    print ""
    print "_s161() {"
    print "    local curcontext=$curcontext context state state_descr line"
    print "    typeset -A opt_args"
    print "    _arguments -C \\"
    print_specs(specs["-"], "        ", " \\")
    print "        '1:command:_s161_commands' \\"
    print "        '*:: :->rest' && return"
    print "    [[ $state = rest ]] || return 1"
    print "    case $words[1] in"
    for (k = 1; k <= count; k++) {
        print "    " order[k] ")"
        print "        _arguments \\"
        print_specs(specs[order[k]], "            ", "")
        print "        ;;"
    }
    print "    esac"
    print "}"
    print ""
    print "_s161 \"$@\""
}
