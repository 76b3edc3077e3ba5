# Prints the completion for bash, from the items of man/make.

$1 == "command" { commands = commands " " $2; order[++count] = $2 }
$1 == "argument" { arguments[$2] = arguments[$2] " '" $4 "'" }
$1 == "option" {
    options[$2] = options[$2] " " $3
    if ($5 == "flag" || $3 in seen) next
    seen[$3] = 1
    if (!($5 in named)) kinds[++different] = $5
    named[$5] = named[$5] (named[$5] == "" ? "" : " | ") $3
}

function command_case(name) {
    print "    " (name == "-" ? "''" : name) ") options='" substr(options[name], 2) "' arguments=(" substr(arguments[name], 2) ") ;;"
}

END {
    print "# The completion of s161 in bash. Made by man/make from the helps of s161."
    print ""
    print "# The options of a command, and of which kind each of its arguments is."
    print "_s161_of_command() {"
    print "    case $1 in"
    arguments["-"] = " commands"
    command_case("-")
    for (k = 1; k <= count; k++) command_case(order[k])
    print "    *) options='' arguments=() ;;"
    print "    esac"
    print "}"
    print ""
    print "# Of which kind an option's value is; a flag has none."
    print "_s161_of_option() {"
    print "    case $1 in"
    for (k = 1; k <= different; k++) print "    " named[kinds[k]] ") kind='" kinds[k] "' ;;"
    print "    *) kind=flag ;;"
    print "    esac"
    print "}"
    print ""
    print "_s161_commands='" substr(commands, 2) "'"
}
