
# Offers what a kind has that begins with the word, each behind the given text.
_s161_offer() {
    local kind=$1 word=$2 before=$3
    case $kind in
    commands) mapfile -t COMPREPLY < <(compgen -P "$before" -W "$_s161_commands" -- "$word") ;;
    words\ *) mapfile -t COMPREPLY < <(compgen -P "$before" -W "${kind#words }" -- "$word") ;;
    files*)
        mapfile -t COMPREPLY < <(compgen -P "$before" -f -- "$word")
        # (where no file fits as it is written, as in a quoted word, the shell's own way is tried)
        compopt -o default 2>/dev/null
        if [ ${#COMPREPLY[@]} -gt 0 ]; then compopt -o filenames 2>/dev/null; fi
        mapfile -t -O ${#COMPREPLY[@]} COMPREPLY < <(compgen -P "$before" -W "${kind#files}" -- "$word")
        ;;
    esac
}

# In COMP_WORDS a `=`, and a `@` that begins a word, is a word of its own, unless COMP_WORDBREAKS lacks it.
# Here a `@` goes with what follows it.
_s161() {
    local words=() word command='' valued='' ended='' place=0 each kind options arguments
    for each in "${COMP_WORDS[@]:1:COMP_CWORD}"; do
        if [ ${#words[@]} -gt 0 ] && [ "${words[-1]}" = @ ]; then words[-1]+=$each; else words+=("$each"); fi
    done
    word=${words[-1]}
    COMPREPLY=()
    for each in "${words[@]:0:${#words[@]}-1}"; do
        if [ -n "$valued" ]; then
            if [ "$each" != = ]; then valued=''; fi
        elif [ -z "$ended" ] && [ "$each" = -- ]; then
            ended=yes
        elif [ -z "$ended" ] && [[ $each == -* ]]; then
            _s161_of_option "$each"
            if [ "$kind" != flag ]; then valued=$each; fi
        elif [ -z "$command" ]; then
            command=$each
        else
            place=$((place + 1))
        fi
    done
    _s161_of_command "$command"
    if [ -n "$valued" ]; then
        _s161_of_option "$valued"
        _s161_offer "$kind" "${word#=}" ''
    elif [ -z "$ended" ] && [[ $word == --*=* ]]; then
        _s161_of_option "${word%%=*}"
        _s161_offer "$kind" "${word#*=}" "${word%%=*}="
    elif [ -z "$ended" ] && [[ $word == -* ]]; then
        _s161_offer "words $options" "$word" ''
    else
        _s161_offer "${arguments[place]:-}" "$word" ''
    fi
}
complete -F _s161 s161
