# The completion of s161 in bash. Made by man/make from the helps of s161.

# The options of a command, and of which kind each of its arguments is.
_s161_of_command() {
    case $1 in
    '') options='-h --help -V --version' arguments=(commands) ;;
    demo) options='-h --help' arguments=() ;;
    run) options='--ram --cpus --log --link --strict --show-log --only-log --only-output --traps --threads --burst --progress --turns --delayed --random --changes --within --events --transfer --keys --gap --after -h --help' arguments=('files @sample') ;;
    console) options='--ram --cpus --log --link --strict --turns --delayed --random --changes --within --events --transfer --gap -h --help' arguments=('files @sample') ;;
    schedule) options='--ram --cpus --log --link --strict --turns --delayed --random --changes --within --events --transfer --keys --gap --after -h --help' arguments=('files @sample') ;;
    search) options='--ram --cpus --log --link --strict --seeds --delays --turns --from --jobs --watches --never --output --hung --whole --progress --changes --within --events --transfer --keys --gap --after -h --help' arguments=('files @sample') ;;
    explore) options='--ram --cpus --link --strict --watches --never --output --keys --states --progress -h --help' arguments=('files @sample') ;;
    trace) options='--ram --cpus --log --link --strict --from --count --names --symbols --only --touches --outcomes --shared --loads --turns --delayed --random --changes --within --events --transfer --keys --gap --after -h --help' arguments=('files @sample') ;;
    replay) options='--ram --cpus --log --progress -h --help' arguments=('files @sample' 'files') ;;
    debug) options='--ram --cpus --log --link --strict --names --symbols --turns --delayed --random --changes --within --events --transfer --keys --gap --after -h --help' arguments=('files @sample' 'files') ;;
    gdb) options='--ram --cpus --log --link --strict --turns --delayed --random --changes --within --events --transfer --keys --gap --after -h --help' arguments=('files @sample' 'files') ;;
    audit) options='--ram --cpus --log --link --strict --progress -h --help' arguments=('files @sample' 'files') ;;
    as) options='--symbols -h --help' arguments=() ;;
    dis) options='--names --symbols -h --help' arguments=('files @sample') ;;
    help) options='' arguments=('commands') ;;
    *) options='' arguments=() ;;
    esac
}

# Of which kind an option's value is; a flag has none.
_s161_of_option() {
    case $1 in
    --ram | --cpus | --log | --threads | --burst | --turns | --delayed | --random | --changes | --within | --events | --transfer | --seeds | --delays | --from | --jobs | --never | --hung | --states | --count | --only | --touches) kind='number' ;;
    --link) kind='words word line' ;;
    --keys | --after | --watches | --output) kind='files' ;;
    --gap) kind='words none' ;;
    *) kind=flag ;;
    esac
}

_s161_commands='demo run console schedule search explore trace replay debug gdb audit as dis help'

# Offers what a kind has that begins with the word, each behind the given text.
_s161_offer() {
    local kind=$1 word=$2 before=$3
    case $kind in
    commands) mapfile -t COMPREPLY < <(compgen -P "$before" -W "$_s161_commands" -- "$word") ;;
    words\ *) mapfile -t COMPREPLY < <(compgen -P "$before" -W "${kind#words }" -- "$word") ;;
    files*)
        mapfile -t COMPREPLY < <(compgen -P "$before" -f -- "$word")
        # (where no file fits as it is written, as in a quoted word, the shell's own way is tried)
        compopt -o default 2>/dev/null
        if [ ${#COMPREPLY[@]} -gt 0 ]; then compopt -o filenames 2>/dev/null; fi
        mapfile -t -O ${#COMPREPLY[@]} COMPREPLY < <(compgen -P "$before" -W "${kind#files}" -- "$word")
        ;;
    esac
}

# In COMP_WORDS a `=`, and a `@` that begins a word, is a word of its own, unless COMP_WORDBREAKS lacks it.
# Here a `@` goes with what follows it.
_s161() {
    local words=() word command='' valued='' ended='' place=0 each kind options arguments
    for each in "${COMP_WORDS[@]:1:COMP_CWORD}"; do
        if [ ${#words[@]} -gt 0 ] && [ "${words[-1]}" = @ ]; then words[-1]+=$each; else words+=("$each"); fi
    done
    word=${words[-1]}
    COMPREPLY=()
    for each in "${words[@]:0:${#words[@]}-1}"; do
        if [ -n "$valued" ]; then
            if [ "$each" != = ]; then valued=''; fi
        elif [ -z "$ended" ] && [ "$each" = -- ]; then
            ended=yes
        elif [ -z "$ended" ] && [[ $each == -* ]]; then
            _s161_of_option "$each"
            if [ "$kind" != flag ]; then valued=$each; fi
        elif [ -z "$command" ]; then
            command=$each
        else
            place=$((place + 1))
        fi
    done
    _s161_of_command "$command"
    if [ -n "$valued" ]; then
        _s161_of_option "$valued"
        _s161_offer "$kind" "${word#=}" ''
    elif [ -z "$ended" ] && [[ $word == --*=* ]]; then
        _s161_of_option "${word%%=*}"
        _s161_offer "$kind" "${word#*=}" "${word%%=*}="
    elif [ -z "$ended" ] && [[ $word == -* ]]; then
        _s161_offer "words $options" "$word" ''
    else
        _s161_offer "${arguments[place]:-}" "$word" ''
    fi
}
complete -F _s161 s161
