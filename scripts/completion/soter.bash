# Words of soter for bash: source this file, or copy it as `soter` into a folder of bash-completion.
_soter() {
    local word=${COMP_WORDS[COMP_CWORD]} first=${COMP_WORDS[1]}
    local words='check fly replay recover watch regions why certify format bridge make soak picture table lint shrink help --version'
    local operators='and( or( not( once( since( within( mode( true false'
    COMPREPLY=()
    if [ "$COMP_CWORD" = 1 ]; then
        COMPREPLY=($(compgen -W "$words" -- "$word"))
        return
    fi
    case $first in
    watch)
        # a formula goes on behind its last sign
        local front=${word%"${word##*[(, ]}"} last=${word##*[(, ]} operator
        for operator in $operators; do
            case $operator in "$last"*) COMPREPLY+=("$front$operator") ;; esac
        done
        compopt -o nospace 2>/dev/null
        ;;
    lint | shrink) COMPREPLY=($(compgen -f -- "$word")) ;;
    picture) COMPREPLY=($(compgen -W 'check fly replay --near --module' -- "$word")) ;;
    table) COMPREPLY=($(compgen -W 'fly replay --long' -- "$word")) ;;
    why) COMPREPLY=($(compgen -W 'regions certify check --picture --flight' -- "$word") $(compgen -f -- "$word")) ;;
    esac
}
complete -o default -F _soter soter ./soter
