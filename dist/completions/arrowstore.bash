# Completions of arrowstore for bash, made of its help.
_arrowstore() {
    local word=${COMP_WORDS[COMP_CWORD]} before=${COMP_WORDS[COMP_CWORD-1]} flags=
    COMPREPLY=()
    # bash splits a word at '='
    if [ "$word" = = ]; then
        word=
    elif [ "$before" = = ]; then
        before=${COMP_WORDS[COMP_CWORD-2]}
    fi
    if [ $COMP_CWORD -eq 1 ]; then
        COMPREPLY=($(compgen -W 'format create import append query export rename drop apply tables schema check salvage info compact upgrade copy have send receive replay recode help -h --help --version' -- "$word"))
        return
    fi
    case "${COMP_WORDS[1]} $before" in
    'format --format-version') return ;;
    'create --like') return ;;
    'append --as') COMPREPLY=($(compgen -W 'stream csv jsonl' -- "$word")); return ;;
    'append --null') return ;;
    'append --dates') COMPREPLY=($(compgen -W 'number iso' -- "$word")); return ;;
    'query --columns') return ;;
    'query --limit') return ;;
    'query --save') return ;;
    'query --dates') COMPREPLY=($(compgen -W 'number iso' -- "$word")); return ;;
    'compact --steps') return ;;
    'send --have') return ;;
    'replay --sectors') return ;;
    'replay --fail') return ;;
    'replay --stop') return ;;
    'replay --choice') return ;;
    'replay --format-version') return ;;
    esac
    case "${COMP_WORDS[1]}" in
    format) flags='--wait --format-version --over -h --help' ;;
    create) flags='--wait --like -h --help' ;;
    import) flags='--wait --new --complete -h --help' ;;
    append) flags='--wait --as --null --dates --complete -h --help' ;;
    query) flags='--wait --columns --limit --save --objects --dates -h --help' ;;
    export) flags='--wait -h --help' ;;
    rename) flags='--wait -h --help' ;;
    drop) flags='--wait -h --help' ;;
    apply) flags='--wait -h --help' ;;
    tables) flags='--wait -h --help' ;;
    schema) flags='--wait --fields -h --help' ;;
    check) flags='--wait -h --help' ;;
    salvage) flags='--wait -h --help' ;;
    info) flags='--wait --json -h --help' ;;
    compact) flags='--wait --steps -h --help' ;;
    upgrade) flags='--wait -h --help' ;;
    copy) flags='--wait -h --help' ;;
    have) flags='--wait -h --help' ;;
    send) flags='--wait --have -h --help' ;;
    receive) flags='--wait --delete -h --help' ;;
    replay) flags='--sectors --fail --stop --choice --format-version -h --help' ;;
    recode) flags='-h --help' ;;
    help) [ $COMP_CWORD -eq 2 ] && COMPREPLY=($(compgen -W 'format create import append query export rename drop apply tables schema check salvage info compact upgrade copy have send receive replay recode refusals F1 F2 F3 F4 F5 F6 F7 F8 F9 F10 F11 F12 F13 F14 F15 F16 F17 F18 F19 F20 F21 F22 F23 F24 F25 F26 F27 F28 F29 F30 G1 G2 G3 C1 C3 C4 P1 P2 P3 A1 A2 A3 A4 X1 X2 X3 X4 X5 X6 X7 X8 X9 X10 X11 X12 X13 X14 X15 X16 X17 X18 X19 Q1 Q2 Q3 S1 S2 S3 S4 S5 S6 S7 S8 S9 S10 S12 S13 S15 T1 OutOfMemory' -- "$word")); return ;;
    esac
    if [ "${word#-}" != "$word" ]; then
        COMPREPLY=($(compgen -W "$flags" -- "$word"))
    fi
}
complete -o default -F _arrowstore arrowstore
