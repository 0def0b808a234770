# Completion of pfx(8) for bash: /usr/share/bash-completion/completions/pfx

_pfx() {
    local current=${COMP_WORDS[COMP_CWORD]} before=${COMP_WORDS[COMP_CWORD-1]} word=${COMP_WORDS[1]} options="" words=""
    local seen=" ${COMP_WORDS[*]} "
    COMPREPLY=()
    if ((COMP_CWORD == 1)); then
        case $current in
        -*) words="-h --help" ;;
        *) words="check test ctl lab explain node ask key show follow batch help" ;;
        esac
        COMPREPLY=($(compgen -W "$words" -- "$current"))
        return
    fi
    case $before in
    -F) COMPREPLY=($(compgen -W "rules Tables all" -- "$current")); return ;;
    -T) COMPREPLY=($(compgen -W "add delete replace flush show test" -- "$current")); return ;;
    -s) COMPREPLY=($(compgen -W "rules Tables Anchors" -- "$current")); return ;;
    --pf) [[ $word != follow ]] || { COMPREPLY=($(compgen -d -- "$current")); return; } ;;
    -f | --file | --packets | --config | --store | --key | --other-key | --control | --interfaces)
        COMPREPLY=($(compgen -f -- "$current")); return ;;
    -a | -t | --me | --cluster | --turns | --to | --members | --node | --wait | --at | --position | --metrics) return ;;
    --from | --count) return ;;
    esac
    case $word in
    check)
        options="--nft --interfaces --members --position"
        [[ $seen == *" --nft "* || $seen == *" --interfaces "* ]] || options+=" --anchor -q --quiet -v --verbose"
        [[ $current == -* ]] || { COMPREPLY=($(compgen -f -- "$current")); return; } ;;
    test) options="-f --file --packets -q --quiet -v --verbose" ;;
    ctl) options="-v --verbose" ;;
    node)
        options="--config --me --cluster --store --turns --control --metrics --key --other-key --new-starts --unsealed --new --check --quiet" ;;
    ask)
        options="--wait -a -f -n -F -t -T -s"
        [[ $seen == *" --to "* ]] || options+=" --control --at --unchecked --script --from"
        [[ $seen == *" --control "* ]] || options+=" --to --cluster --members --node"
        [[ $seen == *" --control "* ]] && words="test request log status health metrics sync stop" ;;
    show)
        options="--store --nft --interfaces --pf --script --from --count -a -f -n -F -t -T -s"
        words="test log" ;;
    follow) options="--control --nft --interfaces --no-member-guard --pf --turns" ;;
    batch) [[ $current == -* ]] || { COMPREPLY=($(compgen -f -- "$current")); return; } ;;
    help) words="check test ctl lab explain node ask key show follow batch help" ;;
    key) [[ $current == -* ]] || { COMPREPLY=($(compgen -f -- "$current")); return; } ;;
    lab | explain) ;;
    *) return ;;
    esac
    [[ $word == help ]] || options+=" -h --help"
    case $current in
    -*) COMPREPLY=($(compgen -W "$options" -- "$current")) ;;
    *) COMPREPLY=($(compgen -W "$words" -- "$current")) ;;
    esac
}

complete -F _pfx pfx
