# Completion of routecli for bash 4.2 and later; docs/INSTALL.md says how it is installed.

_routecli() {
    local cur=${COMP_WORDS[COMP_CWORD]}
    local command='' option='' prefix='' first='' files=0 most=2 used=' ' is_over='' options words word i

    # The words before: the command, its files, and the option that waits for its value. `--order=depth` comes as three
    # words, or as one where `=` parts none.
    for ((i = 1; i < COMP_CWORD; i++)); do
        word=${COMP_WORDS[i]}
        if [[ -n $option ]]; then
            [[ $word == = ]] || option=
        elif [[ -z $is_over && $word == -- ]]; then
            is_over=1
        elif [[ -z $is_over && $word == -?* ]]; then
            used+="${word%%=*} "
            case $word in
                --workers | --seed | --order | --stint) option=$word ;;
            esac
        elif [[ -z $command ]]; then
            command=$word
        else
            [[ $files -gt 0 ]] || first=$word
            files=$((files + 1))
        fi
    done
    if [[ -n $option ]]; then
        [[ $cur == = ]] && cur=
    elif [[ -z $is_over && $cur == --*=* ]]; then
        option=${cur%%=*} prefix=${cur%%=*}=
        cur=${cur#*=}
    fi

    case $option in
        --order)
            words=$("$1" prepare --help 2>/dev/null | sed -n 's/.*possible values: \([^]]*\).*/\1/p')
            mapfile -t COMPREPLY < <(compgen -P "$prefix" -W "${words//,/}" -- "$cur")
            return
            ;;
        -*) return ;; # a number
    esac

    options='-h --help' words=
    case $command in
        '') options+=' -V --version' words='answer prepare route info check renew help' ;;
        answer | route) options+=' --explain' ;;
        info) most=1 options+=' --explain' ;;
        check) options+=' --progress --explain' ;;
        renew) most=3 options+=' --progress --explain' ;;
        prepare) options+=' --workers --sequential --seed --order --stint --progress --explain' ;;
        help)
            options=
            ((files > 0)) || words='answer prepare route info check renew help'
            ;;
        *) return ;;
    esac
    if [[ -n $is_over ]]; then
        options=
    elif [[ $cur == -* ]]; then
        words=
    elif [[ -z $command || $command == help || $files -lt $most ]]; then
        options=
    fi
    for word in $options; do
        [[ $used == *" $word "* ]] || words+=" $word"
    done

    # Both texts of `answer` stand in standard input where both files are `-`.
    if [[ $command == answer && -z ${cur#-} ]] && { ((files == 0)) || [[ $files == 1 && $first == - ]]; }; then
        words+=' -'
    fi
    mapfile -t COMPREPLY < <(compgen -W "$words" -- "$cur")
    if [[ $command == @(answer|prepare|route|info|check|renew) && $files -lt $most ]]; then
        if [[ -z $cur && ${#COMPREPLY[@]} -gt 0 ]]; then
            compopt -o filenames
            mapfile -t -O "${#COMPREPLY[@]}" COMPREPLY < <(compgen -f)
        else
            compopt -o default
        fi
    fi
}

complete -F _routecli routecli
