# Completion of exec_run's words in bash: commands, options that weren't said yet, and names of files.

_exec_run_files() {
    compopt -o filenames 2>/dev/null
    mapfile -t COMPREPLY < <(compgen -f -- "$1")
}

_exec_run_words() {
    mapfile -t COMPREPLY < <(compgen -W "$2" -- "$1")
}

_exec_run() {
    local cur=${COMP_WORDS[COMP_CWORD]} command=${COMP_WORDS[1]} option='' said=' ' names=0 at word
    COMPREPLY=()
    if ((COMP_CWORD == 1)); then
        _exec_run_words "$cur" 'run gen replay check'
        return
    fi
    # what stands between the command and this word; bash cuts `--name=value` into three words
    for ((at = 2; at < COMP_CWORD; at++)); do
        word=${COMP_WORDS[at]}
        case $option$word in
            --*=) ;;
            --workers | --window | --order) option=$word said+="$word " ;;
            *)
                if [[ -z $option && $word == -* ]]; then
                    said+="$word "
                elif [[ -z $option ]]; then
                    ((names++))
                fi
                option=
                ;;
        esac
    done
    if [[ -n $option ]]; then
        [[ $cur == '=' ]] && cur=
        [[ $option == --order ]] && _exec_run_words "$cur" 'fifo lifo'
        return
    fi
    case $command in
        replay | check)
            ((names == 0)) && _exec_run_files "$cur"
            ;;
        run | gen)
            if ((names == 0)) && [[ $cur != -* ]]; then
                _exec_run_files "$cur"
            elif [[ $command == run || $cur == -* || $names -gt 1 ]]; then
                local left=''
                for word in --workers --window --order --summary; do
                    [[ $said == *" $word "* || ($command == gen && $word == --summary) ]] || left+="$word "
                done
                _exec_run_words "$cur" "$left"
            fi
            ;;
    esac
}

complete -F _exec_run exec_run
