# Completion of exec_show's words in bash: commands, options that weren't said yet, and names of files.

_exec_show_files() {
    compopt -o filenames 2>/dev/null
    mapfile -t COMPREPLY < <(compgen -f -- "$1")
}

_exec_show_words() {
    mapfile -t COMPREPLY < <(compgen -W "$2" -- "$1")
}

_exec_show() {
    local cur=${COMP_WORDS[COMP_CWORD]} command=${COMP_WORDS[1]} option='' said=' ' names=0 at word
    COMPREPLY=()
    if ((COMP_CWORD == 1)); then
        _exec_show_words "$cur" 'plan trace why write text'
        return
    fi
    # what stands between the command and this word; bash cuts `--name=value` into three words
    for ((at = 2; at < COMP_CWORD; at++)); do
        word=${COMP_WORDS[at]}
        case $option$word in
            --*=) ;;
            --from | --to) option=$word said+="$word " ;;
            *)
                if [[ -z $option && $word == -* ]]; then
                    said+="$word "
                elif [[ -z $option ]]; then
                    ((names++))
                fi
                option=
                ;;
        esac
    done
    if [[ -n $option ]]; then
        return
    fi
    case $command in
        plan | why | write | text)
            ((names == 0)) && _exec_show_files "$cur"
            ;;
        trace)
            if ((names == 0)) && [[ $cur != -* ]]; then
                _exec_show_files "$cur"
            else
                local left=''
                for word in --refused --from --to; do
                    [[ $said == *" $word "* ]] || left+="$word "
                done
                _exec_show_words "$cur" "$left"
            fi
            ;;
    esac
}

complete -F _exec_show exec_show
