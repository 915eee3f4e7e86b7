#compdef exec_show
# Completion of exec_show's words in zsh: commands, options that weren't said yet, and names of files.
# `make install` puts it as `_exec_show` where zsh looks for it.

_exec_show() {
    local curcontext=$curcontext state
    local -a line options
    _arguments -C '1:command:->command' '*::words:->words' && return
    if [[ $state == command ]]; then
        local -a commands=(
            'plan:a plan as a digraph'
            'trace:a trace as an image'
            'why:why a trace is refused, or what is open at its end'
            'write:the plan of a text in the notation, as JSON'
            'text:a plan in the notation'
        )
        _describe -t commands command commands
        return
    fi
    options=(
        '--refused[marks the entry that is refused]'
        '--from=[the first entry that is shown]:number:'
        '--to=[the last entry that is shown]:number:'
    )
    case $line[1] in
        plan | why | write | text) _arguments '1:file:_files' ;;
        trace) _arguments -s $options '1:trace:_files' ;;
    esac
}

_exec_show "$@"
