#compdef exec_run
# Completion of exec_run's words in zsh: commands, options that weren't said yet, and names of files.
# `make install` puts it as `_exec_run` where zsh looks for it.

_exec_run() {
    local curcontext=$curcontext state
    local -a line options
    _arguments -C '1:command:->command' '*::words:->words' && return
    if [[ $state == command ]]; then
        local -a commands=(
            'run:a line for each record of standard input'
            'gen:a summary of generated records'
            'replay:the trace of a schedule'
            'check:whether a trace is lawful'
        )
        _describe -t commands command commands
        return
    fi
    options=(
        '--workers=[how many workers serve the pool]:number, 0 to 16:'
        '--window=[how many records are worked on at once]:number, 1 to 256:'
        '--order=[in which order a worker takes what is pending]:order:(fifo lifo)'
    )
    case $line[1] in
        run) _arguments -s $options '--summary[one line of numbers]' '1:plan:_files' ;;
        gen) _arguments -s $options '1:plan:_files' '2:number of records:' ;;
        replay) _arguments '1:schedule:_files' ;;
        check) _arguments '1:trace:_files' ;;
    esac
}

_exec_run "$@"
