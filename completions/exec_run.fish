# Completion of exec_run's words in fish: commands, options that weren't said yet, and names of files.

# The words behind the program's name and before the one that is completed.
function __exec_run_words
    set -l words (commandline -opc)
    set -q words[2]; and printf '%s\n' $words[2..]
end

# Whether the command is one of these.
function __exec_run_is
    set -l words (__exec_run_words)
    contains -- "$words[1]" $argv
end

# How many names stand behind the command, and -1 where an option's value is completed: an option takes the next word,
# unless `=` joins the two.
function __exec_run_names
    set -l names 0
    set -l option
    set -l words (__exec_run_words)
    for word in $words[2..]
        switch "$option$word"
            case --workers --window --order
                set option $word
                continue
            case '-*'
            case '*'
                set names (math $names + 1)
        end
        set option
    end
    test -n "$option"; and echo -1; or echo $names
end

function __exec_run_is_first
    test (count (__exec_run_words)) -eq 0
end

function __exec_run_takes_file
    __exec_run_is run gen replay check; and test (__exec_run_names) -eq 0
end

# Whether the option may still be said, or is the last word, whose value is completed.
function __exec_run_left
    __exec_run_is run gen; or return
    set -l words (__exec_run_words)
    test (__exec_run_names) -eq -1; and set words $words[..-2]
    not string match -qr -- "^--$argv[1](=|\$)" $words
end

complete -c exec_run -f
complete -c exec_run -n __exec_run_is_first -a run -d 'a line for each record of standard input'
complete -c exec_run -n __exec_run_is_first -a gen -d 'a summary of generated records'
complete -c exec_run -n __exec_run_is_first -a replay -d 'the trace of a schedule'
complete -c exec_run -n __exec_run_is_first -a check -d 'whether a trace is lawful'
complete -c exec_run -n __exec_run_takes_file -F
complete -c exec_run -n '__exec_run_left workers' -l workers -x -d 'how many workers serve the pool, 0 to 16'
complete -c exec_run -n '__exec_run_left window' -l window -x -d 'how many records are worked on at once, 1 to 256'
complete -c exec_run -n '__exec_run_left order' -l order -x -a 'fifo lifo' -d 'in which order a worker takes what is pending'
complete -c exec_run -n '__exec_run_is run; and __exec_run_left summary' -l summary -d 'one line of numbers'
