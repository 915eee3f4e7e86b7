# Completion of exec_show's words in fish: commands, options that weren't said yet, and names of files.

# The words behind the program's name and before the one that is completed.
function __exec_show_words
    set -l words (commandline -opc)
    set -q words[2]; and printf '%s\n' $words[2..]
end

# Whether the command is one of these.
function __exec_show_is
    set -l words (__exec_show_words)
    contains -- "$words[1]" $argv
end

# How many names stand behind the command, and -1 where an option's value is completed: an option takes the next word,
# unless `=` joins the two.
function __exec_show_names
    set -l names 0
    set -l option
    set -l words (__exec_show_words)
    for word in $words[2..]
        switch "$option$word"
            case --from --to
                set option $word
                continue
            case '-*'
            case '*'
                set names (math $names + 1)
        end
        set option
    end
    test -n "$option"; and echo -1; or echo $names
end

function __exec_show_is_first
    test (count (__exec_show_words)) -eq 0
end

function __exec_show_takes_file
    __exec_show_is plan trace why write text; and test (__exec_show_names) -eq 0
end

# Whether the option may still be said, or is the last word, whose value is completed.
function __exec_show_left
    __exec_show_is trace; or return
    set -l words (__exec_show_words)
    test (__exec_show_names) -eq -1; and set words $words[..-2]
    not string match -qr -- "^--$argv[1](=|\$)" $words
end

complete -c exec_show -f
complete -c exec_show -n __exec_show_is_first -a plan -d 'a plan as a digraph'
complete -c exec_show -n __exec_show_is_first -a trace -d 'a trace as an image'
complete -c exec_show -n __exec_show_is_first -a why -d 'why a trace is refused, or what is open at its end'
complete -c exec_show -n __exec_show_is_first -a write -d 'the plan of a text in the notation, as JSON'
complete -c exec_show -n __exec_show_is_first -a text -d 'a plan in the notation'
complete -c exec_show -n __exec_show_takes_file -F
complete -c exec_show -n '__exec_show_left refused' -l refused -d 'marks the entry that is refused'
complete -c exec_show -n '__exec_show_left from' -l from -x -d 'the first entry that is shown'
complete -c exec_show -n '__exec_show_left to' -l to -x -d 'the last entry that is shown'
