# Completion of routecli for fish; docs/INSTALL.md says how it is installed.

# The words before the one that is completed, without options and their values: the command and its files. Fails where the
# value of an option is to come.
function __routecli_words
    set -l takes_value 0
    set -l is_over 0
    for word in (commandline -opc)[2..-1]
        if test $takes_value = 1
            set takes_value 0
        else if test $is_over = 1
            echo -- $word
        else if test "$word" = --
            set is_over 1
        else if contains -- "$word" --workers --seed --order --stint
            set takes_value 1
        else if not string match -q -- '-?*' "$word"
            echo -- $word
        end
    end
    test $takes_value = 0
end

# Whether no command is named yet.
function __routecli_has_no_command
    test (count (__routecli_words)) = 0
end

# Whether the command is one of these.
function __routecli_is
    set -l words (__routecli_words)
    test (count $words) -gt 0; and contains -- $words[1] $argv
end

# Whether the command is one of these, and a word of it is to come: one of its files, or the command that is helped with.
function __routecli_takes_word
    set -l words (__routecli_words); or return
    test (count $words) -gt 0; and contains -- $words[1] $argv; or return
    if contains -- $words[1] help info
        test (count $words) -lt 2
    else if test $words[1] = renew
        test (count $words) -lt 4
    else
        test (count $words) -lt 3
    end
end

# Whether the command is answer, and its next file may be standard input: the first, or the second where the first was.
function __routecli_takes_input
    __routecli_takes_word answer; or return
    set -l words (__routecli_words)
    test (count $words) = 1; or test "$words[2]" = -
end

# Whether the command is one of these, and the option that is named first isn't given yet, but for a value that is to come.
function __routecli_lacks
    __routecli_is $argv[2..]; or return
    set -l words (commandline -opc)
    string match -q -- "--$argv[1]=*" $words; and return 1
    contains -- $argv[1] sequential progress explain; or set -e words[-1]
    not contains -- --$argv[1] $words
end

complete -c routecli -f

complete -c routecli -n __routecli_has_no_command -s h -l help -d 'Print help'
complete -c routecli -n __routecli_has_no_command -s V -l version -d 'Print version'
complete -c routecli -n '__routecli_is answer prepare route info check renew' -s h -l help -d 'Print help'

set -l commands '__routecli_has_no_command; or __routecli_takes_word help'
complete -c routecli -n $commands -a answer -d 'Finds shortest paths in a small graph'
complete -c routecli -n $commands -a prepare -d 'Prepares a hierarchy of a graph, from which route answers'
complete -c routecli -n $commands -a route -d 'Finds shortest paths, as answer does, using a prepared hierarchy'
complete -c routecli -n $commands -a info -d 'Prints the version, nodes, links, bound and bytes of a prepared hierarchy'
complete -c routecli -n $commands -a check -d 'Verifies that a hierarchy is right for a graph, whoever made it'
complete -c routecli -n $commands -a renew -d 'Prepares a hierarchy of a graph in the order of an old one'
complete -c routecli -n $commands -a help -d 'Print this message or the help of the given subcommand(s)'

complete -c routecli -n '__routecli_takes_word answer prepare route info check renew' -F
complete -c routecli -n __routecli_takes_input -a - -d 'With - for both files, standard input has both texts'

complete -c routecli -n '__routecli_lacks workers prepare' -l workers -x -d 'Number of threads that contract nodes, 0 to 64'
complete -c routecli -n '__routecli_lacks sequential prepare' -l sequential -d 'Contract nodes on one thread, without shared state'
complete -c routecli -n '__routecli_lacks seed prepare' -l seed -x -d 'Seed of the random choices, 0 to 18446744073709551615'
complete -c routecli -n '__routecli_lacks order prepare' -l order -x -d 'Which nodes are contracted first' \
    -a "(routecli prepare --help 2>/dev/null | string match -r 'possible values: [^]]*' | string replace 'possible values: ' '' | string split ', ')"
complete -c routecli -n '__routecli_lacks stint prepare' -l stint -x -d 'Switch each thread to the next order after C contractions'
complete -c routecli -n '__routecli_lacks progress prepare check renew' -l progress -d 'Show progress from the start'
complete -c routecli -n '__routecli_lacks explain answer prepare route info check renew' -l explain -d 'Explain errors in detail on standard error'
