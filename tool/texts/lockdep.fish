# Completion of lockdep for fish.

function __lockdep_first
    test (count (commandline -opc)) -eq 1
end

function __lockdep_in
    set -l words (commandline -opc)
    test (count $words) -ge 2; and contains -- $words[2] $argv
end

complete -c lockdep -n __lockdep_first -f
@COMMANDS@
complete -c lockdep -n __lockdep_first -a help -d 'Print help'
complete -c lockdep -n __lockdep_first -l version -s V -d 'Print the version'
complete -c lockdep -n 'not __lockdep_in help' -l help -s h -d 'Print help'
complete -c lockdep -n '__lockdep_in help' -f -a '@NAMES@'

@OPTIONS@
complete -c lockdep -n '__lockdep_in confirm where' -f -a '(__fish_complete_directories)'

# The command that is recorded, and its words.
complete -c lockdep -n '__lockdep_in run provoke record' -x -a '(__fish_complete_subcommand --fcs-skip=2)'
