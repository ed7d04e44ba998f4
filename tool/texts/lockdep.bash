# Completion of lockdep for bash.

_lockdep_options() {
    case $1 in
@OPTIONS@
    esac
}

_lockdep() {
    local word=$2 before=$3 command=${COMP_WORDS[1]} commands='@COMMANDS@ help'
    local place
    # What `-o` and `--output` name: a folder, or a file for `view`.
    local kind=-d
    [ "$command" != view ] || kind=-f
    COMPREPLY=()
    if [ "$COMP_CWORD" -eq 1 ]; then
        mapfile -t COMPREPLY < <(compgen -W "$commands --help --version" -- "$word")
        return
    fi
    case $command in
        help)
            mapfile -t COMPREPLY < <(compgen -W "$commands" -- "$word")
            return
            ;;
        run | provoke | record)
            # What comes after `--`, or from the first word on that is neither an option nor an option's value, is a command.
            for ((place = 2; place < COMP_CWORD; place++)); do
                case ${COMP_WORDS[place]} in
                    --)
                        place=$((place + 1))
                        break
                        ;;
                    @VALUES@)
                        place=$((place + 1))
                        ;;
                    = | -*) ;;
                    *) break ;;
                esac
            done
            if [ "$place" -lt "$COMP_CWORD" ] || { [ "$place" -eq "$COMP_CWORD" ] && { [[ $word != -* ]] || [ "$before" = -- ]; }; }; then
                if declare -F _command_offset >/dev/null; then
                    _command_offset "$place"
                else
                    mapfile -t COMPREPLY < <(compgen -c -f -- "$word")
                fi
                return
            fi
            ;;
    esac
    case $before in
@COMPLETED@
        *)
            case $word in
                -*) mapfile -t COMPREPLY < <(compgen -W "$(_lockdep_options "$command")" -- "$word") ;;
                *)
                    case $command in
                        where | confirm) mapfile -t COMPREPLY < <(compgen -d -- "$word") ;;
                        *) mapfile -t COMPREPLY < <(compgen -f -- "$word") ;;
                    esac
                    ;;
            esac
            ;;
    esac
}

complete -o filenames -F _lockdep lockdep
