# Completion of lockdep for bash.

_lockdep_options() {
    case $1 in
        run) echo -o --output --recorder --frames --signals --history --known --suppressions --no-library-list --write-known --strict-known --html --sarif --junit --json --accept-left-out -q --quiet -v --verbose --color --error-exitcode --confirmed-only --help ;;
        provoke) echo -o --output --from --recorder --signals --runs --pause --sure --finding --keep --core --while --stdin --help ;;
        check) echo --workers --many --help ;;
        explain) echo --workers --many --json --locks --confirmed-only --help ;;
        graph) echo --workers --many --findings --help ;;
        condense) echo --workers --many --help ;;
        schedule) echo --json --help ;;
        chains) echo --help ;;
        record) echo -o --output --recorder --frames --signals --history --no-wait --finish --histories --summary --accept-left-out --help ;;
        confirm) echo --confirmed-only -v --verbose --all --color --html --sarif --junit --json --help ;;
        report) echo --help ;;
        gather) echo -o --output --list --processes --scheduler --insecure --group --skip-bad --accept-left-out --add --night --build --since --forget-build --known --suppressions --write-known --error-exitcode --source --confirmed-only --html --sarif --junit --json --help ;;
        where) echo --help ;;
        diff) echo --help ;;
        view) echo -o --output --sarif --junit --json --known --suppressions --help ;;
    esac
}

_lockdep() {
    local word=$2 before=$3 command=${COMP_WORDS[1]} commands='run provoke check explain graph condense schedule chains record confirm report gather where diff view help'
    local place
    # What `-o` and `--output` name: a folder, or a file for `view`.
    local kind=-d
    [ "$command" != view ] || kind=-f
    COMPREPLY=()
    if [ "$COMP_CWORD" -eq 1 ]; then
        mapfile -t COMPREPLY < <(compgen -W "$commands --help --version" -- "$word")
        return
    fi
    case $command in
        help)
            mapfile -t COMPREPLY < <(compgen -W "$commands" -- "$word")
            return
            ;;
        run | provoke | record)
            # What comes after `--`, or from the first word on that is neither an option nor an option's value, is a command.
            for ((place = 2; place < COMP_CWORD; place++)); do
                case ${COMP_WORDS[place]} in
                    --)
                        place=$((place + 1))
                        break
                        ;;
                    -o | --output | --recorder | --frames | --signals | --history | --known | --suppressions | --write-known | --html | --sarif | --junit | --json | --accept-left-out | --color | --error-exitcode | --from | --runs | --pause | --sure | --finding | --while | --stdin | --finish | --histories | --summary)
                        place=$((place + 1))
                        ;;
                    = | -*) ;;
                    *) break ;;
                esac
            done
            if [ "$place" -lt "$COMP_CWORD" ] || { [ "$place" -eq "$COMP_CWORD" ] && { [[ $word != -* ]] || [ "$before" = -- ]; }; }; then
                if declare -F _command_offset >/dev/null; then
                    _command_offset "$place"
                else
                    mapfile -t COMPREPLY < <(compgen -c -f -- "$word")
                fi
                return
            fi
            ;;
    esac
    case $before in
        -o | --output) mapfile -t COMPREPLY < <(compgen "$kind" -- "$word") ;;
        --recorder) mapfile -t COMPREPLY < <(compgen -W 'pthread python java rust go embed' -- "$word") ;;
        --frames) mapfile -t COMPREPLY < <(compgen -W '1 2 3 4 6 8 12 16' -- "$word") ;;
        --signals) mapfile -t COMPREPLY < <(compgen -W 'off locks all' -- "$word") ;;
        --history) mapfile -t COMPREPLY < <(compgen -W 'off 16 64 256 1024' -- "$word") ;;
        --known | --suppressions | --write-known | --html | --sarif | --junit | --json | --stdin | --list) mapfile -t COMPREPLY < <(compgen -f -- "$word") ;;
        --accept-left-out | --error-exitcode | --runs | --pause | --sure | --finding | --while | --processes | --scheduler | --group | --night | --build | --since | --forget-build) ;;
        --color) mapfile -t COMPREPLY < <(compgen -W 'auto always never' -- "$word") ;;
        --from | --finish | --histories | --summary | --source) mapfile -t COMPREPLY < <(compgen -d -- "$word") ;;
        --workers) mapfile -t COMPREPLY < <(compgen -W '1 2 4 8 16 32 64' -- "$word") ;;
        *)
            case $word in
                -*) mapfile -t COMPREPLY < <(compgen -W "$(_lockdep_options "$command")" -- "$word") ;;
                *)
                    case $command in
                        where | confirm) mapfile -t COMPREPLY < <(compgen -d -- "$word") ;;
                        *) mapfile -t COMPREPLY < <(compgen -f -- "$word") ;;
                    esac
                    ;;
            esac
            ;;
    esac
}

complete -o filenames -F _lockdep lockdep
