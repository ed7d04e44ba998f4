# How the proved program is found, and what is printed in addition to its output. A part of `lockdep`, which has $home, $top, $is_installed
# and `say`.

# Whether a person will type the trace: standard input is a terminal, and the words after the command are all options.
is_typed() {
    [ -t 0 ] || return 1
    shift
    while [ $# -gt 0 ]; do
        case $1 in
            --workers) [ $# -lt 2 ] || shift ;;
            -h | --help | --) return 1 ;;
            -?*) ;;
            *) return 1 ;;
        esac
        shift
    done
}

# What the program's help texts don't say: the commands that aren't the program's, statuses, and further reading.
say_more_help() {
    case "${1-} ${2-}" in
        '--help ' | '-h ' | 'help ') more=lockdep ;;
        'help '* | *' --help' | *' -h') more=${1-} && [ "$1" != help ] || more=$2 ;;
        *) return ;;
    esac
    [ ! -f "$home/tool/help/$more" ] || cat "$home/tool/help/$more"
}

# Ends with the program's status. If that says that a signal ended the program, this script ends by it too.
end_with() {
    if [ "$1" -gt 128 ]; then kill -s "$(kill -l "$1")" $$ 2>/dev/null; fi
    exit "$1"
}

# Runs the program. It prints at most one line to standard error, at its end, which is kept until then; its standard output isn't
# touched. A signal that ends this script ends the program too, which setpriv arranges if it is there. The program replaces the script
# if nothing could be added: if LOCKDEP_PLAIN is set, if an output is closed, or if descriptor 9, which is needed here, is in use.
answer() {
    if [ -n "${LOCKDEP_PLAIN-}" ] || [ ! -e /dev/fd/1 ] || [ ! -e /dev/fd/2 ] || [ -e /dev/fd/9 ]; then
        exec "$program" "$@"
    fi
    case ${1-} in
        check | explain | graph | condense | chains)
            if is_typed "$@"; then say "no file is named, so one trace is read from standard input; Ctrl-D ends it"; fi
            ;;
        schedule)
            if is_typed "$@"; then say "no file is named, so one history is read from standard input; Ctrl-D ends it"; fi
            ;;
    esac
    tied=
    if command -v setpriv >/dev/null; then tied='setpriv --pdeathsig TERM --'; fi
    {
        said=$(exec $tied "$program" "$@" 2>&1 >&9 9>&-)
        status=$?
    } 9>&1 2>/dev/null
    [ -z "$said" ] || printf '%s\n' "$said" >&2
    case $status in
        0) say_more_help "$@" ;;
        2)
            if [ -p /dev/fd/1 ]; then output=pipe; else output=; fi
            LOCKDEP_OUTPUT=$output "$home/tool/refusal" "$program" "$said" "$@" >&2
            ;;
    esac
    end_with $status
}

# Sets $program, building it if necessary. Nothing is built if the tool was installed.
find_program() {
    if [ "$is_installed" = yes ]; then
        program=$home/lockdep
        return
    fi
    # shellcheck source=tool/sources
    . "$home/tool/sources"
    if is_released_still; then
        program=$released
        return
    fi
    if is_current; then
        [ ! -f "$seen" ] || rm -f "$seen" 2>/dev/null # what it says of the release is no longer asked
        return
    fi
    if is_released; then
        program=$released
        return
    fi
    # shellcheck source=tool/build
    . "$home/tool/build"
    say "$unreleased: git status tells what was changed, and ./lockdep --unproved runs the sources without a proof"
    need_rt "the program has to be built"
    build_in_turn
}

# What only a checkout has: proving, and releasing.
in_a_checkout() {
    if [ "$is_installed" = yes ]; then
        say "$1 belongs to a checkout of the sources, and this tool is an installed one"
        exit 3
    fi
    # shellcheck source=tool/sources
    . "$home/tool/sources"
    # shellcheck source=tool/build
    . "$home/tool/build"
    of_the_sources "$@"
}

# Becomes a part of the package of Python. It gets findings from `lockdep`, unless the variable LOCKDEP names another program.
become_part() {
    command -v python3 >/dev/null || {
        say "\`$1\` needs Python 3.7 or later, and python3 is not on the PATH"
        exit 3
    }
    export LOCKDEP="${LOCKDEP:-$top/lockdep}"
    exec python3 -I -S "$home/tool/lockdep/parts.py" "$@"
}
