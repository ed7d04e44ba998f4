# Becomes the driver, which is in Python. A part of `lockdep`, `tool/run` and `recorders/pthread/record`, which set $home, and $entry to their own
# path.

# Sets $kept to the entries of a list that aren't of a pattern: leave_out PATTERN SEPARATORS LIST.
leave_out() {
    kept=
    set -f
    IFS=$2
    for each in $3; do
        # shellcheck disable=SC2254
        case $each in
            $1) ;;
            *) kept=$kept${kept:+:}$each ;;
        esac
    done
    unset IFS
    set +f
}

# Inside another recording this one takes over: what this script and its command start is no part of the other one, which finds a note of that
# beside what it recorded. The other one's library is in this process already, so the script begins once more without it.
leave_other_recording() {
    case ${LOCKDEP_RECORD:+${LD_PRELOAD-}}${LOCKDEP_LIBRARIES:+${LD_PRELOAD-}} in
        */out/preload.so*) ;;
        *) return ;;
    esac
    leave_out '*/out/preload.so' ' :' "$LD_PRELOAD"
    if [ -n "$kept" ]; then LD_PRELOAD=$kept; else unset LD_PRELOAD; fi
    [ -z "${LOCKDEP_RECORD-}" ] || { printf '%s\n' "$entry" >>"$LOCKDEP_RECORD/taken-over"; } 2>/dev/null
    unset LOCKDEP_RECORD LOCKDEP_LIBRARIES
    exec "$entry" "$@"
}

# Sets $ignored to the signals that this process was started to ignore, as the kernel has them: Python would forget some.
find_ignored() {
    ignored=
    while read -r name value; do
        [ "$name" != SigIgn: ] || { ignored=$value && return; }
    done </proc/self/status
} 2>/dev/null

# become_driver COMMAND WORD...
become_driver() {
    command -v python3 >/dev/null || {
        said_by=record
        if [ "$1" = run ] || [ -n "${LOCKDEP_RUN_HOME-}" ]; then said_by=lockdep; fi
        echo "$said_by: \`$1\` needs Python 3.7 or later, and python3 is not on the PATH; \`check\` and \`explain\` read traces without it" >&2
        exit 3
    }
    find_ignored
    LOCKDEP_STARTED="${LC_CTYPE-unset} $ignored"
    export LOCKDEP_STARTED
    exec python3 -I -S -X utf8 "$home/tool/lockdep/__main__.py" "$@"
}
