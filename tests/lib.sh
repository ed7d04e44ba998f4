# What tests in shell have in common: sourced by them, after $tests has what they are called. A test has a name, and is one line if it fails. With
# TAP=1 in the environment each test is a line of the Test Anything Protocol, for `prove`. The last line of a script is 'N passed, M failed'.

passed=0
failed=0

# How many seconds one command may take. Beside others that use all processors it takes many times as long as alone, so
# this is far more than it needs: it only ends what hangs.
limit=600

# Nothing may hang: none of a script's processes may use more processor time than this many seconds, and the script may
# take twenty times as long. Then it is ended, and its last line is missing: within SECONDS SCRIPT.
within() {
    if [ "${IS_LIMITED:-no}" = no ]; then
        export IS_LIMITED=yes
        ulimit -t "$1"
        exec timeout $((20 * $1)) "$(readlink -f -- "$2")"
    fi
}

# Makes a folder for the script, $room, which goes when the script ends.
make_room() {
    room=$(mktemp -d) || exit 3
    trap 'rm -rf "$room"' EXIT
}

# Unpacks a .tar.xz into a folder, by xz, or by Python where that isn't there; false if neither is: unpack ARCHIVE FOLDER.
unpack() {
    if command -v xz >/dev/null; then
        xz -dc "$1" | tar -xf - -C "$2"
    else
        python3 -c 'import sys, tarfile; tarfile.open(sys.argv[1]).extractall(sys.argv[2])' "$1" "$2" 2>/dev/null
    fi
}

# A test has passed: pass [NAME].
pass() {
    passed=$((passed + 1))
    [ -z "${TAP-}" ] || echo "ok $((passed + failed)) - ${1:-$tests}"
}

# A test has failed: fail WHY.
fail() {
    failed=$((failed + 1))
    if [ -n "${TAP-}" ]; then echo "not ok $((passed + failed)) - $1"; else echo "$tests: $1"; fi
}

# Two texts have to be the same: same NAME WANTED FOUND.
same() {
    if [ "$2" = "$3" ]; then pass "$1"; else fail "$1: '$3' and not '$2'"; fi
}

# Two files have to be the same: same_files NAME WANTED FOUND.
same_files() {
    if cmp -s "$2" "$3"; then
        pass "$1"
    else
        fail "$1"
        diff "$2" "$3" | head -n 20
    fi
}

# A text has to be in a file: has NAME TEXT FILE.
has() {
    if grep -qF -- "$2" "$3" 2>/dev/null; then pass "$1"; else fail "$1: no '$2' in '$(cat "$3")'"; fi
}

# A text may not be in a file: lacks NAME TEXT FILE.
lacks() {
    if grep -qF -- "$2" "$3" 2>/dev/null; then fail "$1: '$2' in '$(cat "$3")'"; else pass "$1"; fi
}

# ---- What a run says. A script that uses these has a function `run`, which runs something with the words of its call, and leaves its status in
# $status and its messages in the file `said`, or $messages. The case that it belongs to is $about.

# The run of the case NAME has ended with STATUS: ends_with NAME STATUS.
ends_with() {
    about=$1
    same "$about: status" "$2" "$status"
}

# Run with these words, the case NAME ends with STATUS: ends NAME STATUS WORD...
ends() {
    about=$1
    wanted_status=$2
    shift 2
    run "$@"
    ends_with "$about" "$wanted_status"
}

# Run with these words, the case NAME ends with a status and messages, and says nothing else: answers NAME "STATUS MESSAGES" WORD...
answers() {
    about=$1
    answer=$2
    shift 2
    run "$@"
    same "$about" "$answer" "$status $(cat "${messages:-said}")"
}

# Run with these words, the case NAME has a text among its messages: tells NAME TEXT WORD...
tells() {
    about=$1
    told=$2
    shift 2
    run "$@"
    says "$told"
}

# Each of these texts has to be among the messages of the case, or may not be: says TEXT..., is_silent_of TEXT...
says() {
    for each in "$@"; do has "$about" "$each" "${messages:-said}"; done
}
is_silent_of() {
    for each in "$@"; do lacks "$about" "$each" "${messages:-said}"; done
}

# ----

# Waits until a command succeeds, as long as one may take: await_that COMMAND...
await_that() {
    tries=0
    until "$@" || [ $tries -ge $((10 * limit)) ]; do
        sleep 0.1
        tries=$((tries + 1))
    done
    "$@"
}

# Waits until a file is there.
await() {
    await_that [ -e "$1" ]
}

# Waits until a text is in a file: await_text TEXT FILE.
await_text() {
    await_that grep -qsF -- "$1" "$2"
}

# The traces of an example: trace.txt, or all files of its folder except the texts: traces_of FOLDER.
traces_of() {
    if [ -f "$1/trace.txt" ]; then
        echo "$1/trace.txt"
    else
        find "$1" -maxdepth 1 -name '*.txt' ! -name report.txt ! -name explain.txt ! -name locks.txt ! -name fault.txt ! -name chains.txt ! -name condensed.txt | sort
    fi
}

# The place of a text in a source, `NAME:LINE`, or of the nth such text, so that an edit of a test's program moves no expected value. The source is in
# the folder $sources, or in the current one: place NAME TEXT [NTH].
place() {
    line_of_text=$(grep -nF -- "$2" "${sources:-.}/$1" | sed -n "${3:-1}s/:.*//p")
    echo "$1:${line_of_text:-nowhere}"
}

# Lines in one line.
in_line() {
    tr '\n' ' ' | sed 's/ $//'
}

# Whole traces of a text that has a nest of locks in each line: several events, and `48*EVENT` for so many of one. Lines of anything else are as
# they are: unfold FILE.
unfold() {
    awk '
        function is_event(word) { return word ~ /^([0-9]+[*])?((acq|rel|enter|on|off|lockdep),|leave$)/ }
        {
            first = /^== / && is_event($3) ? 3 : 1
            if (first == 3) print $1, $2
            if (!is_event($first)) { print; next }
            for (i = first; i <= NF; i++) {
                count = $i ~ /^[0-9]+[*]/ ? $i + 0 : 1
                event = $i
                sub(/^[0-9]+[*]/, "", event)
                while (count-- > 0) print event
            }
        }' "$1"
}

# A number in the SUMMARY of a recording below $room, if it is there: summary RECORDING CODE.
summary() {
    sed -n "s/^$2 \([0-9]*\)\$/\1/p" "$room/$1/SUMMARY"
}

# The end of a script.
say_result() {
    [ -z "${TAP-}" ] || echo "1..$((passed + failed))"
    echo "$passed passed, $failed failed"
    [ "$failed" -eq 0 ]
}
