# What the tests of `lockdep provoke` have in common, whose programs are in tests/provoke beside the script: sourced by them after tests/lib.sh.

# provoke WORD...: what it says is in `said`, and its status in $status. One that hangs is ended, and named.
provoke() {
    timeout --foreground "$limit" "$top/lockdep" provoke --sure 1 "$@" >said 2>&1
    status=$?
    [ "$status" != 124 ] || echo "lockdep provoke $*: it hung, and was ended after $limit seconds" | tee -a said
}

# The innermost places at which the threads wait, sorted.
waits() {
    awk '/^  thread / { getline; sub(/^ *waits  /, ""); sub(/\([A-Z].*\)/, ""); print }' said | sort | tr '\n' '|'
}

# Where `place` looks for a source.
# shellcheck disable=SC2034,SC2154
sources=$here/tests/provoke

# What the line before the last one counts, of programs: those that can stand still, and those of them that did so in one of the first three runs;
# those that can't, or that end it themselves; and claims that these stand still.
count_real=0
count_stood=0
count_others=0
count_claims=0

# A program that can stand still was provoked, and what it says is in `said`: it does, with its first finding: it_happens NAME [WHAT STANDS STILL]
it_happens() {
    count_real=$((count_real + 1))
    ! grep -q "^lockdep: run [123]: finding 1 happened: ${2-the program stands still}\$" said || count_stood=$((count_stood + 1))
    same "$1: status" 1 "$status"
    has "$1: it happens" ": finding 1 happened: ${2-the program stands still}" said
}

# What stands still where one other thread can go on, which can't let those of the finding go on.
# shellcheck disable=SC2034
but_one="its threads stand still, and 1 other thread can go on"

# A program that can't stand still for good was provoked.
nothing_is_claimed() {
    count_others=$((count_others + 1))
    ! grep -q ' happened: ' said || count_claims=$((count_claims + 1))
    lacks "$1: no claim" "happened" said
}

say_counts() {
    echo "$tests: $count_stood of $count_real programs that can stand still did so in the first three runs; $count_claims of $count_others others were said to"
    say_result
}

# A program stands still with its first finding, in which its threads wait at these places: happens NAME PLACES COMMAND... `trying` may have options,
# and `still` what stands still if that isn't the program.
happens() {
    name=$1
    places=$2
    shift 2
    # shellcheck disable=SC2086
    provoke -o "$name.traces" ${trying-} -- "$@"
    it_happens "$name" ${still:+"$still"}
    same "$name: where its threads wait" "$places" "$(waits)"
}

# Provokes a server that reads requests from a pipe, and says by the lengths of two files how many it has answered and served: serve COMMAND...
# Each request waits for the answer to the one before, and the load for all that were served.
serve() {
    mkfifo requests
    cat >load <<'END'
come() { until [ "$(wc -c <"$1")" -ge "$2" ]; do sleep 0.05; done; }
sent=0
for request in r w r w r w; do
    echo "request $request"
    printf $request >requests
    sent=$((sent + 1))
    come answered $sent
done
come served $sent
END
    provoke -o server.traces --while '. ./load' -- "$@" requests answered served
}

# A program never stands still, for this reason: never NAME REASON COMMAND...
never() {
    name=$1
    reason=$2
    shift 2
    provoke -o "$name.traces" --runs 2 --pause 30 -- "$@"
    nothing_is_claimed "$name"
    same "$name: status" 0 "$status"
    has "$name: why not" "lockdep: finding 1: not in 2 runs: $reason" said
}

# refused LINE WORD...: with status 2 and this line.
refused() {
    line=$1
    shift
    provoke "$@"
    same "$*: status" 2 "$status"
    has "$*" "lockdep: $line" said
}
