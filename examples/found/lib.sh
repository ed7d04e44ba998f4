# shellcheck shell=sh disable=SC2034,SC2154 # the scripts set and use these
# What the scripts of these examples share. A script sets `name`, and calls `enter_network` with its own words first: then it runs as root in a network of its
# own, which has nothing but loopback, with a temporary folder as the working folder. Its processes are in a namespace of their own, too, so what it has
# started ends with it.

lockdep=$here/../../../lockdep

say() {
    echo "$name: $1" >&2
}

# Ends with a message and status 2.
refuse() {
    say "$1"
    exit 2
}

# Has apt-get install a package of Debian 12 if a command isn't there: need COMMAND PACKAGE.
need() {
    command -v "$1" >/dev/null || apt-get install -y --no-install-recommends "$2" >&2 || refuse "$1 is needed, of the package $2"
}

# What the script was called with: one of three words, and in the network one more before it.
enter_network() {
    case ${1-},${2-} in
        in-network,finding | in-network,happen | in-network,hang)
            what=$2
            ip link set lo up
            room=$(mktemp -d)
            trap 'rm -rf "$room" || :' EXIT
            trap 'exit 130' INT
            trap 'exit 143' TERM
            cd "$room" || exit 3
            return
            ;;
        finding, | happen, | hang,) ;;
        *) refuse "usage: run finding | run happen | run hang" ;;
    esac
    [ "$(id -u)" -eq 0 ] || refuse "this has to be run as root"
    for needed in python3 unshare ip; do
        command -v $needed >/dev/null || refuse "$needed is needed"
    done
    get_packages
    exec unshare --net --pid --fork --kill-child --mount-proc "$here/run" in-network "$1"
}

# Starts a command, and writes what it prints to a file: start FILE COMMAND... Its process is $started_last.
start() {
    file=$1
    shift
    "$@" >"$file" 2>&1 </dev/null &
    started_last=$!
}

# Waits until something listens on a port of loopback: wait_for_port PORT.
wait_for_port() {
    for _ in $(seq 300); do
        ! python3 -c 'import socket, sys; socket.create_connection(("127.0.0.1", int(sys.argv[1])), 1)' "$1" 2>/dev/null || return 0
        sleep 0.2
    done
    refuse "nothing listens on port $1"
}

# Whether a process ends within so many seconds: ends PROCESS SECONDS.
ends() {
    for _ in $(seq $(($2 * 5))); do
        [ -d "/proc/$1" ] && [ "$(sed 's/.*) //; s/ .*//' "/proc/$1/stat" 2>/dev/null)" != Z ] || return 0
        sleep 0.2
    done
    return 1
}

# The threads of a process that wait for a lock, a paragraph each.
show_waiting() {
    gdb -p "$1" -batch -ex 'thread apply all bt 12' 2>/dev/null | awk 'BEGIN { RS = ""; ORS = "\n\n" } /lock_wait|rwlock_(rd|wr)lock|lll_lock/'
}
