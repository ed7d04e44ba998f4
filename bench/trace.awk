# Makes traces for the benchmark: awk -v story=NAME -v folder=FOLDER [-v files=N] [-v events=N] -f trace.awk writes the files
# FOLDER/0001.csv and so on, each of about `events` events and each with another seed.
#
#   long        like a program: 64 routines that take 1 to 4 of 200 locks, called at random; most chains repeat
#   interrupts  the same, with an interrupt that takes a lock, or a stretch with interrupts off, in between: a quarter of the
#               records are enter, leave, on and off
#   deep        nests of up to 40 locks, drawn anew each time: most chains are new
#   nested      nests of 1 to 6 of 200 locks, drawn anew each time, taken in the order of their keys
#   dense       an order over 256 keys without a circle: each pair in that order, as a dependency of each kind
#   pairs       the same dependencies, in four files of one kind each, one pair at a time: every fourth event brings a new one
#   tangled     each pair of 256 keys in both orders, of each kind, and each key taken in a hardirq and in a softirq

# The next of a fixed sequence of numbers, 0 to bound - 1.
function draw(bound) {
    seed = (seed * 16807) % 2147483647
    return seed % bound
}

function take(key, mode) {
    printf "acq,%s%03d,0,%s\n", name, key, mode >file
}

function give_back(key) {
    printf "rel,%s%03d,0\n", name, key >file
}

# Takes the later key under the earlier one, by a writer or a reader and as a recursive reader or a writer.
function pair_up(from, to,    mode) {
    for (mode = 1; mode <= 2; mode++) {
        take(to, mode == 1 ? "rr" : "w")
        give_back(to)
    }
}

# Holds a key, first as a writer and then as a reader, while the keys from first on are taken.
function hold(from, first,    mode, to) {
    for (mode = 1; mode <= 2; mode++) {
        take(from, mode == 1 ? "w" : "r")
        for (to = first; to < 256; to++)
            if (to != from)
                pair_up(from, to)
        give_back(from)
    }
}

# One nest of this many locks, with increasing keys, so that there is no circle.
function nest(depth,    i, key) {
    key = -1
    for (i = 1; i <= depth; i++) {
        key += 1 + draw(int((199 - key) / (depth - i + 1)))
        nested[i] = key
        take(key, draw(4) == 0 ? (draw(2) == 0 ? "r" : "rr") : "w")
    }
    for (i = depth; i >= 1; i--)
        give_back(nested[i])
}

function tell_nested(    left, depth) {
    for (left = events; left > 0; left -= 2 * depth) {
        depth = 1 + draw(6)
        if (2 * depth > left)
            depth = left / 2
        nest(depth)
    }
}

function tell_dense(    from) {
    for (from = 0; from < 256; from++)
        hold(from, from + 1)
}

# One pair at a time, as a dependency of one kind for each file: a writer or a reader, and under it a recursive reader or a writer.
function tell_pairs(    from, to) {
    for (from = 0; from < 256; from++)
        for (to = from + 1; to < 256; to++) {
            take(from, number % 2 ? "w" : "r")
            take(to, number > 2 ? "rr" : "w")
            give_back(to)
            give_back(from)
        }
}

function handle(irq, key) {
    print "enter," irq >file
    take(key, "w")
    give_back(key)
    print "leave" >file
}

# The routines of a program: the locks that each takes, in the order of their keys, so that there is no circle.
function make_routines(    i, j, key) {
    for (i = 0; i < 64; i++) {
        depth_of[i] = 1 + draw(4)
        key = -1
        for (j = 1; j <= depth_of[i]; j++) {
            key += 1 + draw(int((197 - key) / (depth_of[i] - j + 1)))
            lock_of[i, j] = key
            mode_of[i, j] = draw(8) == 0 ? "r" : "w"
        }
    }
}

function call(i,    j) {
    for (j = 1; j <= depth_of[i]; j++)
        take(lock_of[i, j], mode_of[i, j])
    for (j = depth_of[i]; j >= 1; j--)
        give_back(lock_of[i, j])
}

function tell_long(    left, i) {
    for (left = events; left > 0; left -= 2 * depth_of[i]) {
        i = draw(64)
        if (2 * depth_of[i] > left)
            break
        call(i)
    }
}

# Some of the calls run with hardirqs off, and interrupts come in between, each of which takes a lock that only it takes.
function tell_interrupts(    left, i, what) {
    for (left = events; left > 10; ) {
        i = draw(64)
        what = draw(4)
        if (what == 0) {
            if (draw(2)) handle("hardirq", 199); else handle("softirq", 198)
            left -= 4
            continue
        }
        if (what > 1) print "off,hardirq" >file
        call(i)
        if (what > 1) print "on,hardirq" >file
        left -= 2 * depth_of[i] + (what > 1 ? 2 : 0)
    }
}

function tell_deep(    left, depth) {
    for (left = 320000; left > 0; left -= 2 * depth) {
        depth = 1 + draw(40)
        nest(depth)
    }
}

function tell_tangled(    key) {
    for (key = 0; key < 256; key++) {
        handle("hardirq", key)
        handle("softirq", key)
    }
    for (key = 0; key < 256; key++)
        hold(key, 0)
}

BEGIN {
    if (!files) files = 1
    if (!events) events = 1000000
    name = story == "long" || story == "interrupts" ? "module.lock_" : "lock"
    for (number = 1; number <= files; number++) {
        seed = 1
        make_routines()
        seed = number
        file = sprintf("%s/%04d.csv", folder, number)
        print "lockdep,1" >file
        if (story == "long") tell_long()
        else if (story == "interrupts") tell_interrupts()
        else if (story == "deep") tell_deep()
        else if (story == "nested") tell_nested()
        else if (story == "dense") tell_dense()
        else if (story == "pairs") tell_pairs()
        else if (story == "tangled") tell_tangled()
        else exit 1
        close(file)
    }
}
