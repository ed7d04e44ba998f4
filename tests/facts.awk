# Works out most of a report with a plain loop over the records of well-formed traces: awk -F, -f facts.awk TRACE...
# It writes the totals, a usage line for each key, and a circle line for each dependency that is left after keys that no dependency
# leads to, or none leads from, are removed with their dependencies, again and again. Without recursive readers these are the
# dependencies on circles and between them. It ends with status 3 if interrupts could have a part in a finding: if other arrows are
# left when links, which go from keys used with a state enabled to those used in it, are removed in the same way.

# The name and subclass of the record, whose subclass is the given number of fields before the last.
function key_of(behind,    i, name) {
    name = $2
    for (i = 3; i < NF - behind; i++) name = name "," $i
    if (name ~ /^"/) {
        name = substr(name, 2, length(name) - 2)
        gsub(/""/, "\"", name)
    }
    name = name "/" $(NF - behind)
    if (!(name in known)) {
        known[name] = 1
        keys++
    }
    return name
}

# Marks a key: as used in the interrupts of the frame, and as enabled if they may come in.
function mark_used(key, is_read) {
    if (kind[depth] != "task") used[kind[depth], key, is_read] = 1
}
function mark_enabled(key, is_read) {
    if (hard[depth]) enabled["hardirq", key, is_read] = 1
    if (hard[depth] && soft[depth]) enabled["softirq", key, is_read] = 1
}

# The dependency from a held lock to a new one.
function depend(from, from_read, to, is_recursive,    letters) {
    letters = (from_read ? "S" : "E") (is_recursive ? "R" : "N")
    if (!((from " " letters " " to) in dependencies)) {
        dependencies[from " " letters " " to] = 1
        dependency_count++
    }
}

FNR == 1 {
    traces++
    depth = 1
    kind[1] = "task"; hard[1] = soft[1] = 1; count[1] = 0
    next
}

{ events++ }

$1 == "acq" {
    key = key_of(1)
    tries = $NF ~ /^t/
    is_read = $NF ~ /r/
    for (i = 1; i <= count[depth] && !tries; i++)
        depend(held[depth, i], read[depth, i], key, $NF == "rr")
    if (!tries) mark_used(key, is_read)
    mark_enabled(key, is_read)
    held[depth, ++count[depth]] = key
    read[depth, count[depth]] = is_read
}

$1 == "rel" {
    key = key_of(0)
    for (i = count[depth]; held[depth, i] != key; i--) ;
    for (; i < count[depth]; i++) {
        held[depth, i] = held[depth, i + 1]
        read[depth, i] = read[depth, i + 1]
    }
    count[depth]--
}

$1 == "enter" {
    kind[++depth] = $2
    count[depth] = 0
    hard[depth] = $2 == "softirq"
    soft[depth] = 0
}

$1 == "leave" { depth-- }

$1 == "off" { if ($2 == "hardirq") hard[depth] = 0; else soft[depth] = 0 }

$1 == "on" {
    if ($2 == "hardirq") hard[depth] = 1; else soft[depth] = 1
    for (i = 1; i <= count[depth]; i++) mark_enabled(held[depth, i], read[depth, i])
}

# One of the four characters of a usage line.
function character(irq, key, is_read) {
    if ((irq, key, is_read) in used) return (irq, key, is_read) in enabled ? "?" : "-"
    return (irq, key, is_read) in enabled ? "+" : "."
}

# Whether the key is used in the state, or with it enabled, by a reader or not.
function is_marked(marks, irq, key) { return ((irq, key, 0) in marks) || ((irq, key, 1) in marks) }

# Removes arrows, which are pairs of keys, from and to a key that none leads to or none leads from, until there is no such key.
function peel(    arrow, ends, into, out, gone) {
    do {
        gone = 0
        split("", into); split("", out)
        for (arrow in left) { split(arrow, ends, SUBSEP); out[ends[1]] = 1; into[ends[2]] = 1 }
        for (arrow in left) {
            split(arrow, ends, SUBSEP)
            if (!(ends[1] in into) || !(ends[2] in out)) { delete left[arrow]; gone++ }
        }
    } while (gone)
}

END {
    print "traces " traces; print "events " events; print "keys " keys; print "dependencies " dependency_count
    for (arrow in dependencies) { split(arrow, ends, " "); left[ends[1], ends[3]] = 1 }
    peel()
    for (arrow in left) circles++
    print "clean " (circles ? "no" : "yes")
    for (key in known)
        print "usage " key " {" character("hardirq", key, 0) character("hardirq", key, 1) character("softirq", key, 0) character("softirq", key, 1) "}"
    for (arrow in dependencies) { split(arrow, ends, " "); if ((ends[1], ends[3]) in left) print "circle " arrow }
    for (arrow in dependencies) { split(arrow, ends, " "); left[ends[1], ends[3]] = 1 }
    for (from in known) for (to in known)
        if (is_marked(enabled, "hardirq", from) && is_marked(used, "hardirq", to) || is_marked(enabled, "softirq", from) && is_marked(used, "softirq", to))
            left[from, to] = 1
    peel()
    for (arrow in left) circles--
    exit circles == 0 ? 0 : 3
}
