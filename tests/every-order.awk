# A trace of some keys, of any two of which each is taken under the other, or one of the texts of what is found in it: which one is in
# `form`. Every two keys are a circle, and no shorter one leads through either of their dependencies, which are all in one trace. How
# many keys there are, at most 900, is in `keys`; the trace is read from standard input.
#
#   awk -v keys=3 -v form=trace|explanation|json|picture -f tests/every-order.awk

# The record that takes the first of two keys before the second, counted from 1 with the header.
function record(a, b) { return 2 + 4 * (a * (keys - 1) + (b < a ? b : b - 1)) }

function key(a) { return "key" 100 + a "/0" }

function acquisitions(a, b) {
    return "acq,key" 100 + a ",0,w\nacq,key" 100 + b ",0,w\nrel,key" 100 + b ",0\nrel,key" 100 + a ",0"
}

# The line of a dependency's first occurrence.
function occurrence(a, b) {
    return sprintf("  %s EN %s: stdin: record %d takes %s w, with %s w held since record %d",
        key(a), key(b), record(a, b) + 1, key(b), key(a), record(a, b))
}

function block(a, b) {
    return sprintf("\ncircle %s EN %s EN %s\n%s\n%s\n  task 1 holds %s and waits for %s\n  task 2 holds %s and waits for %s\n  note: only in stdin",
        key(a), key(b), key(a), occurrence(a, b), occurrence(b, a), key(a), key(b), key(b), key(a))
}

function order(a, b) {
    return sprintf("{\"from\":\"%s\",\"kind\":\"EN\",\"to\":\"%s\",\"file\":\"stdin\",\"record\":%d,\"takes\":\"w\",\"held\":\"w\",\"since\":%d}",
        key(a), key(b), record(a, b) + 1, record(a, b))
}

function finding(a, b) {
    return sprintf("{\"type\":\"circle\",\"keys\":[\"%s\",\"%s\"],\"lines\":[\"circle %s EN %s\",\"circle %s EN %s\"],\"orders\":[%s,%s],\"notes\":[\"only in stdin\"]}",
        key(a), key(b), key(a), key(b), key(b), key(a), order(a, b), order(b, a))
}

function node(a) { return sprintf("  \"%s\" [label=\"%s {+.+.}\", color=red, fontcolor=red];", key(a), key(a)) }

function edge(a, b) { return sprintf("  \"%s\" -> \"%s\" [label=\"EN\", color=red, fontcolor=red];", key(a), key(b)) }

BEGIN {
    if (form == "trace") print "lockdep,1"
    if (form == "explanation") print "findings " keys * (keys - 1) / 2
    if (form == "json") print "{\"lockdep\":1,\"findings\":["
    if (form == "picture") {
        print "digraph lockdep {\n  node [shape=box];"
        for (a = 0; a < keys; a++) print node(a)
    }
    for (a = 0; a < keys; a++) for (b = 0; b < keys; b++) if (a != b) {
        if (form == "trace") print acquisitions(a, b)
        if (form == "explanation" && a < b) print block(a, b)
        if (form == "json" && a < b) print finding(a, b) (a < keys - 2 ? "," : "")
        if (form == "picture") print edge(a, b)
    }
    if (form == "json") print "]}"
    if (form == "picture") print "}"
}
