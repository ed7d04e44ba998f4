#!/usr/bin/env python3
"""Makes recordings and gathered folders that nobody should trust: make_hostile.py SEED FOLDER. FOLDER gets `damaged`, 200 recordings with random damage in a
file; `hostile`, 60 that are made to harm, and a folder with a secret; and `gathered`, 20 folders as `lockdep gather` writes them that aren't what it wrote. The same seed gives the same
files."""
import json
import os
import random
import shutil
import sys
import zlib

DAMAGED = 200
ESCAPE = "\x1b]0;owned\x07\x1b[31m"
GIGABYTES = 3 << 30
TRACE = "lockdep,1\nacq,A,0,w\nacq,B,0,w\nrel,B,0\nrel,A,0\n"
CLOSED = "lockdep,1\nacq,A#1,0,w\nacq,B#1,0,w\nrel,B#1,0\nrel,A#1,0\nacq,B#1,0,w\nacq,A#1,0,w\nrel,A#1,0\nrel,B#1,0\n"
COUNTS = {"processes": 1, "threads": 1, "operations": 4, "events": 4, "classes": 2}
HANDLER = {"signal": "SIGHUP", "handler": "on_hup", "module": "/usr/bin/program", "offset": "0x10", "number": 1, "runs": 1, "takes": 1}
FILES = {
    "SUMMARY": "".join("%s %d\n" % pair for pair in COUNTS.items()),
    "summary.json": json.dumps({"recording": 1, "recorder": "pthread", "counts": [{"code": code, "count": count} for code, count in COUNTS.items()],
                                "unseen": []}),
    "classes": "A\t/usr/bin/program\t10\tstatic\nB\t/usr/bin/program\t20\tstatic\n",
    "tasks": "task-0001.csv 1 main\n", "lives": "task-0001 starts task-0002 1\n", "weak": "task-0001.csv 3 timed\n",
    "task-0001.csv": TRACE, "objects/task-0001.csv": TRACE, "objects/task-0001.csv.places": "2 main.c:1 main\n3 main.c:2 main\n",
    "signals/never.json": json.dumps([dict(HANDLER, number=0)]), "signals/threads": "task-0001.csv 1\n",
}
LISTED = "a recording by lockdep made these:\n" + "".join(name + "\n" for name in FILES)


def write(path, raw):
    os.makedirs(os.path.dirname(path), exist_ok=True)
    with open(path, "wb") as file:
        file.write(raw if isinstance(raw, bytes) else raw.encode("utf-8", "surrogateescape"))


def recording(folder, **more):
    """A recording that is fine but for these files; None leaves one out."""
    for name, text in {**FILES, "RECORDED": LISTED, **{name.replace("__", "/"): text for name, text in more.items()}}.items():
        if text is not None:
            write(os.path.join(folder, name), text)
    return folder


def summary(**counts):
    said = json.loads(FILES["summary.json"])
    said["counts"] = [{"code": code, "count": counts.get(code, count)} for code, count in COUNTS.items()]
    return json.dumps(said)


# ---- Damage.

def cut(raw, chance):
    return raw[:chance.randrange(len(raw))]


def flipped(raw, chance):
    at = chance.randrange(len(raw))
    return raw[:at] + bytes([raw[at] ^ 1 << chance.randrange(8)]) + raw[at + 1:]


def noise(raw, chance):
    at = chance.randrange(len(raw))
    return raw[:at] + bytes(chance.randrange(256) for _ in range(chance.randrange(1, 64))) + raw[at:]


def doubled(raw, chance):
    at = chance.randrange(len(raw))
    return raw[:at] + raw[:at] + raw[at:]


def other(raw, chance):
    return chance.choice([b"", b"\0" * 100, b"\xff\xfe" + raw, b"\x7fELF" + raw, raw.replace(b"\n", b"\r"), b"[" * 5000, raw.upper(), b"%PDF-1.5\n", b"-1\n",
                          b"1e999\n"])


def damage(folder, chance):
    recording(folder)
    path = os.path.join(folder, chance.choice(sorted(FILES) + ["RECORDED"]))
    with open(path, "rb") as file:
        raw = file.read()
    write(path, chance.choice([cut, flipped, noise, doubled, other])(raw, chance))


# ---- Harm.

def sparse(path):
    write(path, "lockdep,1\n")
    os.truncate(path, GIGABYTES)


def replaced(path, make):
    if os.path.lexists(path):
        os.unlink(path)
    make(path)


def link_to(target):
    return lambda path: os.symlink(target, path)


def hostile(top):
    """Each kind of recording, which is in a folder of its own."""
    made = iter("%s/%02d" % (top, number) for number in range(1000))
    for text in ("[" * 200000, '{"counts":' * 50000, summary().replace('"count": 4', '"count":1e999'), summary(events=[[1]]), summary(events=-4),
                 summary(events=4.5),
                 summary(events="4"), summary().replace('"count": 4', '"count":' + "9" * 5000), summary().replace('"recording": 1', '"recording": 7'), "null",
                 "[]", "7",
                 '{"recording":1,"recorder":7,"counts":{"a":1},"unseen":0}', '{"recording":1,"recorder":"pthread","counts":[[]],"unseen":[null]}',
                 '{"recording":1,"recorder":"linux","counts":[],"unseen":[]}'):
        recording(next(made), **{"summary.json": text})
    for text in ("events -4\n", "events 4.5\n", "events " + "9" * 5000 + "\n", "events \u00b2\n", "evil %s 3\n  %s\n" % (ESCAPE, ESCAPE), "\xff\xfe 3\n"):
        recording(next(made), SUMMARY=FILES["SUMMARY"].replace("events 4\n", text), **{"summary.json": None})
    for name in ("tasks", "classes", "summary.json", "SUMMARY", "RECORDED", "weak", "lives", "signals/threads", "signals/never.json", "objects/task-0001.csv",
                 "task-0001.csv", "objects/task-0001.csv.places"):
        replaced(os.path.join(recording(next(made)), name), os.mkfifo)
    for name in ("objects/task-0001.csv", "classes", "weak", "SUMMARY", "objects/task-0001.csv.places"):
        replaced(os.path.join(recording(next(made)), name), sparse)
    for name, target in (("objects/task-0001.csv", "/etc/passwd"), ("classes", "/etc/shadow"), ("tasks", "/dev/zero"), ("weak", "weak"),
                         ("SUMMARY", "/proc/kmsg"),
                         ("objects/task-0001.csv", "missing")):
        replaced(os.path.join(recording(next(made)), name), link_to(target))
    folder = recording(next(made))
    shutil.rmtree(folder + "/objects")
    os.symlink("/etc", folder + "/objects")
    os.mkdir(recording(next(made), tasks=None) + "/tasks")
    os.mkfifo(recording(next(made)) + "/GATHERED")
    for name in ("objects/task-" + ESCAPE + ".csv", "objects/task-1\n2.csv"):
        recording(next(made), **{name.replace("/", "__"): TRACE})
    recording(next(made) + ESCAPE)
    recording(next(made), objects__task_0002="", **{"objects/task-0001.csv.places": "2 %s.c:1 w%s\n3 /etc/passwd.c:1 main\n" % (ESCAPE, ESCAPE),
                                                    "objects/task-0001.csv": CLOSED})
    secret = recording(next(made), **{"objects/task-0001.csv.places": "2 %s/leak.py:2 main\n3 %s/leak.py:2 main\n" % ((os.path.abspath(top) + "/secret",) * 2),
                                      "objects/task-0001.csv": CLOSED.replace("#1", ""), "summary.json": None, "task-0001.csv": CLOSED.replace("#1", "")})
    write(top + "/secret/hidden", "one\nPASSWORD\nthree\n")
    os.symlink("hidden", top + "/secret/leak.py")
    write(secret + "/note", "it names a source that is a link")
    recording(next(made), **{"objects/task-0001.csv.places": b"2 a:1 f\n" * 3000000, "objects/task-0001.csv": CLOSED})
    recording(next(made), **{"objects/task-0001.csv": "lockdep,1" + "\r" * 30000000 + "\nacq,A,0,w\nrel,A,0\n"})
    recording(next(made), **{"signals/never.json": "[" * 200000})
    recording(next(made), **{"signals/never.json": json.dumps([dict(HANDLER, number=-1)])})
    recording(next(made), tasks="../../../etc/passwd 1 main\n/etc/passwd 1 main\n",
              **{"summary.json": '{"recording":1,"recorder":"linux","counts":[],"unseen":[]}'})
    recording(next(made), **{"objects/task-0001.csv": "lockdep,1\n" + "".join("acq,%s,0,w\nrel,%s,0\n" % (name, name)
                                                                              for name in ("N%d" % n for n in range(8193)))})
    recording(next(made), **{"objects/task-0001.csv": "lockdep,1\n" + "".join(
        "acq,K%d,0,w\nacq,K%d,0,w\nrel,K%d,0\nrel,K%d,0\n" % (one, two, two, one) for one in range(30) for two in range(30) if one != two)})
    recording(next(made), weak="task-0001.csv 99999999999999999999 timed\n" * 1000 + "task-../../x.csv 1 timed\n")


# ---- Gathered folders.

def entry(name, count, numbers=""):
    return "%s\t%d\t%s\n" % (name, count, numbers)


ORDERS = "".join(entry(*line) for line in (("A/0 EN B/0", 1, "1"), ("used hardirqs on A/0", 1, "1"), ("used hardirqs on B/0", 1, "1"),
                                            ("used softirqs on A/0", 1, "1"), ("used softirqs on B/0", 1, "1")))
GATHERED = "lockdep,1\noff,hardirq\nacq,A,0,w\nacq,B,0,w\nrel,B,0\nrel,A,0\non,hardirq\noff,softirq\nacq,A,0,w\nrel,A,0\nacq,B,0,w\nrel,B,0\non,softirq\n" \
    "acq,A,0,w\nrel,A,0\nacq,B,0,w\nrel,B,0\n"
LIST = "1\t\t1\tone\t/one\n"


def gathered(folder, first="gathered by lockdep, format 3\n", more="", **files):
    """A gathered folder whose sums are right."""
    files = {"gathered.csv": GATHERED, "orders": ORDERS, "recordings": LIST, "places": "", **{name.replace("_", "."): text for name, text in files.items()}}
    for name, text in files.items():
        write(os.path.join(folder, name), text)
    raw = {name: text if isinstance(text, bytes) else text.encode("utf-8", "surrogateescape") for name, text in files.items()}
    sums = "".join(entry("crc32 " + name, zlib.crc32(text)) for name, text in raw.items())
    counts = "".join(entry(name, count) for name, count in (("folded", 0), ("left-out", 0), ("recordings", 1), ("traces", 1)))
    write(os.path.join(folder, "GATHERED"), first + "".join(sorted((counts + sums + more).splitlines(True))))


def gathered_folders(top):
    made = iter("%s/%02d" % (top, number) for number in range(1000))
    huge = "9" * 5000
    for more in (dict(orders=ORDERS.replace("\t1\t1\n", "\t%s\t1\n" % huge, 1)), dict(orders=ORDERS + "x\n"), dict(orders="a\t1\t1\n" * 5000000),
                 dict(orders=""),
                 dict(orders=ORDERS + entry("x/0 EN y/0", 1, "1")), dict(orders=ORDERS + entry("weak timed A/0 EN B/0", 5, "1")),
                 dict(orders=ORDERS + entry("whole A/0 EN B/0  B/0 EN A/0", 1, "1")), dict(orders=ORDERS.replace("\t1\n", "\t" + huge + "\n", 1)),
                 dict(recordings="1\t\t1\t%s\t/one\n" % ESCAPE), dict(recordings="\n" * 1000), dict(recordings="a@b\t\t1\tone\t/one\n"),
                 dict(recordings=LIST.replace("\n", "\t7\n")), dict(gathered_csv=b"\0" * 1000), dict(gathered_csv=GATHERED + "rel,A,0\n"),
                 dict(places="[" * 200000 + "\n"), dict(places=json.dumps({"of": ["A/0", "EN", "B/0"], "record": 3, "since": 2, "recording": "1",
                                                                           "inside": "../../etc/passwd",
                                                                           "callers": {"3": ["/etc/passwd.c:1 " + ESCAPE]}}) + "\n"),
                 dict(more=entry("accepted " + ESCAPE, 1, "1")), dict(more="accepted \udcff\t1\t1\n"), dict(first="gathered by lockdep, format 4\n"),
                 dict(more=entry("lot 2026-11-30 x", 1) + "folded\t1\t1\t9:1\n")):
        gathered(next(made), **more)


def main():
    seed, top = int(sys.argv[1]), sys.argv[2]
    for number in range(DAMAGED):
        damage("%s/damaged/%03d" % (top, number), random.Random(seed * 1000 + number))
    hostile(top + "/hostile")
    gathered_folders(top + "/gathered")


if __name__ == "__main__":
    main()
