"""Programs with other locks than those of pthreads, by what `look` says of their files."""
import unittest

from lockdep.binaries.symbols import Frame
from lockdep.finish import programs
from lockdep.finish.programs import other_programs
from lockdep.record.rust_locks import OF_LIBRARY, Kind, calls_of_aarch64, calls_of_x86_64, crate_of, kind_of
from lockdep.record.summary import Summary


class Looked(programs.Programs):
    """The programs of a recording, of which it is given what their files show."""

    def __init__(self, kinds, in_rust=(), is_passed=False):
        self.summary, self.is_passed = Summary(), is_passed
        self.run_files = list(dict.fromkeys(path for _, path in kinds))
        self.files = programs.Files("", [])
        for kind, path in kinds:
            self.files.of_locks.setdefault(path, []).append(kind)
        for path in in_rust:
            self.files.as_program[path] = ["rust"]


def named(kinds, code="other-programs", **more):
    looked = Looked(kinds, **more)
    looked.note_others()
    count = looked.summary.find(code)
    return [(file.path, file.why) for file in count.files] if count else []


class Runtimes(unittest.TestCase):
    def test_a_library_is_named_only_without_a_program(self):
        library = ("guile", "/usr/lib/libguile-3.0.so.1")
        self.assertEqual([file.path for file in other_programs([library])], [library[1]])
        self.assertEqual([file.path for file in other_programs([library, ("guile", "/usr/bin/guile")])], ["/usr/bin/guile"])

    def test_a_library_of_another_runtime_is_named(self):
        kinds = [("mono", "/usr/bin/mono"), ("guile", "/usr/lib/libguile-3.0.so.1")]
        self.assertEqual([file.why for file in other_programs(kinds)], ["mono", "guile"])

    def test_locks_of_a_library_are_those_of_who_takes_them(self):
        kinds = [("glib", "/usr/lib/x86_64-linux-gnu/libgio-2.0.so.0"), ("glib", "/opt/own/libown.so"), ("glib", "/opt/own/own")]
        self.assertEqual([file.path for file in other_programs(kinds)], ["/opt/own/libown.so", "/opt/own/own"])


class RustLocks(unittest.TestCase):
    """Who takes locks of std::sync itself: the recorder of Rust tries it with programs of this machine."""

    def test_calls_of_x86_64(self):
        # At 0x1000: call 0x2000; call by the table's place 0x3000; mov of that place to r15; jmp 0x800; a call of something else.
        code = bytes.fromhex("e8fb0f0000" "ff15f51f0000" "4c8b3dee1f0000" "e9e9f7ffff" "e800000000")
        self.assertEqual(list(calls_of_x86_64(code, 0x1000, {0x2000, 0x800}, {0x3000: 0x2000})),
                         [(0x2000, 0x1005), (0x2000, 0x100b), (0x2000, 0x1012), (0x800, 0x1017)])

    def test_calls_of_aarch64(self):
        # At 0x1000: bl 0x1010; nop; b 0xffc; an add whose immediate has the byte 0x94.
        code = bytes.fromhex("04000094" "1f2003d5" "fdffff17" "00940091")
        self.assertEqual(list(calls_of_aarch64(code, 0x1000, {0x1010, 0xffc})), [(0x1010, 0x1004), (0xffc, 0x100c)])

    def test_which_functions_are_the_librarys(self):
        names = {"_ZN3std4sync6poison5mutex14Mutex$LT$T$GT$4lock17h0123456789abcdefE": True,
                 "_ZN80_$LT$std..sync..lazy_lock..LazyLock$LT$T$C$F$GT$$u20$as$u20$core..ops..deref..Deref$GT$5deref17h0123456789abcdefE": True,
                 "_RINvMs_NtNtNtCsjrHSEGnQ3l9_3std4sync6poison5mutexINtB4_5MutexhE4lockEB8_": True,
                 "_ZN5plain5maps17h0123456789abcdefE": False,
                 "_ZN58_$LT$plain..Own$u20$as$u20$core..ops..drop..Drop$GT$4drop17h0123456789abcdefE": False,
                 "_RINvCs1234_5plain7genericNtNtCsjrHSEGnQ3l9_4core6option6OptionE": False}
        self.assertEqual({name: bool(OF_LIBRARY.match(name.encode())) for name in names}, names)

    def test_kinds_of_functions(self):
        std = "/rustc/0123/library/std/src/"
        of = {("lock", std + "sync/poison/mutex.rs"): Kind.LOCK, ("call", std + "sys/sync/once/futex.rs"): Kind.LOCK,
              ("force", std + "sync/lazy_lock.rs"): Kind.LOCK, ("recv", std + "sync/mpmc/list.rs"): Kind.OTHER,
              ("wait", std + "sync/barrier.rs"): Kind.OTHER, ("run", "/rustc/0123/library/test/src/lib.rs"): Kind.OTHER,
              ("map", "/rustc/0123/library/core/src/option.rs"): Kind.PASSED, ("waits", "/r/src/mutex.rs"): Kind.OTHER,
              ("insert", "/rust/deps/hashbrown-0.15.2/src/map.rs"): Kind.OTHER, ("unknown", ""): Kind.OTHER,
              ("take", "/home/library/own/src/lib.rs"): Kind.PROGRAM}
        self.assertEqual({key: kind_of(Frame(key[0], key[1], 1, ""), "/r/src/") for key in of}, of)
        self.assertEqual([kind_of(Frame(function, "/x/src/mutex.rs", 1, ""), "") for function in ("lock", "<lockdep_record::Mutex<T>>::lock", "x::lock")],
                         [Kind.OTHER, Kind.OTHER, Kind.PROGRAM])

    def test_crates(self):
        self.assertEqual([crate_of(Frame(function, "/home/plain-0.1.0/src/lib.rs", 1, "")) for function in
                          ("plain::take", "<plain::Own as core::ops::drop::Drop>::drop", "<T as plain::Take>::take", "take", "<alloc::sync::Arc<T> as plain::Take>::take")],
                         ["plain", "plain", "plain-0.1.0", "plain-0.1.0", "plain-0.1.0"])


class Futexes(unittest.TestCase):
    def test_a_program_without_other_locks_is_named(self):
        self.assertEqual(named([("futex", "/a")]), [("/a", "futex")])
        self.assertEqual(named([("semaphore", "/a"), ("futex", "/a")]), [("/a", "futex")])
        self.assertEqual(named([("futex", "/a")], "passed-programs", is_passed=True), [("/a", "futex")])

    def test_beside_pthread_locks_it_is_a_note(self):
        kinds = [("pthread", "/a"), ("futex", "/a"), ("futex", "/opt/libown.so")]
        self.assertEqual(named(kinds), [])
        self.assertEqual([path for path, _ in named(kinds, "futex-files")], ["/a", "/opt/libown.so"])

    def test_what_is_named_for_another_reason_is_not_named_twice(self):
        self.assertEqual(named([("node", "/a"), ("futex", "/a")]), [("/a", "node")])
        self.assertEqual(named([("futex", "/a")], in_rust=["/a"]), [])
        self.assertEqual(named([("futex", "/usr/lib/x86_64-linux-gnu/libstdc++.so.6")], "futex-files"), [])


if __name__ == "__main__":
    unittest.main()
