"""Text, places and blocked threads."""
import fcntl
import io
import os
import shutil
import struct
import subprocess
import tempfile
import termios
import unittest

from lockdep.ask.asking import ask_about_threads
from lockdep.ask.blocked import blocked_threads
from lockdep.base.words import class_of_lock, stands_for_several, type_of_class, visible
from lockdep.binaries.cplusplus import Demangler, without_parameters
from lockdep.binaries.elf import within_functions
from lockdep.binaries.line_tables import files_of
from lockdep.binaries.symbols import Address, Symbols, frame_of, place_words, source_frame
from lockdep.places.places import key_of_record, made_of, record_lines
from lockdep.record.summary import Summary, parse
from lockdep.say.lines import Line
from lockdep.say.terminal import Writer, broken, note_lines, width_of


class Lines(unittest.TestCase):
    def test_a_long_line_is_broken_at_its_last_space(self):
        self.assertEqual(broken("one two three", 2, 10), ["  one two", "      three"])
        self.assertEqual(broken("onetwothree four", 0, 5), ["onetwothree", "    four"])
        self.assertEqual(broken("short", 0, 5), ["short"])

    def test_a_long_chain_of_callers_has_a_line_for_each(self):
        self.assertEqual(note_lines("a < b < c", 4, 10), ["    a", "        < b", "        < c"])

    def test_lines_are_broken_only_on_a_terminal(self):
        for width, lines in ((0, 1), (20, 2)):
            stream = io.StringIO()
            Writer(stream, width).line("  a word and one more word")
            self.assertEqual(stream.getvalue().count("\n"), lines)

    def test_lines_are_as_long_as_a_terminal_is_wide(self):
        own, other = os.openpty()
        self.addCleanup(os.close, own)
        with open(other, "w", encoding="utf-8") as stream:
            for columns, width in ((0, 120), (10, 40), (80, 80), (300, 120)):
                fcntl.ioctl(other, termios.TIOCSWINSZ, struct.pack("4H", 24, columns, 0, 0))
                self.assertEqual(width_of(stream), width)
        self.assertEqual([width_of(io.StringIO()), width_of(stream), width_of(None)], [0, 0, 0])

    def test_hidden_characters_are_shown(self):
        self.assertEqual(visible("a\n\x1b\u202e\udcff"), "a\\n\\x1b\\u202e\\xff")

    def test_a_line_may_be_indented(self):
        self.assertEqual(Line("  x", ("a",)).indented(2), Line("    x", ("a",)))


class Names(unittest.TestCase):
    def test_levels_of_a_name(self):
        for name, lock_class, of_type in (("m@q.c:7#3", "m@q.c:7", "m"), ("a#1@7", "a", "a"), ("plain", "plain", "plain"),
                                          ("x#01#2", "x#01", "x#01"), ("#1", "#1", "#1"), ("@p#1", "@p", "@p")):
            self.assertEqual((class_of_lock(name), type_of_class(class_of_lock(name))), (lock_class, of_type))

    def test_names_of_several_locks(self):
        self.assertEqual([stands_for_several(name) for name in ("a#rest", "a#rest@7", "a#1", "#rest", "a#resting")],
                         [True, True, False, False, False])

    def test_functions_without_parameters_and_tags(self):
        for function, name in (("Cache::get[abi:cxx11](int)", "Cache::get"), ("Cache::get[abi:cxx11]", "Cache::get"), ("void f<int>(int) const", "f<int>"),
                               ("main", "main"), ("a[abi:v1]::b[abi:v2](c)", "a::b"), ("operator()", "operator()")):
            self.assertEqual(without_parameters(function), name)

    def test_symbols_of_cplusplus(self):
        demangler = Demangler()
        self.assertEqual(demangler.text("plain"), "plain")
        if shutil.which("c++filt"):
            self.assertEqual(demangler.text("x~_Z5auditv+0x2 and _ZNcut#1"), "x~audit()+0x2 and _ZNcut#1")


class Records(unittest.TestCase):
    def test_the_key_of_a_record(self):
        self.assertEqual(key_of_record('acq,"m<a,""b"">#1",0,w'), 'm<a,"b">#1/0')
        self.assertEqual(key_of_record("rel,a,0"), "")

    def test_blank_lines_are_no_records(self):
        self.assertEqual(record_lines(b"\xef\xbb\xbflockdep,2\r\n\r\nacq,a,0,w\r\n", {2}), {2: (3, "acq,a,0,w")})

    def test_a_class_may_have_more_columns(self):
        made = made_of("Session::m@0011aabb\t/bin/x\t4060\tstatic\tSession::m\tsize")
        self.assertEqual((made.name, made.place, made.kind), ("Session::m@0011aabb", Address("/bin/x", 0x4060, False), "static"))
        self.assertIsNone(made_of("a\t-\t-\tstatic"))

    def test_a_place_in_words(self):
        self.assertEqual(place_words([source_frame("src/a.c:7 run")]), "run at a.c:7")
        frame = source_frame("/linux/./drivers/foo/bar.c:12 run")
        self.assertEqual((frame.words, frame.path), ("run at drivers/foo/bar.c:12", "/linux/drivers/foo/bar.c"))
        self.assertEqual(place_words([source_frame("src/a.c:7")]), "a.c:7")
        self.assertEqual(place_words([source_frame("src/A.java:0 A.pays")]), "A.pays at A.java")


@unittest.skipUnless(shutil.which("cc") and shutil.which("addr2line") and shutil.which("strip"), "needs a compiler and binutils")
class Stripped(unittest.TestCase):
    def test_no_function_is_the_nearest_one(self):
        with tempfile.TemporaryDirectory() as room:
            source, program = os.path.join(room, "x.c"), os.path.join(room, "x")
            with open(source, "w") as file:
                file.write("int shown(void) { return 1; }\nstatic __attribute__((noinline)) int hidden(int x) { return x * 3; }\n"
                           "int main(int n, char **v) { return hidden(n) + shown() + (v == 0); }\n")
            subprocess.run(["cc", "-O1", "-rdynamic", "-o", program, source], check=True)
            said = subprocess.run(["nm", program], stdout=subprocess.PIPE, check=True).stdout.decode().split("\n")
            at = {line.split()[2]: int(line.split()[0], 16) for line in said if len(line.split()) == 3}
            for is_stripped in (False, True):
                if is_stripped:
                    subprocess.run(["strip", program], check=True)
                symbols = Symbols()
                places = {name: Address(program, at[name] + 1) for name in ("hidden", "shown")}
                for place in places.values():
                    symbols.want(place)
                symbols.ask()
                functions = {name: symbols.frames(place)[0].function for name, place in places.items()}
                self.assertEqual(functions, {"hidden": "" if is_stripped else "hidden", "shown": "shown"})

    def test_a_unit_of_gcc_that_no_file_has_gives_no_line(self):
        self.assertEqual(frame_of("made", "/src/<artificial>:24", "x+12").words, "made in x+12")
        self.assertEqual(frame_of("made", "/src/../lib/x.c:24", "x+12").words, "made at x.c:24")

    def test_the_reader_is_asked_first_and_addr2line_about_the_rest(self):
        with tempfile.TemporaryDirectory() as room:
            source, program, reader = (os.path.join(room, name) for name in ("x.c", "x", "reader"))
            with open(source, "w") as file:
                file.write("static int table[] = {1};\nint shown(void) { return *table; }\nint main(void) { return shown(); }\n")
            subprocess.run(["cc", "-g", "-O0", "-o", program, source], check=True)
            said = subprocess.run(["nm", program], stdout=subprocess.PIPE, check=True).stdout.decode().split("\n")
            at = {line.split()[2]: int(line.split()[0], 16) for line in said if len(line.split()) == 3}
            with open(reader, "w") as file:
                file.write("#!/bin/sh\n[ $1 = --places ] || exit\n"
                           "printf '0x%016x\\n_ZN4Pool4lockEv\\n/src/pool.h:7\\nuse\\n/src/use.c:9\\n' ")
                file.write("%d\nprintf '0x%%016x\\n??\\n??:0\\n/src/pool.h:3\\n' %d\n" % (at["main"], at["shown"]))
            os.chmod(reader, 0o755)
            places = {"main": Address(program, at["main"] + 1), "shown": Address(program, at["shown"] + 1),
                      "table": Address(program, at["table"], is_code=False)}
            expected = {reader: ["Pool::lock() at pool.h:7 < use at use.c:9", "shown at x.c:2", "pool.h:3"],
                        "": ["main at x.c:3", "shown at x.c:2", "x.c:1"], reader + ".missing": ["main at x.c:3", "shown at x.c:2", "x.c:1"]}
            for asked, words in expected.items():
                symbols = Symbols(reader=asked)
                for place in places.values():
                    symbols.want(place)
                symbols.ask()
                self.assertEqual([place_words(symbols.frames(place)) for place in places.values()], words)

    def test_a_function_of_a_header_has_its_file(self):
        """Of the first file of a unit's table addr2line has another one, if that is a header."""
        with tempfile.TemporaryDirectory() as room:
            for name, text in (("x.h", "static int add(int x) {\n    return x + 1;\n}\n"), ("x.c", '#include "x.h"\nint main(int n, char **v) {\n    return add(n);\n}\n')):
                with open(os.path.join(room, name), "w") as file:
                    file.write(text)
            program, source = os.path.join(room, "x"), os.path.join(room, "x.c")
            for options in ([], ["-ffunction-sections"], ["-gz"], ["-gdwarf-4"]):
                subprocess.run(["cc", "-g", "-O0", *options, "-o", program, source], check=True)
                self.assertEqual(self.places(program), ["add at x.h:1", "main at x.c:2"], options)
            with open(program, "rb") as file:
                whole = file.read()
            subprocess.run(["cc", "-g", "-O0", "-c", "-o", program, source], check=True)
            self.assertEqual(files_of(program, [4]), {})  # (whose addresses aren't known yet)
            for size in range(0, len(whole), 61):
                with open(program, "wb") as file:
                    file.write(whole[:size] + bytes(61) + whole[size + 61:])
                files_of(program, range(0x1100, 0x1200))  # (says something, or nothing)

    def places(self, program):
        """Where the functions of a program are by addr2line alone."""
        said = subprocess.run(["nm", program], stdout=subprocess.PIPE, check=True).stdout.decode().split("\n")
        at = {line.split()[2]: int(line.split()[0], 16) for line in said if len(line.split()) == 3}
        symbols, places = Symbols(reader=""), [Address(program, at[name] + 2) for name in ("add", "main")]
        for place in places:
            symbols.want(place)
        symbols.ask()
        return [place_words(symbols.frames(place)) for place in places]

    def test_a_file_of_another_kind_has_no_functions(self):
        self.assertEqual(within_functions(__file__, [1]), set())


def record_of(word):
    """A record that takes a lock, gives it back (`-a`) or got it by a try (`?a`)."""
    return "rel,%s,0\n" % word[1:] if word[0] == "-" else "acq,%s,0,%s\n" % (word.lstrip("?"), "tw" if word[0] == "?" else "w")


class Blocked(unittest.TestCase):
    def made(self, *traces, summary):
        with tempfile.TemporaryDirectory() as folder:
            os.mkdir(os.path.join(folder, "objects"))
            for number, trace in enumerate(traces, 1):
                with open(os.path.join(folder, "objects", "task-%04d.csv" % number), "w") as file:
                    file.write("lockdep,2\n" + "".join(record_of(word) for word in trace.split()))
                open(os.path.join(folder, "task-%04d.csv" % number), "w").close()
            self.blocked = blocked_threads(ask_about_threads(folder), Summary(parse(summary)))
            return [thread.sentence for thread in self.blocked]

    def test_two_threads_that_wait_for_each_other(self):
        summary = "waiting 2\n  task-0001 waits for b, holding a\n  task-0002 waits for a, holding b\nat-exit 0\n"
        self.assertEqual(self.made("x -x a#1 b#1", "b#1 a#1", summary=summary), [
                         "task-0001 waits for b#1, which task-0002 holds since record 2 while it waits for a#1, which task-0001 holds "
                         "since record 4 while it waits for b#1: these threads stand still"])
        self.assertEqual(self.blocked[0].orders, {("a#1", "b#1"), ("b#1", "a#1")})

    def test_a_thread_that_waits_for_itself(self):
        summary = "waiting 1\n  task-0001 waits for a, holding a\nat-exit 0\n"
        self.assertEqual(self.made("b#1 a#1 a#1", summary=summary), ["task-0001 waits for a#1, which it holds itself since record 3: it stands still"])
        self.assertEqual(self.blocked[0].orders, {("a#1", "a#1")})
        self.assertEqual(self.made("a#rest a#rest", summary=summary), ["task-0001 waits for a#rest"])  # (which may be another one)
        self.assertEqual(self.blocked[0].orders, frozenset())

    def test_a_thread_that_waits_for_a_cycle_is_no_part_of_it(self):
        summary = "waiting 3\n  task-0001 waits for a\n  task-0002 waits for b, holding a\n  task-0003 waits for a, holding b\nat-exit 0\n"
        self.assertEqual(self.made("a", "a b", "b a", summary=summary), [
                         "task-0001 waits for a, which task-0002 holds since record 2 while it waits for b, which task-0003 holds since record 2 "
                         "while it waits for a, which task-0002 holds since record 2 while it waits for b",
                         "task-0002 waits for b, which task-0003 holds since record 2 while it waits for a, which task-0002 holds "
                         "since record 2 while it waits for b: these threads stand still"])
        self.assertEqual([thread.is_cycle for thread in self.blocked], [False, True])

    def test_nobody_waits_by_a_try(self):
        summary = "waiting 1\n  task-0001 waits for b, holding a\nat-exit 0\n"
        self.assertEqual(self.made("a b ?c", "b", summary=summary), ["task-0001 waits for b, which task-0002 holds since record 2"])

    def test_a_holder_that_ended(self):
        summary = "waiting 1\n  task-0001 waits for m\nat-exit 0\nheld-at-end 1\n  task-0002 ended holding m\n"
        self.assertEqual(self.made("m", "n -n m", summary=summary), ["task-0001 waits for m, which task-0002 holds since record 4"])

    def test_a_holder_that_waits_for_something_else(self):
        summary = "waiting 1\n  task-0001 waits for m\nat-exit 0\n"
        self.assertEqual(self.made("m", "m n -n", summary=summary), ["task-0001 waits for m, which task-0002 holds since record 2"])

    def test_who_holds_one_of_several_locks_is_not_known(self):
        summary = "waiting 1\n  task-0001 waits for m\nat-exit 0\nheld-at-end 1\n  task-0002 ended holding m\n"
        self.assertEqual(self.made("m#rest", "m#rest", summary=summary), ["task-0001 waits for m#rest"])

    def test_waiting_while_the_process_exits_is_no_block(self):
        self.assertEqual(self.made("m", summary="waiting 1\n  task-0001 waits for m\nat-exit 1\n"), [])


if __name__ == "__main__":
    unittest.main()
