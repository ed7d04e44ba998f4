"""What the command go is given so that what it builds is recorded: the flags and words, and the lists of replaced files. recorders/go/test runs go itself."""
from __future__ import annotations

import json
import os
import tempfile
import unittest
from unittest import mock

import lockdep
from lockdep.base.saying import Refusal
from lockdep.record import go_command


class Words(unittest.TestCase):
    def test_where_a_word_of_go_says_overlay(self):
        for words, wanted in (("go build -o a -overlay b .", 4), ("go build -overlay=b .", 2), ("go build -overlay a --overlay=b .", 4), ("go build .", None),
                              ("go -C x build -overlay b", 4), ("go test ./... -overlay b", 3), ("go test . -args -overlay b", None),
                              ("go run . -overlay b", None), ("go run -overlay b . -overlay c", 2), ("go run -race=true a.go -overlay b", None),
                              ("go run -race -overlay=b a.go -overlay c", 3), ("go run -a -v -overlay b .", 4), ("make build -overlay b", None)):
            self.assertEqual(go_command.own_overlay(words.split()), wanted, words)

    def test_a_word_that_may_be_the_program_s(self):
        for words in "go run -race . -overlay b", "go run -tags x -overlay b .":
            self.assertRaisesRegex(Refusal, "type it directly behind `go run`", go_command.own_overlay, words.split())

    def test_the_folder_where_go_works(self):
        for words, wanted in (("go build", ""), ("go -C x build", "x"), ("go build -C x", "x"), ("go build -C=x -C y", "x"), ("go build . -C x", ""),
                              ("make -C x", "")):
            self.assertEqual(go_command.folder_of(words.split()), wanted, words)


    def test_words_of_goflags(self):
        for flags, wanted in (("-a  -b=c", ["-a", "-b=c"]), ("'-x=a b' \"-y='c d'\"", ["-x=a b", "-y='c d'"]), ("-x='a'", ["-x='a'"]), ("'", ["'"]), ("", [])):
            self.assertEqual(go_command.words_of(flags), wanted)
            self.assertEqual(go_command.words_of(" ".join(go_command.quoted(word) for word in wanted)), wanted)
        self.assertRaisesRegex(Refusal, "a space and both quotes", go_command.quoted, "a 'b' \"c\"")


class Lists(unittest.TestCase):
    def setUp(self):
        room = tempfile.TemporaryDirectory()
        self.addCleanup(room.cleanup)
        self.folder = room.name
        os.mkdir(self.at("go"))
        self.put("overlay.json", json.dumps({"Replace": {self.at("go/sync.go"): "/out/sync.go"}}))

    def at(self, name):
        return os.path.join(self.folder, name)

    def put(self, name, text):
        with open(self.at(name), "w", encoding="utf-8") as file:
            file.write(text)

    def merged(self, replaced):
        self.put("given.json", json.dumps({"Replace": replaced}))
        with open(go_command.merged(self.at("overlay.json"), self.at("given.json"), self.at("module")), encoding="utf-8") as file:
            return json.load(file)["Replace"]

    def test_both_lists(self):
        self.assertEqual(self.merged({"a.go": "b.go", "/c.go": "", "../d.go": "/e.go"}),
                         {self.at("go/sync.go"): "/out/sync.go", self.at("module/a.go"): self.at("module/b.go"), "/c.go": "",
                          self.at("module/../d.go"): "/e.go"})
        self.assertEqual(self.merged({}), {self.at("go/sync.go"): "/out/sync.go"})

    def test_a_file_of_both_lists(self):
        os.symlink(self.at("go"), self.at("link"))
        for path in self.at("go/sync.go"), "../go/sync.go", self.at("link/sync.go"):
            self.assertRaisesRegex(Refusal, "given.json, which go is given by -overlay, replaces .*/sync.go, as the recorder of Go does",
                                   self.merged, {path: "x"})

    def test_a_list_that_isn_t_one(self):
        for text in "", "[]", '{"Replace": 1}', '{"Replace": {"a": 1}}':
            self.put("given.json", text)
            self.assertRaisesRegex(Refusal, "isn't a list of files", go_command.merged, self.at("overlay.json"), self.at("given.json"), "")
        self.assertRaisesRegex(Refusal, "No such file", go_command.merged, self.at("overlay.json"), self.at("none"), "")

    def test_a_folder_that_can_t_be_made(self):
        home = os.path.realpath(os.path.join(os.path.dirname(lockdep.__file__), "..", ".."))
        with mock.patch.object(go_command, "folder_of_made", return_value=self.put("file", "") or self.at("file")):
            self.assertRaisesRegex(Refusal, "can't be kept in .*: Not a directory", go_command.overlay, home, "go", dict.fromkeys(go_command.SETTINGS, "x"))

    def test_a_go_whose_files_have_changed_has_to_pass_again(self):
        self.put("go/sync.go", "one")
        self.assertFalse(go_command.has_passed(self.folder))
        self.put("passed", go_command.sum_of_originals(self.folder))
        self.assertTrue(go_command.has_passed(self.folder))
        self.put("go/sync.go", "two")
        self.assertFalse(go_command.has_passed(self.folder))
