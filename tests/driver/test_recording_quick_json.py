"""JSON that every run reads."""
from __future__ import annotations

import json
import unittest
from unittest import mock

from lockdep.base import quick_json
from lockdep.base.quick_json import parsed

BROKEN = ("", " ", "{", "[", '["', '{"a"', '{"a":}', "[1,]", "1 2", '"\\u12"', "tru", '{"a":1}}', '{"a" 1}', '{"a":"\n"}', "{'a':1}", "nosuch",
          "[" * 100000)
TEXT = ' {"a":[1,-2,0.5,true,false,null,{}],"\\u00e9\\"\\n\\udcff":""}\n'


class QuickJson(unittest.TestCase):
    def test_values(self) -> None:
        self.assertEqual(parsed(' {"a":[1,2.5,null,true,"x\\u00e9"],"b":{}}\n'), {"a": [1, 2.5, None, True, "xé"], "b": {}})

    def test_as_the_library_reads_it(self) -> None:
        self.assertEqual(parsed(TEXT), json.loads(TEXT))

    def test_what_is_no_json(self) -> None:
        for text in BROKEN:
            with self.assertRaises(ValueError, msg=text[:9]):
                parsed(text)

    def test_a_python_with_another_scanner(self) -> None:
        with mock.patch.object(quick_json, "scanner", return_value=None):
            self.assertEqual(parsed('{"a":1}'), {"a": 1})
            for text in BROKEN:
                with self.assertRaises(ValueError, msg=text[:9]):
                    parsed(text)
