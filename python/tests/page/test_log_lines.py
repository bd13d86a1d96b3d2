"""Lines of a log: each form, each fault, and what JSON allows and the format doesn't."""
import unittest

from sicheck.log_lines import (LONGEST_LINE, Arrival, LineFault, Operation, Place, Resolution, SetUp, Withdrawal, edit_of, is_blank)

HERE = Place(0, 1)
TXN = '{"do":"txn","id":1,"start":2,"status":"aborted","ops":%s}'
WITHDRAW = '{"do":"withdraw","id":7,"note":%s}'


def edit(text):
    return edit_of(text.encode("utf-8"), HERE, {})


class Edits(unittest.TestCase):
    def test_each_form(self):
        ops = (Operation("r", "x", None), Operation("w", "x", 2))
        self.assertEqual(edit('{"do":"txn","id":2,"start":2,"status":"committed","commit":6,"ops":[["r","x",null],["w","x",2]]}'),
                         Arrival(HERE, 2, 2, "committed", 6, ops))
        self.assertEqual(edit('{"do":"resolve","id":7,"status":"committed","commit":9}'), Resolution(HERE, 7, "committed", 9))
        self.assertEqual(edit('{"do":"resolve","id":7,"status":"aborted","commit":9}'), Resolution(HERE, 7, "aborted", None))
        self.assertEqual(edit('{"do":"withdraw","id":7}'), Withdrawal(HERE, 7))
        self.assertEqual(edit('{"do":"setup","key":"\\u0078","value":3}'), SetUp(HERE, "x", 3))

    def test_last_member_counts_and_others_are_ignored(self):
        self.assertEqual(edit('{"do":"withdraw","id":1,"note":{"a":[1.5]},"id":18446744073709551615}\r'),
                         Withdrawal(HERE, 18446744073709551615))

    def test_blank(self):
        self.assertTrue(is_blank(b"") and is_blank(b" \t\r") and is_blank(b" " * LONGEST_LINE))
        self.assertFalse(is_blank(b"\x0b") or is_blank(b" " * (LONGEST_LINE + 1)))


class Faults(unittest.TestCase):
    def check(self, code, *texts):
        for text in texts:
            with self.subTest(text[:80]), self.assertRaises(LineFault) as fault:
                edit_of(text if isinstance(text, bytes) else text.encode("utf-8"), HERE, {})
            self.assertEqual(fault.exception.code, code, text[:80])

    def test_too_long(self):
        line = b'{"do":"withdraw","id":7}'
        self.assertEqual(edit_of(line + b" " * (LONGEST_LINE - len(line)), HERE, {}), Withdrawal(HERE, 7))
        self.check(1, line + b" " * (LONGEST_LINE - len(line) + 1))

    def test_not_json(self):
        self.check(2, "", "{", "{} {}", "\ufeff{}", b"\xff", WITHDRAW % "NaN", WITHDRAW % "1e999", WITHDRAW % ("1" * 400),
                   WITHDRAW % ("9" * 5000), WITHDRAW % '"\\ud800"', WITHDRAW % '"\\\\\\udc00"', WITHDRAW % "'x'",
                   WITHDRAW % ("[" * 127 + "]" * 127), WITHDRAW % ("[" * 9000 + "]" * 9000), WITHDRAW % '"a\tb"')

    def test_json_that_python_might_refuse(self):
        for note in ('"\\ud83d\\ude00"', '"\\\\ud800"', "1" * 300, "[" * 126 + "]" * 126, '"' + "[" * 200 + '"', "-0"):
            self.assertEqual(edit(WITHDRAW % note), Withdrawal(HERE, 7), note[:40])

    def test_objects_and_kinds(self):
        self.check(3, "[]", "7", "null")
        self.check(4, "{}", '{"do":"put"}', '{"do":["txn"]}')

    def test_members(self):
        self.check(5, '{"do":"withdraw","id":1.0}', '{"do":"withdraw","id":-1}', '{"do":"withdraw","id":-0}',
                   '{"do":"withdraw","id":18446744073709551616}', '{"do":"withdraw","id":true}', '{"do":"withdraw"}',
                   '{"do":"txn","id":1,"start":2,"status":"done"}', '{"do":"txn","id":1,"start":2,"status":"committed","ops":[]}',
                   '{"do":"setup","key":"","value":1}', '{"do":"setup","key":"x","value":null}')

    def test_statuses_and_operations(self):
        self.check(6, '{"do":"txn","id":1,"start":2,"status":"done","ops":[1]}', '{"do":"resolve","id":1,"status":"indoubt"}')
        self.check(7, TXN % ("[" + ",".join(["1"] * 4097) + "]"))
        self.check(8, *(TXN % f"[{op}]" for op in (
            '["w","x",null]', '["r","",1]', '["r","x",1,2]', '["r","x"]', '["x","x",1]', '[["r"],"x",1]', '["r",1,1]',
            '["w","x",1e2]', '["r","%s",1]' % ("x" * 129), '["r","%s",1]' % ("é" * 65), "7")))
        self.assertEqual(len(edit(TXN % ("[" + ",".join(['["r","%s",1]' % ("é" * 64)] * 4096) + "]")).ops), 4096)


if __name__ == "__main__":
    unittest.main()
