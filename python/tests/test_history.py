# SPDX-License-Identifier: MIT OR Apache-2.0
import decimal
import pathlib
import tempfile
import threading
import unittest
from unittest import mock

import latchsym
from latchsym import History, _history

EXAMPLE = pathlib.Path(__file__).parents[2] / "examples" / "histories" / "history"
ADDR, KERNEL = 0xFFFFFFFFC0000018, 0xFFFFFFFF81000110
TEXT = """latchhistory 1
listing 1.5
ffffffff81000000 T _stext
ffffffff81000108 T do_one
ffffffff81002008 T _etext
ffffffffc0000010 t ext4_a\t[ext4]
change 2.000000001
gone ext4
change 2.5
ffffffffc0000010 t xfs_a\t[xfs]
ffffffffc0001010 t other\t[other]
change 2.5
ffffffffc0000020 t xfs_b\t[xfs]
listing 4.0
ffffffffc0000010 t last\t[last]
"""


class Histories(unittest.TestCase):
    def setUp(self):
        folder = tempfile.TemporaryDirectory()
        self.addCleanup(folder.cleanup)
        self.file = pathlib.Path(folder.name, "history")

    def history(self, text=TEXT):
        self.file.write_bytes(text.encode() if isinstance(text, str) else text)
        history = History(self.file)
        self.addCleanup(history.close)
        return history

    def test_the_listing_of_each_time(self):
        history = self.history()
        for time, name, kernel in (
            ("0.0", None, "do_one"),
            ("1.499999999", None, "do_one"),
            ("1.5", "ext4_a", "do_one"),
            ("2.000000000", "ext4_a", "do_one"),
            ("2.000000001", None, "do_one"),
            ("2.499999999", None, "do_one"),
            ("2.5", None, "do_one"),
            ("3.9", None, "do_one"),
            ("4.0", "last", None),
            (None, "last", None),
            ("2.0", "ext4_a", "do_one"),
            ("1.0", None, "do_one"),
        ):
            with self.subTest(time):
                found, of_kernel = history.find(time, ADDR), history.find(time, KERNEL)
                self.assertEqual((found and found.name, of_kernel and of_kernel.name), (name, kernel))
        self.assertEqual(history.find("2.5", ADDR + 16).name, "xfs_b")
        self.assertEqual(history.find("2.5", 0xFFFFFFFFC0001011).name, "other")
        self.assertEqual(str(history.find_caller("2.5", 0xFFFFFFFFC0000021)), "xfs_b+0x1/0xfe0 [xfs]")

    def test_times_of_other_types(self):
        history = self.history()
        for times in ((2, 2.0, decimal.Decimal(2)), (2.000000001, decimal.Decimal("2.0000000019")), (4, 4.0, 1e9)):
            names = {str(history.find(time, ADDR)) for time in times}
            self.assertEqual(len(names), 1, times)
        self.assertIsNone(history.find(-1, ADDR))
        self.assertIsNone(history.find(decimal.Decimal("1.4999999999"), ADDR))
        big = self.history("latchhistory 1\nlisting 9999999.360695\nffffffffc0000010 t a\t[m]\n")
        self.assertEqual(big.find(9999999.360695, ADDR).name, "a")
        self.assertIsNone(big.find(9999999.360694, ADDR))
        for time in ("x", "nan", float("inf"), b"1", object()):
            with self.assertRaisesRegex(ValueError, "^time is no number of seconds: "):
                history.find(time, ADDR)
        with self.assertRaisesRegex(TypeError, "^addr is no whole number: 'x'"):
            history.find(2, "x")

    def test_a_catalog_is_opened_when_a_time_needs_one(self):
        history, opened = self.history(), []

        def counted(text):
            opened.append(latchsym.Catalog(text))
            return opened[-1]

        with mock.patch.object(_history, "Catalog", counted):
            for time, count in ((1, 1), (1.2, 1), (2, 2), (1.6, 2), (2.6, 3), (3, 3), (9, 4), (None, 4), (2, 5)):
                history.find(time, ADDR)
                self.assertEqual(len(opened), count)
        self.assertEqual([repr(it) for it in opened[:-1]], ["<Catalog, closed>"] * 4)

    def test_what_is_not_understood(self):
        for text, line in (
            ("", 1),
            ("latchhistory 2\n", 1),
            ("latchhistory 1\nffffffffc0000010 t a\n", 2),
            ("latchhistory 1\nchange 1.0\n", 2),
            ("latchhistory 1\nlisting 1\n", 2),
            ("latchhistory 1\nlisting 2.0\nlisting 1.9\n", 3),
            ("latchhistory 1\nlisting 2.0\ngone ext4\n", 3),
            ("latchhistory 1\nlisting 2.0\nchange 2.0\nffffffffc0000010 t a\n", 4),
            ("latchhistory 1\nlisting 2.0\nchange 2.0\ngone a b\n", 4),
            ("latchhistory 1\nlisting 2.0\nchange 2.0\nc0 t " + "a" * 4091 + "\n", 4),
        ):
            with self.subTest(text), self.assertRaises(latchsym.BadListing) as caught:
                self.history(text)
            self.assertEqual((caught.exception.line, caught.exception.number), (line, 15))
            self.assertEqual(str(caught.exception), f"{self.file}: the history is not understood: line {line}")
        self.assertIsNone(self.history("latchhistory 1").find(1, ADDR))
        # lines of a listing that are not well formed, one of them as it is too long
        for line in ("listings 3.0", "goner", "c0 t " + "a" * 4092):
            self.history(f"latchhistory 1\nlisting 2.0\nchange 2.0\n{line}\n")
        self.assertRaises(OSError, History, self.file.with_name("none"))

    def test_closed(self):
        history = self.history()
        self.assertEqual(repr(history), f"<History of {self.file}: listings 2, changes 3>")
        history.find(2, ADDR)
        history.close()
        history.close()
        self.assertEqual(repr(history), f"<History of {self.file}, closed>")
        self.assertRaisesRegex(latchsym.Closed, "^this History is closed$", history.find, 2, ADDR)

    def test_threads(self):
        history, wrong = self.history(), []

        def look(time, name):
            for _ in range(200):
                found = history.find(time, ADDR)
                if (found and found.name) != name:
                    wrong.append(found)

        threads = [threading.Thread(target=look, args=it) for it in ((2, "ext4_a"), (2.1, None), (5, "last"), (2, "ext4_a"))]
        for thread in threads:
            thread.start()
        for thread in threads:
            thread.join()
        self.assertEqual(wrong, [])

    @unittest.skipUnless(EXAMPLE.is_file(), "the repository's examples are not here")
    def test_the_example(self):
        with History(EXAMPLE) as history:
            names = [history.find(time, ADDR) for time in (0.5, 7.360695, 9.104290)]
        self.assertEqual([it and it.module for it in names], ["ext4", None, "nf"])
