# SPDX-License-Identifier: MIT OR Apache-2.0
import doctest
import os
import pathlib
import shutil
import subprocess
import sys
import tempfile
import unittest

import latchsym
from latchsym import _catalog, _follow, _history, _library, _table

from .samples import EXT4_A, SYMBOLS


def load_tests(loader, tests, pattern):
    for module in (latchsym, _catalog, _follow, _history, _table):
        tests.addTests(doctest.DocTestSuite(module))
    readme = pathlib.Path(__file__).parents[1] / "README.md"
    tests.addTests(doctest.DocFileSuite(str(readme), module_relative=False))
    return tests


class Package(unittest.TestCase):
    def test_counts_are_those_of_the_library(self):
        fields = tuple(name for name, _ in _library.Counts._fields_)
        self.assertEqual(latchsym.Counts._fields, fields)
        self.assertEqual((*_library.COUNTS, *_library.NOTES), fields)

    def test_exceptions_have_the_texts_of_the_library(self):
        for number in (1, 7, 10, 23, 101, 103):
            self.assertTrue(_library.text_of(number))
            self.assertEqual(str(_library.error_of(number)), _library.text_of(number))
        self.assertIs(type(_library.error_of(9999)), latchsym.Error)

    def test_what_is_closed_is_named(self):
        catalog, table, follower = self.opened()
        reader, writer, other = table.readers[0], table.writer, table.readers[1]
        view, generator = catalog.view(), catalog.addresses_of("a")
        with self.assertRaisesRegex(latchsym.Closed, "^the writer of this Table, or one of its readers, is closed$"):
            reader.close()
            table.enlarge(8)
        for it in (catalog, table, follower):
            it.close()
        for name, calls in (
            ("Catalog", [lambda: catalog.find(1), lambda: catalog.find_many([1]), catalog.share, catalog.view, catalog.items]),
            ("Catalog", [lambda: catalog.texts([1]), lambda: next(catalog.modules()), lambda: next(generator)]),
            ("Writer", [lambda: writer.insert(1, 2, 3), lambda: writer.erase(1), lambda: writer.replace([]), writer.batch]),
            ("Writer", [writer.step, writer.finish, lambda: writer.find(1)]),
            ("Reader", [lambda: other.find(1), lambda: table.find(1)]),
            ("Table", [table.add_reader]),
            ("Follower", [lambda: follower.find(1), lambda: follower.name_at(1, 1), lambda: follower.name(latchsym.Sample(1, None, 1))]),
        ):
            for call in calls:
                with self.assertRaises(latchsym.Closed) as caught:
                    call()
                self.assertEqual((str(caught.exception), caught.exception.number), (f"this {name} is closed", 101))
        with self.assertRaisesRegex(latchsym.Closed, "^the writer of this Table, or its last reader, is closed$"):
            table.take_reader()
        self.assertIsNone(view.find(1))

    def test_a_closed_part_of_a_lookup_by_name(self):
        catalog, table, _ = self.opened()
        catalog.close()
        self.assertRaisesRegex(latchsym.Closed, "^this Catalog is", table.readers[0].try_find_name, catalog, 1)
        catalog, table, _ = self.opened()
        table.close()
        self.assertRaisesRegex(latchsym.Closed, "^this Reader is", table.readers[0].try_find_name, catalog, 1)

    def opened(self):
        """A catalog, a table and a follower, which are closed in the end."""
        with tempfile.TemporaryDirectory() as folder:
            self.file = pathlib.Path(folder, "kallsyms")
            self.file.write_bytes(SYMBOLS)
            opened = latchsym.Catalog(SYMBOLS), latchsym.Table(4, readers=2), latchsym.Follower(self.file)
        for it in opened:
            self.addCleanup(it.close)
        return opened

    def test_an_argument_that_is_wrong_is_named(self):
        catalog, table, follower = self.opened()
        sample = latchsym.Sample(EXT4_A, None, "x")
        for name, call, *words in (
            ("addr", catalog.find, "x"),
            ("addr", catalog.find_caller, None),
            ("addr", catalog.view().find, 1.5),
            ("an address", catalog.find_many, [1, "x"]),
            ("an address", catalog.find_many, "x"),
            ("an address", catalog.texts, iter([None])),
            ("addresses", catalog.find_many, 5),
            ("number", lambda: next(catalog.symbols("x"))),
            ("kallsyms", latchsym.Catalog, "text"),
            ("modules", latchsym.Catalog, b"", "text"),
            ("regions", latchsym.Catalog, b"", b"", 5),
            ("nodes", latchsym.Table, "x"),
            ("readers", latchsym.Table, 4, "x"),
            ("most_readers", lambda: latchsym.Table(4, most_readers="x")),
            ("nodes", table.enlarge, "x"),
            ("b", table.writer.insert, 1, "x", 3),
            ("tag", table.writer.batch, (), [(1, 2, "x")]),
            ("a", table.writer.erase, "x"),
            ("addr", table.writer.find, "x"),
            ("addr", table.find, "x"),
            ("addr", table.readers[0].try_find_name, catalog, "x"),
            ("address", follower.find, "x"),
            ("time_ns", follower.name_at, "x", 1),
            ("generation", follower.name, sample),
            ("generation", follower.forget_below, "x"),
            ("nodes", lambda: latchsym.Follower(self.file, nodes="x")),
        ):
            with self.subTest(name=name, words=words), self.assertRaisesRegex(TypeError, f"^{name} (is|has|are) no "):
                call(*words)
        self.assertRaisesRegex(OverflowError, "^addr is not a number of 64 bits", catalog.find, -1)
        self.assertRaisesRegex(OverflowError, "^an address is not", catalog.find_many, [1 << 64])
        self.assertRaises(ValueError, table.writer.batch, (), [(1, 2)])

    def test_whole_numbers_of_other_types(self):
        class Number:
            def __index__(self):
                return EXT4_A

        catalog, table, follower = self.opened()
        found = catalog.find(EXT4_A)
        table.writer.insert(EXT4_A, EXT4_A + 1, 7)
        self.assertEqual([catalog.find(Number()), catalog.view().find(Number())], [found] * 2)
        self.assertEqual(list(catalog.find_many([Number()])), list(catalog.find_many([EXT4_A])))
        self.assertEqual(follower.name(follower.find(Number())), found)
        self.assertEqual(table.find(Number()).item.tag, 7)

    def test_what_each_object_is_shown_as(self):
        catalog, table, follower = self.opened()
        shown = [catalog, catalog.view(), catalog.find_many([1, 2]), table, table.writer, table.readers[0], follower]
        texts = ["<Catalog: modules 1, symbols 4>", "<View: regions 2, symbols 4>", "<Answers: addresses 2>"]
        texts += ["<Table: readers 2>", "<Writer of a table>", "<Reader of a table>", f"<Follower of {self.file}: listings 1>"]
        self.assertEqual([repr(it) for it in shown], texts)
        for it in (catalog, table, follower):
            it.close()
        texts = ["<Catalog, closed>", *texts[1:3], "<Table, closed>", "<Writer of a table, closed>", "<Reader of a table, closed>"]
        self.assertEqual([repr(it) for it in shown], [*texts, f"<Follower of {self.file}, closed>"])

    def test_a_library_that_is_missing(self):
        words = [sys.executable, "-c", "import latchsym"]
        path = os.pathsep.join(sys.path)
        environment = {**os.environ, "PYTHONPATH": path, "LATCHSYM_LIBRARY": "/none/liblatchsym.so"}
        run = subprocess.run(words, env=environment, stderr=subprocess.PIPE, text=True)
        self.assertEqual(run.returncode, 1)
        self.assertIn("LATCHSYM_LIBRARY", run.stderr)

    def test_where_the_library_is_looked_for(self):
        program = "import latchsym._library as it; print(it.lib._name)"
        path = os.pathsep.join(map(os.path.abspath, filter(None, sys.path)))
        library = pathlib.Path(_library.lib._name)
        if not library.is_absolute():
            self.skipTest("the library's file is not known")
        if library.parent == pathlib.Path(latchsym.__file__).absolute().parent:
            self.skipTest("the package has the library itself")
        with tempfile.TemporaryDirectory() as folder:
            there = pathlib.Path(folder, "lib", "liblatchsym.so.1")
            there.parent.mkdir()
            shutil.copy(library, there)
            own = pathlib.Path(folder, "own", "latchsym")
            shutil.copytree(pathlib.Path(latchsym.__file__).parent, own)
            shutil.copy(library, own / "liblatchsym.so.1")
            tool = pathlib.Path(folder, "bin", "latchsym")
            tool.parent.mkdir()
            tool.write_text("#!/bin/sh\n")
            tool.chmod(0o755)
            # (one that is installed on this machine is not to be found first)
            none = {"PYTHONDONTWRITEBYTECODE": "1", "LATCHSYM_LIBRARY": "", "PYTHONUSERBASE": f"{folder}/none"}
            for wanted, given in (
                (there, {"PYTHONPATH": path, "PYTHONUSERBASE": folder}),
                (there, {"PYTHONPATH": path, "PATH": f"{tool.parent}:{os.environ['PATH']}"}),
                (own / "liblatchsym.so.1", {"PYTHONPATH": str(own.parent)}),
            ):
                environment = {**os.environ, **none, **given}
                words = [sys.executable, "-c", program]
                run = subprocess.run(words, env=environment, stdout=subprocess.PIPE, text=True, check=True)
                self.assertEqual(os.path.realpath(run.stdout.strip()), os.path.realpath(wanted))

    def test_every_public_name_is_documented(self):
        for name in latchsym.__all__:
            self.assertTrue(getattr(latchsym, name).__doc__, name)
