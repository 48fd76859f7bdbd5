# SPDX-License-Identifier: MIT OR Apache-2.0
import array
import gc
import mmap
import pathlib
import pickle
import re
import tempfile
import textwrap
import threading
import unittest
import warnings

import latchsym
from latchsym import Answer, Catalog, Follower, Region

from .samples import DO_ONE, EXT4_A, MODULES, SYMBOLS

LISTINGS = pathlib.Path(__file__).parents[2] / "examples" / "listings"


class Finding(unittest.TestCase):
    def setUp(self):
        self.catalog = Catalog(SYMBOLS, MODULES)
        self.addCleanup(self.catalog.close)

    def test_a_symbol(self):
        found = self.catalog.find(EXT4_A)
        self.assertEqual(found, ("ext4_a", 8, 0x30, "ext4", 1))
        self.assertEqual(str(found), "ext4_a+0x8/0x30 [ext4]")
        self.assertEqual(str(self.catalog.find(DO_ONE)), "do_one+0x8/0x1f00")

    def test_a_module_without_a_symbol_below(self):
        found = self.catalog.find(0xFFFFFFFFC0000001)
        self.assertEqual((found.name, found.module), (None, "ext4"))
        self.assertEqual(str(found), "? [ext4]")

    def test_nothing(self):
        self.assertIsNone(self.catalog.find(0x1000))

    def test_a_caller(self):
        self.assertEqual(str(self.catalog.find_caller(0xFFFFFFFFC0000040)), "ext4_a+0x30/0x30 [ext4]")
        self.assertIsNone(self.catalog.find_caller(0))

    def test_no_number_is_cut_short(self):
        for addr in (-1, 1 << 64):
            self.assertRaises(OverflowError, self.catalog.find, addr)
            self.assertRaises(OverflowError, self.catalog.find_many, [addr])

    def test_names_that_are_no_utf_8(self):
        with Catalog(b"ffffffffc0000010 t \xff\xfe\t[m]\nffffffffc0000040 t b\t[m]\n") as catalog:
            name = catalog.find(0xFFFFFFFFC0000010).name
            self.assertEqual(name.encode("utf-8", "surrogateescape"), b"\xff\xfe")
            self.assertEqual(list(catalog.addresses_of(name)), [0xFFFFFFFFC0000010])

    def test_other_bounds_of_the_kernel(self):
        with Catalog(SYMBOLS, MODULES, kernel=("_stext", "do_one")) as catalog:
            self.assertIsNone(catalog.find(DO_ONE))


class Noting(unittest.TestCase):
    def test_listings_of_no_use_are_noted(self):
        with Catalog(b"0000000000000000 T _stext\n", MODULES) as catalog:
            self.assertIn("read it as root", catalog.counts.symbols_note)
            self.assertIn("one boot", catalog.counts.modules_note)
        with Catalog(SYMBOLS, MODULES) as catalog:
            self.assertEqual((catalog.counts.modules_note, catalog.counts.symbols_note), (None, None))

    def test_files_of_no_use_are_warned_of(self):
        with tempfile.TemporaryDirectory() as folder:
            file = pathlib.Path(folder, "kallsyms")
            file.write_bytes(b"0000000000000000 T _stext\n")
            for opening in (Catalog.from_files, Follower):
                with self.assertWarnsRegex(UserWarning, "^/.*/kallsyms: every address is 0; read it as root") as said:
                    opening(file).close()
                self.assertEqual(said.filename, __file__)


class Viewing(unittest.TestCase):
    ADDRESSES = [EXT4_A, DO_ONE, 0x1000, 0xFFFFFFFFC0000001, 0, 0xFFFFFFFFC0000040, (1 << 64) - 1]

    def test_a_view_finds_what_its_catalog_finds(self):
        with Catalog(bytes(SYMBOLS), MODULES) as catalog:
            wanted = [(catalog.find(addr), catalog.find_caller(addr)) for addr in self.ADDRESSES]
            view = catalog.view()
        gc.collect()
        found = []

        def find():
            for _ in range(200):
                found.append([(view.find(addr), view.find_caller(addr)) for addr in self.ADDRESSES])

        threads = [threading.Thread(target=find) for _ in range(4)]
        for thread in threads:
            thread.start()
        for thread in threads:
            thread.join()
        self.assertEqual(found, [wanted] * 800)
        self.assertRaises(OverflowError, view.find, -1)

    def test_a_view_of_nothing(self):
        with Catalog(b"") as catalog:
            self.assertIsNone(catalog.view().find(EXT4_A))

    def test_a_closed_catalog_has_no_view(self):
        catalog = Catalog(SYMBOLS)
        catalog.close()
        self.assertRaises(latchsym.Closed, catalog.view)


class Many(unittest.TestCase):
    ADDRESSES = [EXT4_A, 0x1000, DO_ONE, 0xFFFFFFFFC0000001, EXT4_A + 2]
    TEXTS = ["ext4_a+0x8/0x30 [ext4]", "-", "do_one+0x8/0x1f00", "? [ext4]", "ext4_a+0xa/0x30 [ext4]"]

    def setUp(self):
        self.catalog = Catalog(SYMBOLS, MODULES)
        self.addCleanup(self.catalog.close)

    def told(self, addresses):
        return list(self.catalog.find_many(addresses))

    def test_each_is_told_as_alone(self):
        answers = self.told(array.array("Q", self.ADDRESSES))
        self.assertEqual(answers[0], Answer(1, 8, 0x30, 6, 4, 0))
        for addr, answer in zip(self.ADDRESSES, answers):
            self.assertEqual(self.told([addr]), [answer])

    def test_any_buffer(self):
        words = array.array("Q", self.ADDRESSES)
        wanted = self.told(words)
        signed = array.array("q", words.tobytes())
        read_only = memoryview(words.tobytes()).cast("Q")
        unaligned = memoryview(b"." + words.tobytes())[1:].cast("B").cast("Q")
        with mmap.mmap(-1, words.itemsize * len(words)) as mapped:
            mapped[:] = words.tobytes()
            with memoryview(mapped) as view, view.cast("Q") as numbers:
                self.assertEqual(self.told(numbers), wanted)
        for addresses in (signed, read_only, unaligned, tuple(self.ADDRESSES), iter(self.ADDRESSES)):
            self.assertEqual(self.told(addresses), wanted)
        self.assertEqual(self.catalog.texts(signed), self.TEXTS)
        words.append(1)  # no call has kept it

    def test_other_buffers_are_refused(self):
        for addresses in (b"12345678", array.array("I", [1]), array.array("d", [1.0])):
            self.assertRaises(TypeError, self.catalog.find_many, addresses)
        every_second = memoryview(array.array("Q", self.ADDRESSES))[::2]
        self.assertRaises(ValueError, self.catalog.find_many, every_second)

    def test_columns(self):
        answers = self.catalog.find_many(self.ADDRESSES)
        self.assertEqual(answers.numbers.tolist(), [0, 22, 0, 21, 0])
        self.assertEqual(answers.offsets.tolist(), [8, 0, 8, 0, 10])
        self.assertEqual(answers.sizes.tolist(), [0x30, 0, 0x1F00, 0, 0x30])
        self.assertEqual(answers.module_numbers.tolist(), [1, 0, 0, 1, 1])
        self.assertEqual(answers[-1], answers[4])
        self.assertEqual(answers[1:3], [answers[1], answers[2]])
        self.assertRaises(IndexError, answers.__getitem__, 5)

    def test_rooms_of_the_caller(self):
        rooms = latchsym.Answers(9)
        self.assertIs(self.catalog.find_many(self.ADDRESSES, out=rooms), rooms)
        self.assertEqual(rooms.numbers.tolist()[:5], [0, 22, 0, 21, 0])
        self.assertRaises(latchsym.BadLength, self.catalog.find_many, self.ADDRESSES, latchsym.Answers(4))

    def test_none_at_all(self):
        self.assertEqual(self.told([]), [])
        self.assertEqual(self.catalog.texts([]), [])

    def test_texts(self):
        self.assertEqual(self.catalog.texts(self.ADDRESSES), self.TEXTS)


    def test_factors(self):
        for addresses in (self.ADDRESSES, array.array("Q", self.ADDRESSES), self.ADDRESSES * 3):
            codes, symbols, offsets = self.catalog.factorize(addresses)
            self.assertEqual([str(it) for it in symbols], ["ext4_a+0x0/0x30 [ext4]", "None", "do_one+0x0/0x1f00", "? [ext4]"])
            self.assertEqual(codes.tolist(), [0, 1, 2, 3, 0] * (len(addresses) // 5))
            self.assertEqual(offsets.tolist(), [8, 0, 8, 0, 10] * (len(addresses) // 5))
        signed = array.array("q", array.array("Q", self.ADDRESSES).tobytes())
        self.assertEqual(self.catalog.factorize(signed).codes.tolist(), [0, 1, 2, 3, 0])
        self.assertEqual(self.catalog.factorize([])[:2], (array.array("i"), []))
        self.assertEqual(len(self.catalog.factorize([]).offsets), 0)

    def test_factors_tell_apart_what_texts_do(self):
        with Catalog(SYMBOLS + b"ffffffffc1000000 t f\t[m]\nffffffffc1000010 t f\t[m]\n") as catalog:
            addresses = [0xFFFFFFFFC1000000, 0xFFFFFFFFC1000011, 0, (1 << 64) - 1, EXT4_A, 0xFFFFFFFFC1000001]
            codes, symbols, offsets = catalog.factorize(addresses)
            self.assertEqual(codes.tolist(), [0, 1, 2, 2, 3, 0])
            made = [symbols[code] and str(symbols[code]._replace(offset=offset)) for code, offset in zip(codes, offsets)]
            self.assertEqual([text or "-" for text in made], catalog.texts(addresses))

    def test_factors_of_modules_without_a_symbol(self):
        modules = MODULES + b"nfs 4096 1 - Live 0xffffffffd0000000\n"
        with Catalog(SYMBOLS, modules) as catalog:
            codes, symbols, _ = catalog.factorize([0xFFFFFFFFC0000001, 0xFFFFFFFFD0000000, 0xFFFFFFFFC0000002])
            self.assertEqual(codes.tolist(), [0, 1, 0])
            self.assertEqual([str(it) for it in symbols], ["? [ext4]", "? [nfs]"])

    def test_the_table_of_the_page(self):
        try:
            import numpy
            import pandas
        except ImportError:
            self.skipTest("pandas is not here")
        page = (pathlib.Path(__file__).parents[1] / "README.md").read_text()
        block = re.search(r"^    import numpy\n(?:    .*\n)+", page, re.MULTILINE)[0]
        samples = pandas.DataFrame({"address": numpy.array(self.ADDRESSES, dtype="uint64")})
        exec(textwrap.dedent(block), {"samples": samples, "catalog": self.catalog})
        self.assertEqual(samples["symbol"].tolist(), ["ext4_a", None, "do_one", None, "ext4_a"])
        self.assertEqual(samples["offset"].tolist(), [8, 0, 8, 0, 10])


class Entries(unittest.TestCase):
    def test_modules_regions_and_symbols(self):
        with Catalog(SYMBOLS, MODULES) as catalog:
            self.assertEqual(list(catalog.modules()), [(0, "-", 1, 2), (1, "ext4", 1, 2)])
            self.assertEqual(list(catalog.regions(1)), [Region(0xFFFFFFFFC0000000, 0xFFFFFFFFC0002000, False)])
            self.assertEqual([it.name for it in catalog.symbols(1)], ["ext4_a", "ext4_b"])
            self.assertEqual(list(catalog.symbols(9)), [])
            self.assertEqual(list(catalog.addresses_of("do_one")), [0xFFFFFFFF81000100])
            self.assertEqual(list(catalog.addresses_of("do_one", 1)), [])

    def test_counts(self):
        with Catalog(SYMBOLS, MODULES) as catalog:
            self.assertEqual((catalog.counts.modules, catalog.counts.symbols), (1, 4))


class Opening(unittest.TestCase):
    def test_a_bad_line(self):
        with self.assertRaises(latchsym.BadListing) as caught:
            Catalog(b"", b"", b"latchregions 1\nx\n")
        self.assertEqual((caught.exception.number, caught.exception.line), (15, 2))
        self.assertTrue(str(caught.exception).endswith(": line 2"))
        again = pickle.loads(pickle.dumps(caught.exception))
        self.assertEqual((str(again), again.line), (str(caught.exception), 2))

    def test_regions_without_modules(self):
        self.assertRaises(latchsym.BadListing, Catalog, b"", None, b"latchregions 1\n")

    def test_closed(self):
        catalog = Catalog(SYMBOLS)
        catalog.close()
        catalog.close()
        for call in (catalog.find, catalog.find_caller, catalog.symbols):
            with self.assertRaises(latchsym.Closed):
                list(call(1))
        self.assertRaises(latchsym.Closed, catalog.find_many, [1])
        self.assertRaises(latchsym.Closed, catalog.share)

    def test_a_writable_listing_is_copied(self):
        symbols = bytearray(SYMBOLS)
        with Catalog(symbols) as catalog:
            symbols[:] = b"?" * len(symbols)
            self.assertEqual(catalog.find(EXT4_A).name, "ext4_a")

    def test_a_mapped_listing_stays_while_it_is_open(self):
        with tempfile.TemporaryFile() as file:
            file.write(SYMBOLS)
            file.flush()
            mapped = mmap.mmap(file.fileno(), 0, access=mmap.ACCESS_READ)
            catalog = Catalog(mapped)
            self.assertRaises(BufferError, mapped.close)
            self.assertEqual(catalog.find(EXT4_A).name, "ext4_a")
            catalog.close()
            gc.collect()
            mapped.close()

    def test_files(self):
        with tempfile.TemporaryDirectory() as folder:
            kallsyms, modules = pathlib.Path(folder, "kallsyms"), pathlib.Path(folder, "modules")
            kallsyms.write_bytes(SYMBOLS)
            modules.write_bytes(MODULES)
            with Catalog.from_files(kallsyms, modules) as catalog:
                self.assertEqual(catalog.find(EXT4_A).module, "ext4")
            self.assertRaises(FileNotFoundError, Catalog.from_files, folder + "/none")


class Threads(unittest.TestCase):
    def test_a_change_leaves_the_other_modules(self):
        with latchsym.Catalog(SYMBOLS) as first:
            second = first.change(bytearray(b"gone ext4\nffffffffc0004000 t xfs_a\t[xfs]\n"))
            self.assertIsNotNone(first.find(0xFFFFFFFFC0000018))
        self.assertIsNone(second.find(0xFFFFFFFFC0000018))
        self.assertEqual(second.find(0xFFFFFFFFC0004010).name, "xfs_a")
        self.assertEqual(second.find(0xFFFFFFFF81000108).name, "do_one")
        with self.assertRaises(latchsym.BadListing) as raised:
            second.change(b"gone xfs\nffffffff81000010 T of_the_kernel\n")
        self.assertEqual(raised.exception.line, 2)
        second.close()
        self.assertRaises(latchsym.Closed, second.change, b"")

    def test_a_shared_catalog_outlives_the_first(self):
        first = Catalog(SYMBOLS)
        second = first.share()
        first.close()
        del first
        gc.collect()
        self.assertEqual(second.find(EXT4_A).name, "ext4_a")
        second.close()

    def test_one_handle_on_many_threads(self):
        addresses = array.array("Q", [EXT4_A, 0x1000] * 5000)
        wrong = []
        with Catalog(SYMBOLS) as catalog:

            def look():
                for _ in range(50):
                    answers = catalog.find_many(addresses)
                    if answers.numbers.tolist() != [0, 22] * 5000 or catalog.find(EXT4_A).offset != 8:
                        wrong.append(1)

            threads = [threading.Thread(target=look) for _ in range(4)]
            for thread in threads:
                thread.start()
            for thread in threads:
                thread.join()
        self.assertFalse(wrong)


@unittest.skipUnless(LISTINGS.is_dir(), "the repository's examples are not here")
class Examples(unittest.TestCase):
    def test_answers_as_latchsym_lookup(self):
        for path in sorted(LISTINGS.glob("*.modules")):
            with self.subTest(path.stem):
                regions = path.with_suffix(".regions")
                words = path.with_suffix(".addresses").read_text().split()
                expected = path.with_suffix(".expected").read_text().splitlines()
                bounds = ("_stext", "_end")
                files = (path.with_suffix(".kallsyms"), path, regions if regions.exists() else None)
                with warnings.catch_warnings():
                    warnings.simplefilter("ignore")
                    catalog = Catalog.from_files(*files, kernel=bounds)
                with catalog:
                    addresses = [int(word, 0) for word in words]
                    lines = [f"0x{addr:x} {text}" for addr, text in zip(addresses, catalog.texts(addresses))]
                    self.assertEqual(lines, [line for line in expected if line.startswith("0x")])
                    alone = [catalog.find(addr) for addr in addresses]
                    self.assertEqual([str(it or "-") for it in alone], catalog.texts(addresses))
