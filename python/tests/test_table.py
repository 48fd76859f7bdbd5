# SPDX-License-Identifier: MIT OR Apache-2.0
import gc
import threading
import unittest

import latchsym
from latchsym import Catalog, Item, Step, Table

from .samples import EXT4_A, MODULES, SYMBOLS

ITEM = Item(0x1000, 0x2000, 7)


class Updates(unittest.TestCase):
    def setUp(self):
        self.table = Table(nodes=4)
        self.addCleanup(self.table.close)
        self.writer, self.reader = self.table.writer, self.table.readers[0]

    def test_insert_and_erase(self):
        self.assertEqual(self.writer.insert(*ITEM), 1)
        self.assertEqual(self.reader.find(0x1FFF), (ITEM, 1))
        self.assertEqual(self.reader.find(0x2000), (None, 1))
        self.assertEqual(self.writer.erase(0x1000), 2)
        self.assertEqual(self.writer.find(0x1FFF), (None, 2))

    def test_a_batch_is_one_update(self):
        self.writer.insert(*ITEM)
        self.assertEqual(self.writer.batch(erase=[0x1000], insert=[(0x1000, 0x1800, 1), (0x1800, 0x2000, 2)]), 2)
        self.assertEqual(self.reader.find(0x1800).item.tag, 2)
        self.assertEqual(self.writer.batch(), 3)

    def test_a_replacement_is_one_update(self):
        self.writer.insert(*ITEM)
        items = [Item(0x800, 0x900, 3), ITEM, Item(0x3000, 0x4000, 5)]
        self.assertEqual(self.writer.replace(items), 2)
        self.assertEqual([self.reader.find(item.a).item for item in items], items)
        self.assertEqual(self.writer.replace([]), 3)
        self.assertIsNone(self.reader.find(0x1000).item)
        self.assertRaises(latchsym.Overlap, self.writer.replace, [ITEM, ITEM])

    def test_step_by_step(self):
        self.assertEqual(self.writer.step(), Step.END)
        self.writer.begin_insert(*ITEM)
        self.assertRaises(latchsym.UpdateInHand, self.writer.begin_erase, 0x1000)
        flips = 0
        while (step := self.writer.step()) is not Step.END:
            flips += step is Step.FLIP
            self.assertEqual(self.reader.try_find(0x1000).item, ITEM if flips == 2 else None)
        self.assertEqual((flips, self.writer.finish()), (2, 1))

    def test_refusals_change_nothing(self):
        self.writer.insert(*ITEM)
        for kind, call, words in (
            (latchsym.BadItem, self.writer.insert, (5, 5, 0)),
            (latchsym.Overlap, self.writer.insert, (0x1FFF, 0x3000, 0)),
            (latchsym.NoSuchItem, self.writer.erase, (0x1001,)),
            (latchsym.Full, self.writer.batch, ((), [(at, at + 1, 0) for at in range(4)])),
        ):
            with self.assertRaises(kind) as caught:
                call(*words)
            self.assertTrue(str(caught.exception))
        for number in (-1, 1 << 64):
            self.assertRaises(OverflowError, self.writer.insert, 1, 2, number)
        self.assertEqual(self.reader.find(0x1000), (ITEM, 1))

    def test_the_name_of_an_item(self):
        with Catalog(SYMBOLS, MODULES) as catalog:
            region = next(catalog.regions(1))
            self.assertEqual(self.reader.try_find_name(catalog, EXT4_A), ((None, 0), None))
            self.writer.insert(region.a, region.b, 1)
            found, symbol = self.reader.try_find_name(catalog, EXT4_A)
            self.assertEqual((found.item.tag, symbol), (1, catalog.find(EXT4_A)))
        long = b"s" * 700
        with Catalog(b"ffffffffc0000010 t %s\t[m]\nffffffffc0000040 t b\t[m]\n" % long) as catalog:
            _, symbol = self.reader.try_find_name(catalog, EXT4_A)
            self.assertEqual((symbol.name, symbol.module), (long.decode(), "m"))


class Readers(unittest.TestCase):
    def test_added_readers_and_more_nodes(self):
        with Table(nodes=1, readers=2, most_readers=3) as table:
            table.writer.begin_insert(*ITEM)
            table.add_reader()
            self.assertRaises(latchsym.UpdateInHand, table.enlarge, 4)
            table.writer.finish()
            self.assertRaises(latchsym.BadCapacity, table.add_reader)
            self.assertRaises(latchsym.Full, table.writer.insert, 1, 2, 3)
            table.enlarge(8)
            table.writer.insert(1, 2, 3)
            for reader in table.readers:
                self.assertEqual(reader.find(1), (Item(1, 2, 3), 2))
                self.assertEqual(reader.find(0x1000), (ITEM, 2))
            table.readers[0].close()
            self.assertRaises(latchsym.Closed, table.enlarge, 16)

    def test_readers_taken_back(self):
        with Table(nodes=1, readers=2, most_readers=2) as table:
            last = table.readers[1]
            table.take_reader()
            self.assertRaises(latchsym.Closed, last.find, 1)
            self.assertEqual(len(table.readers), 1)
            self.assertIsNone(table.add_reader().find(1).item)
            table.enlarge(2)
            for _ in range(2):
                table.take_reader()
            self.assertRaises(latchsym.BadCapacity, table.take_reader)

    def test_capacities(self):
        for nodes, readers in ((0, 1), (65537, 1), (4, 0), (4, 65)):
            self.assertRaises(latchsym.BadCapacity, Table, nodes, readers)
        for nodes, readers in ((-1, 1), (1 << 32, 1), (4, -1)):
            self.assertRaises(OverflowError, Table, nodes, readers)

    def test_a_reader_outlives_its_table(self):
        table = Table(nodes=4)
        table.writer.insert(*ITEM)
        reader = table.readers[0]
        del table
        gc.collect()
        self.assertEqual(reader.find(0x1000), (ITEM, 1))

    def test_closed(self):
        with Table(nodes=4) as table:
            pass
        table.close()
        for call in (table.writer.finish, table.writer.step, table.add_reader):
            self.assertRaises(latchsym.Closed, call)
        self.assertRaises(latchsym.Closed, table.readers[0].find, 1)

    def test_shared_readers(self):
        wrong = []
        with Table(nodes=1, readers=2) as table:
            over = threading.Event()

            def look():
                last = 0
                while not over.is_set():
                    found = table.find(0x1000)
                    if (found.item == ITEM) != (found.generation % 2 == 1) or found.generation < last:
                        wrong.append(found)
                    last = found.generation

            threads = [threading.Thread(target=look) for _ in range(3)]
            for thread in threads:
                thread.start()
            for nodes in range(2, 100):
                table.writer.insert(*ITEM)
                table.enlarge(nodes)
                table.writer.erase(0x1000)
            over.set()
            for thread in threads:
                thread.join()
            self.assertEqual(wrong, [])
            self.assertEqual(table.try_find(1), (None, 2 * 98))

    def test_no_reader_is_free(self):
        with Table(nodes=1, readers=2) as table:
            held, let_go = threading.Barrier(2), threading.Event()

            def hold():
                with table.readers[0]._lock, table.readers[1]._lock:
                    held.wait()
                    let_go.wait()

            thread = threading.Thread(target=hold)
            thread.start()
            held.wait()
            self.assertRaises(latchsym.Busy, table.try_find, 1)
            let_go.set()
            thread.join()
            self.assertIsNone(table.try_find(1).item)
        self.assertRaises(latchsym.Closed, table.find, 1)

    def test_threads(self):
        wrong = []
        with Table(nodes=4, readers=3) as table:
            over = threading.Event()

            def look(reader):
                last = 0
                while not over.is_set():
                    found = reader.find(0x1000)
                    # odd generations have the item, and even ones do not
                    if (found.item == ITEM) != (found.generation % 2 == 1) or found.generation < last:
                        wrong.append(found)
                    last = found.generation

            threads = [threading.Thread(target=look, args=(reader,)) for reader in table.readers]
            for thread in threads:
                thread.start()
            for _ in range(500):
                table.writer.insert(*ITEM)
                table.writer.erase(0x1000)
            over.set()
            for thread in threads:
                thread.join()
        self.assertFalse(wrong)
