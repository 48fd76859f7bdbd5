# SPDX-License-Identifier: MIT OR Apache-2.0
import os
import pathlib
import random
import tempfile
import threading
import time
import unittest
import warnings
from unittest import mock

import latchsym
from latchsym import Follower, Sample

START, PAGE = 0xFFFFFFFFC0000000, 0x1000
KERNEL = [f"ffffffff8100{place:02x}00 T {name}\n" for place, name in enumerate(("_stext", "one", "two", "_end"))]


def line(page, name):
    return f"{START + page * PAGE:016x} t {name}\t[{name}]\n"


class Following(unittest.TestCase):
    def setUp(self):
        folder = tempfile.TemporaryDirectory()
        self.addCleanup(folder.cleanup)
        self.file = pathlib.Path(folder.name, "kallsyms")

    def put(self, *lines):
        self.file.write_text("".join(lines))

    def follower(self, **words):
        follower = Follower(self.file, **words)
        self.addCleanup(follower.close)
        return follower

    def test_samples_keep_the_names_of_their_listing(self):
        self.put(line(0, "first"))
        follower = self.follower()
        samples = []
        for load in range(20):
            self.put(line(0, f"load{load}"), line(1 + load % 3, f"other{load}"))
            self.assertTrue(follower.poll())
            samples.append(follower.find_many([START, START + (1 + load % 3) * PAGE, 0x1000]))
        for load, (own, other, none) in enumerate(samples):
            self.assertEqual(follower.name(own).name, f"load{load}")
            self.assertEqual(follower.name(other).module, f"other{load}")
            self.assertIsNone(none.item)
            self.assertIsNone(follower.name(none))

    def test_a_listing_in_which_modules_alone_change_is_named_as_one_that_is_opened(self):
        pick = random.Random(1)
        kernel = [f"ffffffff8100{place:02x}00 T k{place}\n" for place in range(100)]
        kernel = ["ffffffff81000000 T _stext\n", *kernel[1:], "ffffffff81010000 T _end\n"]
        places = [START + page * PAGE // 2 + 8 for page in range(32)] + [0xFFFFFFFF81000108]
        self.put(*kernel, line(0, "m0"))
        follower, changes = self.follower(nodes=4096), 0
        for _ in range(300):
            names = pick.sample("m0 m1 m2 m3 m4".split(), pick.randint(0, 5))
            free = pick.sample(range(16), 16)  # (no two modules are at one address)
            lines = [line(free.pop(), name) for name in names for _ in range(pick.randint(1, 3))]
            if pick.random() < 0.1:
                pick.shuffle(lines)
            text = [*kernel, *lines, *["no line\n"] * (pick.random() < 0.1)]
            self.put(*(text if pick.random() < 0.9 else [text[0], *text[2:]]))
            follower.poll()
            changes += follower._changed > 0
            with latchsym.Catalog(self.file.read_bytes()) as wanted:
                found = [follower.name(follower.find(place)) for place in places]
                self.assertEqual(list(map(str, found)), [str(wanted.find(place)) for place in places])
            follower.forget_below(follower.find(START).generation)
        self.assertGreater(changes, 100)

    def test_a_listing_that_outgrows_the_table_is_shown_once_it_is_enlarged(self):
        self.put(line(0, "first"))
        follower = self.follower(nodes=1)
        old = follower.find(START)
        self.put(line(0, "second"), line(512, "far"))
        self.assertRaises(latchsym.Full, follower.poll)
        self.assertRaises(latchsym.BadCapacity, follower.enlarge, 0)
        follower.enlarge(3)
        self.assertEqual(follower.find(START), old)
        self.assertTrue(follower.poll())
        self.assertEqual([follower.name(it).name for it in (old, follower.find(START))], ["first", "second"])
        follower.close()
        self.assertRaises(latchsym.Closed, follower.enlarge, 4)

    def test_code_that_is_noted_goes_before_the_listing_until_it_is_gone(self):
        self.put(line(0, "listed"))
        follower = self.follower()
        before, early = follower.find(START), time.monotonic_ns()
        self.assertIsNone(follower.note_gone(START))
        self.assertEqual(follower.note(START, 10000, "noted"), before.generation + 1)
        last = follower.find(START + 9999)
        symbol = follower.name(last)
        self.assertEqual((str(symbol), symbol.module_number), ("noted+0x270f/0x2710 [bpf]", (1 << 64) - 1))
        self.assertEqual(follower.name_at(early, START).name, "listed")
        middle = time.monotonic_ns()
        self.assertEqual(follower.note_gone(START), before.generation + 2)
        self.assertIsNone(follower.note_gone(START))
        after = follower.find(START)
        self.assertEqual([follower.name(it).name for it in (before, last, after)], ["listed", "noted", "listed"])
        self.assertEqual(follower.name_at(middle, START + 9999).name, "noted")
        self.assertEqual(follower.name_at(time.monotonic_ns(), START).name, "listed")
        follower.forget_below(last.generation)
        self.assertEqual(follower.name(last).name, "noted")
        follower.forget_below(after.generation)
        self.assertIsNone(follower.name(last))
        follower.note(START, 1, "again", module="m", time_ns=7)
        follower.note(START, 2, "newer", time_ns=7)
        self.assertEqual(follower.name_at(8, START).name, "newer")
        follower.note_gone(START, time_ns=8)
        self.assertEqual((follower.name_at(7, START).name, str(follower.name_at(8, START))), ("newer", "again+0x0/0x1 [m]"))
        follower.close()
        self.assertRaises(latchsym.Closed, follower.note, START, 1, "closed")
        self.assertRaises(latchsym.Closed, follower.note_gone, START)

    def test_a_listing_is_forgotten_once_no_sample_needs_it(self):
        self.put(line(0, "first"))
        follower = self.follower()
        old = follower.find(START)
        self.put(line(0, "second"))
        follower.poll()
        follower.forget_below(old.generation)
        self.assertEqual(follower.name(old).name, "first")
        new = follower.find(START)
        follower.forget_below(new.generation)
        self.assertEqual(follower.name(new).name, "second")
        self.assertRaises(LookupError, follower.name, old)

    def test_an_address_is_named_by_the_time(self):
        before = time.monotonic_ns()
        self.put(line(0, "first"))
        follower = self.follower()
        times = [time.monotonic_ns()]
        for load in range(5):
            self.put(line(0, f"load{load}"))
            follower.poll()
            times.append(time.monotonic_ns())
        self.assertRaises(latchsym.Forgotten, follower.name_at, before, START)
        names = [follower.name_at(at, START).name for at in times]
        self.assertEqual(names, ["first", *(f"load{load}" for load in range(5))])
        follower.forget_below(follower.find(START).generation)
        self.assertRaises(latchsym.Forgotten, follower.name_at, times[-2], START)
        self.assertEqual(follower.name_at(times[-1], START).name, "load4")

    def test_a_listing_that_is_refused_changes_nothing(self):
        self.put(line(0, "first"))
        follower = self.follower(nodes=1)
        self.put(line(1, "second"))
        self.assertRaises(latchsym.Full, follower.poll)
        self.assertEqual(follower.name(follower.find(START)).name, "first")
        self.put(line(0, "third"))
        self.assertTrue(follower.poll())
        self.assertEqual(follower.name(follower.find(START)).name, "third")

    def test_of_threads_that_poll_none_shows_an_older_listing(self):
        read, versions = pathlib.Path.read_bytes, 60

        def slowly(path):
            text = read(path)
            time.sleep(len(text) % 5 / 1000)
            return text

        def put(version):
            new = self.file.with_name("new")
            new.write_text(line(0, f"load{version}") + "#" * (version * 7 % 5))
            os.replace(new, self.file)

        def poll():
            while not ended.is_set():
                follower.poll()

        put(0)
        follower, ended = self.follower(), threading.Event()
        threads = [threading.Thread(target=poll) for _ in range(8)]
        with mock.patch("pathlib.Path.read_bytes", slowly):
            for thread in threads:
                thread.start()
            for version in range(1, versions):
                put(version)
                time.sleep(0.002)
            ended.set()
            for thread in threads:
                thread.join()
        follower.poll()
        last = follower.find(START).generation
        names = [follower.name(Sample(START, None, generation)).name for generation in range(1, last + 1)]
        loads = [int(name[len("load") :]) for name in names]
        self.assertEqual(loads, sorted(set(loads)))
        self.assertEqual(loads[-1], versions - 1)

    def refuses(self, follower, *lines):
        """The listing is not taken, which is warned of, once for each poll."""
        self.put(*lines)
        with warnings.catch_warnings(record=True) as said:
            warnings.simplefilter("always")
            self.assertFalse(follower.poll())
        self.assertEqual([warning.filename for warning in said], [__file__])
        self.assertEqual(follower.name(follower.find(START)).name, "first")
        return str(said[0].message)

    def test_a_listing_with_a_note_is_not_taken(self):
        whole = [*KERNEL, line(0, "first")]
        self.put(*whole)
        follower = self.follower()
        for lines in range(len(KERNEL)):
            self.refuses(follower, *whole[:lines])
        zeros = [f"{0:016x}{text[16:]}" for text in whole]
        self.assertIn("every address is 0", self.refuses(follower, *zeros))
        self.assertIn("every address is 0", self.refuses(follower, *zeros[1:]))
        self.file.unlink()
        self.assertRaises(OSError, follower.poll)
        self.put(*whole)
        self.assertFalse(follower.poll())
        self.put(*KERNEL, line(0, "second"))
        self.assertTrue(follower.poll())
        self.assertEqual(follower.name(follower.find(START)).name, "second")

    def test_a_listing_of_modules_with_a_note_is_not_taken(self):
        modules, text = self.file.with_name("modules"), "first 4096 1 - Live 0x{:016x}\n"
        modules.write_text(text.format(START))
        self.put(*KERNEL, line(0, "first"))
        follower = self.follower(modules=modules)
        modules.write_text(text.format(0))
        self.assertIn(f"{modules}: every address is 0", self.refuses(follower, *KERNEL, line(0, "first")))

    def test_a_note_that_stays_refuses_nothing(self):
        without_end = KERNEL[:-1]
        self.put(*without_end, line(0, "first"))
        with self.assertWarns(UserWarning):
            follower = self.follower()
        self.put(*without_end, line(0, "second"))
        self.assertTrue(follower.poll())
        self.assertEqual(follower.name(follower.find(START)).name, "second")

    def test_a_listing_is_another_by_its_bytes_and_not_by_its_time(self):
        self.put(line(0, "first"))
        before = self.file.stat()
        follower = self.follower()
        self.put(line(0, "later"))
        os.utime(self.file, ns=(before.st_atime_ns, before.st_mtime_ns))
        self.assertEqual(self.file.stat().st_size, before.st_size)
        self.assertTrue(follower.poll())
        self.assertEqual(follower.name(follower.find(START)).name, "later")


class Watching(unittest.TestCase):
    """Polls that read a file in the form of /proc/modules first."""

    def setUp(self):
        folder = tempfile.TemporaryDirectory()
        self.addCleanup(folder.cleanup)
        self.file, self.watched = (pathlib.Path(folder.name, name) for name in ("kallsyms", "modules"))
        self.reads, self.meanwhile = 0, {}
        self.load("first")
        read = pathlib.Path.read_bytes

        def counted(path):
            text = read(path)
            if path == self.file:
                self.reads += 1
                self.meanwhile.pop(self.reads, int)()
            return text

        patch = mock.patch("pathlib.Path.read_bytes", counted)
        patch.start()
        self.addCleanup(patch.stop)

    def list(self, *names, users="0 -"):
        self.watched.write_text("".join(f"{name} 4096 {users} Live 0x{START:016x}\n" for name in names))

    def show(self, *names):
        self.file.write_text("".join([*KERNEL, *(line(page, name) for page, name in enumerate(names))]))

    def load(self, *names):
        self.list(*names)
        self.show(*names)

    def follower(self, **words):
        follower = Follower(self.file, watched=self.watched, **words)
        self.addCleanup(follower.close)
        return follower

    def reads_of(self, follower):
        """How many of ten polls read the listing."""
        before = self.reads
        for _ in range(10):
            follower.poll()
        return self.reads - before

    def names(self, follower):
        found = (follower.name(follower.find(START + page * PAGE)) for page in range(3))
        return [symbol.name for symbol in found if symbol]

    def test_nothing_is_read_while_modules_stay(self):
        follower = self.follower()
        self.show("first", "bpf")
        self.assertEqual((self.reads_of(follower), self.names(follower)), (0, ["first"]))
        self.list("first", users="3 second,third,")
        self.assertEqual(self.reads_of(follower), 0)
        self.list("first", "second")
        self.show("first", "second")
        self.assertTrue(follower.poll())
        self.assertEqual((self.reads_of(follower), self.names(follower)), (0, ["first", "second"]))
        # the same module, at another address or of another size
        for words in ("4096 0 - Live 0xffffffffc0009000", "8192 0 - Live 0xffffffffc0009000"):
            self.watched.write_text(f"first {words}\nsecond 4096 0 - Live 0x{START:016x}\n")
            self.assertEqual(self.reads_of(follower), 1)

    def test_what_is_no_module_is_looked_at_every_so_often(self):
        clock = time.monotonic()
        with mock.patch("time.monotonic", lambda: clock):
            follower = self.follower(every=60)
            self.show("first", "bpf")
            clock += 59.9
            self.assertEqual(self.reads_of(follower), 0)
            clock += 0.2
            self.assertTrue(follower.poll())
            self.assertEqual((self.reads_of(follower), self.names(follower)), (0, ["first", "bpf"]))
        self.assertEqual(self.reads_of(self.follower(every=0)), 10)

    def test_a_module_that_comes_while_the_listing_is_read_is_not_missed(self):
        self.meanwhile[1] = lambda: self.load("first", "second")
        follower = self.follower()
        self.assertEqual(self.names(follower), ["first"])
        self.assertTrue(follower.poll())
        self.assertEqual((self.reads_of(follower), self.names(follower)), (0, ["first", "second"]))

    def test_a_module_that_came_and_went_while_the_listing_was_read_is_not_kept(self):
        self.show("first", "second")
        self.meanwhile[1] = lambda: self.show("first")
        follower = self.follower()
        self.assertEqual(self.names(follower), ["first", "second"])
        self.assertTrue(follower.poll())
        self.assertEqual((self.reads_of(follower), self.names(follower)), (0, ["first"]))

    def test_a_module_that_is_loaded_anew_while_the_listing_is_read_is_not_missed(self):
        self.list("first", "second")
        self.meanwhile[1] = lambda: self.show("first", "second")
        follower = self.follower()
        self.assertEqual(self.names(follower), ["first"])
        self.assertTrue(follower.poll())
        self.assertEqual((self.reads_of(follower), self.names(follower)), (0, ["first", "second"]))
        # gone, and back while the listing is read that has it: which is as the one before
        self.list("first")
        self.meanwhile[self.reads + 1] = lambda: self.show("first")
        self.assertFalse(follower.poll())
        self.assertTrue(follower.poll())
        self.assertEqual((self.reads_of(follower), self.names(follower)), (0, ["first"]))

    def test_a_module_without_symbols_is_read_for_once_more(self):
        self.list("first", "silent")
        self.assertEqual(self.reads_of(self.follower()), 1)

    def test_a_listing_that_was_not_taken_is_read_again(self):
        follower = self.follower()
        self.load("first", "second")
        good = self.file.read_text()
        self.file.write_text("".join(f"{0:016x}{text[16:]}\n" for text in good.splitlines()))
        with self.assertWarns(UserWarning):
            self.assertFalse(follower.poll())
        self.file.write_text(good)
        self.assertTrue(follower.poll())
        self.file.unlink()
        later = time.monotonic() + 100
        with mock.patch("time.monotonic", lambda: later):
            self.assertRaises(OSError, follower.poll)
        self.show("first")
        self.assertTrue(follower.poll())
        self.list("first")
        self.assertEqual((self.reads_of(follower), self.names(follower)), (1, ["first"]))

    def test_a_watched_file_that_is_missing_or_cannot_be_read(self):
        self.watched.unlink()
        self.show()
        self.assertEqual(self.reads_of(self.follower()), 0)
        self.watched.mkdir()
        self.assertEqual(self.reads_of(self.follower()), 10)

    def test_which_file_is_watched(self):
        self.assertEqual(self.reads_of(Follower(self.file)), 10)
        texts = {"/proc/kallsyms": self.file.read_bytes(), "/proc/modules": self.watched.read_bytes()}
        asked = []
        with mock.patch("pathlib.Path.read_bytes", lambda path: asked.append(str(path)) or texts[str(path)]):
            follower = Follower()
            self.addCleanup(follower.close)
            follower.poll()
        self.assertEqual(asked, ["/proc/modules", "/proc/kallsyms", "/proc/modules", "/proc/modules"])
