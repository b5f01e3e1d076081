"""Tests of mars.py: what the README shows, each status, bytes of any value, a process that is killed, and devices that fail or tear.

    MARS_LIBRARY=libmars.so python3 -m unittest test_mars
"""

import itertools
import os
import random
import signal
import subprocess
import sys
import tempfile
import textwrap
import time
import unittest
from pathlib import Path

sys.dont_write_bytecode = True
sys.path.insert(0, str(Path(__file__).resolve().parent))
import mars

KEYS = (1, 2, 3)
PRINTED = bytes(range(ord("!"), ord("~") + 1))


class Stopped(Exception):
    """The device failed, or lost power."""


class Breaking(mars.Memory):
    """A device that stops at its piece `last`, from 0 on. It leaves that one by halves, or as it was."""

    def __init__(self, data, last, draw=None):
        super().__init__(data)
        self.last, self.draw, self.pieces = last, draw, 0

    def write(self, at, data):
        if self.is_last():
            if self.draw:
                super().write(at, bytes(self.draw.choice((old, new, self.draw.randrange(256))) for old, new in zip(self.data[at:], data)))
            raise Stopped
        super().write(at, data)

    def barrier(self):
        if self.is_last():
            raise Stopped

    def is_last(self):
        self.pieces += 1
        return self.pieces - 1 == self.last


def fresh(**shape):
    return mars.Array(mars.Memory(mars.fresh(**shape)), shape.get("callers", 8))


def put_all(work, number):
    for key in KEYS:
        work.put(key, b"%d" % number)


def put_one(array, key):
    with array.transaction() as work:
        work.put(key, b"a")


def commits_in(data):
    """How many commits these bytes have, each of which put its number under each key."""
    with mars.Array(mars.Memory(data)) as array, array.transaction() as work:
        found = {work.get(key) for key in KEYS}
        assert len(found) == 1, found
        return int(found.pop() or b"0")


class Records(unittest.TestCase):
    def setUp(self):
        self.array = fresh()
        self.addCleanup(self.array.close)

    def rows(self, **where):
        with self.array.transaction() as work:
            return list(work.rows(**where))

    def test_a_transaction_is_committed_at_its_end(self):
        with self.array.transaction() as work:
            work.put(5, b"abc")
            work.put(6, bytearray(b"x"))
            work.put(7, memoryview(b"y"))
            self.assertTrue(work.delete(6))
            self.assertFalse(work.delete(6))
            self.assertIsNone(work.get(6))
        self.assertEqual(self.rows(), [(5, b"abc"), (7, b"y")])
        self.assertEqual(self.array.moment, self.array.done_up_to)

    def test_an_exception_drops_it(self):
        with self.assertRaises(KeyError), self.array.transaction() as work:
            work.put(5, b"abc")
            raise KeyError
        self.assertEqual(self.rows(), [])

    def test_rows(self):
        with self.array.transaction() as work:
            for key in (0, 3, 9, mars.KEY_MAX):
                work.put(key, b"%d" % key)
            rows = work.rows()
            work.delete(9)
            self.assertEqual(list(rows), [(key, b"%d" % key) for key in (0, 3, 9, mars.KEY_MAX)])
        self.assertEqual([row.key for row in self.rows(low=1, high=mars.KEY_MAX)], [3, mars.KEY_MAX])
        self.assertEqual(self.rows(low=4, high=8), [])
        self.assertEqual(self.rows(low=6, high=5), [])
        self.assertEqual(self.array.tables(), ["main"])

    def test_a_cursor_reads_row_by_row(self):
        with self.array.transaction() as work:
            for key in (0, 3, 9, 70, 71, mars.KEY_MAX):
                work.put(key, b"%d" % key)
            seen = []
            for row in work.cursor():
                seen.append(row)
                if row.key == 3:
                    work.delete(9)
                    work.put(5, b"5")
            self.assertEqual(seen, [(key, b"%d" % key) for key in (0, 3, 5, 70, 71, mars.KEY_MAX)])
            self.assertEqual([row.key for row in work.cursor(1, 70)], [3, 5, 70])
            self.assertEqual(list(work.cursor(4, 4)), [])
            self.assertEqual(list(work.cursor(6, 5)), [])
            self.assertEqual((work.first(6), work.first(6, 69)), ((70, b"70"), None))
            self.assertRaises(mars.NoTable, work.first, table="other")
            self.assertRaises(OverflowError, work.first, -1)

    def test_saves(self):
        with self.array.transaction() as work:
            work.put(1, b"a")
            save = work.save()
            work.put(1, b"b")
            work.back(save)
            self.assertEqual((save, work.get(1)), (1, b"a"))

    def test_tables(self):
        self.assertEqual(self.array.make("log"), 1)
        self.assertEqual(self.array.tables(), ["main", "log"])
        with self.array.transaction() as work:
            work.put(1, b"a", "log")
        self.assertEqual((self.rows(), self.rows(table="log")), ([], [(1, b"a")]))

    def test_a_group_is_committed_at_once(self):
        first, second = self.array.transaction(0), self.array.transaction(1)
        first.put(1, b"a")
        second.put(2, b"b")
        first.offer()
        second.offer()
        self.assertEqual((second.settle(), first.settle()), (2, 1))
        self.assertEqual(self.rows(), [(1, b"a"), (2, b"b")])

    def test_a_purge_makes_room(self):
        with self.array.transaction() as work:
            work.put(1, b"a")
        with self.array.transaction() as work:
            work.delete(1)
        self.assertEqual((self.array.purge(), self.array.purge()), (1, 0))

    def test_values_of_all_bytes_that_may_be(self):
        with self.array.transaction() as work:
            for key, byte in enumerate(PRINTED[:50]):
                work.put(key, bytes([byte]) * (key + 1))
            work.put(100, PRINTED[-mars.VALUE_MAX :])
        rows = self.rows()
        self.assertEqual(rows[:-1], [(key, bytes([byte]) * (key + 1)) for key, byte in enumerate(PRINTED[:50])])
        self.assertEqual(rows[-1], (100, PRINTED[-mars.VALUE_MAX :]))
        with self.array.transaction() as work:
            for byte in set(range(256)) - set(PRINTED):
                self.assertRaises(mars.BadValue, work.put, 1, bytes([byte]))

    def test_a_transaction_that_has_ended_is_another_one(self):
        with self.array.transaction() as work:
            work.commit()
            with self.array.transaction() as other:
                self.assertRaises(mars.NoTransaction, work.put, 1, b"a")
                other.put(1, b"b")
        self.assertEqual(self.rows(), [(1, b"b")])


class LongBytes(unittest.TestCase):
    def test_bytes_of_all_lengths_and_values(self):
        with fresh(loggers=8, pages=128) as array:
            for size in (0, 1, 39, 40, 41, 256, 1000, mars.BYTES_MAX):
                data = bytes((at * 167 + size) % 256 for at in range(size))
                with array.transaction() as work:
                    work.put_bytes(7, data, "main")
                with array.transaction() as work:
                    self.assertEqual((work.get_bytes(7, "main"), work.bytes_length(7, "main")), (data, size))
            with array.transaction() as work:
                self.assertTrue(work.delete_bytes(7, "main"))
                self.assertFalse(work.delete_bytes(7, "main"))
                self.assertIsNone(work.get_bytes(7, "main"))

    def test_a_put_that_is_refused_leaves_what_was_there(self):
        with fresh(entries=8) as array, array.transaction() as work:
            work.put_bytes(7, b"\0old", "main")
            work.put_bytes(8, b"", "main")
            self.assertRaises(mars.LogFull, work.put_bytes, 7, bytes(1000), "main")
            self.assertEqual([work.get_bytes(key, "main") for key in (7, 8, 9)], [b"\0old", b"", None])


class Statuses(unittest.TestCase):
    def refused(self, status, call, *words, **more):
        with self.assertRaises(mars.Error) as caught:
            call(*words, **more)
        self.assertEqual(caught.exception.status, status)
        self.assertIs(type(caught.exception), mars._ERRORS.get(status, mars.Error))
        self.assertEqual(str(caught.exception), mars.text_of(status))

    def test_each_has_a_class_and_a_text(self):
        texts = [mars.text_of(status) for status in mars.Status]
        self.assertEqual(len(set(texts)), len(texts))
        plain = {mars.Status.OK, mars.Status.ABSENT, mars.Status.NO_PIECE, mars.Status.IS_OPEN}
        self.assertEqual(set(mars._ERRORS), set(mars.Status) - plain)

    def test_of_calls(self):
        with fresh() as array:
            work, other = array.transaction(), array.transaction(1)
            work.put(1, b"a")
            self.refused(mars.Status.ALREADY, array.transaction)
            self.refused(mars.Status.BAD_CALLER, array.transaction, 8)
            self.refused(mars.Status.BUSY, other.get, 1)
            self.refused(mars.Status.NO_TABLE, work.get, 1, "other")
            self.refused(mars.Status.BAD_NAME, work.get, 1, "Other")
            self.refused(mars.Status.BAD_NAME, work.get, 1, "é")
            self.refused(mars.Status.BAD_VALUE, work.put, 1, b"")
            self.refused(mars.Status.NO_SAVE, work.back, 1)
            self.refused(mars.Status.IN_USE, array.make, "other")
            self.refused(mars.Status.ALREADY, array.purge)
            for _ in range(32):
                work.save()
            self.refused(mars.Status.SAVES_FULL, work.save)
            work.abort()
            self.refused(mars.Status.NO_TRANSACTION, work.abort)
            other.offer()
            self.refused(mars.Status.NO_TRANSACTION, other.get, 1)
            other.settle()
            self.refused(mars.Status.NO_TRANSACTION, other.settle)
            self.refused(mars.Status.BAD_NAME, array.make, "Other")
            self.refused(mars.Status.NAME_TAKEN, array.make, "main")
            for letter in "abcdefg":
                array.make(letter)
            self.refused(mars.Status.TABLES_FULL, array.make, "h")
        self.refused(mars.Status.IS_CLOSED, array.transaction)

    def test_of_long_bytes(self):
        with fresh() as array, array.transaction() as work:
            work.put(512, b"nonsense")
            self.refused(mars.Status.BROKEN, work.get_bytes, 1, "main")
            self.refused(mars.Status.TOO_LONG, work.put_bytes, 2, bytes(mars.BYTES_MAX + 1), "main")
            for call in (work.get_bytes, work.bytes_length, work.delete_bytes):
                self.refused(mars.Status.BAD_KEY, call, 2**55, "main")
                self.refused(mars.Status.NO_TABLE, call, 1, "other")
                self.refused(mars.Status.BAD_NAME, call, 1, "Other")

    def test_of_a_full_array(self):
        with fresh(pages=4, callers=1, entries=8) as array:
            self.refused(mars.Status.PAGES_FULL, array.make, "other")
            work = array.transaction()
            self.refused(mars.Status.LOG_FULL, lambda: [work.put(key, b"a") for key in itertools.count()])
            work.abort()
            self.refused(mars.Status.SLOTS_FULL, lambda: [put_one(array, key) for key in itertools.count()])

    def test_of_an_opening(self):
        data = mars.fresh()
        self.refused(mars.Status.BAD_SHAPE, mars.fresh, loggers=9)
        self.refused(mars.Status.BAD_DEPTH, mars.Array, mars.Memory(data), 1, 65)
        for status, wrong in ((mars.Status.NOT_MARS, b""), (mars.Status.NOT_MARS, b"x" + data[1:]), (mars.Status.BAD_SHAPE, data[:-1])):
            self.refused(status, mars.Array, mars.Memory(wrong))
        row = bytes([0xC3, 1, 0, 0, 100]) + bytes(11)
        self.refused(mars.Status.BAD_ROW, mars.Array, mars.Memory(data[:512] + row + data[528:]))
        page = 512 + 16 * 8 + 528 * 8 * 64
        self.refused(mars.Status.DAMAGED, mars.Array, mars.Memory(data[:page] + bytes([data[page] ^ 1]) + data[page + 1 :]))

    def test_of_a_device_that_failed(self):
        device = Breaking(mars.fresh(), None)
        with mars.Array(device) as array:
            device.last = device.pieces
            work = array.transaction()
            work.put(1, b"a")
            self.assertRaises(Stopped, work.commit)
            self.refused(mars.Status.FILE, array.sync)
            work = array.transaction()
            self.refused(mars.Status.MEDIA, work.put, 1, b"b")
            self.refused(mars.Status.DEAD, work.put, 1, b"b")

    def test_numbers_are_not_cut(self):
        with fresh() as array, array.transaction() as work:
            for wrong in (-1, 2**64):
                self.assertRaises(OverflowError, work.get, wrong)
            self.assertRaises(OverflowError, work.back, 2**32)
            self.assertRaises(OverflowError, array.transaction, 256)
            self.assertRaises(TypeError, work.get, "1")
            self.assertRaises(TypeError, work.put, 1, "a")
            self.assertRaises(TypeError, work.put, 1, 5)


class Devices(unittest.TestCase):
    def stopped_at(self, last, draw, depth):
        """Commits until the device stops, and returns what it holds, and how many were told; or None where it does not stop."""
        device, told = Breaking(mars.fresh(callers=2, entries=8, pages=8), last, draw), 0
        try:
            with mars.Array(device, depth=depth) as array:
                for number in range(1, 5):
                    with array.transaction() as work:
                        put_all(work, number)
                    told = number
        except Stopped:
            return bytes(device.data), told
        return None

    def test_one_that_fails_or_tears_at_each_piece(self):
        for draw, depth in itertools.product((None, random.Random(7)), (0, 3)):
            last = 0
            while True:
                stopped = self.stopped_at(last, draw, depth)
                if stopped is None:
                    break
                data, told = stopped
                self.assertIn(commits_in(data), (told, told + 1), f"piece {last}")
                last += 1
            self.assertGreater(last, 8)


class Files(unittest.TestCase):
    def test_the_sample_at_the_head_of_the_module(self):
        sample = textwrap.dedent("\n".join(mars.__doc__.split("A transaction is")[0].splitlines()[1:]))
        work = f"import os\nos.chdir({os.path.dirname(self.path)!r})\n{sample}"
        folder = os.path.dirname(os.path.abspath(mars.__file__))
        done = subprocess.run([sys.executable, "-c", work], env={**os.environ, "PYTHONPATH": folder}, stdout=subprocess.PIPE, check=True)
        self.assertEqual(done.stdout, b"5 b'abc'\n")

    def setUp(self):
        room = tempfile.TemporaryDirectory()
        self.addCleanup(room.cleanup)
        self.path = os.path.join(room.name, "image")

    def test_a_file_has_one_program(self):
        mars.make(self.path)
        self.assertRaises(FileExistsError, mars.make, self.path)
        with mars.open(self.path, 8) as array:
            self.assertRaises(BlockingIOError, mars.open, self.path)
            with array.transaction() as work:
                work.put(5, b"abc")
        with mars.open(self.path) as array, array.transaction() as work:
            self.assertEqual(work.get(5), b"abc")
        self.assertRaises(FileNotFoundError, mars.open, self.path + "none")

    def test_what_was_told_is_there_after_a_kill(self):
        mars.make(self.path)
        for pause in (0, 0.1, 0.3):
            with subprocess.Popen([sys.executable, __file__, "commit", self.path], stdout=subprocess.PIPE) as program:
                first = program.stdout.readline()
                time.sleep(pause)
                program.send_signal(signal.SIGKILL)
                lines = (first + program.stdout.read()).split(b"\n")[:-1]
            told = int(lines[-1])
            found = commits_in(Path(self.path).read_bytes())
            self.assertIn(found, (told, told + 1))


def commit_for_ever(path):
    """Tells each commit once it is durable."""
    with mars.open(path) as array:
        with array.transaction() as work:
            number = int(work.get(KEYS[0]) or b"0")
        while True:
            number += 1
            with array.transaction() as work:
                put_all(work, number)
            print(number, flush=True)


if __name__ == "__main__":
    if sys.argv[1:2] == ["commit"]:
        commit_for_ever(sys.argv[2])
    unittest.main()
