#!/usr/bin/env python3
"""Draws scripts of the program, and makes their calls through mars.h as well: the replies have to be the same, and the images that are left.

    replies.py PROGRAM FOLDER [SEED [SCRIPTS]]

MARS_LIBRARY names the shared library. A status says less than a reply: who holds a key, and how full what is full, are not compared.
"""

import argparse
import ctypes
import random
import re
import subprocess
import sys
from pathlib import Path

sys.dont_write_bytecode = True
sys.path.insert(0, str(Path(__file__).resolve().parent.parent.parent / "bindings/python"))
import mars

CALLERS = 4
TABLES = ["main", "log"]
# Arrays in which the log, the saves, the slots and the pages are soon full, and one in which they are not.
SHAPES = [(1, CALLERS, 8, 4), (2, CALLERS, 8, 8), (1, CALLERS, 16, 8), (4, 8, 64, 64)]
REPLIES = {
    mars.Status.OK: "ok", mars.Status.ABSENT: "none", mars.Status.NO_TRANSACTION: "no transaction", mars.Status.NO_TABLE: "no table",
    mars.Status.ALREADY: "already", mars.Status.NO_SAVE: "no save", mars.Status.SAVES_FULL: "saves full", mars.Status.BUSY: "busy",
    mars.Status.LOG_FULL: "log full", mars.Status.SLOTS_FULL: "slots full", mars.Status.PAGES_FULL: "pages full",
}
MORE = re.compile(r"^([0-9]+ (?:no save|saves full|busy|log full|slots full|pages full)) [0-9 ]+$", re.M)


class Calls:
    """The calls of lines, and their replies as the program writes them."""

    def __init__(self, image):
        self.array = mars.open(image, CALLERS)
        self.m, self.number, self.key = self.array._mars, ctypes.c_uint64(), ctypes.c_uint64()
        self.room = ctypes.create_string_buffer(54)

    def ask(self, name, *words):
        return getattr(mars._call(), f"mars_{name}")(self.m, *words)

    def replies(self, line):
        caller, *words = line.split()
        table = (words.pop(0)[1:] if words[0].startswith("@") else "main").encode()
        call, *rest = words
        place = table, len(table)
        return [f"{caller} {text}" for text in getattr(self, f"do_{call}")(int(caller), place, *rest)]

    def told(self, status, text="ok"):
        return [text if status == mars.Status.OK else REPLIES[status]]

    def do_get(self, caller, place, key):
        status = self.ask("get", caller, *place, int(key), self.room, 54, self.number)
        return self.told(status, f"val {self.room.raw[: self.number.value].decode()}")

    def do_put(self, caller, place, key, value):
        return self.told(self.ask("put", caller, *place, int(key), value.encode(), len(value)))

    def do_del(self, caller, place, key):
        return self.told(self.ask("del", caller, *place, int(key)))

    def do_scan(self, caller, place, low, high):
        status = self.ask("scan", caller, *place, int(low), int(high), self.number)
        if status != mars.Status.OK:
            return self.told(status)
        return [f"rows {self.number.value}", *[self.row(at) for at in range(self.number.value)]]

    def row(self, at):
        status = self.ask("row", at, self.key, self.room, 54, self.number)
        assert status == mars.Status.OK, status
        return f"row {self.key.value} {self.room.raw[: self.number.value].decode()}"

    def counted(self, name, text, caller):
        return self.told(self.ask(name, caller, self.number), f"{text} {self.number.value}")

    def do_begin(self, caller, _):
        return self.told(self.ask("begin", caller))

    def do_abort(self, caller, _):
        return self.told(self.ask("abort", caller))

    def do_offer(self, caller, _):
        return self.told(self.ask("offer", caller))

    def do_back(self, caller, _, save):
        return self.told(self.ask("back", caller, int(save)))

    def do_save(self, caller, _):
        return self.told(self.ask("save", caller, self.number), f"saved {self.number.value}")

    def do_commit(self, caller, _):
        return self.told(self.ask("commit", caller, self.number), f"committed {self.number.value}")

    def do_settle(self, caller, _):
        return self.told(self.ask("settle", caller, self.number), f"committed {self.number.value}")

    def do_purge(self, caller, _):
        return self.told(self.ask("purge", caller, self.number), f"purged {self.number.value}")


ENDS = ["commit", "commit", "commit", "abort", "offer"]


class Script:
    """Calls of all callers, mostly within transactions, and of few keys, so that they meet."""

    def __init__(self, seed):
        self.draw = random.Random(seed)
        self.keys, self.live, self.offered = self.draw.choice((12, 60, 400)), set(), set()

    def key(self):
        return self.draw.randrange(self.keys) if self.draw.random() < 0.98 else self.draw.choice((2**64 - 1, 2**63))

    def call(self, caller):
        if caller in self.offered and self.draw.random() < 0.5:
            return "settle"
        if caller not in self.live and self.draw.random() < 0.9:
            return "begin"
        table, low = self.draw.choice(["", "", "", "", "@log ", "@log ", "@none "]), self.key()
        puts = [f"{table}put {self.key()} v{self.draw.randrange(1000)}"] * 12
        reads = [f"{table}get {self.key()}"] * 4 + [f"{table}scan {low} {low + 30}" if low < 2**63 else f"{table}scan 5 {low}"]
        saves = ["save"] * 4 + [f"back {self.draw.randrange(6)}"] * 2
        return self.draw.choice(puts + reads + saves + [f"{table}del {self.key()}"] * 4 + ENDS + ["begin", "settle", "purge"])

    def lines(self, count):
        for _ in range(count):
            caller = self.draw.randrange(CALLERS) if self.draw.random() < 0.5 else 0
            call = self.call(caller)
            self.live |= {caller} if call == "begin" else set()
            self.live -= {caller} if call in ENDS else set()
            self.offered |= {caller} if call == "offer" else set()
            self.offered -= {caller} if call == "settle" else set()
            yield f"{caller} {call}"


def made(program, image, shape):
    if image.exists():
        image.unlink()
    words = zip(("--loggers", "--numbers", "--entries", "--pages"), map(str, shape))
    subprocess.run([program, image, "format", *(word for pair in words for word in pair)], check=True, stdout=subprocess.DEVNULL)
    subprocess.run([program, image, "make", "log"], check=False, stdout=subprocess.DEVNULL, stderr=subprocess.DEVNULL)


def by_program(program, image, lines):
    script = "".join(f"{line}\n" for line in lines)
    ran = subprocess.run([program, image, "run"], input=script, stdout=subprocess.PIPE, universal_newlines=True, check=True)
    return MORE.sub(r"\1", ran.stdout).splitlines()


def by_library(image, lines):
    calls = Calls(image)
    replies = [reply for line in lines for reply in calls.replies(line)]
    calls.array.sync()
    calls.array.close()
    return replies


def parted(found, wanted):
    """Where two lists part, if they do."""
    for at, (one, other) in enumerate(zip(found, wanted)):
        if one != other:
            return f"reply {at}: {one!r} and not {other!r}"
    return None if len(found) == len(wanted) else f"{len(found)} replies and not {len(wanted)}"


def words():
    parser = argparse.ArgumentParser(description=__doc__, formatter_class=argparse.RawDescriptionHelpFormatter)
    parser.add_argument("program")
    parser.add_argument("folder", type=Path)
    parser.add_argument("seed", type=int, nargs="?", default=1)
    parser.add_argument("scripts", type=int, nargs="?", default=40)
    return parser.parse_args()


def main():
    said, kinds = words(), set()
    one, other = said.folder / "one.image", said.folder / "other.image"
    for seed in range(said.seed, said.seed + said.scripts):
        shape, lines = SHAPES[seed % len(SHAPES)], list(Script(seed).lines(600))
        for image in (one, other):
            made(said.program, image, shape)
        wanted, found = by_program(said.program, one, lines), by_library(other, lines)
        kinds |= {re.sub(r"[0-9].*", "", reply.split(" ", 1)[1]).strip() for reply in wanted}
        why = parted(found, wanted)
        if why:
            sys.exit(f"seed {seed}, {why}")
        dumps = [subprocess.run([said.program, image, "dump"], stdout=subprocess.PIPE, check=True).stdout for image in (one, other)]
        if dumps[0] != dumps[1]:
            sys.exit(f"seed {seed}: the records that are left differ")
    print(f"{said.scripts} scripts are answered alike: {', '.join(sorted(kinds))}")


main()
