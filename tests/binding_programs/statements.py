#!/usr/bin/env python3
"""Draws statements of SQL, and makes them on a MARS table and on one of SQLite: both have to show the same.

    statements.py EXTENSION FOLDER [SEED [SCRIPTS]]

Transactions, savepoints, conflicts and failures are among them. FOLDER is for the arrays. A script is made by the shell of SQLite in two runs, and
the records are compared once more after it.
"""

import argparse
import random
import subprocess
import sys
from pathlib import Path

KEYS = 40
CHECK = "length(value) between 1 and 54 and instr(value, ' ') = 0"
ORDER = "select key, value from t order by key;"


class Script:
    """Statements that are drawn. What is open is followed, so that a transaction stays short and its savepoints few."""

    def __init__(self, seed):
        self.draw, self.lines, self.savepoints, self.is_open, self.left = random.Random(seed), [], [], False, 0
        self.has_two = self.draw.random() < 0.5

    def key(self):
        return self.draw.randrange(KEYS)

    def table(self):
        return "u" if self.has_two and self.draw.random() < 0.4 else "t"

    def value(self):
        short = [f"'b{self.key()}'"] * 6
        return self.draw.choice([f"'value{self.draw.randrange(1000)}'", f"'{'x' * 54}'", "'two words'", "''", *short])

    def condition(self):
        low = self.key()
        ranges = (f"key between {low} and {low + 6}", f"key > {low} and key <= {low + 5}", f"key >= {KEYS - 4}")
        return self.draw.choice((f"key = {low}", f"key in ({low}, {self.key()})", *ranges))

    def write(self):
        table, conflict = self.table(), self.draw.choice(["", "", " or ignore", " or fail", " or abort", " or replace"])
        rows = ", ".join(f"({self.key()}, {self.value()})" for _ in range(self.draw.choice((1, 1, 2, 3))))
        # (where a row that moves replaces one that is to move too, SQLite moves the first twice; of a virtual table it has read both before)
        moving = conflict.replace(" or replace", "")
        return self.draw.choice((
            f"insert{conflict} into {table} values {rows};",
            f"insert{conflict} into {table} values {rows};",
            f"update {table} set value = {self.value()} where {self.condition()};",
            f"update{moving} {table} set key = key + {self.draw.randrange(1, 4)} where {self.condition()};",
            f"delete from {table} where {self.condition()};",
            f"insert or ignore into {table} select key + 1, value from t where {self.condition()};",
        ))

    def read(self):
        some = f"select key, value from {self.table()} where {self.condition()} order by key;"
        return self.draw.choice((some, ORDER, "select count(*), min(key), max(key) from t;"))

    def bracket(self):
        """The begin or the end of a transaction or of a savepoint."""
        name = f"s{len(self.savepoints)}"
        if self.left <= 0 and (self.is_open or self.savepoints):
            end = f"release {self.savepoints[0]};" if not self.is_open else self.draw.choice(("commit;", "commit;", "rollback;"))
            self.savepoints, self.is_open = [], False
            return end
        if not self.is_open and not self.savepoints and self.draw.random() < 0.6:
            self.is_open, self.left = True, 12
            return "begin;"
        if not self.savepoints or (len(self.savepoints) < 5 and self.draw.random() < 0.5):
            self.left = self.left if self.is_open or self.savepoints else 12
            self.savepoints.append(name)
            return f"savepoint {name};"
        at = self.draw.randrange(len(self.savepoints))
        if self.draw.random() < 0.5:
            self.savepoints[at + 1 :] = []
            return f"rollback to {self.savepoints[at]};"
        gone, self.savepoints = self.savepoints[at], self.savepoints[:at]
        return f"release {gone};"

    def text(self, count):
        for _ in range(count):
            kind = self.draw.random()
            self.left -= 1
            self.lines.append(self.bracket() if kind < 0.35 or self.left < 0 else self.write() if kind < 0.75 else self.read())
        self.left = 0
        self.lines += [self.bracket()] if self.is_open or self.savepoints else []
        return "\n".join([*self.lines, ORDER, "select key, value from u order by key;"])


def shown(before, text, folder):
    how = {"cwd": folder, "stdout": subprocess.PIPE, "stderr": subprocess.DEVNULL, "universal_newlines": True, "timeout": 120}
    return subprocess.run(["sqlite3", "-batch", ":memory:"], input=f"{before}\n{text}\n", check=False, **how).stdout


def parted(found, wanted):
    """Where two texts part, with some of what stands around."""
    at = next((at for at, (one, other) in enumerate(zip(found, wanted)) if one != other), min(len(found), len(wanted)))
    return [text[max(0, at - 200) : at + 100] for text in (found, wanted)]


def words():
    parser = argparse.ArgumentParser(description=__doc__, formatter_class=argparse.RawDescriptionHelpFormatter)
    parser.add_argument("extension", type=Path)
    parser.add_argument("folder", type=Path)
    parser.add_argument("seed", type=int, nargs="?", default=1)
    parser.add_argument("scripts", type=int, nargs="?", default=40)
    return parser.parse_args()


def tables(way):
    return "\n".join(way(name) for name in ("t", "u"))


def main():
    said = words()
    extension, image = said.extension.resolve(), said.folder / "statements.image"
    own = tables(lambda name: f"create table {name}(key integer primary key, value text not null check ({CHECK}));")
    for number in range(said.seed, said.seed + said.scripts):
        text = Script(number).text(120)
        if image.exists():
            image.unlink()
        mars = tables(lambda name: f"create virtual table {name} using mars('{image.name}', '{'main' if name == 't' else name}');")
        found, wanted = shown(f".load {extension}\n{mars}", text, said.folder), shown(own, text, said.folder)
        if found != wanted:
            (said.folder / "statements.sql").write_text(text + "\n", encoding="ascii")
            sys.exit("seed {}: it shows\n{}\nand not\n{}".format(number, *parted(found, wanted)))
    print(f"{said.scripts} scripts show the same")


main()
