"""Reads an image as docs/FORMAT.md says it, and nothing else: a second reader beside the program's.

A field that the format gains is a line more here: in `read_row`, in `read_super`, or in a test of `Records`.
"""

import re
from fcntl import LOCK_NB, LOCK_SH, flock
from mmap import ACCESS_READ, mmap
from struct import Struct, iter_unpack, unpack_from
from typing import NamedTuple

ARRAY_MARK, RECORD_MARK = b"MARSEAW1", b"MREC"
HEADER = PAGE = 512
ROW, HEAD, CELL, SLOT = 16, 16, 528, 64
MOST = [(1, 8), (1, 64), (8, 64), (4, 4096)]
# Half of the pages hold eight slots each.
SLOTS_OF_A_PAGE = 4
VOTED = 0xC3
CHAIN, TREE = 0, 1
LEAF, INNER, MOST_PAIRS, MOST_LEVEL = 1, 2, 30, 7
ENTRIES, ENTRY, LISTS = 16, 32, 272
FREE_SLOT, FREE_PAGE = 0xF0, 0xFF
KEYS = 2**64
SLOT_SAYS = Struct("<BBQ")
NAME = re.compile(rb"[a-z]{1,16}")
VALUE = re.compile(rb"[!-~]{1,54}")


class Refused(Exception):
    """Why an image is not opened, in the words of the program."""


def damaged(page):
    return Refused(f"damaged {page}")


class Shape(NamedTuple):
    loggers: int
    numbers: int
    entries: int
    pages: int

    @property
    def region(self):
        return ROW * self.numbers + CELL * self.numbers * self.entries + PAGE * self.pages

    @property
    def media_len(self):
        return HEADER + self.loggers * self.region

    @property
    def all_pages(self):
        return self.loggers * self.pages

    @property
    def slots(self):
        return SLOTS_OF_A_PAGE * self.all_pages

    def region_at(self, logger):
        return HEADER + logger * self.region

    def row_at(self, logger, number):
        return self.region_at(logger) + ROW * number

    def cell_at(self, logger, number, entry):
        return self.region_at(logger) + ROW * self.numbers + CELL * (number * self.entries + entry)

    def page_at(self, page):
        return self.region_at(page % self.loggers) + (ROW + CELL * self.entries) * self.numbers + PAGE * (page // self.loggers)

    def places(self):
        """Where each page is."""
        first = [self.page_at(page) for page in range(self.loggers)]
        return [at + PAGE * place for place in range(self.pages) for at in first]


def read_shape(media):
    if len(media) < HEADER or media[:8] != ARRAY_MARK:
        raise Refused("not mars")
    shape = Shape(*unpack_from("<BBHI", media, 8))
    for which, (number, (least, most)) in enumerate(zip(shape, MOST), 1):
        if not least <= number <= most or which == 4 and number % 2:
            raise Refused(f"bad shape {which} {number}")
    if len(media) != shape.media_len:
        raise Refused(f"bad shape 5 {len(media)}")
    return shape


class Row(NamedTuple):
    """What a logger says of a transaction number. A group of no numbers is the number alone, and order 0 is that of a commit which was
    not deferred."""

    number: int
    logger: int
    is_voted: bool
    mask: int
    first: int
    count: int
    group: int
    order: int

    @property
    def ballot(self):
        return self.is_voted, self.mask, self.group, self.order


def read_row(media, at, logger, number):
    vote, mask, first, count, group, order = unpack_from("<BBHHQH", media, at)
    return Row(number, logger, vote == VOTED, mask, first, count, group or 1 << number, order)


def bits(mask):
    return [bit for bit in range(mask.bit_length()) if mask >> bit & 1]


class Part(NamedTuple):
    address: int
    bytes: bytes


class Array:
    """The array: its rows, what they decide, and the data that the image stands for."""

    def __init__(self, media):
        self.shape = shape = read_shape(media)
        self.media = bytearray(media)
        self.rows = {(number, logger): read_row(self.media, shape.row_at(logger, number), logger, number) for number in range(shape.numbers) for logger in range(shape.loggers)}
        self.voted = [row for row in self.rows.values() if row.is_voted]
        self.decided = [row for row in self.voted if self.is_decided(row)]
        self.parts = {row: self.parts_of(row) for row in self.decided}
        self.decided.sort(key=lambda row: (row.order, row.number, row.logger))
        for row in self.decided:
            for part in self.parts[row]:
                at = self.at(part.address)
                self.media[at : at + len(part.bytes)] = part.bytes

    def is_decided(self, row):
        within = row.mask >> row.logger & 1 and row.mask >> self.shape.loggers == 0 and row.group >> row.number & 1 and row.group >> self.shape.numbers == 0
        return bool(within) and all(self.rows[number, logger].ballot == row.ballot for number in bits(row.group) for logger in bits(row.mask))

    def parts_of(self, row):
        """The parts of a decided row, if it is good."""
        if row.first + row.count > self.shape.entries:
            raise Refused(f"bad row {row.logger} {row.number}")
        return [self.part(row, entry) for entry in range(row.first, row.first + row.count)]

    def part(self, row, entry):
        at = self.shape.cell_at(row.logger, row.number, entry)
        address, length = unpack_from("<QH", self.media, at)
        page, within = divmod(address, PAGE)
        if not 1 <= length <= PAGE - within or page >= self.shape.all_pages or page % self.shape.loggers != row.logger:
            raise Refused(f"bad row {row.logger} {row.number}")
        return Part(address, bytes(self.media[at + HEAD : at + HEAD + length]))

    @property
    def deferred(self):
        """How many commits are decided and not yet in the data."""
        return len({row.order for row in self.decided if row.order})

    def at(self, address):
        return self.shape.page_at(address // PAGE) + address % PAGE


class Table(NamedTuple):
    name: str
    root: int


class Super(NamedTuple):
    version: int
    form: int
    next_slot: int
    next_page: int
    tables: list
    free_slot: int
    free_page: int
    free_slots: int
    free_pages: int


def read_super(page, shape):
    """The super page. Version 1 stands for one table with root 1, and has no lists."""
    version, form, next_slot, next_page = unpack_from("<BBxxII", page, 4)
    if page[:4] != RECORD_MARK or version not in (1, 2) or form not in (CHAIN, TREE):
        raise damaged(0)
    if next_slot > shape.slots or not 2 <= next_page <= shape.all_pages // 2:
        raise damaged(0)
    tables = [Table("main", 1)] if version == 1 else read_tables(page, next_page)
    lists = (0, 0, 0, 0) if version == 1 else unpack_from("<IIII", page, LISTS)
    return Super(version, form, next_slot, next_page, tables, *lists)


def read_tables(page, next_page):
    entries = [page[at : at + ENTRY] for at in range(ENTRIES, LISTS, ENTRY)]
    used = next((place for place, entry in enumerate(entries) if entry[0] == 0), len(entries))
    tables = []
    for entry in entries[:used]:
        name, root = bytes(entry[1 : 1 + min(entry[0], 17)]), unpack_from("<I", entry, 20)[0]
        if not NAME.fullmatch(name) or tables and not 2 <= root < next_page:
            raise damaged(0)
        tables.append(Table(name.decode(), root))
    alike = len({table.name for table in tables}) < used or len({table.root for table in tables}) < used
    if not tables or tables[0] != ("main", 1) or alike or any(entry[0] for entry in entries[used:]):
        raise damaged(0)
    return tables


class Page(NamedTuple):
    kind: int
    level: int
    link: int
    pairs: list


class Records:
    """The records in the data of an array. Making one tests whether the data is sound, in the order of the program."""

    def __init__(self, array):
        self.array, self.shape, self.media = array, array.shape, array.media
        self.at = self.shape.places()
        self.super = read_super(self.bytes_of(0), self.shape)
        self.pages, self.levels = {0: "super"}, []
        self.free_slots = self.members(self.super.free_slot, self.super.free_slots, range(self.super.next_slot), self.free_slot, self.page_of_slot)
        self.free_pages = self.members(self.super.free_page, self.super.free_pages, range(2, self.super.next_page), self.free_page, lambda page: page)
        self.pages.update({page: "free" for page in self.free_pages})
        walk = self.tree if self.super.form == TREE else self.chain
        self.pairs = [[] for _ in self.super.tables]
        for number, table in enumerate(self.super.tables):
            walk(number, table.root)

    def bytes_of(self, page):
        return self.media[self.at[page] : self.at[page] + PAGE]

    def page_of_slot(self, slot):
        return self.shape.all_pages // 2 + slot // 8

    def slot_at(self, slot):
        return self.at[self.page_of_slot(slot)] + SLOT * (slot % 8)

    def free_slot(self, slot):
        """The mark of a free slot, the next one plus 1, and its rank."""
        mark, after, rank = unpack_from("<BxII", self.media, self.slot_at(slot))
        return mark == FREE_SLOT, after, rank

    def free_page(self, page):
        mark, after, rank = unpack_from("<BxxxII", self.media, self.at[page])
        return mark == FREE_PAGE, after, rank

    def members(self, head, count, given, read, page_of):
        """The members of a list of free slots or pages, first to last, each among those that were given."""
        members, named = [], 0
        for rank in range(count, 0, -1):
            if head - 1 not in given:
                raise damaged(named)
            member, named = head - 1, page_of(head - 1)
            is_free, head, told = read(member)
            if not is_free or told != rank:
                raise damaged(named)
            members.append(member)
        if head:
            raise damaged(named)
        return members

    def page(self, page):
        kind, level, count, link = unpack_from("<BBHI", self.media, self.at[page])
        begin = self.at[page] + 8
        return Page(kind, level, link, list(iter_unpack("<QQ", self.media[begin : begin + 16 * count])) if count <= MOST_PAIRS else None)

    def carries(self, table, key, slot):
        """Whether the slot says a slot of just this key and table."""
        at = self.slot_at(slot)
        state, length, said = SLOT_SAYS.unpack_from(self.media, at)
        if said != key or state >> 1 != table:
            return False
        return state & 1 == 0 or VALUE.fullmatch(self.media, at + 10, at + 10 + length) is not None

    def take(self, table, page, pairs):
        """Takes the pairs of a page, if the slot of each is sound."""
        for key, slot in pairs:
            if slot >= self.super.next_slot:
                raise damaged(page)
            if not self.carries(table, key, slot):
                raise damaged(self.page_of_slot(slot))
        self.pairs[table] += pairs

    def tree(self, table, root):
        level = self.page(root).level
        if level > MOST_LEVEL:
            raise damaged(root)
        self.levels.append(level)
        self.subtree(table, root, level, 0, KEYS)

    def subtree(self, table, page, level, low, high):
        """Tests a page whose keys are from `low` to below `high`, and takes the pairs below it."""
        is_leaf, this = level == 0, self.page(page)
        if this.kind != (LEAF if is_leaf else INNER) or this.level != level or this.link or this.pairs is None:
            raise damaged(page)
        lows = [key for key, _ in this.pairs]
        if not lows and not (is_leaf and page == self.super.tables[table].root):
            raise damaged(page)
        if any(one >= other for one, other in zip(lows, lows[1:])):
            raise damaged(page)
        self.pages[page] = "leaf" if is_leaf else "inner"
        if is_leaf:
            if lows and not (low <= lows[0] and lows[-1] < high):
                raise damaged(page)
            self.take(table, page, this.pairs)
            return
        if lows[0] != low or any(not 2 <= child < self.super.next_page for _, child in this.pairs):
            raise damaged(page)
        for (key, child), end in zip(this.pairs, lows[1:] + [high]):
            self.subtree(table, child, level - 1, key, end)

    def chain(self, table, root):
        """Tests the pages along a chain, and takes their pairs. Keys rise, so it has no loop."""
        page, last = root, -1
        self.levels.append(0)
        while page:
            this = self.page(page)
            if this.kind != LEAF or this.level or this.pairs is None or not this.pairs and (page != root or this.link):
                raise damaged(page)
            self.pages[page] = "leaf"
            for pair in this.pairs:
                if pair[0] <= last:
                    raise damaged(page)
                last = pair[0]
                self.take(table, page, [pair])
            if this.link and not 2 <= this.link < self.super.next_page:
                raise damaged(page)
            page = this.link

    def is_present(self, slot):
        return self.media[self.slot_at(slot)] & 1 == 1

    def value(self, slot):
        """The value in a present slot."""
        at = self.slot_at(slot)
        return self.media[at + 10 : at + 10 + self.media[at + 1]].decode()

    def listed(self):
        """Each record as the name of its table, its key and its value, by rising name and key."""
        order = sorted((table.name, number) for number, table in enumerate(self.super.tables))
        return [(name, key, self.value(slot)) for name, number in order for key, slot in self.pairs[number] if self.is_present(slot)]

    def dump(self):
        rows = self.listed()
        lines = [f"rec {key} {value}\n" if name == "main" else f"rec @{name} {key} {value}\n" for name, key, value in rows]
        return "".join(lines) + f"records {len(rows)}\n"


def read_image(path):
    """The bytes of an image file. What has no length of its own, as a device, has none here."""
    try:
        with open(path, "rb") as file:
            return mmap(file.fileno(), 0, access=ACCESS_READ)
    except ValueError:
        return b""
    except OSError as error:
        raise Refused(f"{path}: {error.strerror}") from error


def is_in_use(path):
    """Whether a program holds the lock of this file, as `mars` does while it works on it."""
    try:
        with open(path, "rb") as file:
            flock(file, LOCK_SH | LOCK_NB)
    except BlockingIOError:
        return True
    except OSError:
        return False
    return False
