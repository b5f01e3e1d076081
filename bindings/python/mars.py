"""MARS from Python: records under 64-bit keys, in transactions that a loss of power leaves whole or not at all.

    import mars

    mars.make("image")
    with mars.open("image") as array:
        with array.transaction() as work:
            work.put(5, b"abc")
        with array.transaction() as work:
            for key, value in work.rows():
                print(key, value)

A transaction is committed, and durable, at the end of its `with`; if an exception leaves it, it is dropped. A refusal of MARS is an exception of
its own class, below `Error`. What the system says of a file comes as `OSError`.

It is a layer over mars.h, whose comments say more. The library is `libmars.so` beside this file, or the file that MARS_LIBRARY names; one line
makes it:

    cc -shared -o libmars.so -Wl,--whole-archive dist/libmars.a -Wl,--no-whole-archive

One thread at a time uses an array.
"""

import ctypes
import enum
import fcntl
import functools
import operator
import os
import threading
from types import TracebackType
from typing import Any, Dict, Iterator, List, NamedTuple, Optional, Type, Union

try:
    from typing import Protocol
except ImportError:  # pragma: no cover
    Protocol = object  # type: ignore

KEY_MAX = 2**64 - 1
VALUE_MAX = 54
BYTES_MAX = 16384
NAME_MAX = 16

Bytes = Union[bytes, bytearray, memoryview]


class Status(enum.IntEnum):
    """What a call of mars.h answers."""

    OK = 0
    ABSENT = 1
    NO_TRANSACTION = 2
    NO_TABLE = 3
    ALREADY = 4
    NO_SAVE = 5
    SAVES_FULL = 6
    BUSY = 7
    LOG_FULL = 8
    SLOTS_FULL = 9
    PAGES_FULL = 10
    MEDIA = 11
    DEAD = 12
    NO_MEMORY = 13
    DAMAGED = 14
    BAD_CALLER = 15
    BAD_NAME = 16
    BAD_VALUE = 17
    BAD_SHAPE = 18
    NOT_MARS = 19
    BAD_ROW = 20
    NO_PIECE = 21
    FILE = 22
    IS_CLOSED = 23
    BAD_KEY = 24
    TOO_LONG = 25
    BROKEN = 26
    HALF = 27
    IN_USE = 28
    NAME_TAKEN = 29
    TABLES_FULL = 30
    IS_OPEN = 31
    BAD_DEPTH = 32


class Piece(enum.IntEnum):
    """What is next on the tape."""

    NOTHING = 0
    WRITE = 1
    BARRIER = 2


class Error(Exception):
    """MARS refused a call. `status` says why."""

    status: Status = Status.OK

    def __init__(self, status: Status) -> None:
        super().__init__(text_of(status))
        self.status = status


class Busy(Error):
    """Another caller holds the key: abort, and try again."""

    status = Status.BUSY


class NoTransaction(Error):
    """The transaction has ended, or was offered."""

    status = Status.NO_TRANSACTION


class Already(Error):
    """The caller has a transaction already."""

    status = Status.ALREADY


class InUse(Error):
    """Some caller has a transaction, and the call asks for there to be none."""

    status = Status.IN_USE


class NoTable(Error):
    """There is no table of this name."""

    status = Status.NO_TABLE


class NameTaken(Error):
    """There is a table of this name."""

    status = Status.NAME_TAKEN


class NoSave(Error):
    """The transaction has no such save."""

    status = Status.NO_SAVE


class Full(Error):
    """There is no room. The classes below say where."""


class LogFull(Full):
    """The transaction has written as much as it may: commit or abort."""

    status = Status.LOG_FULL


class SavesFull(Full):
    """The transaction has all the 32 saves that it may have."""

    status = Status.SAVES_FULL


class SlotsFull(Full):
    """The array is full for new keys. A purge takes out those that were deleted."""

    status = Status.SLOTS_FULL


class PagesFull(Full):
    """The index is full."""

    status = Status.PAGES_FULL


class TablesFull(Full):
    """An array has at most eight tables."""

    status = Status.TABLES_FULL


class Bad(Error, ValueError):
    """An argument is none that MARS takes. The classes below say which."""


class BadCaller(Bad):
    """There is no such caller, or the array has not so many."""

    status = Status.BAD_CALLER


class BadDepth(Bad):
    """At most 64 commits may wait for their write-back."""

    status = Status.BAD_DEPTH


class BadName(Bad):
    """The name of a table has 1 to 16 letters from a to z."""

    status = Status.BAD_NAME


class BadValue(Bad):
    """A value has 1 to 54 bytes from ! to ~."""

    status = Status.BAD_VALUE


class BadKey(Bad):
    """The key of long bytes is below 2 to the power of 55."""

    status = Status.BAD_KEY


class TooLong(Bad):
    """Long bytes are at most 16,384."""

    status = Status.TOO_LONG


class BadShape(Bad):
    """There is no array of this shape, or it has another length."""

    status = Status.BAD_SHAPE


class Unreadable(Error):
    """What the device holds is no array, or is damaged. The classes below say how."""


class NotMars(Unreadable):
    """The bytes hold no array."""

    status = Status.NOT_MARS


class BadRow(Unreadable):
    """A row of the array is bad."""

    status = Status.BAD_ROW


class Damaged(Unreadable):
    """The records are damaged."""

    status = Status.DAMAGED


class Broken(Unreadable):
    """The records under a key are not those of long bytes."""

    status = Status.BROKEN


class Half(Error):
    """Long bytes are half written, and the way back was refused: abort."""

    status = Status.HALF


class Failed(Error):
    """The array takes no more writes: close it, and open it anew. The classes below say why."""


class Media(Failed):
    """The device failed, or memory ran out in a write. What the call was about is there or not, whole, at the next opening."""

    status = Status.MEDIA


class Dead(Failed):
    """The device failed before."""

    status = Status.DEAD


class DeviceFailed(Failed):
    """The device failed before, so that what is on the tape is not durable. The cause is what it raised."""

    status = Status.FILE


class NoMemory(Error, MemoryError):
    """There is no memory."""

    status = Status.NO_MEMORY


class IsClosed(Error):
    """The array is closed."""

    status = Status.IS_CLOSED


class Row(NamedTuple):
    """A record."""

    key: int
    value: bytes


class Device(Protocol):
    """Where an array is kept. A method that fails raises an exception, and is not called again."""

    def read(self) -> bytes:
        """All bytes that it holds, which are durable."""

    def write(self, at: int, data: bytes) -> None:
        """Writes these bytes from the place `at` on. A loss of power before the next barrier may leave anything there."""

    def barrier(self) -> None:
        """Makes durable all that was written."""

    def close(self) -> None:
        """Lets go of it."""


class File:
    """A file that no other program has as an array (an advisory lock, as `mars` takes it)."""

    def __init__(self, path: Union[str, "os.PathLike[str]"]) -> None:
        self._file = os.open(path, os.O_RDWR | os.O_CLOEXEC)
        try:
            fcntl.flock(self._file, fcntl.LOCK_EX | fcntl.LOCK_NB)
        except BaseException:
            self.close()
            raise

    def read(self) -> bytes:
        size = os.fstat(self._file).st_size
        data = bytearray()
        while len(data) < size:
            piece = os.pread(self._file, size - len(data), len(data))
            if not piece:
                raise OSError("the file is shorter than it was")
            data += piece
        return bytes(data)

    def write(self, at: int, data: bytes) -> None:
        _write_all(self._file, data, at)

    def barrier(self) -> None:
        os.fdatasync(self._file)

    def close(self) -> None:
        file, self._file = self._file, -1
        if file >= 0:
            os.close(file)


class Memory:
    """A device that is gone with the program."""

    def __init__(self, data: Bytes) -> None:
        self.data = bytearray(data)

    def read(self) -> bytes:
        return bytes(self.data)

    def write(self, at: int, data: bytes) -> None:
        self.data[at : at + len(data)] = data

    def barrier(self) -> None:
        pass

    def close(self) -> None:
        pass


class Array:
    """The array on a device, open for so many callers, each of which may have a transaction at the same time. It owns the device. Up to `depth`
    commits, 0 to 64, may wait for their write-back; they are durable all the same."""

    def __init__(self, device: Device, callers: int = 1, depth: int = 0) -> None:
        self._mars = _Mars()
        self._device = device
        self._lock = threading.Lock()
        self._failure: Optional[BaseException] = None
        data = device.read()
        _check(_call().mars_open_late(self._mars, data, len(data), _number(callers, 8), _number(depth, 8)))
        try:
            self.sync()
        except BaseException:
            _call().mars_close(self._mars)
            raise

    def __enter__(self) -> "Array":
        return self

    def __exit__(self, *_: Any) -> None:
        self.close()

    def __del__(self) -> None:
        if getattr(self, "_mars", None) is not None and self._mars.is_open:
            self.close()

    def close(self) -> None:
        """Closes it, and the device. What was not committed is dropped, and what was not synced may be lost."""
        _call().mars_close(self._mars)
        self._device.close()

    def transaction(self, caller: int = 0) -> "Transaction":
        """Begins a transaction of the caller."""
        return Transaction(self, caller)

    def tables(self) -> List[str]:
        """The names of the tables, by their numbers. The first is `main`."""
        names: List[str] = []
        room, size = _room(NAME_MAX), ctypes.c_uint64()
        while True:
            status = _call().mars_table(self._mars, len(names), room, NAME_MAX, size)
            if status == Status.NO_TABLE:
                return names
            _check(status)
            names.append(room.raw[: size.value].decode("ascii"))

    def make(self, table: str) -> int:
        """Makes a table, without records, and returns its number. No caller has a transaction: they are counted from 1 again."""
        name, number = _name(table), ctypes.c_uint8()
        self.sync()
        _check(_call().mars_make(self._mars, name, len(name), number))
        self.sync()
        return number.value

    def purge(self, caller: int = 0) -> int:
        """Takes the keys that have no record out of the index, and returns how many. The caller has no transaction."""
        keys = ctypes.c_uint64()
        _check(_call().mars_purge(self._mars, _number(caller, 8), keys))
        self.sync()
        return keys.value

    def sync(self) -> None:
        """Takes the tape down: does on the device what is still to be done, so that all that was committed is durable."""
        with self._lock:
            if self._failure is not None:
                raise DeviceFailed(Status.FILE) from self._failure
            try:
                while self._do_piece():
                    _check(_call().mars_piece_done(self._mars))
            except BaseException as failure:
                self._failure = failure
                _call().mars_piece_failed(self._mars)
                raise

    def _do_piece(self) -> bool:
        at, size = ctypes.c_uint64(), ctypes.c_uint64()
        kind = _call().mars_piece(self._mars, at, size)
        if kind == Piece.BARRIER:
            self._device.barrier()
        elif kind == Piece.WRITE:
            room = _room(size.value)
            _check(_call().mars_piece_bytes(self._mars, 0, room, len(room), size))
            self._device.write(at.value, room.raw)
        return bool(kind != Piece.NOTHING)

    @property
    def moment(self) -> int:
        """The moment of the last call. What it answered is durable once `done_up_to` has reached that."""
        return int(_call().mars_moment(self._mars))

    @property
    def done_up_to(self) -> int:
        """The moment up to which all was done on the device."""
        return int(_call().mars_done_up_to(self._mars))


class Transaction:
    """A transaction of a caller, from its begin on. At the end of a `with` it is committed, or dropped if an exception leaves that."""

    def __init__(self, array: Array, caller: int = 0) -> None:
        self._array, self._mars, self._caller = array, array._mars, _number(caller, 8)
        self._is_live, self._is_offered = False, False
        _check(_call().mars_begin(self._mars, self._caller))
        self._is_live = True

    def __enter__(self) -> "Transaction":
        return self

    def __exit__(self, kind: Optional[Type[BaseException]], error: Optional[BaseException], trace: Optional[TracebackType]) -> None:
        if self._is_offered:
            self.settle()
        elif self._is_live and kind is None:
            self.commit()
        elif self._is_live and self._mars.is_open:
            _call().mars_abort(self._mars, self._caller)
            self._is_live = False

    def get(self, key: int, table: str = "main") -> Optional[bytes]:
        """The value under a key, or None."""
        name, room, size = _name(table), _room(VALUE_MAX), ctypes.c_uint64()
        status = self._ask("get", name, len(name), _number(key, 64), room, VALUE_MAX, size)
        return room.raw[: size.value] if _is_found(status) else None

    def put(self, key: int, value: Bytes, table: str = "main") -> None:
        """Gives a key this value: 1 to 54 bytes, each from ! to ~."""
        name, data = _name(table), _bytes(value)
        _check(self._ask("put", name, len(name), _number(key, 64), data, len(data)))

    def delete(self, key: int, table: str = "main") -> bool:
        """Removes the record of a key, and returns whether there was one."""
        name = _name(table)
        return _is_found(self._ask("del", name, len(name), _number(key, 64)))

    def rows(self, low: int = 0, high: int = KEY_MAX, table: str = "main") -> Iterator[Row]:
        """The records from the key `low` to `high`, both included, as they are now."""
        name, count = _name(table), ctypes.c_uint64()
        _check(self._ask("scan", name, len(name), _number(low, 64), _number(high, 64), count))
        return iter([self._row(at) for at in range(count.value)])

    def _row(self, at: int) -> Row:
        key, room, size = ctypes.c_uint64(), _room(VALUE_MAX), ctypes.c_uint64()
        _check(_call().mars_row(self._mars, at, key, room, VALUE_MAX, size))
        return Row(key.value, room.raw[: size.value])

    def first(self, low: int = 0, high: int = KEY_MAX, table: str = "main") -> Optional[Row]:
        """The first record from the key `low` to `high`, both included, or None."""
        name, key, room, size = _name(table), ctypes.c_uint64(), _room(VALUE_MAX), ctypes.c_uint64()
        status = self._ask("next", name, len(name), _number(low, 64), _number(high, 64), key, room, VALUE_MAX, size)
        return Row(key.value, room.raw[: size.value]) if _is_found(status) else None

    def cursor(self, low: int = 0, high: int = KEY_MAX, table: str = "main") -> Iterator[Row]:
        """The same records as `rows`, each as it is when it is asked for: it needs no room for all of them, and may be left at any one."""
        row = self.first(low, high, table)
        while row is not None:
            yield row
            row = self.first(row.key + 1, high, table) if row.key < high else None

    def get_bytes(self, key: int, table: str) -> Optional[bytes]:
        """The long bytes under a key, or None."""
        size = self.bytes_length(key, table)
        if size is None:
            return None
        name, room, told = _name(table), _room(size), ctypes.c_uint64()
        _check(self._ask("get_bytes", name, len(name), _number(key, 64), room, size, told))
        return room.raw[:size]

    def put_bytes(self, key: int, value: Bytes, table: str) -> None:
        """Puts up to 16,384 bytes of any kind under a key below 2^55, in a table where nothing else is. It takes a save."""
        name, data = _name(table), _bytes(value)
        _check(self._ask("put_bytes", name, len(name), _number(key, 64), data, len(data)))

    def delete_bytes(self, key: int, table: str) -> bool:
        """Removes long bytes, and returns whether there were some. It takes a save."""
        name = _name(table)
        return _is_found(self._ask("del_bytes", name, len(name), _number(key, 64)))

    def bytes_length(self, key: int, table: str) -> Optional[int]:
        """How many long bytes are under a key, or None."""
        name, size = _name(table), ctypes.c_uint64()
        return size.value if _is_found(self._ask("bytes_length", name, len(name), _number(key, 64), size)) else None

    def save(self) -> int:
        """Makes a save, and returns its number, from 1 on."""
        number = ctypes.c_uint64()
        _check(self._ask("save", number))
        return number.value

    def back(self, save: int) -> None:
        """Goes back to a save, and forgets the later ones."""
        _check(self._ask("back", _number(save, 32)))

    def commit(self, sync: bool = True) -> int:
        """Commits, and returns the number of the transaction since the opening. Without `sync` it is durable after a later `Array.sync`."""
        number = ctypes.c_uint64()
        _check(self._ask("commit", number))
        self._is_live = False
        if sync:
            self._array.sync()
        return number.value

    def abort(self) -> None:
        """Drops it."""
        _check(self._ask("abort"))
        self._is_live = False

    def offer(self) -> None:
        """Offers it for a group: the first that settles commits all that were offered, at once."""
        _check(self._ask("offer"))
        self._is_offered = True

    def settle(self, sync: bool = True) -> int:
        """Ends what was offered, and returns its number."""
        number = ctypes.c_uint64()
        _check(_call().mars_settle(self._mars, self._caller, number))
        self._is_live = self._is_offered = False
        if sync:
            self._array.sync()
        return number.value

    # Makes a call, unless the transaction has ended: the caller may have another one by now.
    def _ask(self, name: str, *words: Any) -> int:
        if not self._is_live and self._mars.is_open:
            return Status.NO_TRANSACTION
        return int(getattr(_call(), f"mars_{name}")(self._mars, self._caller, *words))


def fresh(loggers: int = 1, callers: int = 8, entries: int = 64, pages: int = 64) -> bytes:
    """The bytes of a fresh array: 1 to 8 loggers, 1 to 64 callers, 8 to 64 entries in a log, and an even number of 4 to 4,096 pages a logger."""
    shape = _number(loggers, 8), _number(callers, 8), _number(entries, 16), _number(pages, 32)
    room = _room(_call().mars_size(*shape))
    _check(_call().mars_format(room, len(room), *shape))
    return room.raw


def make(path: Union[str, "os.PathLike[str]"], loggers: int = 1, callers: int = 8, entries: int = 64, pages: int = 64) -> None:
    """Makes a fresh array in a new file."""
    data = fresh(loggers, callers, entries, pages)
    file = os.open(path, os.O_RDWR | os.O_CREAT | os.O_EXCL | os.O_CLOEXEC, 0o666)
    try:
        _write_all(file, data, 0)
        os.fsync(file)
    except BaseException:
        os.unlink(path)
        raise
    finally:
        os.close(file)
    _sync_folder(os.path.dirname(os.path.abspath(path)))


def open(path: Union[str, "os.PathLike[str]"], callers: int = 1, depth: int = 0) -> Array:
    """Opens the array in a file for so many callers, and makes durable what the opening repaired. Up to `depth` commits may wait, as in `Array`."""
    device = File(path)
    try:
        return Array(device, callers, depth)
    except BaseException:
        device.close()
        raise


def text_of(status: int) -> str:
    """What a status means."""
    room, size = _room(100), ctypes.c_uint64()
    _call().mars_text(status, room, len(room), size)
    return room.raw[: size.value].decode("ascii")


def _write_all(file: int, data: bytes, at: int) -> None:
    rest = memoryview(data)
    while rest:
        done = os.pwrite(file, rest, at)
        rest, at = rest[done:], at + done


def _sync_folder(folder: str) -> None:
    file = os.open(folder, os.O_RDONLY | os.O_DIRECTORY)
    try:
        os.fsync(file)
    finally:
        os.close(file)


class _Mars(ctypes.Structure):
    _fields_ = [("kept", ctypes.c_void_p), ("is_open", ctypes.c_bool)]


_U8, _U16, _U32, _U64, _SIZE = ctypes.c_uint8, ctypes.c_uint16, ctypes.c_uint32, ctypes.c_uint64, ctypes.c_size_t
_TEXT, _OUT, _MARS = ctypes.c_char_p, ctypes.POINTER(ctypes.c_uint64), ctypes.POINTER(_Mars)
_AT_KEY = [_MARS, _U8, _TEXT, _SIZE, _U64]

# The arguments of each function of mars.h.
_CALLS: Dict[str, List[Any]] = {
    "size": [_U8, _U8, _U16, _U32],
    "format": [_TEXT, _SIZE, _U8, _U8, _U16, _U32],
    "open_late": [_MARS, _TEXT, _SIZE, _U8, _U8],
    "close": [_MARS],
    "begin": [_MARS, _U8],
    "get": [*_AT_KEY, _TEXT, _SIZE, _OUT],
    "put": [*_AT_KEY, _TEXT, _SIZE],
    "del": _AT_KEY,
    "scan": [_MARS, _U8, _TEXT, _SIZE, _U64, _U64, _OUT],
    "row": [_MARS, _U64, _OUT, _TEXT, _SIZE, _OUT],
    "next": [*_AT_KEY, _U64, _OUT, _TEXT, _SIZE, _OUT],
    "save": [_MARS, _U8, _OUT],
    "back": [_MARS, _U8, _U32],
    "commit": [_MARS, _U8, _OUT],
    "abort": [_MARS, _U8],
    "offer": [_MARS, _U8],
    "settle": [_MARS, _U8, _OUT],
    "purge": [_MARS, _U8, _OUT],
    "table": [_MARS, _U8, _TEXT, _SIZE, _OUT],
    "make": [_MARS, _TEXT, _SIZE, ctypes.POINTER(_U8)],
    "put_bytes": [*_AT_KEY, _TEXT, _SIZE],
    "get_bytes": [*_AT_KEY, _TEXT, _SIZE, _OUT],
    "del_bytes": _AT_KEY,
    "bytes_length": [*_AT_KEY, _OUT],
    "piece": [_MARS, _OUT, _OUT],
    "piece_bytes": [_MARS, _U64, _TEXT, _SIZE, _OUT],
    "piece_done": [_MARS],
    "piece_failed": [_MARS],
    "moment": [_MARS],
    "done_up_to": [_MARS],
    "text": [ctypes.c_int32, _TEXT, _SIZE, _OUT],
}
_RESULTS = {"size": _U64, "moment": _U64, "done_up_to": _U64, "close": None, "text": None}


@functools.lru_cache(maxsize=None)
def _call() -> ctypes.PyDLL:
    """The library. No call of it waits, so each is made with the interpreter's lock held."""
    beside = os.path.join(os.path.dirname(os.path.abspath(__file__)), "libmars.so")
    library = ctypes.PyDLL(os.environ.get("MARS_LIBRARY", beside))
    for name, arguments in _CALLS.items():
        function = getattr(library, f"mars_{name}")
        function.argtypes = arguments
        function.restype = _RESULTS.get(name, ctypes.c_int32)
    return library


def _classes(base: Type[Error]) -> Iterator[Type[Error]]:
    for kind in base.__subclasses__():
        yield kind
        yield from _classes(kind)


_ERRORS: Dict[int, Type[Error]] = {kind.status: kind for kind in _classes(Error) if kind.status != Status.OK}


def _check(status: int) -> None:
    if status != Status.OK:
        raise _ERRORS.get(status, Error)(Status(status))


def _is_found(status: int) -> bool:
    if status == Status.ABSENT:
        return False
    _check(status)
    return True


def _room(size: int) -> "ctypes.Array[ctypes.c_char]":
    return ctypes.create_string_buffer(size) if size else (ctypes.c_char * 0)()


def _number(number: int, bits: int) -> int:
    """The number, unless it has more bits: ctypes would cut them off."""
    whole = operator.index(number)
    if not 0 <= whole < 1 << bits:
        raise OverflowError(f"{whole} is no number of {bits} bits")
    return whole


def _bytes(value: Bytes) -> bytes:
    return bytes(memoryview(value))


def _name(table: str) -> bytes:
    """The name of a table. One that is no ASCII is refused as any other wrong one."""
    return table.encode("ascii", "replace")
