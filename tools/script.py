"""What the lines of a script mean, as docs/SCRIPT.md says it, and why one means nothing."""

import re
import subprocess
import sys
import tempfile
import time
from os import environ
from pathlib import Path

NUMBER = re.compile(rb"0|[1-9][0-9]*")
DIGITS = re.compile(rb"[0-9]+")
NAME = re.compile(rb"[a-z]{1,16}")
HEX = re.compile(rb"(?:[0-9a-f]{2})+")
MOST_INPUT = 16_777_216
CALLERS_OF_FRESH = 8


def shown(word):
    return repr(word.decode("latin-1"))[1:-1]


def number_below(end, what):
    """Why a word is no number below this end."""

    def why(word):
        if NUMBER.fullmatch(word):
            return None if int(word) < end else f"{what} {shown(word)} is not below {end:,}"
        if DIGITS.fullmatch(word):
            return f"{what} {shown(word)} has a leading zero"
        return f"{what} '{shown(word)}' is no decimal number"

    return why


def why_no_value(word):
    hidden = next((byte for byte in word if not 0x21 <= byte <= 0x7E), None)
    if hidden is not None:
        return f"the value has the byte {hidden:02x}, and only those from ! to ~ may stand in one"
    return None if 1 <= len(word) <= 54 else f"the value has {len(word)} bytes, and 54 are the most"


def why_no_bytes(word):
    if not HEX.fullmatch(word):
        return f"'{shown(word)}' is not bytes of two digits 0 to 9 and a to f each"
    return None if len(word) <= 2048 else f"{len(word) // 2:,} bytes are above 1,024"


def why_no_length(word):
    return number_below(1025, "the length")(word) or ("the length is 0" if word == b"0" else None)


KEY = number_below(2**64, "key")
PLACE = number_below(2**32, "number")
CALLS = {
    b"begin": ("", []),
    b"get": ("a key", [KEY]),
    b"put": ("a key and a value without a space", [KEY, why_no_value]),
    b"del": ("a key", [KEY]),
    b"scan": ("two keys", [KEY, KEY]),
    b"save": ("", []),
    b"back": ("the number of a save", [number_below(2**32, "save")]),
    b"commit": ("", []),
    b"offer": ("", []),
    b"settle": ("", []),
    b"abort": ("", []),
    b"purge": ("", []),
}
OF_TABLE = (b"get", b"put", b"del", b"scan")
COMMANDS = {
    b"logwrite": ("an address and bytes", [PLACE, why_no_bytes]),
    b"commit": ("", []),
    b"abort": ("", []),
    b"nested": ("an offset", [PLACE]),
    b"partial": ("an offset", [PLACE]),
    b"atomic": ("an address and bytes", [PLACE, why_no_bytes]),
    b"editlog": ("a position, a place in it and bytes", [PLACE, PLACE, why_no_bytes]),
    b"readlog": ("a position", [PLACE]),
    b"read": ("an address and a length", [PLACE, why_no_length]),
    b"loglen": ("", []),
    b"held": ("a logger", [number_below(8, "logger")]),
}


def is_passed_over(line):
    return not line or line.startswith(b"#")


def why_bad(line, callers=CALLERS_OF_FRESH, verbs=CALLS, readers=0):
    """Why a line without its newline is bad; none if it is a call, or is passed over. With readers it may be what one of them asks for."""
    if is_passed_over(line):
        return None
    if line.endswith(b"\r"):
        return "it ends with a carriage return: a line ends with a newline alone"
    if b"\t" in line:
        return "it has a tab: words are separated by one space"
    if line.startswith(b" ") or line.endswith(b" "):
        return "it begins with a space" if line.startswith(b" ") else "it ends with a space"
    if b"  " in line:
        return "it has two spaces in a row"
    caller, *call = line.split(b" ")
    if readers and caller.startswith(b"r"):
        return number_below(readers, "reader")(caller[1:]) or why_no_call(call, {b"get": CALLS[b"get"]})
    return number_below(callers, "caller")(caller) or why_no_call(call, verbs)


def why_no_call(call, verbs):
    if not call:
        return "it has no word after the caller"
    if call[0].startswith(b"@") and verbs is not COMMANDS:
        return why_no_table(call[0][1:], call[1:2]) or why_no_call(call[1:], verbs)
    if call[0] not in verbs:
        known = ", ".join(verb.decode() for verb in verbs)
        return f"'{shown(call[0])}' is none of {known}"
    takes, kinds = verbs[call[0]]
    if len(call) - 1 != len(kinds):
        return f"{call[0].decode()} takes {takes or 'no more words'}, and there are {len(call) - 1} words"
    return next(filter(None, (why(word) for why, word in zip(kinds, call[1:]))), None)


def why_no_table(name, verb):
    if not NAME.fullmatch(name):
        return f"the table '{shown(name)}' is not named by 1 to 16 letters a to z"
    return None if verb and verb[0] in OF_TABLE else "a table's name stands before get, put, del or scan alone"


def lines_of(text):
    """The lines of a text. A last piece without bytes is none."""
    pieces = text.split(b"\n")
    return pieces if pieces[-1] else pieces[:-1]


def program():
    """The program to run: ./mars, or the one that the variable MARS names."""
    return environ.get("MARS") or str(Path(__file__).resolve().parent.parent / "mars")


def mars(image, *words, text=b""):
    """Runs the program and gives its status, its output and its error output."""
    done = subprocess.run([program(), image, *words], input=text, capture_output=True)
    return done.returncode, done.stdout, done.stderr.decode(errors="replace")


def restore(image, *words, text):
    """The same of the program that restores: dist/restore, or the one that the variable RESTORE names."""
    kept = environ.get("RESTORE") or str(Path(__file__).resolve().parent.parent / "dist/restore")
    done = subprocess.run([kept, image, *words], input=text, capture_output=True)
    return done.returncode, done.stdout, done.stderr.decode(errors="replace")


def mars_by_lines(image, *words, text, each):
    """As `mars`, with a call of `each` for each line of its output as soon as it is there."""
    with tempfile.TemporaryFile() as script, tempfile.TemporaryFile() as errors:
        script.write(text)
        script.seek(0)
        with subprocess.Popen([program(), image, *words], stdin=script, stdout=subprocess.PIPE, stderr=errors) as running:
            output = []
            for line in running.stdout:
                output.append(line)
                each(line)
        errors.seek(0)
        return running.returncode, b"".join(output), errors.read().decode(errors="replace")


class Progress:
    """Tells a terminal how far some work is, once it takes longer than a second and then once a second."""

    def __init__(self, whole, what):
        self.whole, self.what, self.done, self.began, self.told = whole, what, 0, time.monotonic(), 0.0

    def step(self):
        self.done += 1
        passed = time.monotonic() - self.began
        if passed >= self.told + 1 and sys.stderr.isatty():
            rate = self.done / passed
            left = (self.whole - self.done) / rate
            sys.stderr.write(f"\r{self.done:,} of {self.whole:,} {self.what}, {rate:,.0f} a second, {left:,.0f} s left ")
            sys.stderr.flush()
            self.told = passed

    def end(self):
        if self.told:
            sys.stderr.write("\n")


def program_words(document, usage, least, most):
    """The words after a tool's name, if there are so many; else its usage. `--help` and `-h` print what the tool does."""
    words = sys.argv[1:]
    if words in (["--help"], ["-h"]):
        print(document.strip())
        sys.exit(0)
    if not least <= len(words) <= most:
        sys.exit(f"usage: {usage}")
    return words
