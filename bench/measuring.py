"""Runs a program, and takes the time of the processor, the time by the clock, its answers and its peak of memory; and makes those programs of C
that stand over a library."""

import os
import resource
import shutil
import subprocess
import sys
import time
from pathlib import Path

TOP = Path(__file__).resolve().parent.parent
POLL = 0.002
WINDOW = 64


class Run:
    """One run of these words over this input: seconds of the processor (`processor`), seconds by the clock (`clock`) and what it wrote (`told`)."""

    def __init__(self, words, lines=b""):
        start, before = time.monotonic(), spent()
        done = subprocess.run(words, input=lines, stdout=subprocess.PIPE, check=False)
        self.clock, self.processor, self.told = time.monotonic() - start, spent() - before, done.stdout
        ended_well(words, done.returncode)


class Stamped:
    """One run, with the seconds by the clock from one answer `committed` to the next (`waits`)."""

    def __init__(self, words, lines):
        with subprocess.Popen(words, stdin=subprocess.PIPE, stdout=subprocess.PIPE, bufsize=0) as program:
            program.stdin.write(lines)
            program.stdin.close()
            stamps = list(commit_times(program.stdout.fileno()))
        self.waits = [late - early for early, late in zip(stamps, stamps[1:])]
        ended_well(words, program.returncode)

    def wait_of(self, part):
        """The wait that this part of all is no longer than."""
        return sorted(self.waits)[min(int(part * len(self.waits)), len(self.waits) - 1)]

    def mean(self):
        """The mean wait of 64 transactions in a row, or of all where there are fewer: the least one, so that a pause of the machine spoils no other.
        Answers that came while this program paused seem to come at once, so it is no less than what half of them wait."""
        rows = [self.waits[first : first + WINDOW] for first in range(0, len(self.waits), WINDOW)]
        return max(self.wait_of(0.5), min(sum(row) / len(row) for row in rows if len(row) == WINDOW or len(rows) == 1))

    def mean_behind(self, first):
        """The mean wait of all transactions behind the first ones, which are so many."""
        return sum(self.waits) / (len(self.waits) + 1 - first)


def compiled(name, crate, library, folder):
    """The program that a source of bench/ makes over a library, with the header of the library's crate; `None` where it cannot be made."""
    compiler, program = os.environ.get("CC", "cc"), f"{folder}/{name}"
    flags = ["-std=c11", "-D_GNU_SOURCE", "-O2", f"-I{TOP}/crates/{crate}"]
    words = [compiler, *flags, TOP / f"bench/{name}.c", library, "-o", program]
    return program if shutil.which(compiler) and subprocess.run(words, check=False).returncode == 0 else None


def spent():
    """Seconds of the processor of all programs that have ended."""
    used = resource.getrusage(resource.RUSAGE_CHILDREN)
    return used.ru_utime + used.ru_stime


def ended_well(words, status):
    if status:
        sys.exit(f"figures: {' '.join(map(str, words))} ended with status {status}")


def commit_times(source):
    while told := os.read(source, 65_536):
        yield from [time.monotonic()] * told.count(b" committed ")


def peak(words, lines, folder):
    """The peak of memory in kilobytes. The system tells it of a program that still runs, so it is asked for again and again."""
    script = Path(folder) / "script"
    script.write_bytes(lines)
    most = 0
    with open(script, "rb") as source, subprocess.Popen(words, stdin=source, stdout=subprocess.DEVNULL) as program:
        while program.poll() is None:
            most = max(most, peak_now(program.pid))
            time.sleep(POLL)
    ended_well(words, program.returncode)
    return most


def peak_now(process):
    try:
        with open(f"/proc/{process}/status", encoding="ascii") as status:
            return next((int(line.split()[1]) for line in status if line.startswith("VmHWM:")), 0)
    except OSError:
        return 0


def least(cases, rounds, seconds, say):
    """Of each number that a case gives the least of so many rounds, and how many there were: none begins after these seconds. In a round every
    case has its turn, so that a busy minute spoils none of them alone."""
    best, start = {name: {} for name in cases}, time.monotonic()
    for turn in range(rounds):
        if turn and time.monotonic() - start > seconds:
            return best, turn
        for name, case in cases.items():
            say(f"round {turn + 1} of {rounds}: {', '.join(map(str, name)) if isinstance(name, tuple) else name}")
            for key, number in case().items():
                best[name][key] = min(number, best[name].get(key, number))
    return best, rounds
