"""The lines of scripts that are timed."""

import random


def value(number):
    return f"value{number:011}"


def transactions(calls, each=1):
    """These calls of caller 0, so many in a transaction."""
    lines = []
    for first in range(0, len(calls), each):
        lines += ["0 begin", *(f"0 {call}" for call in calls[first : first + each]), "0 commit"]
    return text(lines)


def text(lines):
    return "".join(f"{line}\n" for line in lines).encode()


def puts(keys, first=0):
    return [f"put {key} {value(first + number)}" for number, key in enumerate(keys)]


def spread(count, keys):
    """So many keys below `keys`, in no order. The step shares no factor with a number of keys that is used."""
    return [number * 7919 % keys for number in range(count)]


def gets(count, keys):
    return [f"get {key}" for key in spread(count, keys)]


def rounds(callers, count, end):
    """So many transactions of one put, each caller's under a key of its own. With the end `offer` one settle commits those of all callers."""
    lines = []
    for first in range(0, count, callers):
        for caller in range(callers):
            lines += [f"{caller} begin", f"{caller} put {caller} {value(first + caller)}", f"{caller} {end}"]
        if end == "offer":
            lines += [f"{caller} settle" for caller in range(callers)]
    return text(lines)


def turns(count):
    """Eight callers in turn, each with two puts in a transaction; every second put finds its key held."""
    lines = []
    for first in range(0, count, 8):
        lines += [f"{caller} begin" for caller in range(8)]
        for put in range(2):
            lines += [f"{caller} put {(first + (caller + put) % 8) % 1000} {value(first + caller)}" for caller in range(8)]
        lines += [f"{caller} commit" for caller in range(8)]
    return text(lines)


def mixed(puts_each, gets_each, count):
    """Transactions of so many puts of one key and so many gets of keys that were committed."""
    calls = []
    for number in range(count):
        calls += [f"put {number % 1000} {value(number + put)}" for put in range(puts_each)]
        calls += [f"get {(number * 37 + get * 101) % max(1, min(number, 1000))}" for get in range(gets_each)]
    return transactions(calls, puts_each + gets_each)


def raw(count):
    """Commands of the array: 64 bytes are logged, and committed."""
    block = bytes(range(64)).hex()
    return text(line for number in range(count) for line in (f"0 logwrite {64 * (number % 1000)} {block}", "0 commit"))


def stripes(callers, count):
    """So many transactions of one put on 64 keys in turn, of which each caller has as many."""
    lines = []
    for number in range(count):
        caller = number % 64 * callers // 64
        lines += [f"{caller} begin", f"{caller} put {number % 64} {value(number)}", f"{caller} commit"]
    return text(lines)


def drawn(callers, count, share):
    """So many transactions of ten calls on 64 keys that all callers share, drawn: so many of a hundred calls are puts, and the others gets."""
    draw, lines = random.Random(0), []
    for number in range(count):
        caller = number % callers
        lines.append(f"{caller} begin")
        for _ in range(10):
            key = draw.randrange(64)
            lines.append(f"{caller} put {key} {value(number)}" if draw.randrange(100) < share else f"{caller} get {key}")
        lines.append(f"{caller} commit")
    return text(lines)


def asked(asking, each, keys, transaction):
    """Gets of so many askers, `each` of every one, under keys in no order: of readers, or of callers from 1 on with so many in a transaction."""
    lines = []
    for asker in range(asking):
        wanted = [(number * 7919 + asker * 101) % keys for number in range(each)]
        if not transaction:
            lines += [f"r{asker} get {key}" for key in wanted]
            continue
        for first in range(0, each, transaction):
            lines += [f"{asker + 1} begin", *(f"{asker + 1} get {key}" for key in wanted[first : first + transaction]), f"{asker + 1} commit"]
    return text(lines)
