#!/usr/bin/env python3
"""A host in Python: prints the sheet of a table and the replies to a recorded history, as desk.c does without its words.

    host.py TABLE HISTORY

Ends with 0, with 1 where something was refused, with 2 where a file cannot be read or the output not be written."""
import ctypes
import re
import sys

PLACES = 16
STATE_LENGTH = 640
BYTES = ctypes.POINTER(ctypes.c_uint8)
TICK = re.compile(r"(\d+) ([01]) (\d+)")


class Refusal(ctypes.Structure):
    _fields_ = [("number", ctypes.c_uint8), ("index", ctypes.c_uint8)]


class Sheet(ctypes.Structure):
    _fields_ = [("window", ctypes.c_uint16), ("number", ctypes.c_uint8), ("index", ctypes.c_uint8)]


class Reply(ctypes.Structure):
    _fields_ = [("instance", ctypes.c_uint32)] + [
        (name, ctypes.c_uint8)
        for name in ("number", "index", "answer", "callback", "started", "polled", "gathered")
    ] + [("folded", ctypes.c_uint16)]


def library():
    cuorfelt = ctypes.CDLL("libcuorfelt.so.2")
    cuorfelt.cuorfelt_analyse.argtypes = [ctypes.c_char_p, ctypes.c_size_t, ctypes.POINTER(ctypes.c_uint16), ctypes.c_size_t]
    cuorfelt.cuorfelt_analyse.restype = Sheet
    cuorfelt.cuorfelt_start.argtypes = [ctypes.c_char_p, ctypes.c_size_t, BYTES, ctypes.c_size_t]
    cuorfelt.cuorfelt_start.restype = Refusal
    cuorfelt.cuorfelt_tick.argtypes = [BYTES, ctypes.c_size_t, ctypes.c_uint16, ctypes.c_uint8, ctypes.c_uint32]
    cuorfelt.cuorfelt_tick.restype = Reply
    return cuorfelt


def offer(number, line):
    """Mask, supplied and cost of a line, by its number."""
    words = TICK.fullmatch(" ".join(line.split()))
    mask, supplied, cost = (int(word) for word in words.groups()) if words else (-1, 0, 0)
    if not 0 <= mask < 2**16 or cost >= 2**32:
        raise ValueError(f"line {number}: not a tick")
    return mask, supplied, cost


def offers(table, history):
    """The ticks of a history, whose first line is the table in hex."""
    lines = history.splitlines() or [""]
    if lines[0] != table.hex():
        raise ValueError("line 1: recorded for another table")
    return [offer(number, line) for number, line in enumerate(lines, 1) if number > 1 and line and line[0] != "#"]


def sheet(cuorfelt, table):
    row = (ctypes.c_uint16 * PLACES)()
    found = cuorfelt.cuorfelt_analyse(table, len(table), row, PLACES)
    if found.number:
        return [f"refused {found.number} {found.index}"]
    return [f"window {found.window}"] + [f"{i} {row[i - 1]}" for i in range(1, table[1] + 1)]


def reply_text(tick, r):
    if r.number:
        return f"{tick} refused {r.number} {r.index}"
    answer = ("refused", "nosupply", "idle", "ran", "finished")[r.answer]
    return f"{tick} {answer} {r.callback} {r.instance} {r.started} {r.polled} {r.gathered} {r.folded}"


def replies(cuorfelt, table, ticks):
    state = (ctypes.c_uint8 * STATE_LENGTH)()
    refusal = cuorfelt.cuorfelt_start(table, len(table), state, STATE_LENGTH)
    if refusal.number:
        return [f"start refused {refusal.number} {refusal.index}"]
    return ["start accepted"] + [
        reply_text(tick, cuorfelt.cuorfelt_tick(state, STATE_LENGTH, *offered)) for tick, offered in enumerate(ticks)
    ]


def run(table_name, history_name):
    """Whether something was refused."""
    with open(table_name, "rb") as file:
        table = file.read()
    with open(history_name, encoding="ascii") as file:
        ticks = offers(table, file.read())
    cuorfelt = library()
    lines = sheet(cuorfelt, table) + replies(cuorfelt, table, ticks)
    if sys.stdout is None:
        raise OSError("standard output: closed")
    print("\n".join(lines), flush=True)
    return any("refused" in line for line in lines)


def main(words):
    if len(words) != 2:
        print("usage: host.py TABLE HISTORY", file=sys.stderr)
        return 2
    try:
        return int(run(*words))
    except (OSError, ValueError) as fault:
        print(f"host.py: {fault}", file=sys.stderr)
        return 2


if __name__ == "__main__":
    sys.exit(main(sys.argv[1:]))
