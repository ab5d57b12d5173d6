#!/usr/bin/env python3
"""Calls as lines of text, answered by the model (tests/model.py).

    python3 tests/calls.py < calls > answers

A call is the function's name, its numbers, then a bar and, each ended by a
bar, the contents of each lent slice:

    step 4 2 1 7 1 0 0 0 | 7 | 0 0 | 0 0 0 |
    0 0 | 7 | 0 0 | 0 0 2 |

`#` lines and empty lines are echoed.  Dots join numbers into a group, and
`COUNT*` before a number or a group repeats it.  A slice of more than 64
numbers is answered by its length and a sum.
"""
import os
import sys

sys.path.insert(0, os.path.dirname(os.path.abspath(__file__)))
import model  # noqa: E402

# Each function: the bits of its numbers, the bits of its slices' numbers, and
# itself: lent slices are changed in place, the words of the answer returned.
TABLE = (32, 32, 16)
CALLS = {
    "in_range": ((64, 64), (), lambda *a: (int(model.in_range(*a)),)),
    "sizes_good": ((64, 64), TABLE, lambda *a: (int(model.sizes_good(*a)),)),
    "fresh": ((64, 64), (32, *TABLE), model.fresh),
    "check": ((8, 64, 64), TABLE, model.check),
    "step": ((8, 64, 64, 8, 8, 8, 16, 32), TABLE, model.step_lent),
    "head_of": ((), (8,), model.head_of),
    "read": ((), (8, 32), model.read),
    "write": ((8, 64, 64), (32, 8, 8), model.write),
    "run": ((), (8, *TABLE, 8, 32), model.run_lent),
    "list": ((), (8, 8), model.list_lent),
}
LONGEST = {8: 100_000, 16: 2_100, 32: 8_300}
TOLD = 64


class NotACall(Exception):
    pass


def natural(word, bits):
    if not (word.isascii() and word.isdigit()) or int(word) >= 2 ** bits:
        raise NotACall(word)
    return int(word)


def contents(words, bits):
    out = []
    for word in words:
        count, star, group = word.rpartition("*")
        numbers = [natural(w, bits) for w in group.split(".")]
        times = natural(count, 64) if star else 1
        if len(out) + times * len(numbers) > LONGEST[bits]:
            raise NotACall(word)
        out += times * numbers
    return out


def parse(line):
    """(name, numbers, slices)."""
    name, *words = line.split(" ")
    if name not in CALLS:
        raise NotACall(name)
    number_bits, slice_bits, _ = CALLS[name]
    parts = [[]]
    for word in words:
        if word == "|":
            parts.append([])
        else:
            parts[-1].append(word)
    numbers, *slices = parts
    if slice_bits and (not slices or slices.pop()):
        raise NotACall("no bar at the end")
    if len(numbers) != len(number_bits) or len(slices) != len(slice_bits):
        raise NotACall(line)
    return (name, [natural(w, b) for w, b in zip(numbers, number_bits)],
            [contents(w, b) for w, b in zip(slices, slice_bits)])


def told(numbers):
    if len(numbers) <= TOLD:
        return " ".join(map(str, numbers))
    total = 0
    for x in numbers:
        total = (total * 31 + x) % 4294967291
    return "%d numbers, sum %d" % (len(numbers), total)


def answer(line):
    """The line that answers this one."""
    if line == "" or line.startswith("#"):
        return line
    try:
        name, numbers, slices = parse(line)
    except NotACall:
        return "not a call"
    words = CALLS[name][2](*numbers, *slices)
    if name == "read":
        words, records = words
        slices.append(records)
    bars = ["|"] + [told(s) + " |" if s else "|" for s in slices]
    return " ".join([*map(str, words), *(bars if slices else [])])


if __name__ == "__main__":
    for text in sys.stdin:
        print(answer(text.removesuffix("\n")))
