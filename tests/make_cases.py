#!/usr/bin/env python3
"""Makes the input of `cases` and the output that is expected of it.

    python3 tests/make_cases.py tests/cases.txt crates/cases/stdin crates/cases/stdout
    python3 tests/make_cases.py --counts

tests/cases.txt holds the hand-worked cases: each call with its expected line
below it.  They come first; the model must give every one of these lines.
Behind them stand calls made with a fixed seed and answered by the model, so
the same bytes come out each time.  The counts of these are printed, and a bar
that they miss is an error.
"""
import os
import sys
from collections import Counter

sys.path.insert(0, os.path.dirname(os.path.abspath(__file__)))
import calls  # noqa: E402
import model  # noqa: E402
from made_calls import RULES, SOUND, TOP, UNASKED, alone_possible, first, made  # noqa: E402
from model import (ACQUIRE, BARRIER, CTOC, CTOM, DROP, MTOC, READ, RELEASE,  # noqa: E402
                   WRITE)

NAMES = "Read Write Barrier MtoC CtoM CtoC Drop Acquire Release".split()

# Document 01's guard table: for each action the numbers that refuse it, and under which rules.
GUARDS = {
    READ: {8: RULES, 15: (1,)},
    WRITE: {11: (1,), 12: (2,), 14: (3, 4)},
    BARRIER: {16: (0,)},
    MTOC: {9: RULES, 11: (2, 3), 13: (3, 4)},
    CTOM: {10: RULES},
    CTOC: {13: (3, 4), 9: RULES, 8: RULES},
    DROP: {9: RULES},
    ACQUIRE: {13: (3, 4), 12: (3, 4)},
    RELEASE: {9: (4,)},
}


# --------------------------------------------------------------- what is held

def count(lines):
    """What the calls hold, read from the lines alone."""
    said, held, edges = Counter(), Counter(), Counter()
    for line in lines:
        if line.startswith("#"):
            continue
        answer = calls.answer(line).split(" |")[0]
        if answer == "not a call":
            said[answer, ""] += 1
            continue
        name, numbers, lent = calls.parse(line)
        if name == "head_of":
            said[name, ended(len(lent[0]), *map(int, answer.split(" ")[3:]))] += 1
            continue
        said[name, answer.split(" ")[0 if name != "check" or "refused" not in answer else 1]] += 1
        if name == "list" and answer[0] == "0":
            said["list of a refused file", str(model.read_file(bytes(lent[0]))[0])] += 1
        if name == "run" and answer[0] == "0":
            said["run that leaves stale copies", str(answer.split(" ")[2] != "0")] += 1
        if name == "check" and "refused" not in answer:
            rule, boards, n = numbers
            cells = [model.take(boards, c, *lent) for c in range(n)]
            bad = [c for c in cells if not c.sound(rule)]
            if len(bad) == 1:
                held["check alone", alone(bad[0], rule), rule] += 1
            for f in {f for c in cells for f in c.failing()} if not bad else ():
                held["check unasked", f, rule] += 1
        if name == "step":
            number, got = map(int, answer.split(" "))
            rule, boards, n, code, p, q, cell, v = numbers
            if number in (1, 2, 3, 4, 5, 6):
                continue
            c = model.take(boards, cell, *lent)
            if number == 7:
                held["step alone", alone(c, rule), rule] += 1
                continue
            held["guard", rule, code, number] += 1
            held["set", rule, code, tuple(model.refusals(rule, c, code, p, q))] += 1
            for f in c.failing():
                held["step unasked", f, rule] += 1
            if number == 0:
                edges["board 0"] += p == 0
                edges["board 15"] += p == 15
                edges["CtoC to board 15"] += code == CTOC and q == 15
                edges["bit 15 in a mask"] += 15 in c.live | c.dirty | c.lock
                edges["P 1"] += boards == 1
                edges["P 16"] += boards == 16
                edges["cell N-1, N above 1"] += cell == n - 1 > 0
                edges["a damaged cell beside"] += any(not model.take(boards, i, *lent).sound(rule) for i in range(n))
                edges["Write of 0"] += code == WRITE and v == 0
                edges["Write of 4294967295"] += code == WRITE and v == TOP
                edges["Read of a live 0"] += code == READ and got == 0
                edges["Read of 4294967295"] += code == READ and got == TOP
                edges["CtoC to itself"] += code == CTOC and p == q
    return said, held, edges


def ended(length, begin, records):
    """Where a file of this length ends, by what head_of answers."""
    if length < 9:
        return "in the head"
    if length < begin:
        return "before the records"
    return "in a record" if length > begin + 9 * records else "behind whole records"


def alone(c, rule):
    """The one condition of the rule that fails, or None; the bits by mask."""
    asked = [f for f in c.failing() if rule in model.CONDITIONS[f]]
    if len(asked) != 1:
        return None
    if asked[0] != "bits":
        return asked[0]
    masks = [m for m in ("live", "dirty", "lock") if any(b >= len(c.copy) for b in getattr(c, m))]
    return "bits " + masks[0] if len(masks) == 1 else "bits"


MUST = {"step": range(17), "fresh": (0, 1), "check": ("sound", "unsound", 1, 2), "in_range": (0, 1), "sizes_good": (0, 1),
        "read": (0, 1, 2, 17, 18, 19), "write": (0, 1, 2, 19, 20), "run": (0, 1, 2, 17, 18, 19, 20), "list": (0, 20),
        "list of a refused file": (1, 2, 17, 18, 19), "run that leaves stale copies": (True,),
        "head_of": ("in the head", "before the records", "behind whole records", "in a record")}


def counts(lines):
    """What the made calls hold, as tables; fails where a bar is missed."""
    text, missed = [], []

    def bar(what, got, least):
        if got < least:
            missed.append("%s: %d, at least %d" % (what, got, least))
        return got

    said, held, edges = count(lines)
    total = Counter()
    for (name, _), k in said.items():
        total[name] += k
    text.append("%d calls, %d of them steps; %d lines that are not a call; %d bytes.\n" % (
        bar("calls", sum(total[name] for name in calls.CALLS), 2000), total["step"], total["not a call"],
        sum(len(x) + 1 for x in lines)))

    text.append("| Call | answers |\n|---|---|")
    for name, numbers in MUST.items():
        got = [(k, bar("%s answering %s" % (name, k), said[name, str(k)], 20)) for k in numbers]
        text.append("| %s | %s |" % (name, ", ".join("%s: %d" % x for x in got)))

    by_rule = " | rule 0 | rule 1 | rule 2 | rule 3 | rule 4 |\n|---|---|---|---|---|---|"
    text.append("\n| Steps on sound cells, by action and answer" + by_rule)
    for code, row in GUARDS.items():
        for number in (0, *row):
            cells = []
            for rule in RULES:
                stands = model.exists(rule, code) and (number == 0 or rule in row[number])
                occurs = any(k[:2] == (rule, code) and first(k[2]) == number for k in SOUND)
                got = held["guard", rule, code, number]
                assert stands or not (occurs or got), (rule, code, number)
                if occurs:
                    bar("%s answering %d under rule %d" % (NAMES[code], number, rule), got, 5)
                cells.append(str(got) if occurs else "cannot" if stands else "-")
            text.append("| %s: %d | %s |" % (NAMES[code], number, " | ".join(cells)))
    for rule, code, refusals in sorted(SOUND):
        bar("%s under rule %d with refusals %s" % (NAMES[code], rule, refusals), held["set", rule, code, refusals], 5)

    text.append("\n| Steps + checks where this condition fails alone (in brackets: where it is not asked)" + by_rule)
    possible = set(alone_possible())
    for condition in ("bits live", "bits dirty", "bits lock", *list(model.CONDITIONS)[1:]):
        cells = []
        for rule in RULES:
            asked = rule in model.CONDITIONS["bits" if condition.startswith("bits") else condition]
            if (condition, rule) not in (possible if asked else UNASKED):
                cells.append("cannot" if asked else "(cannot)")
                continue
            kinds = ("step alone", "check alone") if asked else ("step unasked", "check unasked")
            got = [bar("%s, %s, rule %d" % (k, condition, rule), held[k, condition, rule], 3) for k in kinds]
            cells.append(("%d + %d" if asked else "(%d + %d)") % tuple(got))
        text.append("| %s | %s |" % (condition, " | ".join(cells)))

    text.append("\n| Accepted steps with | |\n|---|---|")
    for name, k in edges.items():
        text.append("| %s | %d |" % (name, bar(name, k, 20)))
    if missed:
        sys.exit("\n".join(text + ["make_cases: bars missed:"] + missed))
    return "\n".join(text)


# ------------------------------------------------------------ hand-worked cases

def hand_worked(path):
    """(lines in, lines out) of the hand-worked file; the lines that the model answers otherwise."""
    with open(path, encoding="ascii") as f:
        lines = f.read().split("\n")
    if lines.pop() != "":
        sys.exit("%s: no newline at the end" % path)
    ins, outs, differ, i = [], [], [], 0
    while i < len(lines):
        line = lines[i]
        ins.append(line)
        if line == "" or line.startswith("#"):
            outs.append(line)
            i += 1
            continue
        expected = lines[i + 1] if i + 1 < len(lines) else ""
        if expected == "" or expected.startswith("#"):
            sys.exit("%s:%d: a call without its expected line" % (path, i + 1))
        said = calls.answer(line)
        if said != expected:
            differ.append("%s:%d: %s\n  expected  %s\n  model     %s" % (path, i + 1, line, expected, said))
        outs.append(expected)
        i += 2
    return ins, outs, differ


def main():
    if sys.argv[1:] == ["--counts"]:
        print(counts(made()))
        return
    if len(sys.argv) != 4:
        sys.exit(__doc__)
    ins, outs, differ = hand_worked(sys.argv[1])
    if differ:
        sys.exit("\n".join(differ) + "\nmake_cases: %d hand-worked lines differ from the model" % len(differ))
    by_hand = sum(1 for x in ins if x and not x.startswith("#"))
    lines = made()
    text = counts(lines)
    ins += ["", "# Made by the model.", *lines]
    outs += ["", "# Made by the model.", *map(calls.answer, lines)]
    data = ["".join(x + "\n" for x in text).encode("ascii") for text in (ins, outs)]
    assert len(data[0]) < 2_000_000
    for path, held in zip(sys.argv[2:], data):
        with open(path, "wb") as f:
            f.write(held)
    print("%d hand-worked calls, all as the model says.  Made by the model:\n\n%s" % (by_hand, text))


if __name__ == "__main__":
    main()
