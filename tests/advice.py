#!/usr/bin/env python3
"""Tries the advice of docs/LISTING.md on sessions, by the model (tests/model.py).

    python3 tests/advice.py

For the numbers of guards, 8 to 16, it goes through every cell of three boards
that a session can reach with the values 7 (the start) and 9, under each rule,
and through every action that is refused there.  The advice is followed, in
each of its ways; an advised action that is refused itself has the advice for
its own number followed first.  The action must then be accepted, and under a
coherent rule the advice must leave the cell's current value as it was, and a
Read must answer it.  The other numbers have their sessions by hand: one that
gets the number, one that is mended.
"""
import copy
import os
import re
import sys

HERE = os.path.dirname(os.path.abspath(__file__))
sys.path.insert(0, HERE)
import model  # noqa: E402
from model import (ACQUIRE, BARRIER, CTOC, CTOM, DROP, MTOC, READ, RELEASE,  # noqa: E402
                   WRITE, record, session)

BOARDS, START, NEW = 3, 7, 9

# The page's column "What to do".  The script fails where the page says otherwise.
ADVICE = {
    1: "record the session with the table's real sizes",
    2: "choose rule 1 to 4; under 0 old values are read",
    3: "mend what made the record: code 0 to 8, unused fields 0",
    4: "leave it out: Barrier is of rule 0, Acquire and Release are of rules 3 and 4",
    5: "compare the record's boards with P",
    6: "compare the record's cell with N",
    8: "load one first: MtoC, or CtoC from a board that has one. For a CtoC, at the board that it copies from",
    9: "store it first: CtoM. For a CtoC, at the board that it copies to",
    10: "leave it out: there is nothing to store",
    11: "let that board store it first: CtoM",
    12: "let every other board that has a copy drop it first: Drop",
    13: "let the board that has the lock, be it the same one, give it back first: Release. A second Acquire by that board is left out",
    14: "Acquire first",
    15: "if a board is dirty: CtoM there and then MtoC, or CtoC from there. If none is: MtoC",
    16: "Drop it first",
    17: "look at where the file came from: it has to begin with the letters CCS",
    18: "look at where the file came from: its version has to be 1",
    19: "cut off or damaged: record it again. Too long: split it, as said below",
}


def ways(cell, action, number):
    """The advice for a guard's number: for each way the actions to do first.  None: leave the action out."""
    code, p, q, _ = action
    dirty, others = sorted(cell.dirty - {p}), sorted(cell.live - {p})
    if number == 8:
        return [[(MTOC, p, 0, 0)]] + [[(CTOC, b, p, 0)] for b in others]
    if number == 9:
        return [[(CTOM, q if code == CTOC else p, 0, 0)]]
    if number == 10:
        return None
    if number == 11:
        return [[(CTOM, b, 0, 0) for b in dirty]]
    if number == 12:
        return [[(DROP, b, 0, 0) for b in others]]
    if number == 13:
        if code == ACQUIRE and p in cell.lock:
            return None
        return [[(RELEASE, b, 0, 0) for b in sorted(cell.lock)]]
    if number == 14:
        return [[(ACQUIRE, p, 0, 0)]]
    if number == 15:
        if not dirty:
            return [[(MTOC, p, 0, 0)]]
        return [[(CTOM, b, 0, 0), (MTOC, p, 0, 0)] for b in dirty] + [[(CTOC, b, p, 0)] for b in dirty]
    assert number == 16
    return [[(DROP, p, 0, 0)]]


def act(rule, cell, action):
    code, p, q, value = action
    return model.step(rule, BOARDS, [cell], code, p, q, 0, value)


def follow(rule, cell, action, way, done, depth=0):
    """Does an action, and follows the advice while it is refused; `done` takes each action with its number."""
    assert depth < 9, "the advice goes round in a circle"
    for _ in range(4):
        number, _ = act(rule, cell, action)
        done.append((action, number))
        advised = ways(cell, action, number) if number else None
        if advised is None:
            return
        for first in advised[min(way, len(advised) - 1)]:
            follow(rule, cell, first, way, done, depth + 1)
    raise AssertionError("the advice does not help", rule, action, number)


def actions(rule):
    for code in range(9):
        if model.exists(rule, code):
            for p in range(BOARDS):
                for q in range(BOARDS) if code == CTOC else (0,):
                    for value in (START, NEW) if code == WRITE else (0,):
                        yield code, p, q, value


def reached(rule):
    """Every cell that a session can reach, with a shortest list of actions that does."""
    def key(c):
        return c.main, tuple(c.copy), *(tuple(sorted(s)) for s in (c.live, c.dirty, c.lock))
    fresh = model.Cell(BOARDS, START)
    seen, queue = {key(fresh)}, [(fresh, [])]
    for cell, path in queue:
        yield cell, path
        for a in actions(rule):
            after = copy.deepcopy(cell)
            if act(rule, after, a)[0] == 0 and key(after) not in seen:
                seen.add(key(after))
                queue.append((after, path + [a]))


def one_cell(rule, done):
    return session(rule, BOARDS, [START], [record(code, p, q, 0, value) for code, p, q, value in done])


def answers(file):
    return model.run(*model.read_file(file)[1:])[0]


def of_guards(tried):
    """8 to 16: the first session found for each rule and each course that following the advice takes."""
    kept = {}
    for rule in range(5):
        for cell, path in reached(rule):
            for a in actions(rule):
                number = model.guard(rule, cell, *a[:3])
                if number == 0:
                    continue
                tried.add(number)
                advised = ways(cell, a, number)
                for way in range(len(advised or [0])):
                    end, done = copy.deepcopy(cell), []
                    follow(rule, end, a, way, done)
                    assert rule == 0 or a[0] == WRITE or end.current() == cell.current()
                    file = one_cell(rule, path + [b for b, _ in done])
                    told = answers(file)[len(path):]
                    assert told[0] == (a[0], number, 0)
                    if advised is None:
                        assert left_out(file, len(path)) == one_cell(rule, path)
                    else:
                        assert told[-1] == (a[0], 0, cell.current() if a[0] == READ and rule else told[-1][2])
                    kept.setdefault((rule, *((b[0], n) for b, n in done)), file)
    return list(kept.values())


def left_out(file, *places):
    """The session without the records at these places; the others must be answered as they were."""
    _, rule, boards, start, records = model.read_file(file)
    stay = [i for i in range(len(records) // 9) if i not in places]
    without = session(rule, boards, start, [records[9 * i:9 * i + 9] for i in stay])
    assert answers(without) == [answers(file)[i] for i in stay]
    return without


def of_rules(tried):
    """4: sessions with Barrier, and with Acquire and Release, under a rule that lacks them."""
    tried.add(4)
    for rule, codes in ((0, (ACQUIRE, RELEASE)), (1, (BARRIER,)), (2, (ACQUIRE, RELEASE)), (3, (BARRIER,))):
        file = session(rule, 2, [7], [record(MTOC, 0), *(record(c, 0) for c in codes), record(READ, 0), record(DROP, 0)])
        places = [i for i, (_, number, _) in enumerate(answers(file)) if number == 4]
        assert len(places) == len(codes)
        yield file
        yield left_out(file, *places)


def of_records(tried):
    """3, 5 and 6: a record that gets the number, and the record mended."""
    mended = {3: [((9, 0), (READ, 0)), ((READ, 0, 1), (READ, 0)), ((DROP, 0, 0, 0, 5), (DROP, 0))],
              5: [((READ, 2), (READ, 0)), ((CTOC, 0, 2), (CTOC, 0, 1))],
              6: [((READ, 0, 0, 2), (READ, 0, 0, 1))]}
    for number, pairs in mended.items():
        tried.add(number)
        loaded = [record(MTOC, 0, 0, 0), record(MTOC, 0, 0, 1)]
        file = session(1, 2, [7, 8], loaded + [record(*r) for pair in pairs for r in pair])
        assert [a[1] for a in answers(file)[2:]] == [number, 0] * len(pairs)
        yield file


def of_files(tried):
    """1, 2, 17, 18 and 19: files that are refused, and the file mended."""
    records = [record(MTOC, 0), record(READ, 0)]
    good = session(4, 2, [7], records)
    for number, bad in ((1, session(4, 17, [7], records)), (1, session(4, 2, [7], records, n=513)),
                        (2, session(5, 2, [7], records)), (17, session(4, 2, [7], records, mark=b"CCL")),
                        (18, session(4, 2, [7], records, version=2)), (19, good[:-1])):
        tried.add(number)
        assert model.listing(bad) == b"refused %d\n" % number
        yield bad
    assert answers(good) == [(MTOC, 0, 0), (READ, 0, 7)]
    yield good


def of_length():
    """19: a session of over 4,096 records, and its two parts.  Each turn ends with no copy and no lock."""
    turn = [(ACQUIRE, 0), (WRITE, 0), (CTOM, 0), (RELEASE, 0), (DROP, 0), (MTOC, 1), (READ, 1), (DROP, 1)]
    turns, at = range(1000, 1513), 4096
    records = [record(code, p, value=v if code == WRITE else 0) for v in turns for code, p in turn]
    whole = session(4, 2, [START], records)
    main = turns[at // len(turn) - 1]
    parts = [session(4, 2, [START], records[:at]), session(4, 2, [main], records[at:])]
    assert model.listing(whole) == b"refused 19\n"
    assert answers(parts[0]) + answers(parts[1]) == model.run(4, 2, [START], b"".join(records))[0]
    # split within a turn, or started with other values, the second part would be answered otherwise
    assert answers(session(4, 2, [main], records[at - 2:]))[0] != answers(parts[0])[-2]
    return [whole, *parts]


def on_page():
    """What the page says is to be done, by number."""
    with open(os.path.join(HERE, "..", "docs", "LISTING.md"), encoding="utf-8") as f:
        table = f.read().split("## What each number means")[1].split("\n## ")[0]
    return {int(number): text for number, text in re.findall(r"^\| (\d+) \| .*? \| (.*) \|$", table, re.M)}


def sessions():
    """Every session on which the advice was tried.  Fails if a piece of it fails."""
    tried, said = set(), on_page()
    out = [*of_guards(tried), *of_rules(tried), *of_records(tried), *of_files(tried), *of_length()]
    assert tried == set(ADVICE)
    for number in ADVICE:
        assert said[number] == ADVICE[number], "docs/LISTING.md has other advice for %d" % number
    return out


if __name__ == "__main__":
    files = sessions()
    print("advice: tried for %d numbers on %d sessions of %d bytes" % (len(ADVICE), len(files), sum(map(len, files))))
