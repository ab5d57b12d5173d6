#!/usr/bin/env python3
"""Gathers session files, and makes their listings by the model (tests/model.py).

    python3 tests/make_replay.py INPUT OUTPUT

INPUT: the session files one behind the other, each with its length before it
as 4 bytes little-endian.  OUTPUT: their listings one behind the other.
The files are 242 that are made here, those of the model's self-test, those of
examples/, and those on which the advice of docs/LISTING.md is tried
(tests/advice.py).  Fails if the self-test or a piece of advice does.
The seed is fixed, so the same two files come out each time.
"""
import glob
import os
import random
import sys
from collections import Counter

HERE = os.path.dirname(os.path.abspath(__file__))
sys.path.insert(0, HERE)
import advice  # noqa: E402
import model  # noqa: E402
from model import (ACQUIRE, BARRIER, CTOC, CTOM, DROP, MTOC, READ, RELEASE,  # noqa: E402
                   WRITE, record, session)

R = random.Random(20240601)
RANDOM = 240
TOP = 0xFFFFFFFF


def value():
    kind = R.random()
    if kind < 0.45:
        return R.choice((0, 1, 2, 7, 9, 10))      # equal values meet often
    if kind < 0.60:
        return R.choice((TOP, TOP - 1, 1 << 31, (1 << 31) - 1, 999999999,
                         1000000000, 65535, 65536, 255, 256, 100, 99))
    return R.randrange(TOP + 1)


def malformed(boards, n):
    """A record that gets 3, 5 or 6 (or 4 first, where the rule lacks it)."""
    kind = R.randrange(8)
    p, cell, code = R.randrange(boards), R.randrange(n), R.randrange(9)
    q = R.randrange(boards) if code == CTOC else 0
    v = value() if code == WRITE else 0
    if kind == 0:
        return record(R.choice((9, 10, 127, 128, 255)), p, 0, cell, 0)
    if kind == 1:                                  # q used by code 5 only
        return record(R.choice([c for c in range(9) if c != CTOC]), p,
                      R.choice((1, 255)), cell, 0)
    if kind == 2:                                  # value used by code 1 only
        return record(R.choice([c for c in range(9) if c != WRITE]), p, 0,
                      cell, R.choice((1, 256, 65536, 1 << 24, TOP)))
    if kind == 3:
        return record(code, R.choice((boards, boards + 1, 16, 255)), q, cell, v)
    if kind == 4:
        return record(CTOC, p, R.choice((boards, 16, 255)), cell, 0)
    if kind == 5:
        return record(code, p, q, R.choice((n, n + 1, n + 256, 512, 65535)), v)
    if kind == 6:                                  # board and cell both bad
        return record(code, 255, q, 65535, v)
    return bytes(R.randrange(256) for _ in range(9))


def sound_action(rule, boards, hot, last):
    """A well-formed action, chosen so that much is accepted."""
    p, cell = R.randrange(boards), R.choice(hot)
    if last and R.random() < 0.6:                  # go on where we were
        code, lp, lq, lcell = last
        follow = {MTOC: (READ, DROP, CTOC), CTOC: (READ, READ, WRITE),
                  WRITE: (READ, CTOM, CTOC, WRITE, MTOC), READ: (CTOC, DROP, WRITE),
                  CTOM: (RELEASE, READ, CTOC, MTOC), DROP: (ACQUIRE, BARRIER, MTOC),
                  ACQUIRE: (WRITE, WRITE, MTOC), RELEASE: (CTOC, MTOC, READ),
                  BARRIER: (MTOC, WRITE)}
        code = R.choice(follow[code])
        cell = lcell
        p = lq if last[0] == CTOC else lp
        if R.random() < 0.3:
            p = R.randrange(boards)
    else:
        code = R.choice((READ, READ, WRITE, WRITE, WRITE, MTOC, MTOC, CTOM, CTOC,
                         DROP, DROP, BARRIER, ACQUIRE, RELEASE))
    if not model.exists(rule, code) and R.random() < 0.9:
        code = R.choice((READ, WRITE, MTOC, CTOM, CTOC, DROP))
    q = R.randrange(boards) if code == CTOC else 0
    return code, p, q, cell, value() if code == WRITE else 0


def random_session(rule, boards, n, count, bad=0.06):
    start = [value() for _ in range(n)]
    hot = sorted({0, n - 1, *(R.randrange(n) for _ in range(R.choice((1, 1, 2, 4))))})
    hot = R.sample(hot, R.randint(1, len(hot)))    # few cells: boards meet
    cells = [model.Cell(boards, v) for v in start]
    records, last = [], None
    for _ in range(count):
        if R.random() < bad:
            r = malformed(boards, n)
        else:
            a = sound_action(rule, boards, hot, last)
            if R.random() < 0.6:                   # mostly wait for one that fits
                for _ in range(6):
                    c = cells[a[3]]
                    idle = (a[0] == DROP and a[1] not in c.live
                            or a[0] == RELEASE and a[1] not in c.lock)
                    if (model.exists(rule, a[0]) and not idle
                            and model.guard(rule, c, *a[:3]) == 0):
                        break
                    a = sound_action(rule, boards, hot, last)
            r = record(*a)
        act = next(model.split(r))
        if model.step(rule, boards, cells, *act)[0] == 0:
            last = act[:4]
        records.append(r)
    return session(rule, boards, start, records)


def damaged():
    """Files with each refusal, also several faults at once (the order)."""
    good = model.EXAMPLE
    out = [b"", b"C", b"CCS", good[:8], b"XXX", b"CCS\2\0\7\0\0"]         # 19: under 9
    out += [b"XCS" + good[3:], b"CXS" + good[3:], b"CCX" + good[3:],      # 17
            b"ccs" + good[3:], b"XCS\2\0\7\0\0\0", b"\0" * 9, b"\xff" * 40]
    out += [session(4, 2, [7], [], version=v) for v in (0, 2, 256, 257, 65535)]  # 18
    out += [session(9, 0, [], [], version=3), session(9, 17, [1], [b"x"], version=511)]
    for rule in (0, 4, 5):                                                # 1
        out += [session(rule, 0, [1], []), session(rule, 17, [1], []),
                session(rule, 2, [], []), session(rule, 255, [1], [b"x"]),
                session(rule, 2, [1, 2], [], n=513)]
    out += [session(1, 1, list(range(513)), []), session(0, 0, [], []),
            session(2, 16, [], [record(DROP, 0)]), session(3, 1, [5], [], n=65535)]
    out += [session(r, 2, [7], [record(READ, 0)]) for r in (5, 6, 128, 255)]     # 2
    out += [session(5, 16, [1], [], n=512), session(5, 1, [1], [b"part"])]
    out += [session(4, 2, [7], [], n=2), session(0, 1, [], [], n=1),      # 19: body
            session(3, 16, [1] * 511, [], n=512), session(1, 2, [7, 8], [])[:-1],
            session(2, 3, [7], [], n=256)]
    out += [good[:-1], good[:-8], good + b"\0", good + b"12345678",       # 19: part
            session(0, 1, [3], [b"\0"]), session(2, 1, [3], [record(DROP, 0), b"abc"])]
    return out


def edge():
    """Accepted files at the limits."""
    out = [model.EXAMPLE]
    out += [session(r, 1, [r], []) for r in range(5)]                     # no records
    out += [session(4, 16, [TOP] * 512, []),
            session(0, 16, list(range(512)), [record(MTOC, 15, 0, 511), record(READ, 15, 0, 511),
                                              record(READ, 16, 0, 511), record(READ, 15, 0, 512)])]
    every = [record(c, 0, 0, 0, 5 if c == WRITE else 0) for c in range(9)]
    out += [session(r, 2, [7], every + every[::-1]) for r in range(5)]
    return out


def files():
    out = edge() + damaged()
    out.append(random_session(3, 4, 3, 4096, bad=0.03))
    out.append(session(3, 4, [1, 2, 3], [record(i % 10, i % 3) for i in range(4097)]))
    for rule in range(5):
        out.append(random_session(rule, 16, 512, 60))
        out.append(random_session(rule, 1, 1, 30))
        out.append(random_session(rule, 16, 1, 60))
    while len(out) < RANDOM:
        rule = len(out) % 5
        boards = R.choice((2, 2, 2, 3, 3, 4, 5, 8, 15, 16))
        n = R.choice((1, 1, 1, 2, 2, 3, 4, 7, 16, 40))
        out.append(random_session(rule, boards, n, R.randint(5, 70)))
    assert len(out) == RANDOM
    R.shuffle(out)
    return out + long()


def long():
    """A long listing: a Read of ten digits in each line.  A file longer than any accepted one."""
    return [session(0, 1, [TOP], [record(MTOC, 0)] + [record(READ, 0)] * 4095),
            session(4, 16, list(range(512)), [record(READ, 0)] * 4097)]


def self_tested():
    """Runs the model's self-test; the files that it lists."""
    asked, listing = [], model.listing
    model.listing = lambda file: asked.append(file) or listing(file)
    model.self_test()
    model.listing = listing
    return asked


def examples():
    for path in sorted(glob.glob(os.path.join(HERE, "..", "examples", "*.ccs"))):
        with open(path, "rb") as f:
            yield f.read()


def main():
    if len(sys.argv) != 3:
        sys.exit(__doc__)
    given = {"self-test": self_tested(), "made": files(), "examples": list(examples()), "advice": advice.sessions()}
    assert all(given.values())
    answers, refused, by_rule, stale = Counter(), Counter(), Counter(), Counter()
    taken, records = Counter(), 0
    inp, outp = [], []
    for f in [*given["made"], *given["self-test"], *given["examples"], *given["advice"]]:
        assert len(f) < 65536
        text = model.listing(f)
        inp += [len(f).to_bytes(4, "little"), f]
        outp.append(text)
        lines = text.decode().splitlines()
        if lines[0].startswith("refused"):
            refused[int(lines[0].split()[1])] += 1
            continue
        rule = int(lines[0].split()[0])
        by_rule[rule] += 1
        stale[rule] += int(lines[-1].split()[2])
        for line in lines[1:-1]:
            _, code, answer, _ = map(int, line.split())
            records += 1
            answers[answer] += 1
            if answer == 0:
                taken[rule, code] += 1
    inp, outp = b"".join(inp), b"".join(outp)
    assert all(answers[k] >= 5 for k in (0, 3, 4, 5, 6, *range(8, 17)))
    assert all(refused[k] >= 5 for k in (1, 2, 17, 18, 19))
    assert answers[7] == 0
    assert all(taken[r, c] >= 5 for r in range(5) for c in range(9) if model.exists(r, c))
    assert all(stale[r] == 0 for r in (2, 3, 4)) and stale[0] and stale[1]
    for path, data in zip(sys.argv[1:], (inp, outp)):
        with open(path, "wb") as f:
            f.write(data)

    def say(*words):
        print(*words, file=sys.stderr)
    say("session files:", ", ".join("%d %s" % (len(fs), what) for what, fs in given.items()))
    say("in all:", sum(by_rule.values()) + sum(refused.values()), " accepted:", sum(by_rule.values()),
        " refused:", sum(refused.values()))
    say("input bytes:", len(inp), " output bytes:", len(outp), " records run:", records)
    say("number  records  files refused")
    for k in range(21):
        say("%6d %8d %8d" % (k, answers[k], refused[k]))
    say("rule: files, stale copies, accepted actions by code 0 to 8")
    for r in range(5):
        say("   %d: %d, %d, %s" % (r, by_rule[r], stale[r],
                                   " ".join(str(taken[r, c]) for c in range(9))))


if __name__ == "__main__":
    main()
