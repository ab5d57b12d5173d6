#!/usr/bin/env python3
"""Makes the session files of examples/ : the accident that README tells.

    python3 tests/make_examples.py examples

Board 0 measures, board 1 fits the matrix.  Cells 0 to 2 are patch means,
cell 3 is the lamp state.  The same records stand in five files; only the rule
differs.  In a sixth an old value is read under rule 0 and no copy is stale at
the end.  Prints each listing by the model, and checks what is told of them.
"""
import os
import sys

sys.path.insert(0, os.path.dirname(os.path.abspath(__file__)))
import model  # noqa: E402
from model import (ACQUIRE, CTOC, CTOM, DROP, MTOC, READ, RELEASE,  # noqa: E402
                   WRITE, record, session)

NAMES = "Read Write Barrier MtoC CtoM CtoC Drop Acquire Release".split()
OLD, NEW = [5120, 2310, 1405], [4870, 2655, 1390]
LAMP = 3


def store(cell, value):
    """Board 0 puts a value into a cell and on to main."""
    return [record(ACQUIRE, 0, 0, cell), record(WRITE, 0, 0, cell, value),
            record(CTOM, 0, 0, cell), record(RELEASE, 0, 0, cell)]


def story():
    r = []
    for c in range(3):                                     # 0..11  measure
        r += store(c, OLD[c])
    r += [record(MTOC, 1, 0, 0), record(CTOC, 0, 1, 1), record(MTOC, 1, 0, 2)]
    r += [record(READ, 1, 0, c) for c in range(3)]         # 12..17 load, read
    r += store(LAMP, 2)                                    # 18..21 new lamps
    for c in range(3):                                     # 22..33 measure anew
        r += store(c, NEW[c])
    r += [record(READ, 1, 0, c) for c in range(3)]         # 34..36 THE FIT
    r += [record(DROP, 1, 0, 0)] + store(0, NEW[0])        # 37..41 done properly,
    r += [record(MTOC, 1, 0, 0), record(READ, 1, 0, 0)]    # 42..43 for cell 0
    return r


def main():
    where = sys.argv[1]
    made = {"lamp-change-rule-%d.ccs" % k: session(k, 2, [0, 0, 0, 1], story())
            for k in range(5)}
    made["refused.ccs"] = made["lamp-change-rule-4.ccs"][:-4]
    made["none-stale-old-read.ccs"] = session(0, 2, [7], [
        record(MTOC, 1), record(WRITE, 0, value=9), record(CTOM, 0), record(READ, 1), record(DROP, 1)])
    for name, data in made.items():
        with open(os.path.join(where, name), "wb") as f:
            f.write(data)
        print("==", name, len(data), "bytes")
        lines = model.listing(data).decode().splitlines()
        acts = list(model.split(model.read_file(data)[4]))
        for i, line in enumerate(lines):
            note = ""
            if 1 <= i <= len(acts):
                code, p, q, cell, v = acts[i - 1]
                note = "  | %s board %d%s cell %d%s" % (
                    NAMES[code], p, " to %d" % q if code == CTOC else "", cell,
                    " of %d" % v if code == WRITE else "")
            print(line + note)

    def fit(k):
        run = model.run(*model.read_file(made["lamp-change-rule-%d.ccs" % k])[1:])
        return run[0], run[2]

    for k in range(5):
        answers, stale = fit(k)
        writes = [answers[23 + 4 * c][1] for c in range(3)]     # the new means
        reads = [answers[34 + c][1:] for c in range(3)]         # the fit
        assert answers[43] == (READ, 0, NEW[0])                 # done properly
        if k == 0:
            assert writes == [0, 0, 0] and reads == [(0, v) for v in OLD]
            assert stale == 2
        elif k == 1:
            assert writes == [0, 0, 0] and reads == [(15, 0)] * 3 and stale == 2
        else:
            assert writes == [12 if k == 2 else 14] * 3         # not taken in:
            assert reads == [(0, v) for v in OLD] and stale == 0    # still the latest
    assert model.listing(made["refused.ccs"]) == b"refused 19\n"
    lines = model.listing(made["none-stale-old-read.ccs"]).splitlines()
    assert lines[4] == b"3 0 0 7" and lines[-1] == b"5 5 0"


if __name__ == "__main__":
    main()
