#!/usr/bin/env python3
"""An independent model of the memory table and of session files.

Written from document 01 (01-scope.md) alone.  It shares nothing with the
definitions, proofs or code of the project; that is its only worth.

    python3 tests/model.py < file.ccs      the listing of one session file
    python3 tests/model.py --self-test     document 01's own examples

Cells and sessions come first; behind them the public functions on lent
slices (lists of numbers) of any lengths, which they change in place.
"""
import sys

READ, WRITE, BARRIER, MTOC, CTOM, CTOC, DROP, ACQUIRE, RELEASE = range(9)
MAX_RECORDS = 4096


def in_range(boards, n):
    return 1 <= boards <= 16 and 1 <= n <= 512


class Cell:
    """One cell: main, the P copies, and the three sets of boards."""

    def __init__(self, boards, main):
        self.main = main
        self.copy = [0] * boards
        self.live, self.dirty, self.lock = set(), set(), set()

    def current(self):
        """The dirty copy if there is one, else main."""
        return next((v for p, v in enumerate(self.copy) if p in self.dirty), self.main)

    def failing(self):
        """The conditions of soundness that fail here, whoever asks for them."""
        boards = range(len(self.copy))
        live, dirty, lock = (b & set(boards) for b in (self.live, self.dirty, self.lock))
        current = {self.copy[p] for p in dirty} or {self.main}
        holds = {
            "bits": live | dirty | lock == self.live | self.dirty | self.lock,
            "zero": all(self.copy[p] == 0 for p in boards if p not in live),
            "no lock": not self.lock,
            "Inv2": dirty <= live,
            "Inv3": len(dirty) <= 1,
            "Inv4": all({self.copy[p]} == current for p in live),
            "Inv5": len(lock) <= 1,
            "Inv6": not any(live - {p} for p in lock),
            "Inv7": dirty <= lock,
        }
        return [name for name in CONDITIONS if not holds[name]]

    def sound(self, rule):
        return not any(rule in CONDITIONS[name] for name in self.failing())


# The conditions of soundness, and the rules that ask for each.
CONDITIONS = {
    "bits": (0, 1, 2, 3, 4),        # no mask bit at P or above
    "zero": (0, 1, 2, 3, 4),        # copies that are not live hold 0
    "no lock": (0, 1, 2),           # lock mask is 0
    "Inv2": (0, 1, 2, 3, 4),        # dirty boards are live
    "Inv3": (1, 2, 3, 4),           # at most one board is dirty
    "Inv4": (2, 3, 4),              # every live copy equals the current value
    "Inv5": (3, 4),                 # at most one lock
    "Inv6": (3, 4),                 # when p has the lock no other board is live
    "Inv7": (4,),                   # a dirty board has the lock
}


def refusals(rule, c, code, p, q):
    """The refusals of the guard table that hold, in its order."""
    others_live, others_dirty = c.live - {p}, c.dirty - {p}
    row = {
        READ: [(8, p not in c.live),
               (15, rule == 1 and c.copy[p] != c.current())],
        WRITE: [(11, rule == 1 and p not in c.dirty and others_dirty),
                (12, rule == 2 and others_live),
                (14, rule >= 3 and p not in c.lock)],
        BARRIER: [(16, p in c.live)],
        MTOC: [(9, p in c.dirty),
               (11, rule in (2, 3) and others_dirty),
               (13, rule in (3, 4) and c.lock - {p})],
        CTOM: [(10, p not in c.dirty)],
        CTOC: [(13, rule in (3, 4) and c.lock),
               (9, q in c.dirty),
               (8, p not in c.live)],
        DROP: [(9, p in c.dirty)],
        ACQUIRE: [(13, c.lock),
                  (12, others_live)],
        RELEASE: [(9, rule == 4 and p in c.dirty)],
    }[code]
    return [number for number, holds in row if holds]


def guard(rule, c, code, p, q):
    """The first refusal of the guard table that holds, or 0."""
    return (refusals(rule, c, code, p, q) + [0])[0]


def effect(c, code, p, q, value):
    """Performs an accepted action; the value answered."""
    if code == READ:
        return c.copy[p]
    if code == WRITE:
        c.copy[p] = value
        c.live.add(p)
        c.dirty.add(p)
    elif code == MTOC:
        c.copy[p] = c.main
        c.live.add(p)
    elif code == CTOM:
        c.main = c.copy[p]
        c.dirty.discard(p)
    elif code == CTOC:
        c.copy[q] = c.copy[p]
        c.live.add(q)
    elif code == DROP:
        c.copy[p] = 0
        c.live.discard(p)
    elif code == ACQUIRE:
        c.lock.add(p)
    elif code == RELEASE:
        c.lock.discard(p)
    return 0


def exists(rule, code):
    if code == BARRIER:
        return rule == 0
    if code in (ACQUIRE, RELEASE):
        return rule >= 3
    return True


def step(rule, boards, cells, code, p, q, cell, value):
    """One action on the table: (answer number, value answered)."""
    if code > 8 or (code != CTOC and q != 0) or (code != WRITE and value != 0):
        return 3, 0
    if not exists(rule, code):
        return 4, 0
    if p >= boards or (code == CTOC and q >= boards):
        return 5, 0
    if cell >= len(cells):
        return 6, 0
    c = cells[cell]
    if not c.sound(rule):
        return 7, 0
    refusal = guard(rule, c, code, p, q)
    if refusal:
        return refusal, 0
    return 0, effect(c, code, p, q, value)


def number(some_bytes):
    return int.from_bytes(some_bytes, "little")


def read_file(file, sizes_good=in_range):
    """(0, rule, P, starting values, record bytes) or (refusal, 0, 0, [], b'').

    sizes_good also judges the lengths of slices that are lent beside the file.
    """
    def refused(n):
        return n, 0, 0, [], b""
    if len(file) < 9:
        return refused(19)
    if file[0:3] != b"CCS":
        return refused(17)
    if number(file[3:5]) != 1:
        return refused(18)
    rule, boards, n = file[5], file[6], number(file[7:9])
    if not sizes_good(boards, n):
        return refused(1)
    if rule > 4:
        return refused(2)
    body = file[9:]
    if len(body) < 4 * n:
        return refused(19)
    records = body[4 * n:]
    if len(records) % 9 != 0 or len(records) // 9 > MAX_RECORDS:
        return refused(19)
    start = [number(body[4 * i:4 * i + 4]) for i in range(n)]
    return 0, rule, boards, start, records


def split(records):
    """The records as (code, p, q, cell, value)."""
    for i in range(0, len(records), 9):
        r = records[i:i + 9]
        yield r[0], r[1], r[2], number(r[3:5]), number(r[5:9])


def run(rule, boards, start, records, cells=None):
    """(list of (code, answer, value), accepted, stale); cells take the end table."""
    cells = [] if cells is None else cells
    cells[:] = [Cell(boards, v) for v in start]
    latest = list(start)
    answers = []
    for code, p, q, cell, value in split(records):
        answer, got = step(rule, boards, cells, code, p, q, cell, value)
        if answer == 0 and code == WRITE:
            latest[cell] = value
        answers.append((code, answer, got))
    accepted = sum(1 for _, answer, _ in answers if answer == 0)
    stale = sum(1 for c, v in zip(cells, latest) for p in c.live if c.copy[p] != v)
    return answers, accepted, stale


def listing(file):
    """Exactly what the program `session` writes for this file."""
    refusal, rule, boards, start, records = read_file(file)
    if refusal:
        return b"refused %d\n" % refusal
    answers, accepted, stale = run(rule, boards, start, records)
    lines = [b"%d %d %d\n" % (rule, boards, len(start))]
    for i, (code, answer, got) in enumerate(answers):
        lines.append(b"%d %d %d %d\n" % (i, code, answer, got))
    lines.append(b"%d %d %d\n" % (len(answers), accepted, stale))
    return b"".join(lines)


def record(code, p, q=0, cell=0, value=0):
    return (bytes([code, p, q]) + cell.to_bytes(2, "little")
            + value.to_bytes(4, "little"))


def session(rule, boards, start, records, n=None, mark=b"CCS", version=1):
    """The bytes of a session file; n, mark and version serve damaged ones."""
    n = len(start) if n is None else n
    return (mark + version.to_bytes(2, "little") + bytes([rule, boards])
            + n.to_bytes(2, "little")
            + b"".join(v.to_bytes(4, "little") for v in start)
            + b"".join(records))


# The public functions.  A refusal returns before the first change.

def sizes_good(boards, n, main, copies, masks):
    return (in_range(boards, n) and len(main) == n and len(copies) == n * boards
            and len(masks) == 3 * n)


def boards_of(mask):
    """Board p is the bit worth 2^p."""
    return {p for p in range(16) if mask >> p & 1}


def mask_of(boards):
    return sum(2 ** p for p in boards)


def take(boards, c, main, copies, masks):
    """Cell c out of the three slices."""
    cell = Cell(boards, main[c])
    cell.copy = copies[c * boards:(c + 1) * boards]
    cell.live, cell.dirty, cell.lock = map(boards_of, masks[3 * c:3 * c + 3])
    return cell


def put(cell, c, main, copies, masks):
    """Cell c into the three slices."""
    boards = len(cell.copy)
    main[c] = cell.main
    copies[c * boards:(c + 1) * boards] = cell.copy
    masks[3 * c:3 * c + 3] = map(mask_of, (cell.live, cell.dirty, cell.lock))


def fresh(boards, n, starting, main, copies, masks):
    """(number, value)."""
    if not sizes_good(boards, n, main, copies, masks) or len(starting) != n:
        return 1, 0
    for c in range(n):
        put(Cell(boards, starting[c]), c, main, copies, masks)
    return 0, 0


def check(rule, boards, n, main, copies, masks):
    """("refused", number), ("unsound", cell) or ("sound",)."""
    if not sizes_good(boards, n, main, copies, masks):
        return "refused", 1
    if rule > 4:
        return "refused", 2
    for c in range(n):
        if not take(boards, c, main, copies, masks).sound(rule):
            return "unsound", c
    return ("sound",)


def step_lent(rule, boards, n, code, p, q, cell, value, main, copies, masks):
    """(number, value): step, behind 1 and 2."""
    if not sizes_good(boards, n, main, copies, masks):
        return 1, 0
    if rule > 4:
        return 2, 0
    cells = [take(boards, c, main, copies, masks) for c in range(n)]
    answer, got = step(rule, boards, cells, code, p, q, cell, value)
    if answer == 0:
        put(cells[cell], cell, main, copies, masks)
    return answer, got


def head_of(file):
    """(rule, P, N, where the records begin, whole records behind it) as the first nine bytes say; nothing is refused."""
    if len(file) < 9:
        return 0, 0, 0, 0, 0
    n = number(file[7:9])
    begin = 9 + 4 * n
    return file[5], file[6], n, begin, len(file[begin:]) // 9


def read(file, starting):
    """((number, rule, P, N), record bytes)."""
    refusal, rule, boards, start, records = read_file(
        bytes(file), lambda boards, n: in_range(boards, n) and len(starting) == n)
    if refusal:
        return (refusal, 0, 0, 0), []
    starting[:] = start
    return (0, rule, boards, len(start)), list(records)


def write(rule, boards, n, starting, records, out):
    """(number, value)."""
    if not in_range(boards, n) or len(starting) != n:
        return 1, 0
    if rule > 4:
        return 2, 0
    if len(records) % 9 != 0 or len(records) // 9 > MAX_RECORDS:
        return 19, 0
    file = session(rule, boards, starting, [bytes(records)])
    if len(out) < len(file):
        return 20, 0
    out[:len(file)] = file
    return 0, 0


def run_lent(file, main, copies, masks, numbers, values):
    """(number, accepted, stale)."""
    refusal, rule, boards, start, records = read_file(
        bytes(file), lambda boards, n: sizes_good(boards, n, main, copies, masks))
    if refusal:
        return refusal, 0, 0
    count = len(records) // 9
    if len(numbers) < count or len(values) < count:
        return 20, 0, 0
    cells = []
    answers, accepted, stale = run(rule, boards, start, records, cells)
    for c, cell in enumerate(cells):
        put(cell, c, main, copies, masks)
    numbers[:count] = [answer for _, answer, _ in answers]
    values[:count] = [got for _, _, got in answers]
    return 0, accepted, stale


def list_lent(file, out):
    """(number, length of the listing)."""
    text = listing(bytes(file))
    if len(out) < len(text):
        return 20, 0
    out[:len(text)] = text
    return 0, len(text)


EXAMPLE = session(4, 2, [7], [
    record(MTOC, 0), record(READ, 0), record(ACQUIRE, 1), record(DROP, 0),
    record(ACQUIRE, 1), record(WRITE, 1, value=9), record(READ, 0),
    record(RELEASE, 1), record(CTOM, 1), record(MTOC, 0), record(RELEASE, 1),
    record(MTOC, 0), record(READ, 0)])

EXAMPLE_LISTING = b"""4 2 1
0 3 0 0
1 0 0 7
2 7 12 0
3 6 0 0
4 7 0 0
5 1 0 0
6 0 8 0
7 8 9 0
8 4 0 0
9 3 13 0
10 8 0 0
11 3 0 0
12 0 0 9
13 9 0
"""


def self_test():
    assert len(EXAMPLE) == 130
    assert listing(EXAMPLE) == EXAMPLE_LISTING

    # "Cells to try by hand": (copies, live, dirty, lock), main 7.
    states = {"S0": ([0, 0], 0, 0, 0), "S1": ([9, 0], 1, 1, 0),
              "S2": ([9, 7], 3, 1, 0), "S3": ([9, 9], 3, 1, 0),
              "S0 lock 2": ([0, 0], 0, 0, 2)}
    cases = [
        ("S0", 4, (READ, 0), 8, 0, "S0"),
        ("S0", 4, (ACQUIRE, 1), 0, 0, "S0 lock 2"),
        ("S0", 4, (WRITE, 0, 5), 14, 0, "S0"),
        ("S0", 4, (BARRIER, 0), 4, 0, "S0"),
        ("S0", 0, (WRITE, 0, 9), 0, 0, "S1"),
        ("S1", 0, (MTOC, 1), 0, 0, "S2"),
        ("S1", 0, (BARRIER, 0), 16, 0, "S1"),
        ("S1", 1, (WRITE, 1, 5), 11, 0, "S1"),
        ("S2", 1, (READ, 1), 15, 0, "S2"),
        ("S3", 1, (READ, 1), 0, 9, "S3"),
        ("S1", 2, (MTOC, 1), 11, 0, "S1"),
        ("S2", 2, (READ, 1), 7, 0, "S2"),
        ("S3", 2, (WRITE, 0, 5), 12, 0, "S3"),
        ("S1", 3, (READ, 0), 0, 9, "S1"),
        ("S1", 3, (RELEASE, 0), 0, 0, "S1"),
        ("S1", 4, (READ, 0), 7, 0, "S1"),
    ]
    assert len(cases) == 16

    for before, rule, action, answer, got, after in cases:
        code, p, value = (action + (0,))[:3]
        copies, *masks = states[before]
        lent = [7], list(copies), masks
        said = step_lent(rule, 2, 1, code, p, 0, 0, value, *lent)
        assert said == (answer, got), (before, rule, action, said)
        copies, *masks = states[after]
        assert lent == ([7], copies, masks), (before, rule, action, lent)

    # The limits, of a table and of a file.
    def table(boards, n):
        return [0] * n, [0] * (n * boards), [0] * (3 * n)

    assert fresh(16, 512, [1] * 512, *table(16, 512)) == (0, 0)
    assert check(4, 16, 512, *table(16, 512)) == ("sound",)
    for boards, n in ((0, 1), (17, 1), (1, 0), (1, 513)):
        assert not in_range(boards, n)
        assert fresh(boards, n, [0] * n, *table(boards, n)) == (1, 0)
        assert check(0, boards, n, *table(boards, n)) == ("refused", 1)
        assert step_lent(0, boards, n, DROP, 0, 0, 0, 0, *table(boards, n)) == (1, 0)
    for cell, answer in ((511, 0), (512, 6)):
        assert step_lent(0, 16, 512, DROP, 15, 0, cell, 0, *table(16, 512)) == (answer, 0)
    assert listing(session(0, 16, [0] * 512, [])) == b"0 16 512\n0 0 0\n"
    for boards, n in ((0, 1), (17, 1), (1, 0), (1, 513)):
        assert listing(session(0, boards, [0] * n, [])) == b"refused 1\n"
    assert listing(session(0, 1, [0] * 3, [record(DROP, 0, cell=2),
                                           record(DROP, 0, cell=3)])) \
        == b"0 1 3\n0 6 0 0\n1 6 6 0\n2 1 0\n"
    many = [record(DROP, 0)] * 4096
    assert listing(session(0, 1, [0], many)).endswith(b"\n4096 4096 0\n")
    assert listing(session(0, 1, [0], many + many[:1])) == b"refused 19\n"
    for records, answer in ((many, 0), (many + many[:1], 19)):
        out = [0] * 40_000
        assert write(0, 1, 1, [0], b"".join(records), out) == (answer, 0)
        assert run_lent(session(0, 1, [0], records), *table(1, 1), [0] * 4097, [0] * 4097) \
            == (answer, 0 if answer else 4096, 0)
    print("model: 130-byte example, 16 cells and the limits hold")


if __name__ == "__main__":
    if sys.argv[1:] == ["--self-test"]:
        self_test()
    else:
        sys.stdout.buffer.write(listing(sys.stdin.buffer.read()))
