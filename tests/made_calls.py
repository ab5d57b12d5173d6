"""Makes calls of every public function, with a fixed seed (for make_cases.py).

Cells of up to three boards are all made first and sorted by what holds of
them; wider cells are these with their boards and values renamed.
"""
import random
from collections import Counter, defaultdict
from copy import deepcopy
from itertools import combinations, product

import calls
import model
from model import (ACQUIRE, BARRIER, CTOC, CTOM, DROP, MTOC, READ, RELEASE, WRITE,
                   Cell, record, session)

R = random.Random(20261116)
RULES = range(5)
TOP = 2 ** 32 - 1
HUGE = 2 ** 64 - 1


# ---------------------------------------------------------------- small cells

def small_cells(boards):
    """Every cell of so few boards, sound or not, with values 0 to 2."""
    sets = [model.boards_of(m) for m in range(2 ** boards)]
    for main, *copy in product(range(3), repeat=boards + 1):
        for live, dirty, lock in product(sets, repeat=3):
            c = Cell(boards, main)
            c.copy, c.live, c.dirty, c.lock = copy, live, dirty, lock
            yield c


# Each by the number of boards:
SOUND = defaultdict(lambda: defaultdict(list))      # (rule, code, the refusals that hold): cell, p, q
ALONE = defaultdict(lambda: defaultdict(list))      # (condition, rule): cells that fail what the rule asks in this alone
UNASKED = defaultdict(lambda: defaultdict(list))    # (condition, rule): sound cells that fail what the rule doesn't ask


def pick(by_boards):
    return R.choice(by_boards[R.choice(sorted(by_boards))])


def sort_small_cells():
    for boards in (1, 2, 3):
        for c in small_cells(boards):
            fails = c.failing()
            for rule in RULES:
                asked = [f for f in fails if rule in model.CONDITIONS[f]]
                if len(asked) == 1:
                    ALONE[asked[0], rule][boards].append(c)
                if asked:
                    continue
                for f in fails:
                    UNASKED[f, rule][boards].append(c)
                for code, p in product(range(9), range(boards)):
                    if model.exists(rule, code):
                        for q in range(boards) if code == CTOC else (0,):
                            SOUND[rule, code, tuple(model.refusals(rule, c, code, p, q))][boards].append((c, p, q))


def value():
    return R.choice((0, 0, 0, TOP, TOP, TOP, 1, 7, 9, 255, 256, 65536, 2 ** 31, TOP - 1, R.randrange(TOP), R.randrange(TOP)))


def widened(c, boards, one_name=None):
    """The small cell c with more boards, its boards and values renamed; and the new names.

    one_name is a board of c and its new name, where that matters.
    """
    ends = {0, boards - 1} if R.random() < 0.6 else set()
    name = sorted(ends) + R.sample([b for b in range(boards) if b not in ends], max(len(c.copy) - len(ends), 0))
    R.shuffle(name)
    if one_name:
        p, new = one_name
        name = [b for b in name if b != new]
        name.insert(p, new)
    one, two = R.sample((TOP, R.choice((1, 256, TOP - 1)), R.randrange(257, TOP - 1)), 2)
    values = [0, one, two]
    wide = Cell(boards, values[c.main])
    for p, v in enumerate(c.copy):
        wide.copy[name[p]] = values[v]
    wide.live, wide.dirty, wide.lock = ({name[p] for p in s} for s in (c.live, c.dirty, c.lock))
    return wide, name


def walked(rule, boards):
    """A cell after some accepted actions, so sound, with many boards about."""
    c = Cell(boards, value())
    for _ in range(R.randrange(3 * boards + 2)):
        a = action(rule, boards)
        if model.guard(rule, c, *a[:3]) == 0:
            model.effect(c, *a[:3], a[3])
    return c


def action(rule, boards):
    """A well-formed (code, p, q, value)."""
    code = R.choice([c for c in (READ, WRITE, WRITE, BARRIER, MTOC, MTOC, CTOM, CTOC, CTOC, DROP, ACQUIRE, ACQUIRE,
                                 RELEASE) if model.exists(rule, c)])
    return (code, R.randrange(boards), R.randrange(boards) if code == CTOC else 0,
            value() if code == WRITE else 0)


def junk(boards):
    """A cell of any numbers."""
    c = Cell(boards, value())
    c.copy = [value() for _ in range(boards)]
    c.live, c.dirty, c.lock = (model.boards_of(R.choice((0, 1, 2 ** 15, 2 ** 16 - 1, R.randrange(2 ** 16))))
                               for _ in range(3))
    return c


def with_high_bit(c, which, bit=None):
    """c with a bit at P or above in one of its masks."""
    d = deepcopy(c)
    getattr(d, which).add(bit or R.choice((len(c.copy), 15, R.randrange(len(c.copy), 16))))
    return d


def to_blame(c, condition):
    """The boards without which this condition holds."""
    def emptied(p):
        d = deepcopy(c)
        d.copy[p] = 0
        for boards in (d.live, d.dirty, d.lock):
            boards.discard(p)
        return d
    return [p for p in range(len(c.copy)) if condition not in emptied(p).failing()]


def some_boards(least=1):
    return R.choice((least, least, R.randint(least, min(16, least + 3)), R.randint(least, 16), 16, 16))


def some_n():
    return R.choice((1, 1, 1, 2, 2, 3, 4, 5))


def slices(cells):
    boards, n = len(cells[0].copy), len(cells)
    lent = [0] * n, [0] * (n * boards), [0] * (3 * n)
    for i, c in enumerate(cells):
        model.put(c, i, *lent)
    return lent


def table_with(c, n=None):
    """(N, index of c, slices): c among others, which may be damaged."""
    boards, n = len(c.copy), n or some_n()
    at = R.choice((0, n - 1, n - 1, R.randrange(n)))
    others = [R.choice((Cell(boards, value()), junk(boards), walked(0, boards))) for _ in range(n)]
    others[at] = c
    return n, at, slices(others)


# ------------------------------------------------------------- calls as lines

MADE = []                       # lines: `#` lines and calls


def about(text):
    MADE.append("# " + text)


def grouped(numbers, size):
    """Contents as text: dots within a group, counts before what repeats."""
    cut = len(numbers) - len(numbers) % size
    words = [".".join(map(str, numbers[i:i + size])) for i in range(0, cut, size)]
    return counted(words + [str(x) for x in numbers[cut:]])


def counted(words):
    out = []
    i = 0
    while i < len(words):
        j = i
        while j < len(words) and words[j] == words[i]:
            j += 1
        out += ["%d*%s" % (j - i, words[i])] if j - i >= 4 else words[i:j]
        i = j
    return " ".join(out)


def file_text(file):
    """A session file: the head, the starting values, the records."""
    n = 4 * model.head_of(file)[2]
    parts = grouped(file[:9], 9), grouped(file[9:9 + n], 4), grouped(file[9 + n:], 9)
    return " ".join(p for p in parts if p)


def call(name, numbers=(), lent=()):
    """Puts down one call; its answer's words.  lent: texts, or lists of numbers."""
    texts = [s if isinstance(s, str) else grouped(list(s), 1) for s in lent]
    bars = ["|"] + [t + " |" if t else "|" for t in texts]
    line = " ".join([name, *map(str, numbers), *(bars if texts else [])])
    MADE.append(line)
    return calls.answer(line).split(" |")[0].split(" ")


def table_texts(boards, lent):
    main, copies, masks = lent
    return [grouped(main, 1), grouped(copies, boards if 1 < boards <= 16 else 1), grouped(masks, 3)]


def step(rule, boards, n, code, p, q, cell, v, lent, expected=None):
    said = call("step", (rule, boards, n, code, p, q, cell, v), table_texts(boards, lent))
    assert expected is None or int(said[0]) == expected, (MADE[-1], said, expected)


def check(rule, boards, n, lent):
    return call("check", (rule, boards, n), table_texts(boards, lent))


# ---------------------------------------------------------------------- steps

def first(held):
    return (held + (0,))[0]


def steps_by_guard():
    about("Steps on sound cells: under each rule each action, accepted and with each set of refusals that can hold together.")
    by_number = Counter(first(held) for _, _, held in SOUND)
    for rule, code, held in sorted(SOUND):
        for _ in range(max(10, 30 // by_number[first(held)])):
            c, p, q = pick(SOUND[rule, code, held])
            c, name = widened(c, some_boards(len(c.copy)))
            n, at, lent = table_with(c)
            step(rule, len(c.copy), n, code, name[p], name[q] if code == CTOC else 0, at,
                 value() if code == WRITE else 0, lent, first(held))


def steps_at_edges():
    about("Accepted steps of board 15 (for CtoC: to board 15) on cell N-1.")
    for rule, code in product(RULES, range(9)):
        for _ in range(8 if model.exists(rule, code) else 0):
            c, p, q = pick(SOUND[rule, code, ()])
            c, name = widened(c, 16, (q if code == CTOC else p, 15))
            n, _, lent = table_with(c)
            model.put(c, n - 1, *lent)
            step(rule, 16, n, code, name[p], name[q] if code == CTOC else 0, n - 1,
                 R.choice((0, TOP)) if code == WRITE else 0, lent, 0)


def steps_walked():
    about("Steps on cells that accepted actions have made, mostly with many boards.")
    for i in range(250):
        rule = i % 5
        c = walked(rule, some_boards(2))
        n, at, lent = table_with(c, R.choice((1, 1, 2)))
        code, p, q, v = action(rule, len(c.copy))
        step(rule, len(c.copy), n, code, p, q, at, v, lent)


def wrong_sizes(boards, n, lent):
    """(P, N, slices) that get 1."""
    main, copies, masks = lent
    kind = R.randrange(9)
    if kind == 0:
        return 0, n, (main, [], masks)
    if kind == 1:
        return R.choice(((17, n, ([0] * n, [0] * 17 * n, [0] * 3 * n)), (boards, 0, ([], [], [])),
                         (1, 513, ([0] * 513, [0] * 513, [0] * 1539))))
    if kind == 2:
        return R.choice((17, 32, 255, 256, 2 ** 32, 2 ** 63, HUGE)), n, lent
    if kind == 3:
        return boards, R.choice((513, 65535, 65536, 2 ** 32, 2 ** 63, HUGE)), lent
    if kind == 4:                                   # numbers that a narrower type would cut to the right ones
        return R.choice(((boards + 256, n), (boards + 2 ** 16, n), (boards + 2 ** 32, n), (boards, n + 2 ** 16),
                         (boards, n + 2 ** 32), (boards + 2 ** 32, n + 2 ** 32))) + (lent,)
    if kind == 5:                                   # lengths that a product cut to 64 bits would allow
        return R.choice(((2 ** 32, 2 ** 32), (16, 2 ** 60), (2 ** 63, 2))) + (([], [], []),)
    slot, more = R.randrange(3), R.choice((-1, 1, 2, None))
    changed = [list(s) for s in lent]
    changed[slot] = [] if more is None else changed[slot][:more] if more < 0 else changed[slot] + [0] * more
    return boards, n, changed


def steps_refused(faults, rule):
    """A step with these faults (numbers 1 to 7, 8 for a guard): the lowest is answered."""
    keys = [k for k in sorted(SOUND) if k[0] == rule and bool(k[2]) == (8 in faults)
            and (4 in faults or 3 not in faults or k[1] != CTOC)]
    _, code, held = R.choice(keys)
    c, p, q = pick(SOUND[rule, code, held])
    c, name = widened(c, some_boards(len(c.copy)))
    boards, p, q = len(c.copy), name[p], name[q] if code == CTOC else 0
    v = value() if code == WRITE else 0
    if 7 in faults:
        while c.sound(rule):
            c = junk(boards)
    n, cell, lent = table_with(c)
    if 4 in faults:
        code, q, v = R.choice([k for k in (BARRIER, ACQUIRE, RELEASE) if not model.exists(rule, k)]), 0, 0
    if 3 in faults:
        kind = R.randrange(3)
        if kind == 0 and 4 not in faults:
            code = R.choice((9, 10, 16, 127, 128, 255))
        elif kind == 1 and code != CTOC or code == WRITE:
            q = R.choice((1, 2, boards, 15, 16, 255))
        else:
            v = R.choice((1, 256, 65536, 2 ** 24, TOP))
    if 5 in faults:
        wrong = [b for b in (boards, boards + 1, 16, 17, 128, 255) if b >= boards]
        if code == CTOC and R.random() < 0.6:
            q = R.choice(wrong)
        else:
            p = R.choice(wrong)
    if 6 in faults:
        cell = R.choice((n, n, n + 1, n + 256, 512, 65535))
    if 1 in faults:
        boards, n, lent = wrong_sizes(boards, n, lent)
    if 2 in faults:
        rule = R.choice((5, 5, 6, 16, 128, 255))
    number = min(faults)
    step(rule, boards, n, code, p, q, cell, v, lent, None if number == 8 else number)


def steps_with_wrong_fields():
    about("Steps with a code above 8 or an unused field that is not 0; the action that a rule lacks; boards from P on; cells from N on.")
    for rule in RULES:
        c, _ = widened(pick(SOUND[rule, DROP, ()])[0], 5)
        n, at, lent = table_with(c)

        def try_step(number, code, p=0, q=0, cell=at, v=0):
            step(rule, 5, n, code, p, q, cell, v, lent, number)
        for code in (9, 10, 15, 16, 64, 128, 255):
            try_step(3, code)
        for code in range(9):
            if code != CTOC:
                try_step(3, code, q=R.choice((1, 2, 4, 8, 16, 32, 64, 128, 255)))
            if code != WRITE:
                try_step(3, code, v=R.choice((1, 255, 256, 65536, 2 ** 24, 2 ** 31, TOP)))
            if not model.exists(rule, code):
                try_step(4, code)
                continue
            try_step(5, code, p=R.choice((5, 6, 15, 16, 255)))
            try_step(6, code, p=4, cell=R.choice((n, n + 1, n + 256, 512, 65535)))
        for q in (5, 6, 15, 16, 255):
            try_step(5, CTOC, q=q)


def steps_by_order():
    about("Steps with one fault, and with two or more: the first that holds is answered.")
    for fault in range(1, 8):
        for i in range(25):
            steps_refused({fault}, i % 5)
    for two in combinations(range(1, 9), 2):
        for rule in RULES:
            steps_refused(set(two), rule)
    for i in range(60):
        steps_refused(set(R.sample(range(1, 9), R.choice((3, 3, 4, 5, 7)))), i % 5)


# --------------------------------------------------------------------- damage

def damaged(condition, rule):
    """A cell that fails, of what the rule asks, this condition alone."""
    if condition.startswith("bits"):
        key = R.choice([k for k in sorted(SOUND) if k[0] == rule])
        c = pick(SOUND[key])[0]
        return with_high_bit(widened(c, R.choice((len(c.copy), 3, 4, 8, 14, 15)))[0], condition.split()[1])
    c = pick(ALONE[condition, rule])
    return widened(c, some_boards(len(c.copy)))[0]


def alone_possible():
    """The (condition, rule) for which a cell can fail in it alone; the bits by mask."""
    out = sorted(ALONE)
    out += [("bits " + m, r) for m in ("live", "dirty", "lock") for r in RULES if m != "lock" or r >= 3]
    return out


def steps_and_checks_of_damage():
    about("Cells that fail one condition of soundness alone: steps (7) and checks, under each rule that asks for it.")
    for condition, rule in alone_possible():
        for i in range(6):
            c = damaged(condition, rule)
            boards = len(c.copy)
            n, at, lent = table_with(c)
            tries = [action(rule, boards) for _ in range(8)]
            fits = [a for a in tries if model.guard(rule, c, *a[:3]) == 0]
            code, p, q, v = (fits + tries)[0]           # mostly one that the guard alone would let pass
            step(rule, boards, n, code, p, q, at, v, lent, 7)
        for i in range(3):
            c = damaged(condition, rule)
            boards = len(c.copy)
            cells = [walked(rule, boards) for _ in range(some_n())]
            at = R.randrange(len(cells))
            cells[at] = c
            said = check(rule, boards, len(cells), slices(cells))
            assert said == ["unsound", str(at)], (MADE[-1], said)
    about("Cells that fail a condition which the rule does not ask for: not 7, and sound.")
    for condition, rule in sorted(UNASKED):
        for i in range(5):
            small = pick(UNASKED[condition, rule])
            c, _ = widened(small, some_boards(len(small.copy)))
            boards = len(c.copy)
            n, at, lent = table_with(c)
            code, p, q, v = action(rule, boards)
            step(rule, boards, n, code, p, q, at, v, lent, model.guard(rule, c, code, p, q))
        for i in range(3):
            small = pick(UNASKED[condition, rule])
            c, _ = widened(small, some_boards(len(small.copy)))
            boards = len(c.copy)
            cells = [walked(rule, boards) for _ in range(some_n())]
            cells[-1] = c
            assert check(rule, boards, len(cells), slices(cells)) == ["sound"], MADE[-1]


def every_board():
    about("Every board of 16: accepted steps by it, and each condition failing by it alone.")
    for board in range(16):
        for code in range(9):
            rule = R.choice([r for r in RULES if model.exists(r, code)])
            c, p, q = pick(SOUND[rule, code, ()])
            c, name = widened(c, 16, (R.choice((p, q)) if code == CTOC else p, board))
            step(rule, 16, 1, code, name[p], name[q] if code == CTOC else 0, 0, value() if code == WRITE else 0, slices([c]), 0)
        for condition in sorted({k[0] for k in ALONE}):
            for _ in range(2):
                rule = R.choice([r for f, r in sorted(ALONE) if f == condition])
                small = pick(ALONE[condition, rule])
                c, _ = widened(small, 16, (R.choice(to_blame(small, condition) or [0]), board))
                assert check(rule, 16, 1, slices([c])) == ["unsound", "0"], MADE[-1]
                step(rule, 16, 1, DROP, R.randrange(16), 0, 0, 0, slices([c]), 7)
    about("Every P below 16: a mask bit at P, and at 15.")
    for boards, which in product(range(1, 16), ("live", "dirty", "lock")):
        for bit in sorted({boards, 15}):
            rule = R.choice((3, 4) if which == "lock" else RULES)
            c = with_high_bit(Cell(boards, value()), which, bit)
            assert check(rule, boards, 1, slices([c])) == ["unsound", "0"], MADE[-1]
            step(rule, boards, 1, DROP, boards - 1, 0, 0, 0, slices([c]), 7)


# --------------------------------------------------- checks, fresh and sizes

def checks():
    about("Checks: sound tables, the lowest of several bad cells, and refusals.")
    for i in range(60):
        rule, boards = i % 5, some_boards()
        cells = [walked(rule, boards) for _ in range(R.choice((1, 2, 3, 5, 8)))]
        assert check(rule, boards, len(cells), slices(cells)) == ["sound"], MADE[-1]
    for i in range(60):
        rule, boards = i % 5, some_boards()
        cells = [walked(rule, boards) for _ in range(R.choice((2, 3, 5, 8)))]
        for at in R.sample(range(len(cells)), R.randint(1, len(cells))):
            cells[at] = junk(boards)
        check(rule, boards, len(cells), slices(cells))
    for i in range(60):
        c = R.choice((walked, lambda _, boards: junk(boards)))(i % 5, some_boards())
        n, _, lent = table_with(c)
        rule, boards = i % 5, len(c.copy)
        if i % 3 != 1:
            rule = R.choice((5, 6, 128, 255))
        if i % 3 != 0:
            boards, n, lent = wrong_sizes(boards, n, lent)
        check(rule, boards, n, lent)


def freshes():
    about("Fresh tables, in memory that holds anything; wrong sizes and lengths.")
    for i in range(90):
        n, _, lent = table_with(junk(some_boards()))
        boards = len(lent[1]) // n
        starting = [value() for _ in range(n)]
        if i % 3 == 1:
            boards, n, lent = wrong_sizes(boards, n, lent)
        if i % 3 == 2:
            starting = R.choice((starting[1:], starting + [5], [], starting + starting))
        call("fresh", (boards, n), [starting, *table_texts(boards, lent)])


def sizes():
    about("Sizes.")
    for boards, n in product((0, 1, 2, 9, 15, 16, 17, 256 + 16, 2 ** 32 + 1, HUGE),
                             (0, 1, 256, 511, 512, 513, 65536 + 1, 2 ** 32 + 512, HUGE)):
        call("in_range", (boards, n))
    for i in range(90):
        n, _, lent = table_with(R.choice((Cell(some_boards(), value()), junk(some_boards()))))
        boards = len(lent[1]) // n
        if i % 3:
            boards, n, lent = wrong_sizes(boards, n, lent)
        call("sizes_good", (boards, n), table_texts(boards, lent))


# ------------------------------------------------------------------- sessions

def some_session(least=0, most=10, rules=RULES):
    """(rule, P, starting values, records)."""
    rule, boards, n = R.choice(rules), R.choice((1, 2, 2, 3, 4, 16)), R.choice((1, 1, 2, 3))
    start = [value() for _ in range(n)]
    cells, records = [Cell(boards, v) for v in start], []
    for _ in range(R.randint(least, most)):
        for _ in range(R.choice((1, 4, 4))):            # mostly wait for one that fits
            code, p, q, v = action(rule, boards)
            cell = R.randrange(n)
            if model.guard(rule, cells[cell], code, p, q) == 0:
                break
        if R.random() < 0.1:
            code, p, q, cell = R.choice(((code, boards, q, cell), (9, p, q, cell), (code, p, 1, cell), (code, p, q, n),
                                         (BARRIER, p, 0, cell), (ACQUIRE, p, 0, cell)))
        model.step(rule, boards, cells, code, p, q, cell, v)
        records.append(record(code, p, q, cell, v))
    return rule, boards, start, records


def faulty_file(faults, least=0):
    """(file, P and N of its lent slices): with the faults "short", 17, 18, 1, 2, "body"."""
    rule, boards, start, records = some_session(least)
    good = boards, len(start)
    n, mark, version = len(start), b"CCS", 1
    if 17 in faults:
        mark = R.choice((b"CCs", b"CC\0", b"\0CS", b"CBS", b"SCC", b"\xc3CS"))
    if 18 in faults:
        version = R.choice((0, 2, 256, 257, 65535))
    if 1 in faults:
        boards, n = R.choice(((0, n), (17, n), (255, n), (boards, 0), (boards, 513), (boards, n + 512), (boards, 65535),
                              (17, 0)))
    if 2 in faults:
        rule = R.choice((5, 6, 128, 255))
    if "body" in faults:
        start, records = R.choice(((start[:-1], []), (start, records + [bytes([7])]), (start, records + [bytes(range(8))]),
                                   (start, records[:-1] + [record(DROP, 0)[:5]])))
    file = list(session(rule, boards, start, records, n=n, mark=mark, version=version))
    if "body" in faults and R.random() < 0.3:           # within the starting values
        file = file[:9 + R.choice((4 * good[1] - 1, R.randrange(4 * good[1])))]
    if "short" in faults:
        file = file[:R.randrange(9)]
    return file, good


FILE_ORDER = ("short", 17, 18, 1, 2, "body", 20)


def faults_to_try(last):
    """Each fault alone, each two, and some sets of more."""
    kinds = FILE_ORDER[:FILE_ORDER.index(last) + 1]
    out = [set()] * 25 + [{k} for k in kinds for _ in range(20)] + [set(two) for two in combinations(kinds, 2) for _ in range(3)]
    return out + [set(R.sample(kinds, R.randint(3, len(kinds)))) for _ in range(12)]


def number_of(faults):
    first = next((k for k in FILE_ORDER if k in faults), 0)
    return {"short": 19, "body": 19}.get(first, first)


def expect(said, faults):
    assert int(said[0]) == number_of(faults), (MADE[-1], said, faults)


def files():
    about("What a file's first nine bytes say: files of 0 to 13 bytes.")
    for i in range(40):
        call("head_of", (), [file_text([R.choice((0, 1, 2, 16, 67, 83, 255)) for _ in range(i % 14)])])

    about("The same with rules, P and N in and out of range, ended before the records begin, behind a whole one and within one.")
    for rule, boards, n in ((0, 1, 1), (1, 2, 2), (2, 16, 3), (3, 17, 255), (4, 0, 256), (5, 3, 257), (4, 16, 512), (128, 4, 513),
                            (255, 255, 24000)):
        file = list(session(rule, boards, [7] * n, [record(WRITE, 1, 0, 2, TOP)] * 3))
        begin = 9 + 4 * n
        for end in (10, begin - 4, begin - 1, *(begin + k for k in (0, 1, 8, 9, 10, 17, 18, 19, 26, 27))):
            call("head_of", (), [file_text(file[:end])])

    about("Reading: each refusal alone and before a later one; the starting slice of wrong length.")
    for faults in faults_to_try("body"):
        file, (_, n) = faulty_file(faults)
        expect(call("read", (), [file_text(file), [value() for _ in range(n)]]), faults)
    for i in range(20):
        file, (_, n) = faulty_file(R.choice((set(), {2}, {"body"})))
        expect(call("read", (), [file_text(file), [7] * R.choice((0, n - 1, n + 1, 2 * n))]), {1})

    about("Writing: the same, with room for the file, more room and too little.")
    for faults in faults_to_try(20):
        if faults & {"short", 17, 18}:
            continue
        rule, boards, start, records = some_session()
        n, records, room = len(start), list(b"".join(records)), 9 + 4 * len(start) + 9 * len(records)
        if 1 in faults:
            boards, n, start = R.choice(((0, n, start), (17, n, start), (HUGE, n, start), (boards + 256, n, start),
                                         (boards, 0, []), (boards, 513, [9] * 513), (boards, HUGE, start),
                                         (boards, n + 65536, start), (boards, n, start[1:]), (boards, n, start + [1])))
        if 2 in faults:
            rule = R.choice((5, 6, 128, 255))
        if "body" in faults:
            records = records + [3] * R.choice((1, 4, 8))
        room = R.choice((room - 1, R.randrange(room))) if 20 in faults else room + R.choice((0, 0, 1, 2, 9))
        expect(call("write", (rule, boards, n), [start, grouped(records, 9), grouped([R.choice((0, 170, 255))] * room, 1)]),
               faults)

    about("Running: tables, answer numbers and values in memory that holds anything; each refusal alone and before a later one.")
    for faults in faults_to_try(20):
        file, (boards, n) = faulty_file(faults, least=1)
        count = max(len(file) - 9 - 4 * n, 9) // 9
        _, _, lent = table_with(junk(boards), n)
        numbers, values = count + R.choice((0, 0, 1, 3)), count + R.choice((0, 0, 1, 3))
        if 20 in faults:
            few = R.choice((0, count - 1))
            numbers, values = R.choice(((few, values), (numbers, few), (few, few)))
        expect(call("run", (), [file_text(file), *table_texts(boards, lent), [R.randrange(256) for _ in range(numbers)],
                                [value() for _ in range(values)]]), faults)
    for i in range(100):                                # long enough for stale copies to be left, where the rule allows
        rule, boards, start, records = some_session(10, 30, (0, 0, 1, 1, 2, 3, 4))
        _, _, lent = table_with(junk(boards), len(start))
        expect(call("run", (), [file_text(list(session(rule, boards, start, records))), *table_texts(boards, lent),
                                [9] * len(records), [9] * len(records)]), set())
    for i in range(25):
        file, (boards, n) = faulty_file(R.choice((set(), {2}, {"body"})))
        _, _, lent = table_with(junk(boards), n)
        slot = i % 3
        lent[slot][:] = R.choice(([], lent[slot][1:], lent[slot] + [3]))
        expect(call("run", (), [file_text(file), *table_texts(boards, lent), [9] * 10, [9] * 10]), {1})

    about("Listing: accepted and refused files, with room for the listing, more room and too little.")
    for faults in faults_to_try("body") + [{20}] * 30:
        file, _ = faulty_file(faults)
        room = len(model.listing(bytes(file)))
        room = R.choice((0, room - 1, R.randrange(room))) if 20 in faults else room + R.choice((0, 0, 1, 5))
        call("list", (), [file_text(file), grouped([R.choice((0, 32, 255))] * room, 1)])
    for faults in ({"short"}, {17}, {18}, {1}, {2}, {"body"}):
        call("list", (), [file_text(faulty_file(faults)[0]), [0] * R.choice((0, 9))])


# ---------------------------------------------------------------------- large

def large():
    about("Large: P 16, N 512, and 4,096 records.")
    for rule in RULES:
        quiet, busy = Cell(16, TOP), walked(rule, 16)
        cells = [quiet] * 200 + [busy] * 311 + [widened(pick(SOUND[rule, CTOM, ()])[0], 16)[0]]
        said = check(rule, 16, 512, slices(cells))
        assert said == ["sound"], said
        p = min(cells[-1].dirty)
        step(rule, 16, 512, CTOM, p, 0, 511, 0, slices(cells), 0)
        step(rule, 16, 512, DROP, 15, 0, 0, 0, slices(cells), 0)
        step(rule, 16, 512, DROP, 15, 0, 512, 0, slices(cells), 6)
        cells[511] = widened(pick(ALONE["Inv2", rule]), 16)[0]
        assert check(rule, 16, 512, slices(cells)) == ["unsound", "511"]
        step(rule, 16, 512, DROP, 15, 0, 511, 0, slices(cells), 7)
        step(rule, 16, 512, MTOC, 15, 0, 199, 0, slices(cells), 0)
    for i, (boards, n) in enumerate(((1, 512), (2, 256), (3, 257), (5, 300), (7, 100), (15, 511), (16, 33), (9, 64), (4, 65))):
        rule, before = i % 5, R.randrange(1, n)
        cells = [walked(rule, boards)] * before + [walked(rule, boards)] * (n - before)
        check(rule, boards, n, slices(cells))
        for cell in (before - 1, before, n - 1, n):
            code, p, q, v = action(rule, boards)
            step(rule, boards, n, code, p, q, cell, v, slices(cells))
        call("fresh", (boards, n), [[i] * n, *table_texts(boards, slices(cells))])
        cells[before] = junk(boards)
        check(rule, boards, n, slices(cells))
    full = slices([junk(16)] * 512)
    call("fresh", (16, 512), [[3] * 511 + [TOP], *table_texts(16, full)])
    call("fresh", (16, 512), [[3] * 511, *table_texts(16, full)])
    call("sizes_good", (16, 512), table_texts(16, full))
    call("sizes_good", (16, 512), ["512*0", "8191*0", "1536*0"])
    call("sizes_good", (16, 513), ["513*0", "8208*0", "1539*0"])
    call("sizes_good", (17, 512), ["512*0", "8300*0", "1536*0"])
    for records, rule in product(([record(MTOC, 15, 0, 511)] + [record(READ, 15, 0, 511)] * 4095,
                                  [record(WRITE, 0, 0, 511, TOP)] * 4097), (0, 4)):
        file = file_text(list(session(rule, 16, [8] * 511 + [TOP], records)))
        call("head_of", (), [file])
        call("read", (), [file, "512*5"])
        call("run", (), [file, *table_texts(16, full), "4097*99", "4096*98"])
        call("run", (), [file, *table_texts(16, full), "4096*99", "4095*98"])
        call("list", (), [file, "90000*7"])
        out = grouped(list(b"".join(records)), 9)
        call("write", (rule, 16, 512), ["511*8 7", out, "38921*255"])
        call("write", (rule, 16, 512), ["511*8 7", out, "38920*255"])


def no_calls():
    about("Lines that are not a call.")
    cell = " | 7 | 0 | 0 0 0 |"
    MADE.extend([
        "stop 0 1 1 0 0 0 0 0" + cell, "in_range", "in_range 1", "in_range 1 1 1", "in_range 1 %d" % 2 ** 64,
        "in_range %d 1" % 2 ** 64, "in_range 1 x", "in_range -1 1", "step 0 1 1 0 0 0 0" + cell, "step 0 1 1 0 0 0 0 0 0" + cell,
        "step 256 1 1 0 0 0 0 0" + cell, "step 0 1 1 256 0 0 0 0" + cell, "step 0 1 1 0 256 0 0 0" + cell,
        "step 0 1 1 0 0 256 0 0" + cell, "step 0 1 1 0 0 0 65536 0" + cell, "step 0 1 1 0 0 0 0 %d" % 2 ** 32 + cell,
        "step 0 1 1 0 0 0 0 0 | 7 | 0 |", "step 0 1 1 0 0 0 0 0" + cell + " 0 |", "step 0 1 1 0 0 0 0 0 | 7 | 0 | 0 0 0",
        "check 256 1 1" + cell, "check 0 1 1 | %d | 0 | 0 0 0 |" % 2 ** 32, "check 0 1 1 | 7 | %d | 0 0 0 |" % 2 ** 32,
        "check 0 1 1 | 7 | 0 | 0 0 65536 |", "check 0 1 1 | 8301*7 | 0 | 0 0 0 |", "check 0 1 1 | 7 | 0 | 2101*0 |",
        "check 0 1 1 | 7 | 0 | 701*0.0.0 |", "head_of | 256 |", "head_of | 100001*0 |", "head_of", "head_of | 0 | 0 |",
        "write 256 1 1 | 7 | | 13*0 |", "write 0 1 1 | 7 | 256 | 13*0 |", "read | 0 |", "list | 0 | 256 |", "run | 0 |",
    ])
    about("Calls at the same limits.")
    MADE.extend([
        "check 255 1 1 | %d | 0 | 65535 0 0 |" % TOP, "check 0 1 1 | 8300*7 | 0 | 0 0 0 |", "check 0 1 1 | 7 | 0 | 2100*0 |",
        "check 0 1 1 | 7 | 8300*%d | 700*0.0.0 |" % TOP, "head_of | 100000*255 |", "head_of | 100000*0 |", "list | | 100000*0 |",
        "step 255 %d %d 255 255 255 65535 %d | %d | %d | 65535 |" % (HUGE, HUGE, TOP, TOP, TOP),
    ])


def made():
    sort_small_cells()
    for section in (steps_by_guard, steps_at_edges, steps_walked, steps_with_wrong_fields, steps_by_order,
                    steps_and_checks_of_damage, every_board, checks, freshes, sizes, files,
                    large, no_calls):
        section()
    return MADE
