#!/usr/bin/env python3
"""Respells this repository's own names for today's Rattle, once, behind port.py: run it at the top, with no argument.

Definitions, fields, constructors, lemmas and the variables of laws that stand in specs/ and proofs/ are in snake case afterwards
(hasBoard is has_board, one-more is one_more); types, modules and constructors that begin with a capital stay, and so does every name of
src/, of the toolchain and of its library. Must-fail edits get the same names, and the projections and imports that port.py gives the files that
they change; names in backticks in the pages follow, and each crate is laid out by `rt fmt`. It stops where two names would fall together, before
it has written anything.
"""

import glob
import re
import subprocess
import sys

WORD = re.compile(r"[^\s(){}\[\];,.`\"]+")
OWN = re.compile(r"^use Rattle\.(protocol|table|sessions|listing|tramusquet|output|session|replay|cases)\.")
CAMEL = re.compile(r"^[a-z][a-z0-9]*[A-Z]")
DASHED = re.compile(r"^[a-z][\w']*(-[\w']+)+$")
# a number at the end is a word of its own here
SPECIAL = {"lockMaskIs0": "lock_mask_is_0", "notLiveHolds0": "not_live_holds_0"}
# a lemma, a field or a variable that would fall together with a definition or a constructor
APART = {
    "boards-in": "both_boards_in",
    "codeFits": "code_within",
    "first-number": "first_number_lem",
    "in-copies": "leaves_copies",
    "in-main": "leaves_main",
    "in-range": "when_in_range",
    "is-dirty": "is_dirty_mask",
    "no_line": "line_of_none",
    "not_live": "was_not_live",
    "one-dirty": "one_dirty_test",
    "one-lock": "one_lock_test",
    "record-bytes": "as_record_bytes",
    "rule-of": "rule_of_file",
    "set-at": "set_at_lem",
}
# English, and names of files
NOT_NAMES = {"must-fail", "proof-file", "little-endian"}


def snake(word):
    if word in SPECIAL:
        return SPECIAL[word]
    return re.sub(r"(?<=[a-z0-9])([A-Z])", lambda m: "_" + m.group(1), word.replace("-", "_")).lower()


def laws():
    return sorted(glob.glob("crates/*/specs/*.antt") + glob.glob("crates/*/proofs/*.antt"))


def walks():
    return sorted(glob.glob("crates/*/proofs/*/**/*.antt", recursive=True))


def read(path):
    with open(path, encoding="utf-8") as f:
        return f.read()


def code(text):
    return "\n".join(line for line in text.split("\n") if not line.lstrip().startswith("--"))


def imported(text):
    """The names that a file has from the toolchain and its library."""
    found = set()
    for line in text.split("\n"):
        if line.startswith("use ") and not OWN.match(line):
            found |= {w.strip() for group in re.findall(r"\{([^}]*)\}", line) for w in group.split(",")}
    return found


def names():
    """Old name to new, of what specs/ and the laws define or bind."""
    library, words = set(), set()
    for path in laws() + walks():
        library |= imported(code(read(path)))
    for path in laws():
        words |= set(WORD.findall(code(read(path))))
    found = {w: snake(w) for w in words - library if CAMEL.match(w) or DASHED.match(w)} | {old: new for old, new in APART.items() if old in words}
    fall = {}
    for old, new in found.items():
        fall.setdefault(new, set()).add(old)
    for new in set(found.values()) & ((words | library) - set(found)):
        fall[new].add(new)
    together = {new: olds for new, olds in fall.items() if len(olds) > 1}
    if together:
        raise SystemExit("these names would fall together: " + "; ".join(f"{new}: {sorted(olds)}" for new, olds in sorted(together.items())))
    return found


def renamed(text, found):
    return WORD.sub(lambda m: found.get(m.group(0), m.group(0)), text)


def spelled(line, found):
    """A line of an edit of an .antt file, as port.py and this script spell the file: names, projections and imports."""
    line = re.sub(r"\((\w+) \.(\w+)\)", r"\1.\2", line)
    line = re.sub(r"\bgetD\b", "get_or", line)
    line = re.sub(r"Rattle·(\w+)·specs\.specs\.", r"Rattle.\1.specs.", line)
    return WORD.sub(lambda m: found.get(m.group(0)) or respelled(m.group(0)), line)


def respelled(word):
    """A name that port.py itself brought to snake case, since the library has it."""
    return snake(word) if CAMEL.match(word) and snake(word) in KNOWN else word


def edits(found):
    for path in sorted(glob.glob("crates/*/must-fail/*.edit")):
        crate, lines, antt = path.split("/")[1], [], False
        for line in read(path).split("\n"):
            if line.startswith("file: "):
                antt = line.endswith(".antt")
            elif antt and line[:5] in ("old: ", "new: "):
                line = line[:5] + spelled(line[5:], found)
            lines.append(line)
        text = "\n".join(lines)
        if text != read(path):
            yield path, text


def pages(found):
    for path in sorted(glob.glob("*.md") + glob.glob("*/*.md")):
        text = read(path)
        new = re.sub(r"`[^`\n]+`", lambda m: WORD.sub(lambda w: page_word(w.group(0), found), m.group(0)), text)
        if new != text:
            yield path, new


def page_word(word, found):
    if word in NOT_NAMES or word in found and not CAMEL.match(word) and not DASHED.match(word):
        return word
    if word in found:
        return found[word]
    return snake(word) if (CAMEL.match(word) or DASHED.match(word)) and snake(word) in KNOWN else word


KNOWN = set()


def main():
    found = names()
    for path in laws():
        KNOWN.update(renamed(w, found) for w in WORD.findall(code(read(path))))
    new = {path: renamed(read(path), found) for path in laws() + walks()}
    # Rust has no such names: they stand in clauses, imports and comments alone
    camel = {old: to for old, to in found.items() if CAMEL.match(old)}
    new |= {path: renamed(read(path), camel) for path in sorted(glob.glob("crates/*/src/*.rt"))}
    new |= dict(edits(found))
    new |= dict(pages(found))
    for path, text in new.items():
        with open(path, "w", encoding="utf-8") as f:
            f.write(text)
    for crate in sorted(glob.glob("crates/*/src")):
        subprocess.run(["rt", "fmt"], cwd=crate[: -len("src")], check=True, stdout=subprocess.DEVNULL)
    print(f"respell: {len(found)} names")


if __name__ == "__main__":
    if len(sys.argv) > 1:
        raise SystemExit(__doc__)
    main()
