#!/usr/bin/env python3
"""Command lines get the status and text that the table says, and write the files that it names.

Runs the built program on each line of tests/words.tsv, in a folder with the files below. A line has, separated by tabs, the words as a
shell reads them (`\\xFF` in quotes is that byte, `\\n` a line's end), the status, standard output, standard error, the names of the files
that are written and no others. Lines that begin with `# ` say what follows.

    scripts/words.py [PROGRAM] [TABLE]
"""
import concurrent.futures
import os
import shlex
import sys
import tempfile
from typing import NamedTuple

from cases import ADDS, CALLS, CALLS_BACK, CONSTRUCTORS, GIVES, HOST, TOP, module, run_in

PROGRAM = os.path.abspath(sys.argv[1]) if len(sys.argv) > 1 else os.path.join(TOP, "crates", "binkit", "out", "binkit")
TABLE = sys.argv[2] if len(sys.argv) > 2 else os.path.join(TOP, "tests", "words.tsv")
FILES = {
    "h.wasm": module(""),
    "a.wasm": GIVES,
    "b.wasm": CALLS,
    "s.wasm": ADDS,
    # function 0, exported as f, calls function 1, which is named g
    "g.wasm": module("0105016000017f030302000007050101660000 0a0b02040010010b040041070b 000b046e616d65010401010167"),
    "m.wasm": CALLS_BACK,
    "g.json": HOST,
    "-g.json": HOST,
    "c.wasm": CONSTRUCTORS,
}


class Line(NamedTuple):
    words: str
    status: str
    out: str
    err: str
    written: str


def split_words(text):
    """The words of a line. A byte that is no text is passed on as it is."""
    return [word.replace("\\xFF", "\udcff").replace("\\n", "\n") for word in shlex.split(text)]


def text_of(text):
    return text.replace("\\n", "\n").encode()


def fault_of(line):
    """What is wrong with the answer, or None."""
    with tempfile.TemporaryDirectory() as folder:
        for name, content in FILES.items():
            with open(os.path.join(folder, name), "wb") as file:
                file.write(content)
        ended = run_in(folder, PROGRAM, split_words(line.words))
    if (ended.status, ended.out, ended.err) != (int(line.status), text_of(line.out), text_of(line.err)):
        return f"status {ended.status}, {ended.out[:200]!r} and {ended.err[:200]!r}"
    changed = sorted(name for name, content in ended.files.items() if FILES.get(name) != content)
    if changed != sorted(split_words(line.written)) or not FILES.keys() <= ended.files.keys():
        return f"writes {changed}"
    return None


def lines_of_table():
    with open(TABLE, encoding="utf-8") as file:
        rows = file.read().split("\n")
    return [Line(*row.split("\t")) for row in rows[1:] if row and not row.startswith("# ")]


def main():
    lines = lines_of_table()
    with concurrent.futures.ThreadPoolExecutor(os.cpu_count()) as pool:
        faults = list(pool.map(fault_of, lines))
    wrong = 0
    for line, fault in zip(lines, faults):
        if fault:
            wrong += 1
            print(f"{line.words}: {fault}")
    print(f"words: {len(lines)} runs, {wrong} wrong")
    return 1 if wrong or not lines else 0


if __name__ == "__main__":
    sys.exit(main())
