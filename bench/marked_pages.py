#!/usr/bin/env python3
"""Counts the machine instructions of the calls of a memory of marked pages.

    bench/marked_pages.py [PROGRAM]

PROGRAM is that of the crate marked_pages, which repeats a call. Instructions are those that callgrind of valgrind counts. A number is the difference
of two runs that repeat the call more and fewer times, for each time, less that of the loop alone. Each call stands in a function of its own; that it is
called, with its place worked out, and what it answers is looked at, is counted with it. Only the two numbers "within its function" are of one run: what
callgrind counts for whole calls of that function, for each call. callgrind counts each byte that one instruction of the C library's memset or memcpy
repeats (rep stosb, rep movsb) as an instruction.
"""
import os
import re
import shutil
import subprocess
import sys
import tempfile

TOP = os.path.dirname(os.path.dirname(os.path.abspath(__file__)))
PROGRAM = os.path.abspath(sys.argv[1]) if len(sys.argv) > 1 else os.path.join(TOP, "crates/marked_pages/out/marked_pages")

# what is measured; the word; how often at least and at most; the units of one time
CALLS = [
    ("a load from a block that was written", "load", 100_000, 200_000, 1),
    ("a store to a block that was written", "store", 100_000, 200_000, 1),
    ("a store to one that was not", "store_on", 2_000, 4_000, 1),
    ("a fill of 16 bytes", "fill_small", 10_000, 20_000, 1),
    ("a fill of 65,536 bytes, for a byte", "fill", 10, 20, 65_536),
    ("a copy of 16 bytes", "copy_small", 10_000, 20_000, 1),
    ("a copy of 65,536 bytes, for a byte", "copy", 10, 20, 65_536),
    ("the next nonzero byte of 64 MiB that were never written", "next_nonzero", 2, 4, 1),
]


def instructions(word, count, folder):
    done = subprocess.run(
        ["valgrind", "--tool=callgrind", f"--callgrind-out-file={folder}/callgrind", PROGRAM, word, str(count)], capture_output=True, text=True, check=True
    )
    return int(re.search(r"Collected : (\d+)", done.stderr).group(1))


def each(word, low, high, folder):
    return (instructions(word, high, folder) - instructions(word, low, folder)) / (high - low)


def within(word, function, count, folder):
    """Those of whole calls of the function around one call, from its first instruction to its return."""
    instructions(word, count, folder)
    told = subprocess.run(["callgrind_annotate", "--inclusive=yes", "--threshold=100", f"{folder}/callgrind"], capture_output=True, text=True).stdout
    found = re.search(rf"([\d,]+) .*\?\?\?:{function} \[", told)
    return int(found.group(1).replace(",", "")) / count


def main():
    for needed, what in (PROGRAM, "program"), ("valgrind", "valgrind"):
        if not shutil.which(needed):
            sys.exit(f"no {what}")
    with tempfile.TemporaryDirectory() as folder:
        loop = each("nothing", 100_000, 200_000, folder)
        print("| what | instructions |\n|---|---|")
        for what, word, low, high, units in CALLS:
            print(f"| {what} | {(each(word, low, high, folder) - loop) / units:.1f} |")
        for what, word in ("a load from", "load"), ("a store to", "store"):
            print(f"| {what} a block that was written, within its function | {within(word, 'marked_pages::calls::' + word, 200_000, folder):.1f} |")
        first = each("store_on", 2_000, 4_000, folder)
        marked, back, kept = (each(word, 2_000, 4_000, folder) for word in ("mark", "rollback", "commit"))
        print(f"| a first store behind a mark to a block that was written before it | {marked - first - loop:.1f} |")
        print(f"| taking such a block back | {back - marked:.1f} |")
        print(f"| keeping such a block | {kept - marked:.1f} |")


main()
