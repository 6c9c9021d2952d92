#!/usr/bin/env python3
"""Measures `split`, beside `merge` of the same module alone and Binaryen's wasm-split, in one run.

    bench/split.py [PROGRAM]

Makes modules with a name section, whose functions call one another. Of those of 1 and 4 MiB half of the functions move (every second one, which
--split-funcs lists), of those of 4 and 16 MiB three quarters (--keep-funcs lists the others: one word of a command line has at most 128 KiB). Prints for each
tool the processor time (the least of three runs), the greatest resident memory, and for 1 MiB the machine instructions, as callgrind of valgrind
counts them, with their ratios. Then it times modules of 100,000 small functions, of which all but the exported one move. A tool that is not installed
is skipped.
"""
import os
import random
import sys
import tempfile

from metadce import HEADER, MIB, TOP, print_ratios, row, write
from read_write import begin, body, leb, section, timed, vector

PROGRAM = os.path.abspath(sys.argv[1]) if len(sys.argv) > 1 else os.path.join(TOP, "crates/binkit/out/binkit")
DIGITS = "0123456789abcdefghijklmnopqrstuvwxyzABCDEFGHIJKLMNOPQRSTUVWXYZ"


def name_of(i):
    """A short name for each function."""
    return DIGITS[i % 62] + (name_of(i // 62 - 1) if i >= 62 else "")


def text(name):
    return leb(len(name)) + name.encode()


def named(bodies, exported):
    """A module of these bodies, each with a name, of which the first is exported."""
    names = vector([leb(i) + text(name_of(i)) for i in range(len(bodies))])
    return HEADER + b"".join([
        section(1, vector([b"\x60\x02\x7f\x7f\x01\x7f"])),
        section(3, vector([b"\0"] * len(bodies))),
        section(5, b"\1\0\1"),
        section(7, vector([text(exported) + b"\0\0"])),
        section(10, vector([leb(len(code)) + code for code in bodies])),
        section(0, text("name") + b"\1" + leb(len(names)) + names),
    ])


def calling(size):
    choose = random.Random(size)
    functions = size // 182
    return [body(choose, functions) for _ in range(functions)]


def lists(functions, part):
    """The word that says which functions move."""
    if part == "half":
        return "--split-funcs=" + ",".join(name_of(i) for i in range(1, functions, 2))
    return "--keep-funcs=" + ",".join(name_of(i) for i in range(0, functions, 4))


def compare(mib, part, folder):
    bodies = calling(mib * MIB - 4096)
    content = named(bodies, "run")
    name = write(folder, f"{mib}.wasm", content)
    out, other = os.path.join(folder, "p.wasm"), os.path.join(folder, "s.wasm")
    words = [name, lists(len(bodies), part), f"--primary-output={out}", f"--secondary-output={other}"]
    ours = row(mib, part, "binkit split", [PROGRAM, "split", *words], len(content), folder)
    merge = row(mib, part, "binkit merge", [PROGRAM, "merge", name, "m", "-o", out], len(content), folder)
    theirs = row(mib, part, "wasm-split", ["wasm-split", *words], len(content), folder)
    print_ratios(ours, [("merge", merge), ("wasm-split", theirs)])


def time_all(title, bodies, folder):
    content = named(bodies, "run")
    name = write(folder, "m.wasm", content)
    outputs = [f"--{which}-output={os.path.join(folder, which)}" for which in ("primary", "secondary")]
    seconds, memory, status = timed([PROGRAM, "split", name, f"--keep-funcs={name_of(0)}", *outputs])
    print(f"| {title} | {len(content)} | {f'{seconds:.2f}' if status == 0 else f'status {status}'} | {memory:.0f} |", flush=True)


def main():
    begin(PROGRAM)
    with tempfile.TemporaryDirectory() as folder:
        print("| MiB | moved | tool | seconds | MiB of memory | instructions a byte |\n|---|---|---|---|---|---|")
        for mib, part in (1, "half"), (4, "half"), (4, "three quarters"), (16, "three quarters"):
            compare(mib, part, folder)
        print("\n| 100,000 functions of which all but one move | bytes of the module | seconds | MiB of memory |\n|---|---|---|---|")
        returns = b"\0\x20\0\x0b"
        time_all("that call nothing", [returns] * 100_000, folder)
        time_all("that call one another", [b"\0\x20\0\x20\1\x10" + leb(i * 7919 % 100_000) + b"\x0b" for i in range(100_000)], folder)


if __name__ == "__main__":
    main()
