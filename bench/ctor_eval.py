#!/usr/bin/env python3
"""Measures `ctor-eval`, beside `merge` of the same module alone and Binaryen's wasm-ctor-eval, in one run.

    bench/ctor_eval.py [PROGRAM]

Makes modules of 1, 4 and 16 MiB whose functions call one another, with one constructor that stores a byte. Prints for each tool the processor time
(the least of three runs), the greatest resident memory, and for 1 MiB the machine instructions, as callgrind of valgrind counts them, with their ratios.
Then the turns of an evaluation: a turn is the beginning of an instruction of WebAssembly. Machine instructions of a turn are the difference of two runs
of more and of fewer rounds; seconds are those of 50,000,000 turns.
Then one and 100 constructors, each of which stores a byte, over a memory of 16 pages that is full: with the machine instructions of each further one.
Then the same for constructors that each set one of 100,000 globals.
Last a memory of 64 MiB, which is nearly empty. A tool that is not installed is skipped.
"""
import os
import shutil
import sys
import tempfile

from metadce import HEADER, MIB, TOP, print_ratios, row
from read_write import begin, instructions, leb, section, timed, vector
from shapes import write_apart
from split import calling

PROGRAM = os.path.abspath(sys.argv[1]) if len(sys.argv) > 1 else os.path.join(TOP, "crates/binkit/out/binkit")
PAGE = 65536
LOW, HIGH, MOST = 20_000, 40_000, 50_000_000


def signed(n):
    out = bytearray()
    while not -64 <= n < 64:
        out.append(n % 128 + 128)
        n >>= 7
    out.append(n % 128)
    return bytes(out)


def module(bodies, constructors, pages, content=b"", global_count=0):
    """Functions of type [i32 i32] to [i32], of which the first is exported as run, and behind them constructors, exported as c0, c1 and so on, over an exported memory that begins with this content, and so many mutable globals that are 0."""
    exports = [b"\6memory\2\0"] + ([b"\x03run\0\0"] if bodies else [])
    for i in range(len(constructors)):
        name = f"c{i}".encode()
        exports.append(leb(len(name)) + name + b"\0" + leb(len(bodies) + i))
    return HEADER + b"".join([
        section(1, vector([b"\x60\x02\x7f\x7f\x01\x7f", b"\x60\0\0"])),
        section(3, vector([b"\0"] * len(bodies) + [b"\1"] * len(constructors))),
        section(5, b"\1\0" + leb(pages)),
        section(6, vector([b"\x7f\1\x41\0\x0b"] * global_count)) if global_count else b"",
        section(7, vector(exports)),
        section(10, vector([leb(len(code)) + code for code in bodies + constructors])),
        section(11, vector([b"\0\x41\0\x0b" + leb(len(content)) + content])) if content else b"",
    ])


def storing(place):
    """A constructor that stores one byte."""
    return b"\0\x41" + signed(place) + b"\x41\x2a\x3a\0\0\x0b"


def setting(place):
    """A constructor that sets one global."""
    return b"\0\x41\x2a\x24" + leb(place) + b"\x0b"


def made(folder, make):
    """The name of a file with a module that is made."""
    name = os.path.join(folder, "in.wasm")
    write_apart(make, name)
    return name


def tools(name, count, folder):
    """What evaluates the first constructors of a module."""
    words = [name, "--ctors=" + ",".join(f"c{i}" for i in range(count)), "-o", os.path.join(folder, "out.wasm")]
    return [("binkit ctor-eval", [PROGRAM, "ctor-eval", *words]), ("wasm-ctor-eval", ["wasm-ctor-eval", *words])]


def compare(mib, folder):
    name = made(folder, lambda: module(calling(mib * MIB - 4096), [storing(16)], 1))
    own, other = tools(name, 1, folder)
    merge = ("binkit merge", [PROGRAM, "merge", name, "m", "-o", os.path.join(folder, "out.wasm")])
    ours, alone, theirs = (row(mib, "stores a byte", tool, command, os.path.getsize(name), folder) for tool, command in (own, merge, other))
    print_ratios(ours, [("merge", alone), ("wasm-ctor-eval", theirs)])


# ---- turns ----

# local 0 counts down to 0, with a branch to the loop while it is not
AGAIN = b"\x20\x00\x41\x01\x6b\x22\x00\x0d\x00"
# what the loop does before, and the turns of a round
LOOPS = [
    ("arithmetic and a branch", b"", 6),
    # place 16 = add (load of place 16) (local 0)
    ("a load, a store and a call besides", b"\x41\x10\x41\x10\x28\x02\x00\x20\x00\x10\x00\x36\x02\x00", 15),
]
ADD = b"\x00\x20\x00\x20\x01\x6a\x0b"


def looping(inside, rounds):
    """A constructor that goes through the loop so many times; it takes 2 turns more than its rounds."""
    return module([ADD], [b"\x01\x01\x7f\x41" + signed(rounds) + b"\x21\x00\x03\x40" + inside + AGAIN + b"\x0b\x0b"], 1)


def evaluates(inside, rounds, which, folder):
    """A tool, and its command that evaluates a loop of so many rounds."""
    return tools(made(folder, lambda: looping(inside, rounds)), 1, folder)[which]


def measure_turns(what, inside, turns, folder):
    for which in range(2):
        tool, command = evaluates(inside, HIGH, which, folder)
        if not shutil.which(command[0]):
            print(f"| {what} | {tool} | skipped: not installed | |")
            continue
        more = counted(command, folder)
        fewer = counted(evaluates(inside, LOW, which, folder)[1], folder)
        a_turn = (more - fewer) / ((HIGH - LOW) * turns)
        seconds, _ = told(evaluates(inside, (MOST - 2) // turns, which, folder)[1])
        print(f"| {what} | {tool} | {f'{a_turn:.0f}' if a_turn else ''} | {seconds} |", flush=True)


def counted(command, folder):
    """Machine instructions, or 0 where they are not counted."""
    return instructions(command, folder) or 0 if shutil.which("valgrind") else 0


def told(command):
    """Seconds (the least of three runs) and MiB of memory, as text."""
    runs = [timed(command) for _ in range(3)]
    status = max(run[2] for run in runs)
    return "failed" if status else f"{min(run[0] for run in runs):.2f}", f"{max(run[1] for run in runs):.0f}"


# ---- memories and globals ----


def measure_further(name, many, folder):
    """Prints a row for each tool: one constructor of a module, and the first `many`."""
    for (tool, one), (_, all_of_them) in zip(tools(name, 1, folder), tools(name, many, folder)):
        if not shutil.which(one[0]):
            print(f"| {tool} | skipped: not installed | | | |")
            continue
        (seconds, _), (seconds_of_all, memory) = told(one), told(all_of_them)
        further = (counted(all_of_them, folder) - counted(one, folder)) / (many - 1)
        print(f"| {tool} | {seconds} | {seconds_of_all} | {memory} | {f'{further:,.0f}' if further else ''} |", flush=True)


def measure_many(folder):
    size, many = 16 * PAGE, 100
    places = [i * 8192 % size for i in range(many)]
    name = made(folder, lambda: module([], [storing(place) for place in places], size // PAGE, bytes(1 + i % 255 for i in range(size))))
    measure_further(name, many, folder)


def measure_globals(folder):
    count, many = 100_000, 100
    name = made(folder, lambda: module([], [setting(i * (count // many)) for i in range(many)], 1, global_count=count))
    measure_further(name, many, folder)


def measure_empty(folder):
    size = 64 * MIB
    both_ends = storing(16)[:-1] + storing(size - 1)[1:]
    name = made(folder, lambda: module([], [both_ends], size // PAGE))
    for tool, command in tools(name, 1, folder):
        seconds, memory = told(command) if shutil.which(command[0]) else ("skipped: not installed", "")
        print(f"| {tool} | {seconds} | {memory} |", flush=True)


def main():
    begin(PROGRAM)
    with tempfile.TemporaryDirectory() as folder:
        print("| MiB | the constructor | tool | seconds | MiB of memory | instructions a byte |\n|---|---|---|---|---|---|")
        for mib in 1, 4, 16:
            compare(mib, folder)
        print("\n| loop of | tool | instructions a turn | seconds for 50,000,000 turns |\n|---|---|---|---|")
        for what, inside, turns in LOOPS:
            measure_turns(what, inside, turns, folder)
        print("\n| constructors over 16 full pages | seconds for one | seconds for 100 | MiB of memory | instructions for each further one |\n|---|---|---|---|---|")
        measure_many(folder)
        print("\n| constructors over 100,000 globals | seconds for one | seconds for 100 | MiB of memory | instructions for each further one |\n|---|---|---|---|---|")
        measure_globals(folder)
        print("\n| a memory of 64 MiB, two bytes written | seconds | MiB of memory |\n|---|---|---|")
        measure_empty(folder)


if __name__ == "__main__":
    main()
