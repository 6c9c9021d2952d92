#!/usr/bin/env python3
"""Measures `merge` on modules of one large thing each, beside wasm-validate of wabt, where it is installed.

    bench/shapes.py [PROGRAM]
"""
import os
import shutil
import sys
import tempfile

sys.path.insert(0, os.path.dirname(os.path.abspath(__file__)))
from read_write import PROGRAM, leb, section, timed

HEADER = b"\0asm\1\0\0\0"
NOTHING_TO_NOTHING = section(1, b"\x01\x60\0\0")


def of_bodies(bodies, exports=b""):
    count = leb(len(bodies))
    code = b"".join(leb(len(body)) + body for body in bodies)
    return HEADER + NOTHING_TO_NOTHING + section(3, count + b"\0" * len(bodies)) + exports + section(10, count + code)


WIDE = 1000
BLOCK, END, NOP, DROP, CALL = b"\x02", b"\x0b", b"\x01", b"\x1a", b"\x10"


def of_wide_type(instruction, before=b"", behind=b""):
    """One MiB of an instruction of the type [i32 * 1,000] to [i32 * 1,000], and what stands before them and behind; function 1 is of that type."""
    ints = leb(WIDE) + b"\x7f" * WIDE
    types = section(1, b"\x02\x60\0\0\x60" + ints + ints)
    passed_on = b"".join(b"\x20" + leb(local) for local in range(WIDE))
    wide = b"\x00" + passed_on + END
    body = b"\x00" + b"\x41\x00" * WIDE + before + instruction * ((1 << 20) // len(instruction)) + behind + DROP * WIDE + END
    code = section(10, b"\x02" + leb(len(body)) + body + leb(len(wide)) + wide)
    return HEADER + types + section(3, b"\x02\x00\x01") + code


def of_instructions(text):
    """One MiB of these instructions, again and again, in one body."""
    return of_bodies([b"\x00" + text * ((1 << 20) // len(text)) + END])


def of_many_locals():
    groups = b"\x02" + leb(25000) + b"\x7f" + leb(25000) + b"\x7e\x20" + leb(49999) + b"\x1a\x0b"
    return of_bodies([groups] * 100000)


def of_exports():
    names = [b"n%d" % number for number in range(500000)]
    exports = section(7, leb(len(names)) + b"".join(leb(len(name)) + name + b"\0\0" for name in names))
    return of_bodies([b"\x00\x0b"], exports)


SHAPES = [
    ("blocks of a type of 1,000 parameters and results", lambda: of_wide_type(BLOCK + b"\x01" + END)),
    ("calls of a type of 1,000 parameters and results", lambda: of_wide_type(CALL + b"\x01")),
    ("branches out of a block of such a type", lambda: of_wide_type(b"\x41\x00\x0d\x00", BLOCK + b"\x01", END)),
    ("`block` `block` `end` `end`, again and again", lambda: of_instructions((BLOCK + b"\x40") * 2 + END * 2)),
    ("blocks 999 deep, again and again", lambda: of_instructions((BLOCK + b"\x40") * 999 + END * 999)),
    ("`block` `nop` `end`, again and again", lambda: of_instructions(BLOCK + b"\x40" + NOP + END)),
    ("a million `nop`", lambda: of_instructions(NOP)),
    ("one name of 16,000,000 bytes", lambda: of_bodies([b"\x00" + END], section(7, b"\x01" + leb(16000000) + b"n" * 16000000 + b"\0\0"))),
    ("one `br_table` of a million labels", lambda: of_bodies([b"\x00\x02\x40\x41\x00\x0e" + leb(1000000) + b"\x00" * 1000001 + b"\x0b\x0b"])),
    ("100,000 functions of 50,000 locals each", of_many_locals),
    ("500,000 exports", of_exports),
    ("a million empty functions", lambda: of_bodies([b"\x00\x0b"] * 1000000)),
]


def write_apart(make, name):
    """Writes a shape in a process of its own: what a tool takes is measured from the memory of the process that starts it."""
    maker = os.fork()
    if maker == 0:
        with open(name, "wb") as file:
            file.write(make())
        os._exit(0)
    os.waitpid(maker, 0)


def main():
    if not shutil.which(PROGRAM):
        sys.exit("no program")
    print("| shape | MiB | tool | seconds | MiB of memory |\n|---|---|---|---|---|")
    with tempfile.TemporaryDirectory() as folder:
        name, out = os.path.join(folder, "in.wasm"), os.path.join(folder, "out.wasm")
        for shape, make in SHAPES:
            write_apart(make, name)
            size = os.path.getsize(name) / (1 << 20)
            for tool, command in ("binkit merge", [PROGRAM, "merge", name, "m", "-o", out]), ("wasm-validate", ["wasm-validate", name]):
                if not shutil.which(command[0]):
                    print(f"| {shape} | | {tool} | skipped: not installed | |")
                    continue
                runs = [timed(command) for _ in range(3)]
                ended = "failed" if any(run[2] for run in runs) else f"{min(run[0] for run in runs):.2f}"
                print(f"| {shape} | {size:.1f} | {tool} | {ended} | {max(run[1] for run in runs):.0f} |", flush=True)


if __name__ == "__main__":
    main()
