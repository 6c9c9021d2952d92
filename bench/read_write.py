#!/usr/bin/env python3
"""Measures reading, validating and writing one module, beside other tools, in one run.

    bench/read_write.py [PROGRAM]

Makes modules of 1, 4 and 16 MiB, and prints for each tool the processor time (the least of three runs), the greatest resident memory, and for the
smallest module the machine instructions, as callgrind of valgrind counts them. `merge` reads, validates and writes; wasm-strip (wabt) reads and copies
sections; wasm-opt (binaryen) without passes reads and writes; wasm-validate (wabt) reads and validates. A tool that is not installed is skipped.
Then it prints where the instructions of `merge` go for the smallest module: those of whole calls of the functions in PARTS, and all.
"""
import os
import random
import re
import shutil
import subprocess
import sys
import tempfile

TOP = os.path.dirname(os.path.dirname(os.path.abspath(__file__)))
PROGRAM = os.path.abspath(sys.argv[1]) if len(sys.argv) > 1 else os.path.join(TOP, "crates/binkit/out/binkit")


def leb(n):
    out = bytearray()
    while n >= 128:
        out.append(n % 128 + 128)
        n //= 128
    out.append(n)
    return bytes(out)


def vector(items):
    return leb(len(items)) + b"".join(items)


def section(number, content):
    return bytes([number]) + leb(len(content)) + content


def body(choose, functions):
    """A body of type [i32 i32] to [i32] as compilers write them: arithmetic, locals, loads and stores, blocks, branches and calls."""
    out = bytearray(b"\x01\x02\x7f")
    for _ in range(choose.randrange(4, 24)):
        kind = choose.randrange(6)
        if kind == 0:
            out += b"\x20\x00\x41" + leb(choose.randrange(64)) + b"\x6a\x21\x02"
        elif kind == 1:
            out += b"\x20\x01\x28\x02" + leb(choose.randrange(4096)) + b"\x22\x03\x20\x02\x73\x21\x00"
        elif kind == 2:
            out += b"\x02\x40\x20\x00\x45\x0d\x00\x20\x01\x20\x02\x36\x02" + leb(choose.randrange(4096)) + b"\x0b"
        elif kind == 3:
            out += b"\x20\x00\x20\x01\x10" + leb(choose.randrange(functions)) + b"\x21\x03"
        elif kind == 4:
            out += b"\x03\x40\x20\x02\x41\x01\x6b\x22\x02\x0d\x00\x0b"
        else:
            out += b"\x20\x00\x04\x7f\x20\x01\x05\x41\x07\x0b\x21\x01"
    return bytes(out + b"\x20\x03\x0b")


def module(size):
    choose = random.Random(size)
    functions = size // 125
    bodies, length = [], 0
    while length < size - 8 * functions // 4 and len(bodies) < functions:
        code = body(choose, functions)
        bodies.append(leb(len(code)) + code)
        length += len(bodies[-1]) + 1
    while len(bodies) < functions:
        bodies.append(leb(4) + b"\x00\x41\x00\x0b")
    parts = [
        section(1, vector([b"\x60\x02\x7f\x7f\x01\x7f"])),
        section(3, vector([b"\x00"] * functions)),
        section(5, b"\x01\x00\x01"),
        section(7, vector([b"\x01f\x00\x00"])),
        section(10, vector(bodies)),
    ]
    return b"\0asm\1\0\0\0" + b"".join(parts)


def begin(program):
    """Ends where there is no program, and tells where no instructions are counted."""
    if not shutil.which(program):
        sys.exit("no program")
    if not shutil.which("valgrind"):
        print("instructions: skipped: valgrind is not installed")


def timed(command):
    """Seconds of processor time and greatest resident MiB of one run."""
    child = subprocess.Popen(command, stdout=subprocess.DEVNULL, stderr=subprocess.DEVNULL)
    _, status, usage = os.wait4(child.pid, 0)
    return usage.ru_utime + usage.ru_stime, usage.ru_maxrss / 1024, status


def instructions(command, folder):
    done = subprocess.run(
        ["valgrind", "--tool=callgrind", f"--callgrind-out-file={folder}/callgrind", *command], capture_output=True, text=True
    )
    found = re.search(r"Collected : (\d+)", done.stderr)
    return int(found.group(1)) if found else None


# A part of the job, and the function whose calls it is. Of a generic function, which is in the program once for each target, also which of these
# takes how many instructions: 0 for the most.
PARTS = [
    ("reading sections", "wasm_read::sections::read_section", 0),
    ("typing bodies", "wasm_valid_bodies::check::is_well_typed", 0),
    ("joining", "merge_join::tree::joined_tree", 0),
    ("renumbering bodies, in joining", "index_remap::in_place::rewrite_all", 0),
    ("measuring bodies", "wasm_write::code::spell_instrs", 1),
    ("writing", "wasm_write::write", 0),
]


def part_counts(parts, folder):
    """Each part with its instructions in the run that callgrind saw last, or None where the program has no such function."""
    told = subprocess.run(["callgrind_annotate", "--inclusive=yes", "--threshold=100", f"{folder}/callgrind"], capture_output=True, text=True).stdout
    for part, function, which in parts:
        found = re.findall(rf"([\d,]+) .*\?\?\?:{function}(?:::<[^>]*>)? \[", told)
        counts = sorted((int(one.replace(",", "")) for one in found), reverse=True)
        yield part, counts[which] if which < len(counts) else None


def print_parts(command, size, folder):
    count = instructions(command, folder)
    print("\n| part of binkit merge | instructions a byte |\n|---|---|")
    for part, its_count in part_counts(PARTS, folder):
        print(f"| {part} | not found |" if its_count is None else f"| {part} | {its_count / size:.0f} |")
    print(f"| all | {count / size:.0f} |")


def main():
    begin(PROGRAM)
    with tempfile.TemporaryDirectory() as folder:
        print("| MiB | tool | seconds | MiB of memory | instructions a byte |")
        print("|---|---|---|---|---|")
        for mib in 1, 4, 16:
            name = os.path.join(folder, f"{mib}.wasm")
            content = module(mib * (1 << 20) - 4096)
            with open(name, "wb") as file:
                file.write(content)
            out = os.path.join(folder, "out.wasm")
            tools = [
                ("binkit merge", [PROGRAM, "merge", name, "m", "-o", out]),
                ("wasm-strip", ["wasm-strip", name, "-o", out]),
                ("wasm-opt", ["wasm-opt", name, "-o", out]),
                ("wasm-validate", ["wasm-validate", name]),
            ]
            for tool, command in tools:
                if not shutil.which(command[0]):
                    print(f"| {mib} | {tool} | skipped: not installed | | |")
                    continue
                runs = [timed(command) for _ in range(3)]
                if any(run[2] for run in runs):
                    print(f"| {mib} | {tool} | failed | | |")
                    continue
                count = instructions(command, folder) if mib == 1 and shutil.which("valgrind") else None
                a_byte = f"{count / len(content):.0f}" if count else ""
                print(f"| {mib} | {tool} | {min(run[0] for run in runs):.2f} | {max(run[1] for run in runs):.0f} | {a_byte} |", flush=True)
        if shutil.which("valgrind"):
            content = module((1 << 20) - 4096)
            print_parts([PROGRAM, "merge", os.path.join(folder, "1.wasm"), "m", "-o", os.path.join(folder, "out.wasm")], len(content), folder)


if __name__ == "__main__":
    main()
