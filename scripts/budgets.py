#!/usr/bin/env python3
"""budgets.py PROGRAM: what `ctor-eval` comes to at the numbers of its three budgets, and one past each.

Turns: 8,333,333 rounds of a loop of six instructions, and two before it, take all 50,000,000 (too long for a test). Depth: the function and 999 blocks in one another are
1,000 frames and labels. Memory: of 1,025 pages a constructor fills 2^26 bytes, which is 16,384 blocks, and a second one a byte more.
"""
import os
import subprocess
import sys
import tempfile

HEADER = bytes.fromhex("0061736D01000000")
ROUNDS = bytes.fromhex("01017F4195D0FC0321000340200041016B22000D000B")
NOP, END = b"\x01", b"\x0b"

# Its function a fills 2^26 bytes from place 0 on, and b one byte more.
FILLING = HEADER + bytes.fromhex(
    "01040160000003030200000504010081080709020161000001620001"
    "0A1F020E00410041004180808020FC0B000B0E00410041004181808020FC0B000B"
)
# After a: its export is gone, and the memory is all zeros still.
FILLING_AFTER = HEADER + bytes.fromhex(
    "010401600000030302000005040100810807050101620001"
    "0A1F020E00410041004180808020FC0B000B0E00410041004181808020FC0B000B"
)


def leb(number):
    out = bytearray()
    while number >= 128:
        out.append(number % 128 + 128)
        number >>= 7
    out.append(number)
    return bytes(out)


def section(number, content):
    return bytes([number]) + leb(len(content)) + content


def module(body):
    """One function of this body (its locals too), exported as a."""
    functions = section(1, b"\x01\x60\x00\x00") + section(3, b"\x01\x00") + section(7, b"\x01\x01a\x00\x00")
    return HEADER + functions + section(10, b"\x01" + leb(len(body)) + body)


def nested(count):
    return module(b"\x00" + b"\x02\x40" * count + END * count + END)


def evaluated(program, content, constructors):
    with tempfile.TemporaryDirectory() as folder:
        path, out = os.path.join(folder, "m.wasm"), os.path.join(folder, "o.wasm")
        with open(path, "wb") as file:
            file.write(content)
        ended = subprocess.run([program, "ctor-eval", path, f"--ctors={constructors}", "-o", out], capture_output=True, check=False)
        written = None
        if os.path.exists(out):
            with open(out, "rb") as file:
                written = file.read()
        return (ended.returncode, ended.stdout.decode(), ended.stderr.decode()), written


def main():
    rows = [
        ("50,000,000 turns", module(ROUNDS + END), "a", "evaluated a\n", None),
        ("50,000,001 turns", module(ROUNDS + NOP + END), "a", "stopped at a: steps\n", "same"),
        ("999 blocks in one another", nested(999), "a", "evaluated a\n", None),
        ("1,000 blocks in one another", nested(1000), "a", "stopped at a: depth\n", "same"),
        ("16,384 blocks of memory, and one more", FILLING, "a,b", "evaluated a\nstopped at b: memory\n", FILLING_AFTER),
    ]
    wrong = 0
    for name, content, constructors, lines, expected in rows:
        told, written = evaluated(sys.argv[1], content, constructors)
        expected = content if expected == "same" else expected
        output = "no output" if written is None else "another output" if expected not in (None, written) else "an output"
        if told != (0, lines, "") or output != "an output":
            wrong += 1
            print(f"budgets: {name}: {told}, and {output}")
    print(f"budgets: {len(rows)} runs, {wrong} wrong")
    sys.exit(wrong > 0)


main()
