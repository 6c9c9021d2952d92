#!/usr/bin/env python3
"""Times merges of many functions and many parts.

    bench/merge_parts.py [PROGRAM]

Makes parts in a temporary folder, merges them, and merges the output once more alone. Prints a line for each kind of merge: the bytes in and out,
the seconds of both, and how many times as long the merge of the parts took as that of the output, which may have far fewer bytes. Of the merge that
is refused it prints the bytes in and the seconds.
"""
import os
import subprocess
import sys
import tempfile
import time

TOP = os.path.dirname(os.path.dirname(os.path.abspath(__file__)))
HEADER = b"\0asm\1\0\0\0"
TYPES = b"\1\x60\1\x7f\1\x7f"  # one type, i32 to i32


def leb(number):
    out = bytearray()
    while True:
        low, number = number & 0x7F, number >> 7
        out.append(low | (0x80 if number else 0))
        if not number:
            return bytes(out)


def section(number, content):
    return bytes([number]) + leb(len(content)) + content


def vector(items):
    return leb(len(items)) + b"".join(items)


def name(text):
    return leb(len(text)) + text.encode()


def module(imports, bodies, exports):
    """Functions of one type: imports (module, field), bodies, exports (name, index)."""
    out = HEADER + section(1, TYPES)
    if imports:
        out += section(2, vector([name(m) + name(f) + b"\0\0" for m, f in imports]))
    if bodies:
        out += section(3, vector([b"\0"] * len(bodies)))
    if exports:
        out += section(7, vector([name(n) + b"\0" + leb(i) for n, i in exports]))
    if bodies:
        out += section(10, vector([leb(len(b) + 2) + b"\0" + b + b"\x0b" for b in bodies]))
    return out


def adds(number):
    return b"\x20\0\x41" + leb(number % 64) + b"\x6a"


def calls(func):
    return b"\x20\0\x10" + leb(func)


def pair(count):
    yield "a", module([], [adds(i) for i in range(count)], [(f"f{i}", i) for i in range(count)])
    yield "b", module([("a", f"f{i}") for i in range(count)], [calls(i * 7919 % count) for i in range(count)], [(f"g{i}", count + i) for i in range(count)])


def many(parts, count):
    for p in range(parts):
        imports = [(f"p{p - 1}", "0")] if p else []
        first = len(imports)
        yield f"p{p}", module(imports, [calls(0) if p and i == 0 else adds(i) for i in range(count)], [("0", first)] if p == 0 else [("0", first), (f"e{p}", first + 1)])


def chain(parts, width):
    for p in range(parts - 1):
        yield f"p{p}", module([(f"p{p + 1}", str(i)) for i in range(width)], [], [(str(i), i) for i in range(width)])
    yield f"p{parts - 1}", module([], [adds(i) for i in range(width)], [(str(i), i) for i in range(width)])


def circle(parts, width):
    """Names passed on round a circle of parts: refused, since no import has an end."""
    for p in range(parts):
        yield f"p{p}", module([(f"p{(p + 1) % parts}", str(i)) for i in range(width)], [], [(str(i), i) for i in range(width)])


def diamonds(parts, width):
    """Each part imports each of its names from one of the two parts before it: many paths, one end."""
    for p in range(parts):
        imports = [(f"p{max(0, p - 1 - i % 2)}", str(i)) for i in range(width)] if p else []
        yield f"p{p}", module(imports, [] if p else [adds(i) for i in range(width)], [(str(i), i) for i in range(width)])


def same_name(parts):
    for p in range(parts):
        yield f"p{p}", module([], [adds(p)], [("f", 0)])


def timed(program, words, folder, status=0):
    begin = time.perf_counter()
    done = subprocess.run([program, *words], cwd=folder, capture_output=True)
    took = time.perf_counter() - begin
    if done.returncode != status:
        sys.exit(f"status {done.returncode}: {done.stderr.decode()}")
    return took


def measure(program, title, parts, flags=(), status=0):
    with tempfile.TemporaryDirectory() as folder:
        words, size = ["merge"], 0
        for part, content in parts:
            with open(os.path.join(folder, part + ".wasm"), "wb") as file:
                file.write(content)
            words += [part + ".wasm", part]
            size += len(content)
        took = timed(program, [*words, "-o", "o.wasm", *flags], folder, status)
        if status:
            print(f"{title}: {size} bytes in, refused after {took:.2f} s")
            return
        alone = timed(program, ["merge", "o.wasm", "m", "-o", "again.wasm"], folder)
        written = os.path.getsize(os.path.join(folder, "o.wasm"))
        print(f"{title}: {size} bytes in, {written} out, {took:.2f} s; the output alone {alone:.2f} s; {took / alone:.1f} times")


def main():
    program = os.path.abspath(sys.argv[1]) if len(sys.argv) > 1 else os.path.join(TOP, "crates/binkit/out/binkit")
    measure(program, "a pair of 100,000 functions each", pair(100_000))
    measure(program, "1,000 parts of 1,000 functions", many(1_000, 1_000), ["--skip-export-conflicts"])
    measure(program, "100 names passed on through 1,000 parts", chain(1_000, 100), ["--skip-export-conflicts"])
    measure(program, "100 names over diamonds of 1,000 parts", diamonds(1_000, 100), ["--skip-export-conflicts"])
    measure(program, "100 names round a circle of 1,000 parts", circle(1_000, 100), ["--skip-export-conflicts"], status=1)
    measure(program, "1,000 parts that export one name", same_name(1_000), ["--rename-export-conflicts"])


main()
