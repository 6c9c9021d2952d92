#!/usr/bin/env python3
"""Bad input gets a named refusal and writes nothing.

Runs the built program on every truncation of a small module, on every change of one of its bytes, on an empty file, a
directory and a missing file, and on outputs that can't be written. Each run must end with one of the program's statuses and
the text that belongs to it; a refused run must write nothing.

    scripts/bad_input.py [PROGRAM]
"""
import concurrent.futures
import os
import re
import subprocess
import sys
import tempfile

TOP = os.path.dirname(os.path.dirname(os.path.abspath(__file__)))
PROGRAM = os.path.abspath(sys.argv[1]) if len(sys.argv) > 1 else os.path.join(TOP, "crates", "binkit", "out", "binkit")
HEADER = bytes.fromhex("0061736d01000000")
MODULE = HEADER + bytes.fromhex("0105016000017f03020100070501016600000a0601040041070b")
REFUSAL = re.compile(
    rb"binkit: in\.wasm: (not a WebAssembly module|malformed (section|function) \d+"
    rb"|unsupported in (section|function) \d+|limit on [a-z ]+|invalid [a-z]+ \d+)\n"
    rb"|binkit: output exceeds the limit on [a-z ]+\n"
)


def run(words, folder, stderr=subprocess.PIPE):
    done = subprocess.run([PROGRAM, *words], cwd=folder, stdin=subprocess.DEVNULL, stdout=subprocess.PIPE, stderr=stderr, timeout=60)
    return done.returncode, done.stdout, done.stderr


def fault_of(content):
    """What is wrong with the answer to a file of this content, or None."""
    with tempfile.TemporaryDirectory() as folder:
        with open(os.path.join(folder, "in.wasm"), "wb") as file:
            file.write(content)
        status, out, err = run(["merge", "in.wasm", "m", "-o", "out.wasm"], folder)
        output = os.path.join(folder, "out.wasm")
        if out:
            return f"status {status} and {out!r} on standard output"
        if status == 0:
            if err or not os.path.exists(output):
                return f"status 0 with {err!r}, output there: {os.path.exists(output)}"
            with open(output, "rb") as file:
                return None if file.read(8) == HEADER else "status 0 and no module written"
        if status == 1 and REFUSAL.fullmatch(err) and not os.path.exists(output):
            return None
        return f"status {status} with {err!r}, output there: {os.path.exists(output)}"


def contents():
    for count in range(len(MODULE)):
        yield f"the first {count} bytes", MODULE[:count]
    for place, byte in enumerate(MODULE):
        for value in range(256):
            if value != byte:
                yield f"byte {place} as {value:02x}", MODULE[:place] + bytes([value]) + MODULE[place + 1:]


def outside_cases(folder):
    """Words, and the status and text that they must get."""
    os.mkdir(os.path.join(folder, "folder"))
    for name, content in ("good.wasm", MODULE), ("bad.wasm", b"no module"):
        with open(os.path.join(folder, name), "wb") as file:
            file.write(content)
    merge = ["merge", "good.wasm", "m", "-o"]
    yield ["merge", "folder", "m", "-o", "out.wasm"], 3, b"binkit: cannot read folder\n"
    yield ["merge", "missing.wasm", "m", "-o", "out.wasm"], 3, b"binkit: cannot read missing.wasm\n"
    yield [*merge, "folder"], 3, b"binkit: cannot write folder\n"
    yield [*merge, "missing/out.wasm"], 3, b"binkit: cannot write missing/out.wasm\n"
    yield [*merge, "/dev/full"], 3, b"binkit: cannot write /dev/full\n"


def outside_faults():
    """The runs whose files or streams fail."""
    with tempfile.TemporaryDirectory() as folder:
        for words, status, text in outside_cases(folder):
            got = run(words, folder)
            if got != (status, b"", text):
                yield f"{' '.join(words)}: {got}"
        with open("/dev/full", "wb") as full:
            got = run(["merge", "bad.wasm", "m", "-o", "out.wasm"], folder, stderr=full)
            if got[0] != 3:
                yield f"a refusal that can't be printed: {got}"
        if os.path.exists(os.path.join(folder, "out.wasm")):
            yield "a refused run wrote its output"


def main():
    cases = list(contents())
    with concurrent.futures.ThreadPoolExecutor(os.cpu_count()) as pool:
        found = list(pool.map(fault_of, (content for _, content in cases)))
    faults = [f"{name}: {fault}" for (name, _), fault in zip(cases, found) if fault]
    count = len(cases)
    if os.path.exists("/dev/full"):
        count += 6
        faults += outside_faults()
    else:
        print("bad input: files and streams that fail: skipped: no /dev/full here")
    for fault in faults[:20]:
        print(fault)
    print(f"bad input: {count} runs, {len(faults)} wrong")
    return 1 if faults else 0


if __name__ == "__main__":
    sys.exit(main())
