#!/usr/bin/env python3
"""Damaged real modules get an answer of the program, and what is written of them is valid.

Takes the modules of a folder, flips bits, cuts, inserts and moves pieces, in the whole file or in the contents of one section whose size is
then put right, and runs one command on each module that comes out, the commands in turn. The same seed makes the same runs. Each run must end
with status 0 or 1; its text must be one that this command has for a module; a refused run must leave all files as they were; a run that is
done must write its outputs, which wasm-validate of wabt, where it is installed, must accept.

    scripts/damaged_modules.py [FOLDER] [PROGRAM] [--runs N] [--seed N]

There are N runs, 6,000 unless it is given.
"""
import argparse
import concurrent.futures
import os
import random
import re
import shutil
import subprocess
import sys
import tempfile

from cases import SAMPLES, TOP, run_in

WHICH = (
    "input bytes|types|imports|functions|tables|memories|globals|exports|element segments|data segments|nesting|locals|parameters|results"
)
COUNTED = "types|imports|functions|tables|memories|globals|exports|element segments|data segments"
KINDS = "import|memories|func|table|memory|global|export|start|elem|data|body"
OF_A_FILE = (
    r"{file}: (not a WebAssembly module|malformed (section|function) \d+|unsupported in (section|function) \d+"
    rf"|limit on ({WHICH})|invalid ({KINDS}) \d+)"
)
TEXTS = {
    "merge": [
        OF_A_FILE,
        r"{file}: import \d+ (does not match|has no end|has limits that clash)",
        "more than one memory",
        r"{file}: global \d+ has no value",
        "export .* stands twice",
        f"output exceeds the limit on ({COUNTED})",
    ],
    "split": [
        OF_A_FILE,
        "no function .*",
        "several functions .*",
        "function .* is kept and split",
        r"{file}: import \d+ uses the placeholder namespace",
        "export .* is taken",
        f"output exceeds the limit on (trampolines|{COUNTED})",
    ],
    "metadce": [OF_A_FILE, f"output exceeds the limit on ({COUNTED})"],
    "ctor-eval": [OF_A_FILE, "no exported function .*", f"output exceeds the limit on ({COUNTED})"],
}
STOPS = "import|grow|table write|unknown|trap|signature|steps|depth|memory"
LINES = {
    "merge": "",
    "split": r"(kept .*: uses a segment\n)*",
    "metadce": r"(unused: .*\n)*",
    "ctor-eval": rf"(evaluated .*\n)*((stopped at .*|instantiation stopped): ({STOPS})\n)?",
}
OUTPUTS = {"merge": ["o.wasm"], "split": ["p", "q"], "metadce": ["o.wasm"], "ctor-eval": ["o.wasm"]}
# wabt refuses `global.get` among the items of an element segment, which the standard allows
KNOWN_REFUSAL = re.compile(rb"expected ref.null or ref.func in passive element segment")


def number_of(data, place):
    """The u32 that is encoded there, and the place behind it; or None."""
    value = 0
    for step in range(5):
        if place + step >= len(data):
            return None
        byte = data[place + step]
        value |= (byte & 0x7F) << (7 * step)
        if byte < 0x80:
            return value, place + step + 1
    return None


def encoded(value):
    out = bytearray()
    while True:
        byte = value & 0x7F
        value >>= 7
        if not value:
            return bytes(out + bytes([byte]))
        out.append(byte | 0x80)


def sections_of(data):
    """The sections of a whole module, as numbers and contents."""
    place, found = 8, []
    while place < len(data):
        size, begin = number_of(data, place + 1)
        found.append((data[place], data[begin:begin + size]))
        place = begin + size
    return found


def flipped(draw, data):
    data = bytearray(data)
    for _ in range(draw.choice((1, 1, 1, 2, 3, 8))):
        if data:
            data[draw.randrange(len(data))] ^= 1 << draw.randrange(8)
    return bytes(data)


# small counts, opcodes, types, and bytes of long numbers
TELLING = bytes.fromhex("0001020304050b0c0e0f10111a1b202123284160706f7e7f80d2fcff")


def replaced(draw, data):
    """A byte that often means something in a module, in place of another."""
    if not data:
        return data
    place = draw.randrange(len(data))
    return data[:place] + bytes([draw.choice(TELLING)]) + data[place + 1:]


def piece_of(draw, data):
    """Where a piece begins and ends: mostly a short one."""
    begin = draw.randrange(len(data) + 1)
    longest = draw.choice((1, 2, 4, 16, 64, len(data)))
    return begin, min(len(data), begin + draw.randrange(longest + 1))


def cut(draw, data):
    begin, end = piece_of(draw, data)
    return data[:begin] + data[end:]


def cut_off(draw, data):
    return data[:draw.randrange(len(data) + 1)]


def inserted(draw, data):
    place = draw.randrange(len(data) + 1)
    piece = draw.choice((draw.randbytes(draw.randrange(1, 9)), bytes(draw.randrange(1, 9)), b"\xff" * draw.randrange(1, 6)))
    return data[:place] + piece + data[place:]


def moved(draw, data):
    """A piece stands elsewhere, or twice."""
    begin, end = piece_of(draw, data)
    rest = data if draw.random() < 0.5 else data[:begin] + data[end:]
    place = draw.randrange(len(rest) + 1)
    return rest[:place] + data[begin:end] + rest[place:]


DAMAGES = [flipped, flipped, flipped, replaced, replaced, cut, cut_off, inserted, moved]


def damaged(draw, data):
    """A damaged form of a module: of its bytes, or of the contents of one section, or with sections moved."""
    damage = draw.choice(DAMAGES)
    way = draw.random()
    if way < 0.3:
        return damage(draw, data)
    sections = sections_of(data)
    if way < 0.37:
        sections = moved(draw, sections) if draw.random() < 0.5 else cut(draw, sections)
    else:
        known = [place for place, (number, _) in enumerate(sections) if number] or range(len(sections))
        place = draw.choice(known)
        number, content = sections[place]
        sections[place] = number, damage(draw, content)
    return data[:8] + b"".join(bytes([number]) + encoded(len(content)) + content for number, content in sections)


def names_of(data):
    """The names of the exported functions."""
    content = dict(sections_of(data)).get(7, b"\0")
    count, place = number_of(content, 0)
    found = []
    for _ in range(count):
        size, begin = number_of(content, place)
        kind = content[begin + size]
        if kind == 0:
            found.append(content[begin:begin + size].decode())
        place = number_of(content, begin + size + 1)[1]
    return found


def modules_below(folder):
    """The sets of modules of the folder: their files and contents, in the order in which they are merged."""
    for name in sorted(os.listdir(folder)):
        path = os.path.join(folder, name)
        names = sorted(os.listdir(path)) if os.path.isdir(path) else [name]
        names = [found for found in names if found.endswith(".wasm")]
        files = {}
        for found in names:
            with open(os.path.join(path, found) if os.path.isdir(path) else path, "rb") as file:
                files[found] = file.read()
        if files:
            yield name, files


def words_of(command, draw, files, name, exported):
    """The words of a run over these files, of which the one of that name is damaged, and the files."""
    some = [one for one in exported if draw.random() < 0.5] or exported[:1] or ["none"]
    if command == "merge":
        parts = [word for file in files for word in (file, file.removesuffix(".wasm"))]
        flag = draw.choice([[], ["--rename-export-conflicts"], ["--skip-export-conflicts"]])
        return ["merge", *parts, "-o", "o.wasm", *flag], files
    files = {name: files[name]}
    if command == "split":
        option = draw.choice(("--split-funcs", "--keep-funcs"))
        return ["split", name, f"{option}={','.join(some)}", "--primary-output=p", "--secondary-output=q"], files
    if command == "metadce":
        nodes = ",".join('{"name":"%s","root":true,"export":"%s"}' % (one, one) for one in some)
        return ["metadce", name, "--graph-file=g.json", "-o", "o.wasm"], {**files, "g.json": f"[{nodes}]".encode()}
    return ["ctor-eval", name, f"--ctors={','.join(some)}", "-o", "o.wasm"], files


def fault_of_outputs(command, files, ended, folder, validator):
    """What is wrong with what a run that is done has written, or None; and whether the validator was not heard."""
    if ended.err or not re.fullmatch(LINES[command].encode(), ended.out):
        return f"status 0 with {ended.out[:200]!r} and {ended.err[:200]!r}", 0
    if set(ended.files) != {*files, *OUTPUTS[command]} or any(ended.files[name] != content for name, content in files.items()):
        return f"status 0 and the files {sorted(ended.files)}", 0
    passed_over = 0
    for name in OUTPUTS[command] if validator else []:
        judged = subprocess.run([validator, os.path.join(folder, name)], stdin=subprocess.DEVNULL, capture_output=True, timeout=60)
        if judged.returncode and KNOWN_REFUSAL.search(judged.stdout + judged.stderr):
            passed_over += 1
        elif judged.returncode:
            return f"{name} is refused by wasm-validate: {(judged.stdout + judged.stderr)[:300]!r}", passed_over
    return None, passed_over


def answer_to(program, validator, command, words, files):
    """The status, what is wrong or None, and how often the validator was not heard."""
    with tempfile.TemporaryDirectory() as folder:
        for name, content in files.items():
            with open(os.path.join(folder, name), "wb") as file:
                file.write(content)
        ended = run_in(folder, program, words)
        if ended.status == 0:
            return (0, *fault_of_outputs(command, files, ended, folder, validator))
    names = "|".join(re.escape(name) for name in files if name.endswith(".wasm"))
    texts = "|".join(text.replace("{file}", f"({names})") for text in TEXTS[command])
    if ended.status != 1 or not re.fullmatch(f"binkit: ({texts})\n".encode(), ended.err, re.DOTALL):
        return ended.status, f"status {ended.status} with {ended.err[:200]!r}", 0
    if ended.out or ended.files != files:
        return 1, f"status 1, {ended.out[:200]!r} on standard output and the files {sorted(ended.files)}", 0
    return 1, None, 0


def runs_of(count, seed, folder):
    """So many runs: a name, a command, its words and its files."""
    draw = random.Random(seed)
    samples, commands = list(modules_below(folder)), list(TEXTS)
    for number in range(count):
        sample, files = samples[number % len(samples)]
        command = commands[number // len(samples) % len(commands)]
        name = draw.choice(sorted(files))
        exported = names_of(files[name])
        files = {**files, name: damaged(draw, files[name])}
        words, files = words_of(command, draw, files, name, exported)
        yield f"run {number}, {command} of {sample}", command, words, files


def main():
    parser = argparse.ArgumentParser()
    parser.add_argument("folder", nargs="?", default=SAMPLES)
    parser.add_argument("program", nargs="?", default=os.path.join(TOP, "crates", "binkit", "out", "binkit"))
    parser.add_argument("--runs", type=int, default=6000)
    parser.add_argument("--seed", type=int, default=1)
    chosen = parser.parse_args()
    program = os.path.abspath(chosen.program)
    validator = shutil.which("wasm-validate")
    if not validator:
        print("damaged modules: wasm-validate: skipped: wabt is not installed")
    runs = list(runs_of(chosen.runs, chosen.seed, chosen.folder))
    done, wrong, passed_over = 0, 0, 0
    with concurrent.futures.ThreadPoolExecutor(os.cpu_count()) as pool:
        answers = pool.map(lambda run: answer_to(program, validator, *run[1:]), runs)
        for (name, _, words, _), (status, fault, unheard) in zip(runs, answers):
            done += status == 0
            passed_over += unheard
            if fault:
                wrong += 1
                if wrong <= 20:
                    print(f"{name}: {' '.join(words)}: {fault}")
    unheard = f", {passed_over} outputs that wabt is known to refuse wrongly" if passed_over else ""
    print(f"damaged modules: {len(runs)} runs, {done} done{unheard}, {wrong} wrong")
    return 1 if wrong or not runs else 0


if __name__ == "__main__":
    sys.exit(main())
