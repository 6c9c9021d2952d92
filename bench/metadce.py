#!/usr/bin/env python3
"""Measures `metadce`, beside `merge` of the same module alone and Binaryen's wasm-metadce, in one run.

    bench/metadce.py [PROGRAM]

Makes modules whose first half of functions calls only one another and is reached, while the second half calls all and is not; for 1 MiB also ones of which
all or nothing is reached. Prints for each tool the processor time (the least of three runs), the greatest resident memory, and for 1 MiB the
machine instructions, as callgrind of valgrind counts them, with their ratios. Then it times graphs of nearly 16 MiB over a small module, and
one pair of names that many imports and many nodes have. A tool that is not installed is skipped.
"""
import json
import os
import random
import shutil
import sys
import tempfile

from read_write import begin, body, instructions, leb, part_counts, section, timed, vector

TOP = os.path.dirname(os.path.dirname(os.path.abspath(__file__)))
PROGRAM = os.path.abspath(sys.argv[1]) if len(sys.argv) > 1 else os.path.join(TOP, "crates/binkit/out/binkit")
MIB = 1 << 20
HEADER = b"\0asm\1\0\0\0"
GRAPHS = {
    "half": [{"name": "page", "root": True, "reaches": ["first"]}, {"name": "first", "export": "f"}, {"name": "second", "export": "g"}],
    "all": [{"name": "page", "root": True, "reaches": ["first", "second"]}, {"name": "first", "export": "f"}, {"name": "second", "export": "g"}],
    "nothing": [],
}
# as the PARTS of read_write.py
PARTS = [
    ("reading sections", "wasm_read::sections::read_section", 0),
    ("typing bodies", "wasm_valid_bodies::check::is_well_typed", 0),
    ("reading the graph", "dce_graph::reading::read_graph", 0),
    ("what bodies name", "dce_graph::code::visit_body", 0),
    ("sweeping", "dce_sweep::sweeping::sweep", 0),
    ("measuring bodies", "wasm_write::code::spell_instrs", 1),
    ("writing", "wasm_write::write", 0),
]


def after(code, next_one):
    """The body, with a call of the next function before the rest of it."""
    return code[:3] + b"\x20\x00\x20\x01\x10" + leb(next_one) + b"\x21\x03" + code[3:]


def halves(size):
    """A module of about as many bytes. Each function calls the next one of its half; the first function of the first half is exported as f, that of the second half as g."""
    choose = random.Random(size)
    bodies = []
    functions = size // 176
    half = functions // 2
    for i in range(functions):
        code = body(choose, half if i < half else functions)
        if i not in (half - 1, functions - 1):
            code = after(code, i + 1)
        bodies.append(leb(len(code)) + code)
    return HEADER + b"".join([
        section(1, vector([b"\x60\x02\x7f\x7f\x01\x7f"])),
        section(3, vector([b"\0"] * functions)),
        section(5, b"\1\0\1"),
        section(7, vector([b"\1f\0\0", b"\1g\0" + leb(half)])),
        section(10, vector(bodies)),
    ])


def write(folder, name, content):
    path = os.path.join(folder, name)
    with open(path, "wb") as file:
        file.write(content if isinstance(content, bytes) else json.dumps(content, separators=(",", ":")).encode())
    return path


def row(mib, reached, tool, command, size, folder):
    if not shutil.which(command[0]):
        print(f"| {mib} | {reached} | {tool} | skipped: not installed | | |")
        return None
    runs = [timed(command) for _ in range(3)]
    if any(status for _, _, status in runs):
        print(f"| {mib} | {reached} | {tool} | failed | | |")
        return None
    count = instructions(command, folder) if mib == 1 and shutil.which("valgrind") else None
    a_byte = f"{count / size:.0f}" if count else ""
    print(f"| {mib} | {reached} | {tool} | {min(run[0] for run in runs):.2f} | {max(run[1] for run in runs):.0f} | {a_byte} |", flush=True)
    return count


def compare(mib, reached, folder):
    content = halves(mib * MIB - 4096)
    name = write(folder, f"{mib}.wasm", content)
    graph = write(folder, "graph.json", GRAPHS[reached])
    out = os.path.join(folder, "out.wasm")
    words = [name, "--graph-file", graph, "-o", out]
    ours = row(mib, reached, "binkit metadce", [PROGRAM, "metadce", *words], len(content), folder)
    if ours:
        print_parts(ours, len(content), folder)
    merge = row(mib, reached, "binkit merge", [PROGRAM, "merge", name, "m", "-o", out], len(content), folder)
    theirs = row(mib, reached, "wasm-metadce", ["wasm-metadce", *words], len(content), folder)
    print_ratios(ours, [("merge", merge), ("wasm-metadce", theirs)])


def print_ratios(ours, others):
    """How many times the instructions of each other tool were taken, where both were counted."""
    for tool, count in others:
        if ours and count:
            print(f"times the instructions of {tool}: {ours / count:.2f}")


def print_parts(count, size, folder):
    for part, its_count in part_counts(PARTS, folder):
        print(f"    {part}: not found" if its_count is None else f"    {part}: {its_count / size:.0f} a byte")
    print(f"    all: {count / size:.0f} a byte")


# ---- large graphs ----

SMALL = HEADER + section(1, b"\1\x60\0\0") + section(3, b"\1\0") + section(7, vector([b"\1f\0\0"])) + section(10, b"\1\2\0\x0b")


def chain(size):
    """Each node reaches the next and one before it; the last names the export."""
    count = size // 51
    nodes = [{"name": f"n{i}", "reaches": [f"n{i + 1}", f"n{i // 2}"]} for i in range(count - 1)]
    nodes[0]["root"] = True
    return nodes + [{"name": f"n{count - 1}", "export": "f"}]


def star(size):
    """One node reaches all others, over and over."""
    count = size // 76
    leaves = [{"name": f"n{i}"} for i in range(count)]
    return [{"name": "page", "root": True, "reaches": [f"n{i * 7919 % count}" for i in range(6 * count)]}] + leaves


def same_export(size):
    return [{"name": f"n{i}", "root": True, "export": "f"} for i in range(size // 44)]


def alone(size):
    return [{"name": f"n{i}"} for i in range(size // 19)]


def same_pair(imports, nodes):
    """A module that imports one pair of names again and again, with a graph that has as many nodes for it."""
    exported = section(7, vector([b"\1f\0" + leb(imports - 1)]))
    module = HEADER + section(1, b"\1\x60\0\0") + section(2, vector([b"\1e\1c\0\0"] * imports)) + exported
    graph = [{"name": "page", "root": True, "reaches": ["first"]}, {"name": "first", "export": "f"}]
    return module, graph + [{"name": f"n{i}", "import": ["e", "c"], "reaches": ["first"]} for i in range(nodes)]


def time_graph(title, module, graph, folder):
    name, path = write(folder, "m.wasm", module), write(folder, "g.json", graph)
    size = os.path.getsize(path)
    seconds, memory, status = timed([PROGRAM, "metadce", name, "--graph-file", path, "-o", os.path.join(folder, "o.wasm")])
    print(f"| {title} | {len(module)} | {size} | {len(graph)} | {f'{seconds:.2f}' if status == 0 else f'status {status}'} | {memory:.0f} |", flush=True)


def main():
    begin(PROGRAM)
    with tempfile.TemporaryDirectory() as folder:
        print("| MiB | reached | tool | seconds | MiB of memory | instructions a byte |\n|---|---|---|---|---|---|")
        for mib, reached in (1, "half"), (1, "all"), (1, "nothing"), (4, "half"), (16, "half"):
            compare(mib, reached, folder)
        print("\n| graph | bytes of the module | bytes of the graph | nodes | seconds | MiB of memory |\n|---|---|---|---|---|---|")
        room = 16 * MIB - 65536
        time_graph("a chain in which each node reaches one before it too", SMALL, chain(room), folder)
        time_graph("one node that reaches all others six times", SMALL, star(room), folder)
        time_graph("roots that name one export", SMALL, same_export(room), folder)
        time_graph("nodes that nothing reaches (a line for each)", SMALL, alone(room), folder)
        module, graph = same_pair(300_000, 200_000)
        time_graph("a pair of names that 300,000 imports and 200,000 nodes have", module, graph, folder)


if __name__ == "__main__":
    main()
