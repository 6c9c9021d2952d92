#!/usr/bin/env python3
"""Checks that the crates are called and stand on one another as docs/ARCHITECTURE.md says.

    python3 scripts/crate_names.py [TOP OF THE REPOSITORY]

Refuses, with one line for each,

- a name of crates.txt that neither begins with `base_`, nor is X with the ending
  `_spec`, `_proof` or `_tests` (X is a crate, or one of PLACES below), nor is in
  ONE_JOB below; and a name of ONE_JOB that is no crate;
- a crate `base_*` that names a crate which is neither `base_*` nor wasm_bytes
  (tests may name others);
- a crate of a tool (by the groups of crates.txt) that a crate outside its group
  names, except wasm_gen, tools_cli*, binkit and tests;
- more than 65 crates;
- a folder of crates/ that is not in crates.txt, and the reverse;
- a line of crates.txt that names a crate which nothing in src/, specs/ and proofs/
  of that line's crate names (as `Rattle.NAME`, `NAME::` or `use NAME`, comments
  aside). The toolchain's libraries are not looked at.

Prints at the end `N crates, N faults`; ends with status 1 if there is a fault.
"""
import glob
import os
import re
import sys

MOST = 65
COMMENT = re.compile(r"^\s*(?://|--).*$", re.M)
ENDINGS = ("_spec", "_proof", "_tests")
TOOLS = ("merge", "metadce", "split", "evaluation")
PLACES = {
    "base": "what has no WebAssembly in it",
    "wasm": "modules, their files and their execution",
    "merge": "the tool merge",
    "dce": "the tool metadce",
    "split": "the tool split",
    "eval": "the tool ctor-eval",
}
ONE_JOB = {
    "wasm_bytes": "numbers, names and sections as bytes",
    "wasm_num": "integer operations",
    "wasm_tree": "the module tree",
    "module_limits": "the first count above its limit",
    "wasm_read_items": "reads what sections contain",
    "wasm_read": "reads a file",
    "wasm_valid_bodies": "validates bodies",
    "wasm_valid": "validates modules",
    "wasm_write": "writes a module",
    "wasm_names": "reads the name section",
    "wasm_meaning": "defines execution",
    "run_simulation": "laws of runs",
    "index_remap": "replaces indices",
    "world_simulation": "laws of worlds",
    "merge_names": "names the exports of a merged module",
    "merge_link": "links parts",
    "merge_join": "joins linked parts",
    "wasm_gen": "makes sample modules",
    "dce_graph": "reads a graph and marks what is reached",
    "dce_sweep": "removes what is not marked",
    "split_plan": "chooses the functions that move",
    "split_slots": "makes both modules of a split",
    "block_pool": "a memory that can be rolled back",
    "marked_pages": "a benchmark of block_pool",
    "eval_machine": "runs constructors",
    "eval_snapshot": "makes the module after them",
    "tool_io": "files and streams",
    "tools_cli_words": "reads command lines",
    "tools_cli_eval": "evaluates the listed constructors",
    "tools_cli_decide": "what a command line asks for, and what a task decides",
    "tools_cli": "the commands",
    "binkit": "main",
}


def crates_of(top):
    """The crates of crates.txt, each with its group and the names on its line."""
    crates, group = {}, ""
    with open(f"{top}/crates.txt", encoding="utf-8") as file:
        for line in map(str.strip, file):
            if line.startswith("#"):
                group = line[1:].strip()
            elif line:
                name, _, below = line.partition(":")
                crates[name] = group, below.split()
    return crates


def has_known_name(name, crates):
    for ending in ENDINGS:
        if name.endswith(ending) and name[: -len(ending)] in {*crates, *PLACES}:
            return True
    return name.startswith("base_") or name in ONE_JOB


def may_name(name, group, other, other_group):
    """Whether a crate may name another one: base crates name only base crates, and no tool names another tool."""
    if name.endswith("_tests"):
        return True
    if name.startswith("base_"):
        return other.startswith("base_") or other == "wasm_bytes"
    return group == other_group or other_group not in TOOLS or name in ("wasm_gen", "binkit") or name.startswith("tools_cli")


def text_of(folder):
    """What stands in the files of a crate, without lines of comment."""
    paths = [path for part in ("src", "specs", "proofs") for path in glob.glob(f"{folder}/{part}/**/*", recursive=True)]
    text = "\n".join(open(path, encoding="utf-8").read() for path in paths if path.endswith((".rt", ".antt")))
    return COMMENT.sub("", text)


def is_named(name, text):
    return re.search(rf"\bRattle\.{name}\b|\b{name}::|\buse {name}\b", text) is not None


def faults(top, crates):
    folders = {os.path.basename(path) for path in glob.glob(f"{top}/crates/*") if os.path.isdir(path)}
    yield from (f"crates/{name} is not in crates.txt" for name in sorted(folders - {*crates}))
    yield from (f"{name} has no folder in crates/" for name in crates if name not in folders)
    yield from (f"ONE_JOB has {name}, which is no crate" for name in ONE_JOB if name not in crates)
    if len(crates) > MOST:
        yield f"{len(crates)} crates are more than {MOST}"
    for name, (group, below) in crates.items():
        if not has_known_name(name, crates):
            yield f"{name}: the name follows no pattern, and is not in ONE_JOB"
        text = text_of(f"{top}/crates/{name}")
        for other in (other for other in below if other in crates):
            if not may_name(name, group, other, crates[other][0]):
                yield f"{name} must not name {other} ({crates[other][0]})"
            if not is_named(other, text):
                yield f"{name}: its line names {other}, but none of its files does"


def main(top):
    crates = crates_of(top)
    found = list(faults(top, crates))
    print("\n".join([*found, f"{len(crates)} crates, {len(found)} faults"]))
    return 1 if found else 0


if __name__ == "__main__":
    sys.exit(main(sys.argv[1] if len(sys.argv) > 1 else os.path.dirname(os.path.dirname(os.path.abspath(__file__)))))
