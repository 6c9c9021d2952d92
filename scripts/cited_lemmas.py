#!/usr/bin/env python3
"""Lists the names of a crate's proofs/ that other crates cite.

A crate is to name only definitions and public clauses of the crates below it. What
it takes from their proofs/ besides is listed in docs/DECISIONS.md, "Lemmas that
other crates cite": how many names, in how many files, and by crate the files in
which they stand. Not counted are names of base_* crates and of the toolchain's
libraries. A name can be cited by a `use` line, or by `using(..)` of a tactic in
src/.

    python3 scripts/cited_lemmas.py [--names] [TOP OF THE REPOSITORY]

Prints the files by crate, with `--names` also each name and the crates that cite
it, then each difference to docs/DECISIONS.md, and at the end `N names in M files`.
Ends with status 1 if there is a difference, or a line that cites proofs/ of another
crate in a form that the script does not read.
"""
import argparse
import collections
import glob
import os
import re
import sys

CITES = re.compile(r"\b(\w+)(?:\.|::)proofs\b")
USE = re.compile(r"^(?:pub )?(?:unfoldable )?(?:ghost )?use Rattle\.(\w+)\.proofs\.([^\s{]+?)(?:\.\{([^}]*)\})?(?: as \S+)?;?$")
USING = re.compile(r"\b(\w+)::proofs::((?:\w+::)*\w+)::([^\s,()]+)")
HEADING = "## Lemmas that other crates cite"
NUMBERS = re.compile(r"(\d+) names, in (\d+) files")
ROW = re.compile(r"^\| (\w+) \| (`.*) \|$", re.M)


def cited_in(line):
    """What a line cites: crate, file and name of each."""
    use = USE.match(line)
    if use:
        crate, place, names = use.groups()
        return [(crate, place, name.split(" as ")[0].strip()) for name in (names or "").split(",")]
    return [(crate, place.replace("::", "."), name) for crate, place, name in USING.findall(line)]


def cited_names(top):
    """The cited names, with the crates that cite each; the files that cite; lines that the script does not read."""
    crates = {os.path.basename(path) for path in glob.glob(f"{top}/crates/*")}
    cited, citing, unread = collections.defaultdict(set), set(), []
    for path in sorted(glob.glob(f"{top}/crates/*/**/*", recursive=True)):
        inside = os.path.relpath(path, f"{top}/crates").split(os.sep)
        if not path.endswith((".antt", ".rt")) or inside[1] not in ("src", "specs", "proofs"):
            continue

        def is_foreign(crate):
            return crate in crates and crate != inside[0] and not crate.startswith("base_")

        with open(path, encoding="utf-8") as file:
            lines = [line.split("--" if path.endswith(".antt") else "//")[0].strip() for line in file]
        for line in lines:
            if not any(map(is_foreign, CITES.findall(line))):
                continue
            found = [key for key in cited_in(line) if is_foreign(key[0])]
            citing.add(path)
            for key in found:
                cited[key].add(inside[0])
            if not found:
                unread.append(f"{'/'.join(inside)}: {line}")
    return cited, citing, unread


def told(top):
    """What docs/DECISIONS.md says: the numbers of names and files, and the files by crate."""
    with open(f"{top}/docs/DECISIONS.md", encoding="utf-8") as file:
        text = file.read()
    start = text.find(HEADING)
    if start < 0:
        sys.exit(f"docs/DECISIONS.md has no part {HEADING}")
    part = text[start : text.find("\n## ", start + 1)]
    numbers = NUMBERS.search(part)
    return numbers and tuple(map(int, numbers.groups())), {crate: set(re.findall(r"`([^`]+)`", files)) for crate, files in ROW.findall(part)}


def main():
    parser = argparse.ArgumentParser(description="Lists the names of a crate's proofs/ that other crates cite.")
    parser.add_argument("--names", action="store_true")
    parser.add_argument("top", nargs="?", default=".")
    given = parser.parse_args()
    cited, citing, unread = cited_names(given.top)
    files = collections.defaultdict(set)
    for crate, place, _ in cited:
        files[crate].add(place)
    for crate in sorted(files):
        print(f"{crate}: {', '.join(sorted(files[crate]))}")
        if given.names:
            for key in sorted(key for key in cited if key[0] == crate):
                print(f"    {key[1]}.{key[2] or '(the file)'}: {', '.join(sorted(cited[key]))}")
    numbers, table = told(given.top)
    wrong = [f"not read: {line}" for line in unread]
    if numbers != (len(cited), len(citing)):
        wrong.append(f"docs/DECISIONS.md says {numbers} for the names and files")
    for crate in sorted({*files, *table}):
        if files.get(crate, set()) != table.get(crate, set()):
            wrong.append(f"docs/DECISIONS.md: {crate}: cited {sorted(files.get(crate, set()))}, listed {sorted(table.get(crate, set()))}")
    print("\n".join(wrong + [f"{len(cited)} names in {len(citing)} files"]))
    return 1 if wrong else 0


if __name__ == "__main__":
    sys.exit(main())
