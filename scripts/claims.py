#!/usr/bin/env python3
"""Checks that what README.md and the pages in docs/ cite is there.

    python3 scripts/claims.py [TOP OF THE REPOSITORY]

A contract is cited as `crate::function` or `crate::Type::function`, and its clauses as `: `one`, `two`` behind it. `clause.field` cites a
field of the record that the clause promises; whether it is one of that record is not checked, only that a record of the crate, or of CRATE_spec,
has it. In all
pages

- each such function stands in src/ of the crate as a public function, at the top or in a block of that type or trait, with each clause that is
  cited of it (`ensures NAME {`);
- each file that is cited with its path from the top or from crates/, and each file and heading that is linked, is there;
- each name that is cited as `NAME` in `FILE` stands in that file.

In README.md and docs/THEOREMS.md

- each row of a table with the column Contract cites one, or has `-` there;
- in README.md a row of such a table claims at most 25 words in its column Claim;
- a row with `-` in its column Premises cites no function that asks for something (`requires`);
- each name of code in a column Refused is a must-fail edit, as `name` or `crate/name`, a contract, or a file;
- a block of code behind a line `From `FILE`:` stands in that file, line by line.
"""
import functools
import glob
import os
import re
import sys

PAGES = ("README.md", "docs/THEOREMS.md")
CONTRACT = re.compile(r"`([a-z]\w*)((?:::\w+)+)`((?:: `[\w.]+`(?:(?:, | and )`[\w.]+`)*)?)")
SPAN = re.compile(r"`([^`]+)`")
FUNCTION = r"^{}(?:const )?fn {}\b"
# a block of a type or a trait: whether it has the functions of a trait, which are as public as that, and what stands in it
BLOCK = r"^(?:pub )?(?:impl(?:<[^\n]*?>)? (?:[^\n]* (for) )?|(trait) ){}\b[^\n]*\{{\n(.*?)^\}}"
QUOTED = re.compile(r"^From `([^`]+)`:\n\n((?:    .*\n|\n(?=    ))+)", re.M)
NEXT = re.compile(r"^ *(?:pub(?:\(\w+\))? )?(?:const )?fn \w+", re.M)
FILE = re.compile(r"^[\w.-]+(?:/[\w.-]+)+\.(?:antt|rt|md|mjs|py|sh|wat|wasm|html|json|edit)$")
IN_FILE = re.compile(r"((?:`\w+`(?:, | and )?)+) in `((?:[\w-]+/)+[\w-]+\.(?:antt|rt))`")
MOST_WORDS = 25


@functools.lru_cache(maxsize=None)
def text_below(folder, ending):
    """The texts of the files below a folder, one after the other."""
    files = sorted(glob.glob(f"{folder}/**/*{ending}", recursive=True))
    return "\n".join(open(file, encoding="utf-8").read() for file in files)


def blocks_of(code, owner):
    """The blocks of a type or a trait, each with what stands before a public function in it."""
    for is_for, is_trait, text in re.findall(BLOCK.format(owner), code, re.M | re.S):
        yield text, " *" if is_for or is_trait else " *pub "


def contracts_of(code, owners, name):
    """The text behind each public function of this name, up to the next one."""
    for text, before in blocks_of(code, owners[-1]) if owners else [(code, "pub ")]:
        for found in re.finditer(FUNCTION.format(before, name), text, re.M):
            following = NEXT.search(text, found.end())
            yield text[found.end(): following.start() if following else len(text)]


def is_clause(contract, clause, crate):
    name, _, field = clause.partition(".")
    if not re.search(rf"\bensures\*? {name} \{{", contract):
        return False
    specs = "\n".join(text_below(f"{folder}/specs", ".antt") for folder in (crate, f"{crate}_spec"))
    return not field or re.search(rf"^ +pub {field} :", specs, re.M) is not None


def faults_of_contract(top, crate, path, clauses):
    """What is wrong with one citation of a contract."""
    folder = f"{top}/crates/{crate}"
    if not os.path.isdir(folder):
        yield f"no crate {crate}"
        return
    *owners, name = path.split("::")
    code = text_below(f"{folder}/src", ".rt")
    contracts = list(contracts_of(code, owners, name))
    if not contracts:
        yield f"{crate} has no public function {path}"
    for clause in clauses if contracts else ():
        if not any(is_clause(contract, clause, folder) for contract in contracts):
            yield f"{crate}::{path} has no clause {clause}"


def tables_of(text):
    """The rows of each table as (number of the line, {column: cell})."""
    columns = None
    for number, line in enumerate(text.split("\n"), 1):
        if not line.startswith("|"):
            columns = None
            continue
        cells = [cell.strip() for cell in line.strip().strip("|").split(" | ")]
        cells = [cell.strip("| ").strip() for cell in cells]
        if columns is None:
            columns = cells
        elif not set(line) <= set("|-: "):
            yield number, dict(zip(columns, cells))


def asks(top, crate, path):
    """Whether the function that is cited asks for something: its contract ends where its body opens."""
    *owners, name = path.split("::")
    found = list(contracts_of(text_below(f"{top}/crates/{crate}/src", ".rt"), owners, name))
    return bool(found) and all(re.search(r"\brequires\b", re.split(r"^ *\{$", contract, flags=re.M)[0]) for contract in found)


@functools.lru_cache(maxsize=None)
def is_refused_by(top, name):
    """Whether a name in a column Refused is one of an edit, of a contract or of a file."""
    crate, _, edit = name.rpartition("/")
    if glob.glob(f"{top}/crates/{crate or '*'}/must-fail/{edit}.edit"):
        return True
    return bool(CONTRACT.fullmatch(f"`{name}`")) or is_file(top, top, name)


@functools.lru_cache(maxsize=None)
def path_of(top, folder, name):
    """The file that a page in this folder cites by this name."""
    return next((path for path in (f"{at}/{name}" for at in (top, folder, f"{top}/crates")) if os.path.exists(path)), None)


def is_file(top, folder, name):
    return path_of(top, folder, name) is not None


@functools.lru_cache(maxsize=None)
def text_of(top, folder, name):
    return open(path_of(top, folder, name), encoding="utf-8").read()


def faults_of_rows(top, page, text):
    for number, row in tables_of(text):
        if "Contract" in row and row["Contract"] != "-" and not CONTRACT.search(row["Contract"]):
            yield number, f"the row cites no contract: {row['Contract']}"
        for crate, path, _ in CONTRACT.findall(row.get("Contract", "")):
            if row.get("Premises") == "-" and asks(top, crate, path[2:]):
                yield number, f"{crate}{path} has premises"
        words = len(row.get("Claim", "").split())
        if page == "README.md" and words > MOST_WORDS:
            yield number, f"the row claims {words} words"
        for name in SPAN.findall(row.get("Refused", "")):
            if not is_refused_by(top, name):
                yield number, f"no edit, contract or file {name}"


def without_indent(text):
    return "\n".join(line.strip() for line in text.strip().split("\n"))


def faults_of_quotes(top, text):
    """The blocks of code that are quoted from a file and do not stand in it."""
    for found in QUOTED.finditer(text):
        name = found.group(1)
        if is_file(top, top, name) and without_indent(found.group(2)) not in without_indent(text_of(top, top, name)):
            yield text.count("\n", 0, found.start()) + 1, f"{name} does not have this text"


@functools.lru_cache(maxsize=None)
def headings_of(path):
    """The headings of a page, as links name them."""
    lines = re.findall(r"^#+ (.*)$", open(path, encoding="utf-8").read(), re.M)
    return {re.sub(r"[^\w -]", "", line.lower()).replace(" ", "-") for line in lines}


def faults_of_files(top, page, text):
    folder, page_name = os.path.split(f"{top}/{page}")
    for number, line in enumerate(text.split("\n"), 1):
        for name in SPAN.findall(line):
            if FILE.match(name) and not name.startswith((".", "specs/", "proofs/", "src/")) and "NAME" not in name and not is_file(top, folder, name):
                yield number, f"no file {name}"
        for names, name in IN_FILE.findall(line):
            for word in SPAN.findall(names) if is_file(top, folder, name) else ():
                if not re.search(rf"\b{word}\b", text_of(top, folder, name)):
                    yield number, f"no {word} in {name}"
        for target, _, heading in re.findall(r"\]\(([^)#]*)(#([^)]*))?\)", line):
            if "://" not in target and (not os.path.exists(f"{folder}/{target}") or heading and heading not in headings_of(f"{folder}/{target or page_name}")):
                yield number, f"the link leads nowhere: {target}#{heading}"


def main(top):
    count, failed = 0, 0
    others = sorted(os.path.relpath(page, top) for page in glob.glob(f"{top}/docs/**/*.md", recursive=True))
    for page in [*PAGES, *(page for page in others if page not in PAGES)]:
        text = open(f"{top}/{page}", encoding="utf-8").read()
        faults = list(faults_of_files(top, page, text))
        for found in CONTRACT.finditer(text):
            number, clauses = text.count("\n", 0, found.start()) + 1, SPAN.findall(found.group(3))
            count += max(len(clauses), 1)
            faults += [(number, fault) for fault in faults_of_contract(top, found.group(1), found.group(2)[2:], clauses)]
        if page in PAGES:
            faults += faults_of_rows(top, page, text)
            faults += faults_of_quotes(top, text)
        for number, fault in sorted(faults):
            print(f"{page}:{number}: {fault}")
        failed += len(faults)
    print(f"claims: {count} clauses and contracts are cited, {failed} faults")
    return 1 if failed else 0


if __name__ == "__main__":
    sys.exit(main(os.path.abspath(sys.argv[1] if len(sys.argv) > 1 else os.path.dirname(os.path.dirname(os.path.abspath(__file__))))))
