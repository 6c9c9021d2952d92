#!/usr/bin/env python3
"""Counts the lemma statements that stand more than once.

Reads each proofs/**/*.antt of each crate, takes the statement of each lemma
(`name : statement`), and puts into one group the statements that are the same
up to the names that they bind, and up to writing `(a b : T)` for `(a : T) (b : T)`.
Prints each group with its places, and at the end `N groups, M surplus`: M
statements could go if each group kept one.

Not counted: what a proof file says of a goal of its function (`goal.`), which
is no lemma; definitions and the like (`data`, `record`, `abbrev`, `unfoldable`,
`syntax`, `use`, `mod`); statements that are the same only once a definition
unfolds, the arguments change places, or the arguments are implicit in one of the
two.

    python3 scripts/same_lemmas.py [--most K] [TOP OF THE REPOSITORY]

With `--most K` the script ends with status 1 where there are more than K groups,
and in any case where there is no lemma at all.
"""
import argparse
import collections
import glob
import os
import re
import sys

TOKEN = re.compile(r"[^\s(){}\[\],.;λ:→×]+|[(){}\[\],.;λ:→×]")
WORD = re.compile(r"^[^\s(){}\[\],.;λ:→×]+$")
LEMMA = re.compile(r"^(?:pub )?([^\s:()]+) : (.*)$")
NO_LEMMA = ("use ", "mod ", "abbrev ", "unfoldable ", "data ", "record ", "syntax ")


def without_comment(line):
    start = line.find("--")
    if start == 0 or (start > 0 and line[start - 1] == " "):
        return line[:start]
    return line


def declarations(text):
    """The declarations of a file, each on one line: an indented line goes on."""
    found = []
    for line in map(without_comment, text.split("\n")):
        if line and not line[0].isspace():
            found.append(line)
        elif found:
            found[-1] += " " + line.strip()
    return found


def statement(declaration):
    """The name and the statement of a lemma; None for anything else."""
    plain = declaration.removeprefix("pub ")
    match = LEMMA.match(declaration)
    if not match or plain.startswith(NO_LEMMA) or match.group(2).startswith("goal."):
        return None
    return match.group(1), match.group(2)


def closing(tokens, start):
    """Where the bracket that opens at `start` closes."""
    depth = 0
    for place in range(start, len(tokens)):
        if tokens[place] in "({[":
            depth += 1
        elif tokens[place] in ")}]":
            depth -= 1
            if depth == 0:
                return place
    return len(tokens) - 1


def binders(tokens, start):
    """The names that a bracket binds, as (a b : T), and where its type begins."""
    place = start + 1
    while place < len(tokens) and WORD.match(tokens[place]):
        place += 1
    if place < len(tokens) and tokens[place] == ":" and place > start + 1:
        return tokens[start + 1 : place], place + 1
    return [], start + 1


def split_binders(tokens):
    """(a b : T) as (a : T) (b : T), all the way down."""
    out = []
    place = 0
    while place < len(tokens):
        token = tokens[place]
        names, inner = binders(tokens, place) if token in "({" else ([], 0)
        if not names:
            out.append(token)
            place += 1
            continue
        end = closing(tokens, place)
        kind = split_binders(tokens[inner:end])
        for name in names:
            out += [token, name, ":"] + kind + [tokens[end]]
        place = end + 1
    return out


def bound_names(tokens):
    bound = set()
    for place, token in enumerate(tokens):
        if token in "({":
            bound.update(binders(tokens, place)[0])
        elif token == "λ":
            for name in tokens[place + 1 :]:
                if name == ".":
                    break
                bound.add(name)
    return bound


def normal(text):
    """A statement with its bound names numbered in the order of their places."""
    tokens = split_binders(TOKEN.findall(text))
    bound = bound_names(tokens) - {"_"}
    numbers = {}
    return " ".join(
        "v%d" % numbers.setdefault(token, len(numbers)) if token in bound else token
        for token in tokens
    )


def groups(top):
    found = collections.defaultdict(list)
    crates = os.path.join(top, "crates")
    for path in sorted(glob.glob(crates + "/*/proofs/**/*.antt", recursive=True)):
        with open(path, encoding="utf-8") as file:
            text = file.read()
        for declaration in declarations(text):
            lemma = statement(declaration)
            if lemma:
                found[normal(lemma[1])].append((os.path.relpath(path, crates), lemma[0]))
    if not found:
        sys.exit("no lemma below %s" % crates)
    same = [(text, places) for text, places in found.items() if len(places) > 1]
    return sorted(same, key=lambda group: -len(group[1]))


def main():
    parser = argparse.ArgumentParser(description="counts lemma statements that stand more than once")
    parser.add_argument("--most", type=int, metavar="K", help="status 1 where there are more than K groups")
    parser.add_argument("top", nargs="?", default=".", help="top of the repository")
    options = parser.parse_args()
    same = groups(options.top)
    for text, places in same:
        print("* %d %s" % (len(places), text))
        for path, name in places:
            print("     ", path, name)
    surplus = sum(len(places) - 1 for _, places in same)
    print("%d groups, %d surplus" % (len(same), surplus))
    return 1 if options.most is not None and len(same) > options.most else 0


if __name__ == "__main__":
    sys.exit(main())
