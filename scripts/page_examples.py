#!/usr/bin/env python3
"""Runs the examples of the commands' pages and of README.md, and compares what they print with what the pages show.

    scripts/page_examples.py PROGRAM

In docs/commands/*.md and README.md a line `    $ COMMAND` is run, in the copy of examples/, tests/samples/ and loader/ that its block has for
itself; the lines behind it, up to the next command or the end of the block, are what it prints on standard output and standard error. A block
begins at the top. Commands that begin with `rt` are not run. Without wabt (`wat2wasm`, `wasm2wat`, `wasm-objdump`) the blocks that call it are
passed over. How many commands these are is told.
"""
import glob
import os
import re
import shutil
import subprocess
import sys
import tempfile

TOP = os.path.dirname(os.path.dirname(os.path.abspath(__file__)))
WABT = ("wat2wasm", "wasm2wat", "wasm-objdump")
# What ./binkit says while it builds stands in README and does not come from the program.
BUILDS = "binkit: proving and building"


def blocks_of(text):
    """The blocks of a page that have commands: lists of [command, what is shown]."""
    for block in re.findall(r"(?:^    .*\n|^\n(?=    ))+", text, re.M):
        steps, goes_on = [], False
        for line in (line[4:] for line in block.split("\n") if line.strip()):
            if goes_on:
                steps[-1][0] += "\n" + line
            elif line.startswith("$ "):
                steps.append([line[2:], []])
            elif steps:
                steps[-1][1].append(line)
            goes_on = goes_on and line.endswith("\\") or line.startswith("$ ") and line.endswith("\\")
        if steps:
            yield steps


def lacks_wabt(steps):
    return any(tool in command for tool in WABT if not shutil.which(tool) for command, _ in steps)


def is_left_out(command):
    return command.startswith("rt ")


def script_of(steps):
    """The block as one script of bash, with a line of its own behind each command."""
    lines = []
    for command, _ in steps:
        lines += [":" if is_left_out(command) else command, "echo '<end>'"]
    return "\n".join(lines)


def faults_of(steps, folder, program):
    with tempfile.TemporaryDirectory() as tools:
        # (the block calls the program by its name)
        os.symlink(program, f"{tools}/binkit")
        environment = {**os.environ, "PATH": f"{tools}:{os.environ['PATH']}"}
        text = script_of(steps).replace("./binkit", "binkit")
        how = {"cwd": folder, "env": environment, "stdin": subprocess.DEVNULL, "stdout": subprocess.PIPE, "stderr": subprocess.STDOUT}
        ran = subprocess.run(["bash", "-c", text], text=True, timeout=600, **how)
    printed = ran.stdout.split("<end>\n")
    if len(printed) != len(steps) + 1:
        yield f"{steps[0][0].splitlines()[0]}: of {len(steps)} commands of the block {len(printed) - 1} come to an end"
    for (command, shown), got in zip(steps, printed):
        wanted = "".join(line + "\n" for line in shown if not line.startswith(BUILDS))
        if [line.strip() for line in got.split("\n")] != [line.strip() for line in wanted.split("\n")]:
            yield f"{command.splitlines()[0]}: prints {got!r}"


def main(program):
    count = no_wabt = left_out = failed = 0
    pages = [f"{TOP}/README.md", *sorted(glob.glob(f"{TOP}/docs/commands/*.md"))]
    for page in pages:
        for steps in blocks_of(open(page, encoding="utf-8").read()):
            not_here = sum(is_left_out(command) for command, _ in steps)
            left_out += not_here
            if lacks_wabt(steps):
                no_wabt += len(steps) - not_here
                continue
            with tempfile.TemporaryDirectory() as folder:
                for part in ("examples", "tests/samples", "loader"):
                    shutil.copytree(f"{TOP}/{part}", f"{folder}/{part}")
                count += len(steps) - not_here
                for fault in faults_of(steps, folder, os.path.abspath(program)):
                    print(f"{os.path.relpath(page, TOP)}: {fault}")
                    failed += 1
    skipped = f"{no_wabt + left_out} skipped ({no_wabt}: no wabt, {left_out}: rt is not run here)"
    print(f"examples of the pages: {count} commands run, {skipped}, {failed} wrong")
    return 1 if failed or not count else 0


if __name__ == "__main__":
    sys.exit(main(sys.argv[1]))
