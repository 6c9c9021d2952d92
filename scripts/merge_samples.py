#!/usr/bin/env python3
"""Runs the built program on real modules and compares each answer with what is expected of it.

    scripts/merge_samples.py FOLDER [PROGRAM]

FOLDER holds module files, or folders of them, and EXPECT.tsv, whose lines give, separated by tabs: the sample, the words of the run
(in the sample's folder), the status, standard output, standard error, and of the output file o.wasm the length and the SHA-256.
A run that ends with 0 is merged once more, which must give the same bytes; and wasm-validate of wabt, where it is installed, must
accept the output.
"""
import csv
import hashlib
import os
import shutil
import subprocess
import sys
import tempfile

TOP = os.path.dirname(os.path.dirname(os.path.abspath(__file__)))


def run(program, words, folder):
    done = subprocess.run([program, *words], cwd=folder, stdin=subprocess.DEVNULL, capture_output=True, timeout=600)
    return done.returncode, done.stdout.decode(), done.stderr.decode()


def unescaped(text):
    return text.replace("\\n", "\n")


def content_of(path):
    """The bytes of a file, or None where there is none."""
    if not os.path.exists(path):
        return None
    with open(path, "rb") as file:
        return file.read()


def faults_of(program, validator, samples, row):
    """What is wrong with one line's run."""
    sample, words, status, out, err, length, digest = (row + [""] * 7)[:7]
    with tempfile.TemporaryDirectory() as folder:
        source = os.path.join(samples, sample)
        files = [os.path.join(source, name) for name in os.listdir(source)] if os.path.isdir(source) else [source]
        for file in files:
            shutil.copy(file, folder)
        got = run(program, words.split(), folder)
        if got != (int(status), unescaped(out), unescaped(err)):
            yield f"answers {got}"
        output = os.path.join(folder, "o.wasm")
        content = content_of(output)
        if digest in ("", "-"):
            if content is not None:
                yield "writes an output"
            return
        if content is None:
            yield "writes no output"
            return
        if (str(len(content)), hashlib.sha256(content).hexdigest()) != (length, digest):
            yield f"writes {len(content)} bytes with SHA-256 {hashlib.sha256(content).hexdigest()}"
        if validator and subprocess.run([validator, output], capture_output=True).returncode != 0:
            yield "writes a module that wasm-validate refuses"
        again = run(program, ["merge", "o.wasm", "m", "-o", "again.wasm"], folder)
        if again != (0, "", "") or content_of(os.path.join(folder, "again.wasm")) != content:
            yield f"does not merge its own output to the same bytes: {again}"


def main():
    samples = os.path.abspath(sys.argv[1])
    program = os.path.abspath(sys.argv[2]) if len(sys.argv) > 2 else os.path.join(TOP, "crates", "binkit", "out", "binkit")
    validator = shutil.which("wasm-validate")
    if not validator:
        print("samples: wasm-validate: skipped: wabt is not installed")
    with open(os.path.join(samples, "EXPECT.tsv"), newline="") as file:
        rows = list(csv.reader(file, delimiter="\t", quoting=csv.QUOTE_NONE))[1:]
    wrong = 0
    for row in rows:
        for fault in faults_of(program, validator, samples, row):
            wrong += 1
            print(f"{row[0]}: {row[1]}: {fault}")
    print(f"samples: {len(rows)} runs, {wrong} wrong")
    return 1 if wrong or not rows else 0


if __name__ == "__main__":
    sys.exit(main())
