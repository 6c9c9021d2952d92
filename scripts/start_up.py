#!/usr/bin/env python3
"""start_up.py PROGRAM: the least time that the program takes to tell its usage where it has no words, and its size; 1 where one is above its aim."""
import os
import subprocess
import sys
import time

RUNS = 100
MOST_MILLISECONDS = 10
MOST_BYTES = 2_000_000


def milliseconds(program):
    begun = time.perf_counter()
    done = subprocess.run([program], capture_output=True)
    taken = (time.perf_counter() - begun) * 1000
    if done.returncode != 2 or not done.stderr.startswith(b"usage: binkit"):
        sys.exit(f"start-up: {program} does not tell its usage")
    return taken


def main():
    program = sys.argv[1]
    least = min(milliseconds(program) for _ in range(RUNS))
    size = os.path.getsize(program)
    print(f"start-up: {least:.1f} milliseconds, the least of {RUNS} runs (aim: {MOST_MILLISECONDS}); {size:,} bytes (aim: {MOST_BYTES:,})")
    return 1 if least > MOST_MILLISECONDS or size > MOST_BYTES else 0


if __name__ == "__main__":
    sys.exit(main())
