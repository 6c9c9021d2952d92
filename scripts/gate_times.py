#!/usr/bin/env python3
"""Runs the gate, and tells how much processor time each crate takes.

    python3 scripts/gate_times.py [COMMAND ..]

The command is `rt ci --anew` if none is given. Every process on the machine is looked
at three times a second, and its processor time (user and system) as last seen counts
for the crate that its command line names (`--crate-name`): for its wrong bodies if it
runs in a folder `rt-edit-..`, or else for its proof (also of a crate of tests). Only
processes that begin later than this script count, so nothing else should prove crates
meanwhile. Missed are what a process does after it was last seen, and programs that a
prover starts.

Prints both tables in minutes, the longest first, and the time of the whole run. Ends
with the status of the command.
"""
import collections
import os
import re
import resource
import subprocess
import sys
import time

NAMED = re.compile(r"--crate-name (\w+)")
TICKS = os.sysconf("SC_CLK_TCK")


def look(seen, since):
    """Notes the ticks of each process that began since then and proves a crate."""
    for pid in filter(str.isdigit, os.listdir("/proc")):
        try:
            with open(f"/proc/{pid}/stat") as file:
                fields = file.read().rpartition(")")[2].split()
            key, ticks = (pid, fields[19]), int(fields[11]) + int(fields[12])
            if int(fields[19]) < since:
                continue
            # A process begins as a copy of the one that starts it, and is known by its command line only later.
            if key not in seen or seen[key][1] is None:
                with open(f"/proc/{pid}/cmdline") as file:
                    named = NAMED.search(file.read().replace("\0", " "))
                kind = "wrong bodies" if "/rt-edit-" in os.readlink(f"/proc/{pid}/cwd") else "proof"
                seen[key] = ticks, named and (kind, named[1])
            else:
                seen[key] = ticks, seen[key][1]
        except (OSError, ValueError):
            pass


def table(kind, seen):
    minutes = collections.Counter()
    for ticks, what in seen.values():
        if what and what[0] == kind:
            minutes[what[1]] += ticks / TICKS / 60
    print(f"\n{kind}: {sum(minutes.values()):.1f} minutes")
    for name, spent in minutes.most_common():
        print(f"  {spent:6.1f}  {name}")


def main(words):
    seen, begun = {}, time.time()
    with open("/proc/self/stat") as file:
        since = int(file.read().rpartition(")")[2].split()[19])
    command = subprocess.Popen(words or ["rt", "ci", "--anew"])
    while command.poll() is None:
        look(seen, since)
        time.sleep(1 / 3)
    table("proof", seen)
    table("wrong bodies", seen)
    used = resource.getrusage(resource.RUSAGE_CHILDREN)
    print(f"\nthe whole run: {(time.time() - begun) / 60:.1f} minutes elapsed, {used.ru_utime / 60:.1f} of the processor (user), {used.ru_stime / 60:.1f} (system)")
    return command.returncode if command.returncode >= 0 else 128 - command.returncode


if __name__ == "__main__":
    sys.exit(main(sys.argv[1:]))
