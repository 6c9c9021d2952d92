#!/usr/bin/env python3
"""Want of memory at each place: the program says so, and its files are a first part of the job.

Runs every command over a small module and over a real one, and refuses memory to the built program: one allocation by its number,
that one and all behind it, and by a limit on the size of its data. Each run must end with status 4 and `binkit: no memory`, or be
done with the right bytes; and where it is not done, some first writes of the job are made and at most the next name holds a prefix of
its bytes. Before the program has its words it has nothing to say: there status 4 comes without a text.

    scripts/refused_memory.py [PROGRAM] [--long]

--long tries every number also where there are many, and every page of the limit.
"""
import concurrent.futures
import os
import resource
import sys
import tempfile

from cases import NO_MEMORY, TOP, counts_of, fault_of_done, fault_of_part, library_of_faults, real_cases, run_case, small_cases, told

LONG = "--long" in sys.argv
WORDS = [word for word in sys.argv[1:] if word != "--long"]
PROGRAM = os.path.abspath(WORDS[0]) if WORDS else os.path.join(TOP, "crates", "binkit", "out", "binkit")
MOST_NUMBERS = 300
MOST_STEPS = 60
PAGE = 4096


def fault_of(case, ended, is_early):
    """What is wrong with the answer, or None. Early in a run the program does not have its words."""
    if ended.status == 0:
        return fault_of_done(case, ended)
    if ended.status != 4:
        return f"status {ended.status} with {ended.err[:200]!r}"
    if ended.err != NO_MEMORY and not (is_early and ended.err == b""):
        return f"status 4 with {ended.err[:200]!r}"
    return fault_of_part(case, ended)


def no_command(case):
    """The case with a first word that is no command: little more is done than to take the words."""
    return case._replace(words=["x" * len(case.words[0]), *case.words[1:]])


def spread(first, last, most):
    """The numbers from the first to the last, or so many of them, spread evenly."""
    if LONG or last - first < most:
        return list(range(first, last + 1))
    return sorted({first + place * (last - first) // (most - 1) for place in range(most)})


def refused_by_number(pool, case, library):
    """How many runs there were, and what was wrong with them."""
    counts = counts_of(PROGRAM, case, library)
    if not counts or not counts.allocations:
        return 1, ["the library that refuses memory was not loaded"]
    early = counts_of(PROGRAM, no_command(case), library).allocations
    numbers = spread(1, counts.allocations, MOST_NUMBERS)
    runs = [(name, number) for name in ("BINKIT_FAIL_ALLOCATION", "BINKIT_ALL_FROM") for number in numbers]
    answers = pool.map(lambda run: run_case(PROGRAM, case, {"LD_PRELOAD": library, run[0]: str(run[1])}), runs)
    faults = []
    for (name, number), ended in zip(runs, answers):
        fault = fault_of(case, ended, number <= early)
        if fault:
            faults.append(f"{name}={number} of {counts.allocations}: {fault}")
    return len(runs), faults


def within(case, size):
    """What a case comes to with at most so many bytes of data. The stack is not among them."""
    return run_case(PROGRAM, case, preexec_fn=lambda: resource.setrlimit(resource.RLIMIT_DATA, (size, size)))


def least_page(holds, below, at):
    """The least number of pages of which it holds, where it does not hold of `below` and holds of `at`."""
    while at - below > 1:
        middle = (below + at) // 2
        if holds(middle * PAGE):
            at = middle
        else:
            below = middle
    return at


def refused_by_size(case):
    """How many runs there were, and what was wrong with them."""
    most = 1 << 18
    if within(case, most * PAGE).status != 0:
        return 1, [f"is not done within {most * PAGE} bytes"]
    # below this size the system does not start the program
    start = least_page(lambda size: within(no_command(case), size).status in (2, 4), 0, most)
    done = least_page(lambda size: within(case, size).status == 0, start, most) if within(case, start * PAGE).status else start
    sizes = spread(start, done + 1, MOST_STEPS)
    faults = []
    for pages in sizes:
        ended = within(case, pages * PAGE)
        is_early = ended.err == b"" and within(no_command(case), pages * PAGE).err == b""
        fault = fault_of(case, ended, is_early)
        if fault:
            faults.append(f"{pages} pages of data: {fault}")
    return len(sizes), faults


def main():
    runs, wrong = 0, 0
    with tempfile.TemporaryDirectory() as folder, concurrent.futures.ThreadPoolExecutor(os.cpu_count()) as pool:
        library = library_of_faults(PROGRAM, folder)
        if not library:
            print("refused memory: one allocation by its number: skipped: no C compiler, or a library of its own is not loaded")
        for case in [*small_cases(), *real_cases()]:
            case = told(PROGRAM, case)
            runs += 1
            if not case:
                wrong += 1
                continue
            tried = [refused_by_size(case)]
            if library:
                tried.append(refused_by_number(pool, case, library))
            for count, faults in tried:
                runs += count
                wrong += len(faults)
                for fault in faults[:10]:
                    print(f"{case.name}: {fault}")
    print(f"refused memory: {runs} runs, {wrong} wrong")
    return 1 if wrong else 0


if __name__ == "__main__":
    sys.exit(main())
