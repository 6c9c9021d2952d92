#!/usr/bin/env python3
"""Files and streams that fail: the program says which, and its files are a first part of the job.

Runs every command over a small module and over a real one. Each file that is read is missing, a directory, one that may not be read, or
one whose reading fails; each file that is written is a directory, stands in a folder that is not there, is full, or may not grow; standard
output and standard error are full, closed, may only be read, or are a pipe that nobody reads. Then each opening, each read and each write of
the built program fails by its number, and once all of them move one byte at a time. A run that fails must end with status 3 and its text;
where reading failed no file is changed, and elsewhere some first writes of the job are made and at most the next name holds a prefix of its
bytes.

    scripts/failing_outside.py [PROGRAM] [--long]

--long tries a limit on the size of files at about a thousand numbers of bytes.
"""
import concurrent.futures
import os
import resource
import shutil
import subprocess
import sys
import tempfile

from cases import TOP, counts_of, fault_of_done, fault_of_part, laid_out, library_of_faults, real_cases, run_case, run_in, small_cases
from cases import told

LONG = "--long" in sys.argv
WORDS = [word for word in sys.argv[1:] if word != "--long"]
PROGRAM = os.path.abspath(WORDS[0]) if WORDS else os.path.join(TOP, "crates", "binkit", "out", "binkit")
NOBODY = 65534


def line(text, name=""):
    return f"binkit: cannot {text}{' ' if name else ''}{name}\n".encode()


def fault_of_outside(case, ended, texts, most=None):
    """What is wrong with a run that is to end with status 3 and one of the texts, or None."""
    if ended.status != 3 or ended.err not in texts:
        return f"status {ended.status} with {ended.err[:200]!r}"
    return fault_of_part(case, ended, most)


def unwritten(case):
    """The case as one whose run changes no file and prints nothing."""
    return case._replace(writes=[], lines=b"")


def renamed(case, old, new):
    """The case with another name for one of its files."""
    def change(word):
        option, equals, value = word.partition("=")
        return new if word == old else f"{option}={new}" if equals and value == old else word
    files = {name: content for name, content in case.files.items() if name != old}
    writes = [(new if name == old else name, content) for name, content in case.writes]
    return case._replace(words=[change(word) for word in case.words], files=files, writes=writes)


def run_as_another(case, name, program):
    """Runs a case as one who may not read the file of that name, or gives None where one may not run as another."""
    with tempfile.TemporaryDirectory() as folder:
        laid_out(case, folder)
        os.chmod(os.path.join(folder, name), 0)
        os.chmod(folder, 0o777)
        try:
            return run_in(folder, program, case.words, user=NOBODY, group=NOBODY, extra_groups=[])
        except PermissionError:
            return None


def failing_reads(case, copy):
    """What is wrong where a file of the case cannot be read: a name of the run and a fault or None, for each."""
    for name in case.reads:
        for other in "none.wasm", "folder", "a.wasm/x", "/proc/self/mem", "x" * 300:
            if other == "/proc/self/mem" and not os.path.exists(other):
                print(f"{case.name}: {other} is read in place of {name}: skipped: it is not here")
                continue
            changed = renamed(case, name, other)
            with tempfile.TemporaryDirectory() as folder:
                laid_out(changed, folder)
                os.mkdir(os.path.join(folder, "folder"))
                ended = run_in(folder, PROGRAM, changed.words)
            yield f"{other} is read in place of {name}", fault_of_outside(unwritten(changed), ended, [line("read", other)])
        ended = run_as_another(case, name, copy)
        if ended:
            yield f"{name} may not be read", fault_of_outside(unwritten(case), ended, [line("read", name)])
        else:
            print(f"{case.name}: {name} may not be read: skipped: one may not run as another here")


def failing_writes(case):
    """The same where a file of the case cannot be written."""
    for place, (name, _) in enumerate(case.writes):
        for other in "folder", "none/out.wasm", "/dev/full", "x" * 300:
            changed = renamed(case, name, other)
            with tempfile.TemporaryDirectory() as folder:
                laid_out(changed, folder)
                os.mkdir(os.path.join(folder, "folder"))
                ended = run_in(folder, PROGRAM, changed.words)
            yield f"{other} is written in place of {name}", fault_of_outside(changed, ended, [line("write", other)], place)


def failing_sizes(case):
    """The same where no file may have more than so many bytes."""
    greatest = max(len(content) for _, content in case.writes)
    first = {len(content) * part // 4 + more for _, content in case.writes for part in range(5) for more in (-1, 0, 1)}
    first |= set(range(0, greatest, 1 + greatest // 1000)) if LONG else set()
    sizes = sorted(size for size in first if 0 <= size < greatest)
    for size in sizes:
        # Python ignores the signal for a file that may not grow, and so does the program then
        limit = (size, size)
        ended = run_case(PROGRAM, case, restore_signals=False, preexec_fn=lambda: resource.setrlimit(resource.RLIMIT_FSIZE, limit))
        place, name = next((at, name) for at, (name, content) in enumerate(case.writes) if len(content) > size)
        fault = fault_of_outside(case, ended, [line("write", name)], place)
        if not fault and len(ended.files.get(name, b"")) > size:
            fault = f"{name} has more bytes than it may have"
        yield f"no file has more than {size} bytes", fault


def failing_streams():
    """Options of a run whose standard output, or standard error, fails, and what they are."""
    with open("/dev/full", "wb") as full:
        yield "is full", {"to": full}
    yield "is closed", {"close": True}
    with open("/dev/null", "rb") as unwritable:
        yield "may only be read", {"to": unwritable}
    reading, writing = os.pipe()
    os.close(reading)
    yield "is read by nobody", {"to": writing}
    os.close(writing)


def run_with_stream(case, stream, number, way):
    """Runs a case whose standard stream of that number fails in this way."""
    options = {stream: way.get("to", subprocess.PIPE)}
    if "close" in way:
        options["preexec_fn"] = lambda: os.close(number)
    return run_case(PROGRAM, case, **options)


def failing_outputs(case):
    """What is wrong where standard output fails. All outputs are whole then."""
    for way, options in failing_streams():
        ended = run_with_stream(case, "stdout", 1, options)
        if case.lines:
            fault = fault_of_outside(case, ended, [line("write standard output")])
            if not fault and any(ended.files.get(name) != content for name, content in case.writes):
                fault = "the outputs are not whole"
        else:
            fault = fault_of_done(case, ended) if ended.status == 0 else f"status {ended.status} with {ended.err!r}"
        yield f"standard output {way}", fault


def failing_errors(case):
    """What is wrong where standard error fails while something is to be told: status 3, and no file is changed."""
    told_ways = [
        ("words that are no command line", case.words[:1], case.files),
        ("an input that is no module", case.words, {**case.files, **{name: b"no module" for name in case.reads[:1]}}),
        ("an input that is not there", case.words, {name: content for name, content in case.files.items() if name not in case.reads[:1]}),
    ]
    for what, words, files in told_ways[: 3 if case.reads else 1]:
        changed = case._replace(words=words, files=files)
        for way, options in failing_streams():
            ended = run_with_stream(changed, "stderr", 2, options)
            yield f"standard error {way}, for {what}", fault_of_outside(unwritten(changed), ended, [b""])


def failing_numbers(case, library, pool):
    """What is wrong where one call of a kind fails by its number; each file is failed at, in the order of the job."""
    counts = counts_of(PROGRAM, case, library)
    if not counts or not counts.opens:
        yield "a call fails by its number", "the library that lets calls fail was not loaded"
        return
    texts = [line("read", name) for name in case.reads] + [line("write", name) for name, _ in case.writes]
    texts += [line("write standard output")] * bool(case.lines)
    writing = len(case.reads)
    kinds = ("OPEN", counts.opens, texts), ("READ", counts.reads, texts[:writing]), ("WRITE", counts.writes, texts[writing:])
    for kind, count, among in kinds:
        numbers = range(1, count + 1)
        answers = pool.map(lambda number: run_case(PROGRAM, case, {"LD_PRELOAD": library, f"BINKIT_FAIL_{kind}": str(number)}), numbers)
        seen = []
        for number, ended in zip(numbers, answers):
            at = texts.index(ended.err) if ended.err in among else -1
            fault = fault_of_outside(case if at >= writing else unwritten(case), ended, among, max(0, at - writing))
            if not fault and seen and at < seen[-1]:
                fault = f"{ended.err!r} comes after {texts[seen[-1]]!r}"
            seen.append(at)
            yield f"call {number} of {count} of {kind.lower()} fails", fault
        # a call of opening fails at each file, and one of writing at each output that is not empty
        wanted = texts[: writing + len(case.writes)] if kind == "OPEN" else among
        missing = [text for text in wanted if texts.index(text) not in seen]
        if missing:
            yield f"each call of {kind.lower()} fails", f"{missing[0]!r} never comes"
    ended = run_case(PROGRAM, case, {"LD_PRELOAD": library, "BINKIT_SHORT": "1"})
    yield "one byte at a time", fault_of_done(case, ended) if ended.status == 0 else f"status {ended.status} with {ended.err!r}"


def checks_of(case, copy, library, pool):
    yield from failing_reads(case, copy)
    yield from failing_writes(case)
    yield from failing_sizes(case)
    yield from failing_outputs(case)
    yield from failing_errors(case)
    if library:
        yield from failing_numbers(case, library, pool)


def main():
    if not os.path.exists("/dev/full"):
        print("failing files and streams: skipped: no /dev/full here")
        return 0
    runs, wrong = 0, 0
    with tempfile.TemporaryDirectory() as folder, concurrent.futures.ThreadPoolExecutor(os.cpu_count()) as pool:
        # others may run the copy
        os.chmod(folder, 0o755)
        copy = shutil.copy(PROGRAM, os.path.join(folder, "binkit"))
        library = library_of_faults(PROGRAM, folder)
        if not library:
            print("failing files and streams: one call by its number: skipped: no C compiler, or a library of its own is not loaded")
        for case in [*small_cases(), *real_cases()]:
            case = told(PROGRAM, case)
            checks = checks_of(case, copy, library, pool) if case else [("undisturbed", "is not done")]
            for name, fault in checks:
                runs += 1
                if fault:
                    wrong += 1
                    print(f"{case.name if case else 'a case'}: {name}: {fault}")
    print(f"failing files and streams: {runs} runs, {wrong} wrong")
    return 1 if wrong else 0


if __name__ == "__main__":
    sys.exit(main())
