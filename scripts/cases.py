"""Command lines that other scripts run in many ways: over small modules whose outputs were written out by hand, and over real modules.

A case has the words, the files that stand there, the names that are read and those that are written, in order, and what a run that is
done writes and prints. Of a real module that is told by a run that nothing disturbs.
"""
import os
import shutil
import subprocess
import tempfile
from typing import NamedTuple, Optional

TOP = os.path.dirname(os.path.dirname(os.path.abspath(__file__)))
SAMPLES = os.path.join(TOP, "tests", "samples")
NO_MEMORY = b"binkit: no memory\n"


class Case(NamedTuple):
    name: str
    words: list
    files: dict
    reads: list
    writes: list
    lines: bytes


def module(sections):
    """The magic number, the version and these bytes, given in hexadecimal."""
    return bytes.fromhex("0061736d01000000" + sections)


# A function, exported as f, that gives 7; and one, exported as g, that calls it as the import a.f.
GIVES = module("0105016000017f03020100070501016600000a0601040041070b")
CALLS = module("0105016000017f02070101610166000003020100070501016700010a0601040010000b")
BOTH = module("0105016000017f030302000007090201660000016700010a0b02040041070b040010000b")

# A function, exported as add, and both modules of its split.
ADDS = module("01070160027f7f017f030201000707010361646400000a09010700200020016a0b")
ADDS_PRIMARY = module(
    "01070160027f7f017f0211010b706c616365686f6c6465720130000003020100040501700101010710020361646400010625736c6f74730100"
    "0907010041000b01000a0d010b002000200141001100000b"
)
ADDS_SECONDARY = module(
    "01070160027f7f017f021501077072696d6172790625736c6f74730170010101030201000907010041000b01000a09010700200020016a0b"
)

# A function, exported as i, that copies from a data segment: it is kept.
COPIES = module("010401600000030201000503010001070501016900000c01010a0e010c00410041004100fc0800000b0b0401010178")
COPIES_PRIMARY = module(
    "0104016000000302010004050170010000050301000107 0e02016900000625736c6f74730100 0906010041000b00 0c0101"
    "0a0e010c00410041004100fc0800000b0b0401010178"
)
COPIES_SECONDARY = module("010401600000021501077072696d6172790625736c6f74730170010000 0906010041000b00")

# Functions 1 to 3, exported as a, b and c. The first calls the import env.cb and names function 3. What is left of it for HOST.
CALLS_BACK = module(
    "010401600000020a0103656e760263620000030403000000070d030161000101620002016300030a0f0307001000d2031a0b02000b02000b"
)
CALLS_BACK_LEFT = module(
    "010401600000020a0103656e76026362000003040300000007090201610001016200020905010300 0103 0a0f0307001000d2031a0b02000b02000b"
)
HOST = (
    b'[{"name":"out","root":true,"reaches":["A"]},{"name":"A","export":"a"},{"name":"cb","import":["env","cb"],"reaches":["B"]},'
    b'{"name":"B","export":"b"},{"name":"C","export":"c"}]'
)

# The constructors a, which stores 42, b, which stores and calls the import env.f, and c. The module after the first of them.
CONSTRUCTORS = module(
    "01040160000002090103656e76016600000304030000000503010001070d030161000101620002016300030a1c03"
    "0a00418008412a3a00000b0c0041810841013a000010000b02000b"
)
CONSTRUCTED = module(
    "01040160000002090103656e7601660000030403000000050301000107090201620002016300030a1c03"
    "0a00418008412a3a00000b0c0041810841013a000010000b02000b0b0801004180080b012a"
)

# The two modules of `sample --seed 1 --count 1`, merged.
SAMPLE = module("01060160017f017f0303020000070b02026630000002673000010a14020b00200041a6fd998e046a0b0600200010000b")


def small_cases():
    """One case for each form of work of each command."""
    both = {"a.wasm": GIVES, "b.wasm": CALLS}
    words = ["merge", "a.wasm", "a", "b.wasm", "b", "-o", "o.wasm"]
    yield Case("merge of two small modules", words, both, ["a.wasm", "b.wasm"], [("o.wasm", BOTH)], b"")
    outputs = ["--primary-output=p", "--secondary-output=q"]
    words = ["split", "s.wasm", "--split-funcs=add", *outputs]
    yield Case("split of a small module", words, {"s.wasm": ADDS}, ["s.wasm"], [("q", ADDS_SECONDARY), ("p", ADDS_PRIMARY)], b"")
    words = ["split", "s.wasm", "--split-funcs=i", *outputs]
    writes = [("q", COPIES_SECONDARY), ("p", COPIES_PRIMARY)]
    yield Case("split that keeps a function", words, {"s.wasm": COPIES}, ["s.wasm"], writes, b"kept i: uses a segment\n")
    words = ["metadce", "m.wasm", "--graph-file=g.json", "-o", "o.wasm"]
    files = {"m.wasm": CALLS_BACK, "g.json": HOST}
    yield Case("metadce of a small module", words, files, ["m.wasm", "g.json"], [("o.wasm", CALLS_BACK_LEFT)], b"unused: C\n")
    words = ["ctor-eval", "m.wasm", "--ctors=a,b,c", "-o", "o.wasm"]
    lines = b"evaluated a\nstopped at b: import\n"
    yield Case("ctor-eval of a small module", words, {"m.wasm": CONSTRUCTORS}, ["m.wasm"], [("o.wasm", CONSTRUCTED)], lines)
    words = ["sample", "--seed", "1", "--count", "1", "-o", "o.wasm"]
    lines = b"sample seed 1 count 1\nparts 2\nfunctions 2\nexports 2\nbytes 56\n"
    yield Case("sample of one function", words, {}, [], [("o.wasm", SAMPLE)], lines)


def sample_file(name):
    with open(os.path.join(SAMPLES, name), "rb") as file:
        return file.read()


def real_cases():
    """One real module for each command that takes one. What it writes is None: a run tells it."""
    both = {"env.wasm": sample_file("m2/env.wasm"), "app.wasm": sample_file("m2/app.wasm")}
    words = ["merge", "env.wasm", "env", "app.wasm", "app", "-o", "o.wasm"]
    yield Case("merge of a library and its application", words, both, ["env.wasm", "app.wasm"], [("o.wasm", None)], None)
    words = ["split", "rs_app.wasm", "--keep-funcs=words,shapes", "--primary-output=p", "--secondary-output=q"]
    files = {"rs_app.wasm": sample_file("rs_app.wasm")}
    yield Case("split of a Rust application", words, files, ["rs_app.wasm"], [("q", None), ("p", None)], None)
    graph = (
        b'[{"name":"page","root":true,"reaches":["words","memory"]},{"name":"words","export":"words"},{"name":"memory","export":"memory"},'
        b'{"name":"log","import":["env","log"],"reaches":["memory"]},{"name":"expr","export":"expr"},{"name":"reset","export":"reset"}]'
    )
    words = ["metadce", "rs_app.wasm", "--graph-file=g.json", "-o", "o.wasm"]
    files = {"rs_app.wasm": sample_file("rs_app.wasm"), "g.json": graph}
    yield Case("metadce of a Rust application", words, files, ["rs_app.wasm", "g.json"], [("o.wasm", None)], None)
    words = ["ctor-eval", "cxx.wasm", "--ctors=__wasm_call_ctors", "-o", "o.wasm"]
    yield Case("ctor-eval of a C++ module", words, {"cxx.wasm": sample_file("cxx.wasm")}, ["cxx.wasm"], [("o.wasm", None)], None)


class Ended(NamedTuple):
    status: Optional[int]
    out: bytes
    err: bytes
    files: dict


def contents_below(folder):
    found = {}
    for name in os.listdir(folder):
        path = os.path.join(folder, name)
        if os.path.isfile(path) and not os.path.islink(path):
            with open(path, "rb") as file:
                found[name] = file.read()
    return found


def run_in(folder, program, words, extra_env=None, **options):
    """Runs the program there. A status below 0 is the signal that ended it; None says that it did not end."""
    env = {**os.environ, **(extra_env or {})}
    options = {"stdin": subprocess.DEVNULL, "stdout": subprocess.PIPE, "stderr": subprocess.PIPE, "timeout": 120, **options}
    try:
        done = subprocess.run([program, *words], cwd=folder, env=env, **options)
    except subprocess.TimeoutExpired:
        return Ended(None, b"", b"no answer in time", contents_below(folder))
    return Ended(done.returncode, done.stdout or b"", done.stderr or b"", contents_below(folder))


def laid_out(case, folder):
    for name, content in case.files.items():
        with open(os.path.join(folder, name), "wb") as file:
            file.write(content)


def run_case(program, case, extra_env=None, **options):
    """Runs a case in a fresh folder."""
    with tempfile.TemporaryDirectory() as folder:
        laid_out(case, folder)
        return run_in(folder, program, case.words, extra_env, **options)


def told(program, case):
    """The case with what it writes and prints, or None where a run of it is not done; that is told."""
    ended = run_case(program, case)
    names = [name for name, _ in case.writes]
    if ended.status != 0 or ended.err or set(ended.files) != {*case.files, *names}:
        print(f"{case.name}: undisturbed: status {ended.status}, {ended.err!r}, files {sorted(ended.files)}")
        return None
    writes = [(name, ended.files[name] if content is None else content) for name, content in case.writes]
    lines = ended.out if case.lines is None else case.lines
    case = case._replace(writes=writes, lines=lines)
    fault = fault_of_done(case, ended)
    if fault:
        print(f"{case.name}: undisturbed: {fault}")
        return None
    return case


def fault_of_done(case, ended):
    """What is wrong with a run that ends with 0, or None."""
    if ended.err or ended.out != case.lines:
        return f"status 0 with {ended.out[:200]!r} and {ended.err[:200]!r}"
    if ended.files != {**case.files, **dict(case.writes)}:
        return "status 0 and other files than those of the job"
    return None


def fault_of_part(case, ended, most=None):
    """What is wrong with the files and standard output of a run that isn't done, or None.

    Some first writes of the job are made, at most the next name holds a prefix of its bytes, and lines come only after all writes.
    Where `most` is given, no more than so many writes are made whole.
    """
    expected = dict(case.files)
    made = 0
    while made < len(case.writes) and ended.files.get(case.writes[made][0]) == case.writes[made][1]:
        expected[case.writes[made][0]] = case.writes[made][1]
        made += 1
    if most is not None and made > most:
        return f"{made} outputs are whole"
    if made < len(case.writes):
        name, content = case.writes[made]
        held = ended.files.get(name)
        if held is not None and held != case.files.get(name) and not content.startswith(held):
            return f"{name} holds no first part of its bytes"
        if held is not None:
            expected[name] = held
    if ended.files != expected:
        return f"the files {sorted(ended.files)} are no first part of the job"
    if not case.lines.startswith(ended.out) or (ended.out and made < len(case.writes)):
        return f"{ended.out[:200]!r} on standard output"
    return None


def library_of_faults(program, folder):
    """The library that makes single calls of the program fail, built into a folder.

    None where there is no C compiler, or where the system does not load such a library into the program.
    """
    compiler = next((found for found in map(shutil.which, ("cc", "gcc", "clang")) if found), None)
    if not compiler:
        return None
    library = os.path.join(folder, "failing_calls.so")
    source = os.path.join(TOP, "scripts", "failing_calls.c")
    built = subprocess.run([compiler, "-O1", "-shared", "-fPIC", "-o", library, source], stdin=subprocess.DEVNULL, capture_output=True)
    counts = counts_of(program, Case("no words", [], {}, [], [], b""), library) if built.returncode == 0 else None
    return library if counts and counts.writes else None


class Counts(NamedTuple):
    allocations: int
    opens: int
    reads: int
    writes: int


def counts_of(program, case, library):
    """How many calls of each kind an undisturbed run of a case makes, or None where the library is not loaded."""
    with tempfile.NamedTemporaryFile() as counted:
        run_case(program, case, {"LD_PRELOAD": library, "BINKIT_COUNTED": counted.name})
        numbers = counted.read().split()
    return Counts(*map(int, numbers)) if len(numbers) == 4 else None
