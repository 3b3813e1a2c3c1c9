#!/usr/bin/env python3
"""Builds the library for C and Python (tools/build_library.py), and runs it from both.

- What the shared library gives to others, and what it takes, is looked at.
- test/library/calls.c, compiled as C and as C++ with all warnings as errors, against both libraries; under valgrind, where
  that is installed. The line of a setup's fault is the program's, each key spoilt in turn.
- Random captures (200, the same each time) by the library from C and from Python, beside `uds_play bus`: the same frames.
  Every other one has testers of CAN FD.
- The package's tests, by each Python that has what they want: python-can, scapy and pytest are Debian's packages.
- Frames a second, of one tester: at least 1,000,000 from C and 100,000 from Python, in the best of eight turns. A turn
  counts where the machine is quick before and behind it: a hundred thousand small calls of C from Python take 0.12 s at most.
  Where fewer than three count, the speed is told and not judged.
The last line is 'N passed, M failed'."""
import ctypes
import os
import random
import re
import shutil
import subprocess
import sys
import tempfile
import time

from harness import PROGRAM, TOP, Tally
from build_library import SHARED, STATIC, build, how, kit
from check_test import Written, changes, spoilt
from packages import install
from twin import FdTester, Tester, setup_text, stamped_lines
from uds_link import read_setup

SETUP = f"{TOP}/demo/setup.toml"
CAPTURES = 200
# the most seconds that anything may take
PATIENCE = 200
TESTERS = 4
C_FRAMES, PYTHON_FRAMES, QUICK = 1_000_000, 100_000, 0.12
# how often each is measured, and in how many of these turns the machine has to be quick, so that it is judged
TURNS, JUDGED = 8, 3
WARNINGS = ["-O2", "-Wall", "-Wextra", "-Werror", "-pedantic", f"-I{TOP}/include"]
C = ["cc", "-std=c11", *WARNINGS]
CPP = ["c++", "-std=c++17", *WARNINGS, "-x", "c++"]
# what the shared library may take from others: of the C library
TAKES = {"malloc", "realloc", "free", "memcpy", "memmove", "memset", "memcmp"}
BUS_LINE = re.compile(r"\((\d+)\.(\d{6})\) (\S+) ([0-9A-F]+)#(#[0-9A-F])?([0-9A-F]*)")
FRAME_LINE = re.compile(r"\((\d+)\.(\d{6})\) \S+ ([0-9A-F]{3}|[01][0-9A-F]{7})#(#[0-9A-Fa-f])?((?:[0-9A-F]{2})*)(?: .*)?")
# how many digits an identifier of 11 bits has, and the bit of one of 29
PLAIN_ID, EXTENDED = 3, 1 << 31
# what demo/first.c prints
FIRST = """0.100 s, tester 1: 7E8#065003003201F4CC
0.200 s, tester 2: 7A8#037F1021CCCCCCCC
0.300 s, tester 2: 7A8#0562F1950203CCCC
"""
told = Tally("library", most=3000)


def run(words, **more):
    try:
        return subprocess.run(words, capture_output=True, text=True, errors="replace", timeout=PATIENCE, **more)
    except subprocess.TimeoutExpired:
        return subprocess.CompletedProcess(words, 1, "", f"it hadn't ended after {PATIENCE} seconds")


# ---- what the shared library gives and takes


def symbols(*words):
    return [line.split()[-1] for line in run(["nm", "-D", *words, SHARED]).stdout.splitlines()]


def look():
    """What the shared library gives and takes."""
    with open(f"{TOP}/include/uds_unit.map", encoding="ascii") as it:
        calls = set(re.findall(r"uds_unit_\w+", it.read()))
    with open(f"{TOP}/include/uds_unit.h", encoding="ascii") as it:
        declared = set(re.findall(r"^uint32_t (uds_unit_\w+)\(", it.read(), re.M))
    given = {it for it in symbols("--defined-only") if "@@" in it}
    told(declared == calls and {it.split("@@")[0] for it in given if "uds_unit_" in it} == calls, "it gives the header's calls", given)
    told(all(it.endswith("@@UDS_UNIT_2") or it == "UDS_UNIT_2" for it in given), "each in a version", given)
    taken = {it.split("@")[0] for it in symbols("--undefined-only")}
    told(taken <= TAKES, "it takes the C library's alone", taken)
    needed = re.findall(r"NEEDED\s+(\S+)", run(["objdump", "-p", SHARED]).stdout)
    told(set(needed) <= {"libc.so.6"}, "it needs libc alone", needed)


# ---- from C


def compiled(room, name, words, source, library):
    """The program of this source with a library, or None."""
    out = f"{room}/{name}"
    libraries = [library, f"{kit()}/c/liblibc_c.a"] if library == STATIC else [library, f"-Wl,-rpath,{room}"]
    language = ["-x", "none"] if "c++" in words else []
    made = run([*words, "-o", out, f"{TOP}/{source}", *language, *libraries])
    if made.returncode != 0:
        told(False, f"{name} compiles", made.stderr)
        return None
    return out


def test_c(room):
    """The calls, as C and as C++, with both libraries."""
    shutil.copy(SHARED, f"{room}/libuds_unit.so.2")
    for language, words in (("C", C), ("C++", CPP)):
        for kind, library in (("static", STATIC), ("shared", SHARED)):
            program = compiled(room, f"calls_{language}_{kind}", words, "test/library/calls.c", library)
            if program:
                ran = run([program, SETUP])
                told(ran.returncode == 0, f"calls from {language}, {kind}: {ran.stdout.splitlines()[-1:]}", ran.stdout)
        program = compiled(room, f"first_{language}", words, "demo/first.c", STATIC)
        told(program and run([program]).stdout == FIRST, f"the example of docs/USE.md from {language}")
    valgrind(f"{room}/calls_C_static")


def valgrind(program):
    if not shutil.which("valgrind"):
        told.note("valgrind isn't installed; its run is passed over")
        return
    ran = run(["valgrind", "-q", "--error-exitcode=9", "--leak-check=full", "--show-leak-kinds=all", program, SETUP])
    told(ran.returncode == 0, "calls under valgrind", ran.stderr)


def line_of(config):
    """What the library tells of a setup: the line of its fault, or nothing."""
    from uds_unit import SetupFault, Unit

    try:
        Unit(config).close()
        return ""
    except SetupFault as fault:
        return f"uds_play: {fault}\n"


class Plain(random.Random):
    """Dice by which a setup is written plainly: Python's tomllib knows no inline table of several lines."""

    def random(self):
        return 0.5


def test_fault_lines(room):
    """A setup's fault is told by the program's line: of texts that are none, and of a setup of which each key is spoilt in turn."""
    sys.path.insert(0, f"{TOP}/python")
    os.environ["UDS_UNIT_LIBRARY"] = SHARED
    with open(SETUP, "rb") as it:
        good = it.read()
    odd = [b"", b"[", b"\xff", b"s3_ms = 1", good + b"[[did]]\nid = 1\n", good.replace(b"0x7E8", b"0x7E0"), good.replace(b'"0203"', b'"02x3"')]
    lines, path = set(), f"{room}/wrong.toml"
    plainly = Plain(7)
    for config in [*odd, good, *(Written(spoilt([it]), plainly).data() for it in changes())]:
        with open(path, "wb") as it:
            it.write(config)
        program, line = run([PROGRAM, "--quiet", "bus", path, "/dev/null"]), line_of(config)
        if program.stderr != line or program.returncode != (2 if line else 0):
            told(False, f"a setup's fault: {config.decode(errors='replace')}", f"{line!r}, the program's {program.stderr!r}")
        lines.add(line)
        told.passed += program.stderr == line
    told(len(lines) > 40 and "" in lines, f"faults are told by the program's line, {len(lines) - 1} different ones")


# ---- captures


def heard_of(line, by_fd):
    """A line with a frame, as what a call takes: the moment in microseconds, the identifier and the bytes; of any other kind
    of line its moment alone, and of one of CAN FD whose identifier isn't among these."""
    found = FRAME_LINE.fullmatch(line)
    if found is None or (found[4] and found[3] not in by_fd):
        stamp = re.match(r"\((\d+)\.(\d{6})\)", line)
        return int(stamp[1]) * 1_000_000 + int(stamp[2]), None, None
    seconds, micros, identifier, _, data = found.groups()
    return int(seconds) * 1_000_000 + int(micros), number_of(identifier), bytes.fromhex(data)


def fd_ids(setup):
    """The identifiers by which testers ask by CAN FD, as lines have them."""
    own = [(request, functional) for (_, request, _), functional, is_fd in zip(setup.testers, setup.functionals, setup.fds) if is_fd]
    return {it for pair in own for it in pair}


def number_of(identifier):
    """An identifier of a line as the library has it."""
    return int(identifier, 16) | (0 if len(identifier) == PLAIN_ID else EXTENDED)


def sent_by_bus(config, path, names):
    """What `bus` sends: microseconds, the tester's place, identifier, bytes, and whether it is of CAN FD."""
    ran = run([PROGRAM, "--quiet", "bus", config, path])
    frames = [BUS_LINE.fullmatch(line).groups() for line in ran.stdout.splitlines()]
    return [
        (int(s) * 1_000_000 + int(us), names.index(name) + 1, number_of(i), bytes.fromhex(data), flags is not None)
        for s, us, name, i, flags, data in frames
    ]


def sent_by_c(program, config, heard):
    lines = (f"{at}" if i is None else f"{at} {i:X} {data.hex()}" for at, i, data in heard)
    ran = run([program, config], input="".join(f"{line}\n" for line in lines))
    frames = [line.split(" ") for line in ran.stdout.splitlines()]
    return [(int(at), int(who), int(i, 16), bytes.fromhex(data), fd == "1") for at, who, i, fd, data in frames]


def sent_by_python(config, heard, names):
    from uds_unit import Unit

    sent = []
    with Unit(config) as unit:
        for at, i, data in heard:
            time = at / 1_000_000
            frames = unit.advance(time) if i is None else unit.frame(time, i % EXTENDED, data, extended=i >= EXTENDED)
            sent += [(round(it.time * 1_000_000), names.index(it.tester) + 1, it.id | it.extended << 31, it.data, it.fd) for it in frames]
    return sent


def test_captures(room, program):
    frames = longer = wrong = 0
    for seed in range(1, CAPTURES + 1):
        chance = random.Random(seed)
        text = setup_text(chance, TESTERS, fd=seed % 2 == 0)
        setup, config, path = read_setup(text), f"{room}/setup.toml", f"{room}/capture.log"
        testers = [(FdTester if is_fd else Tester)(chance, setup, place) for place, is_fd in enumerate(setup.fds)]
        lines = [it for it in stamped_lines(testers) if not it.startswith("tick")]
        names = [f"T{place}" for place in range(TESTERS)]
        with open(config, "w", encoding="ascii") as it:
            it.write(text)
        with open(path, "w", encoding="ascii") as it:
            it.write("".join(f"{line}\n" for line in lines))
        by_fd = fd_ids(setup)
        heard = [heard_of(line, by_fd) for line in lines]
        expected = sent_by_bus(config, path, names)
        for kind, sent in (("C", sent_by_c(program, config, heard)), ("Python", sent_by_python(config, heard, names))):
            if sent != expected:
                wrong += 1
                differs = next((n for n, (a, b) in enumerate(zip(sent, expected)) if a != b), min(len(sent), len(expected)))
                told(False, f"capture {seed} from {kind}", f"frame {differs}: {sent[differs : differs + 2]}, bus {expected[differs : differs + 2]}")
        frames += len(expected)
        longer += sum(len(data) > 8 for *_, data, _ in expected)
    good = wrong == 0 and frames > 20 * CAPTURES and longer > CAPTURES
    told(good, f"{CAPTURES} captures from C and from Python send what bus does, {frames} frames, {longer} of more than 8 bytes")


# ---- speed


class Call:
    """What a call of C answered, beside its data and its moment."""

    def __init__(self, answer, data, at):
        self.answer, self.data, self.at = answer, data, at


def calls():
    """The processor seconds of a hundred thousand small calls of C from Python. An empty loop feels less of what else a host does."""
    labs = ctypes.CDLL(None).labs
    begun = time.process_time()
    for at in range(100_000):
        Call(labs(at), bytes(8), at / 1000)
    return time.process_time() - begun


def rates_of(measure):
    """The frames a second that were measured in some turns, and of those before and behind which the machine was quick."""
    rates, quick, before = [], [], calls()
    for _ in range(TURNS):
        rates.append(measure())
        behind = calls()
        if max(before, behind) <= QUICK:
            quick.append(rates[-1])
        before = behind
    return rates, quick


def test_speed(room, program):
    """A request of one frame with its reply, again and again."""
    lines = "".join(f"{at * 1000} 7E0 0322F195\n" for at in range(10_000))
    code = f"""
import sys, time
sys.path.insert(0, {TOP + "/python"!r})
from uds_unit import Unit
with Unit({SETUP!r}) as unit:
    begun, data = time.process_time(), bytes.fromhex("0322F195")
    for at in range(30_000):
        unit.frame(at / 1000, 0x7E0, data)
    print(30_000 / (time.process_time() - begun))
"""
    for least, kind, measure in (
        (C_FRAMES, "C", lambda: float(run([program, SETUP, "20"], input=lines).stdout.split()[0])),
        (PYTHON_FRAMES, "Python", lambda: float(run([sys.executable, "-c", code]).stdout)),
    ):
        rates, quick = rates_of(measure)
        is_judged = len(quick) >= JUDGED
        told(not is_judged or max(quick) >= least, f"{max(rates):,.0f} frames a second from {kind}, each with its reply", rates)
        if not is_judged:
            told.note(f"the machine was slow but in {len(quick)} of {TURNS} turns, so the speed from {kind} wasn't judged")


# ---- Python's tests


def has(python, name):
    return run([python, "-c", f"import {name}"]).returncode == 0


def pythons():
    """The Pythons to try: this one, and where it hasn't what the tests want, Debian's, with its packages installed."""
    wanted = ("can", "pytest", "scapy")
    if all(has(sys.executable, name) for name in wanted) or not os.access("/usr/bin/python3", os.X_OK):
        return [sys.executable]
    for name in wanted:
        if not has("/usr/bin/python3", name):
            install(f"python3-{name}", f"the package's tests want {name}")
    return [sys.executable, "/usr/bin/python3"]


def test_package():
    seen = set()
    for python in dict.fromkeys(pythons()):
        if run([python, "-c", "import sys; sys.exit(sys.version_info < (3, 11))"]).returncode != 0:
            continue
        environment = {**os.environ, "UDS_UNIT_LIBRARY": SHARED, "PYTHONPATH": f"{TOP}/python", "PYTHONDONTWRITEBYTECODE": "1"}
        words = [python, "-m", "unittest", "discover", "-v", "-s", f"{TOP}/python/tests", "-t", f"{TOP}/python/tests"]
        ran = run(words, env=environment)
        last = ran.stderr.strip().splitlines()[-1:]
        told(ran.returncode == 0, f"the package's tests, {python}: {' '.join(last)}", ran.stderr)
        seen |= set(re.findall(r"^(\w+) .*\.\.\. ok$", ran.stderr, re.M))
        passed_over = {(name, why) for name, why in re.findall(r"^(\w+) .*\.\.\. skipped ['\"](.*)['\"]$", ran.stderr, re.M)}
        last_skipped = passed_over
    for name, why in sorted(it for it in last_skipped if it[0] not in seen):
        told.note(f"{name} is passed over: {why}")


def main():
    way, begun = how(), time.monotonic()
    fault = build()
    if told(fault is None, f"the libraries are built, {way}: {time.monotonic() - begun:.0f} seconds", fault):
        look()
        with tempfile.TemporaryDirectory() as room:
            test_c(room)
            test_fault_lines(room)
            program = compiled(room, "capture", C, "test/library/capture.c", STATIC)
            if program:
                test_captures(room, program)
                test_speed(room, program)
        test_package()
    return told.ended()


if __name__ == "__main__":
    sys.exit(main())
