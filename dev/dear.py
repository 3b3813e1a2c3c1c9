#!/usr/bin/env python3
"""Which proofs of a crate are dear: the processor seconds of each function's modules, of a check from nothing.

Usage: dev/dear.py CRATE [--test]     after `rt check` in that crate, which builds the libraries below it

It runs the prover with one job over a copy of the crate in a folder of its own, where each module's file is written as soon
as it is checked, and looks at the processor time five times a second: a module's seconds are those since the file before.
With --test the tests are checked too. It prints the sum, the kinds of modules, and the dearest functions and files of
lemmas. What it runs is what `rt check` runs, and it gives no verdict. The status is the prover's.
"""
import bisect
import collections
import os
import re
import shutil
import subprocess
import sys
import tempfile
import threading
import time

ROOT = os.path.dirname(os.path.dirname(os.path.abspath(__file__)))
KIT = os.path.dirname(os.path.dirname(os.path.realpath(shutil.which("rt") or sys.exit("dear: the command rt is not on the PATH"))))
TICKS = os.sysconf("SC_CLK_TCK")
PARTS = ("Lts", "Proof", "Goals", "Given", "Answers", "Statement", "Code", "Met", "Invariants")
START = "start"
SHOWN = 25


def libraries():
    """The libraries that each crate of crates.txt stands on."""
    with open(f"{ROOT}/crates.txt", encoding="utf-8") as it:
        lines = [line.split(":") for line in it if ":" in line and not line.startswith("#")]
    return {head.split()[0]: below.split() for head, below in lines}


def command(crate, room, flags):
    """The prover's words for a check of the crate, which keeps its modules in the room."""
    below = libraries()
    root = "src/main.rt" if os.path.exists(f"{ROOT}/crates/{crate}/src/main.rt") else "src/lib.rt"
    built = {it: f"{ROOT}/crates/{it}/out/rlib" for it in below}
    words = [f"{KIT}/bin/rattle", "check", "--crate-name", crate, root, "--extern", f"std={KIT}/rlibs/std.rlib", "-L", f"dependency={KIT}/rlibs"]
    for name in below[crate]:
        words += ["--extern", f"{name}={built.get(name, KIT + '/rlibs')}/{name}.rlib"]
    for folder in filter(os.path.isdir, built.values()):
        words += ["-L", f"dependency={folder}"]
    words += ["--antt-project", f"{KIT}/rattle/logic/antt-project.json", "--logic-built", f"{KIT}/logic_built"]
    return [*words, "--jobs", "1", "--incremental", f"{room}/made", *flags]


def used(top):
    """The processor seconds of a process and of all that are below it."""
    children, seconds = {}, {}
    for entry in filter(str.isdigit, os.listdir("/proc")):
        try:
            with open(f"/proc/{entry}/stat", encoding="utf-8", errors="replace") as it:
                words = it.read().rpartition(")")[2].split()
        except OSError:
            continue
        children.setdefault(int(words[1]), []).append(int(entry))
        seconds[int(entry)] = sum(map(int, words[11:15])) / TICKS
    all_of, left = 0.0, [top]
    while left:
        pid = left.pop()
        all_of += seconds.get(pid, 0.0)
        left += children.get(pid, [])
    return all_of


def seconds_at(samples, moment):
    """The processor seconds at a moment, between the samples beside it."""
    at = bisect.bisect(samples, (moment,))
    if at in (0, len(samples)):
        return samples[min(at, len(samples) - 1)][1]
    (before, low), (after, high) = samples[at - 1], samples[at]
    return low + max(0.0, high - low) * (moment - before) / (after - before)


def modules(folder, samples):
    """Each module that was written, with its seconds."""
    files = []
    for at, folders, names in os.walk(folder):
        folders[:] = [it for it in folders if it != "records"]
        files += [(os.stat(f"{at}/{name}").st_mtime, name.removesuffix(".oantt")) for name in names if name.endswith(".oantt")]
    before, found = 0.0, []
    for moment, name in sorted(files):
        # (the first is the start's: the front end, and what is made of the crate before a module is checked)
        now = seconds_at(samples, moment)
        found.append((name if found else START, now - before))
        before = now
    return found


def owner(module):
    """The function or the file that a module is for, and its kind."""
    side, _, path = re.sub(r"^Rattle-\w+-", "", module).partition(".")
    words = path.split(".")
    if module == START:
        return START, START
    if side != "proofs" or not path:
        return "definitions and contracts", "definitions and contracts"
    if len(words) == 1:
        return f"proofs/{path}.antt", "files of lemmas"
    at = next((it for it in range(len(words) - 1, 0, -1) if words[it] in PARTS), len(words) - 1)
    return "::".join(words[:at]), words[at]


def table(head, sums):
    print(f"\n| {head} | Seconds |\n|---|---|")
    for name, seconds in sums.most_common(SHOWN):
        print(f"| `{name}` | {seconds:.1f} |")


def main(words):
    if not words or words[0] in ("-h", "--help"):
        sys.exit(__doc__)
    crate, flags = words[0], words[1:]
    if crate not in libraries() or flags not in ([], ["--test"]):
        sys.exit("dear: give the name of one crate of crates.txt, and --test or nothing")
    with tempfile.TemporaryDirectory(prefix="dear-") as room:
        for part in ("src", "specs", "proofs"):
            if os.path.isdir(f"{ROOT}/crates/{crate}/{part}"):
                shutil.copytree(f"{ROOT}/crates/{crate}/{part}", f"{room}/{part}")
        os.mkdir(f"{room}/made")
        with open(f"{room}/said", "w+", encoding="utf-8") as said:
            made = subprocess.Popen(command(crate, room, flags), cwd=room, stdout=said, stderr=subprocess.STDOUT)
            samples = []

            def look_on():
                while made.returncode is None:
                    samples.append((time.time(), used(made.pid)))
                    time.sleep(0.2)

            looking = threading.Thread(target=look_on)
            looking.start()
            made.wait()
            looking.join()
            said.seek(0)
            last = [line for line in said.read().split("\n") if line][-1:]
        samples = [it for it in samples if it[1] > 0]
        functions, kinds = collections.Counter(), collections.Counter()
        for module, seconds in modules(f"{room}/made", samples):
            name, kind = owner(module)
            functions[name] += seconds
            kinds[kind] += seconds
    print(*last)
    print(f"{crate}: {max(seconds for _, seconds in samples):.0f} processor seconds, {functions[START]:.0f} of them before the first module")
    table("Kind of module", kinds)
    table("Function or file", functions)
    return made.returncode


sys.exit(main(sys.argv[1:]))
