#!/usr/bin/env python3
"""What a line costs the proved program, and its plain twin. A benchmark and no test.

    bench/plain/compare.py                         that of `./uds_play`, and the twin, which is built first
    bench/plain/compare.py --program P --plain Q   other executables
    bench/plain/compare.py --only WORD ..          the workloads with such a word in their names
    bench/plain/compare.py --lines N               N lines a workload, where it isn't 100,000, for time, memory and bytes
    bench/plain/compare.py --seed N                other random frames
    bench/plain/compare.py --bytes                 only whether both write the same bytes

The workloads are those of bench/workloads.py, without those of `compare`, which the twin doesn't know. For each it is seen
that both write the same bytes (with the journal and the end too, where the command has them), and a row in Markdown tells
the instructions of each for a line more (by valgrind's callgrind, of two short runs the difference), the processor's
nanoseconds for a line more (its own and the system's for it: the least of ninety runs, in which the two take turns, less
the least of runs with a tenth of the lines), the most memory of each in KiB (of five runs, each looked at five times a
millisecond), and how many times the twin's the program's are. The last row has the geometric means of these.
Instructions are the same in each run; times feel what else the machine does. So all workloads are gone through again and
again, and each has moments in which that is little. The twin is built by the line that stands in main.rs, which wants
`rustc`.
"""
import argparse
import math
import os
import resource
import subprocess
import sys
import tempfile

sys.dont_write_bytecode = True
HERE = os.path.dirname(os.path.abspath(__file__))
sys.path.insert(0, os.path.dirname(HERE))
import workloads as module

# how often all workloads are gone through, and the runs of each then; the least time counts
ROUNDS, RUNS = 30, 3

# other flags under which both have to write the same bytes
FLAGS = {"serial": [[], ["--journal"]], "bus": [[], ["--journal"], ["--end"]], "verify": [[]], "replay": [[]]}


def built(room):
    """Returns the twin's executable, which is built in this folder."""
    to = f"{room}/plain"
    subprocess.run(["rustc", "-O", "-C", "target-cpu=x86-64", "--edition", "2021", f"{HERE}/main.rs", "-o", to], check=True)
    return to


def ran(program, words):
    """Returns the status, the output and the fault; the notes, of which the twin has none, are left out."""
    it = subprocess.run([program, *words], stdout=subprocess.PIPE, stderr=subprocess.PIPE, check=False)
    told = b"\n".join(line for line in it.stderr.splitlines() if not line.startswith(b"uds_play: note: "))
    return it.returncode, it.stdout, told


def check_bytes(name, programs, words):
    """Ends this run where the two differ, and returns how many runs were held side by side."""
    command, *rest = words
    for flags in FLAGS[command]:
        if len({ran(it, [command, *flags, *rest]) for it in programs}) > 1:
            sys.exit(f"compare: {name}, {' '.join([command, *flags, *rest])}: the two write other bytes")
    return len(FLAGS[command])


def costs(programs, work):
    """Returns the instructions of each program for a line more."""
    with tempfile.TemporaryDirectory() as room:
        return [int(it.replace(",", "")) for it in module.for_a_line(room, programs, work)]


def spent(program, words):
    """Returns the processor's seconds of a run, with the system's for it."""
    before = resource.getrusage(resource.RUSAGE_CHILDREN)
    subprocess.run([program, *words], stdout=subprocess.DEVNULL, check=True)
    after = resource.getrusage(resource.RUSAGE_CHILDREN)
    return after.ru_utime - before.ru_utime + after.ru_stime - before.ru_stime


class Files:
    """The words of a workload's command, how many lines its files have, and the least seconds of each program over them."""

    def __init__(self, room, programs, work, lines):
        os.mkdir(room)
        self.words = module.words_of(room, programs[0], work, lines)
        self.lines = module.count_of(work, self.words, lines)
        self.seconds = [math.inf for _ in programs]

    def run(self, programs):
        for _ in range(RUNS):
            self.seconds = [min(least, spent(it, self.words)) for least, it in zip(self.seconds, programs)]


def times(fewer, more):
    """Returns the processor's nanoseconds of each program for a line more."""
    lines = more.lines - fewer.lines
    return [max(round((long - short) * 1e9 / lines), 1) for short, long in zip(fewer.seconds, more.seconds)]


def memory(program, words):
    return max(module.peak(program, words) for _ in range(5))


def mean(ratios):
    return math.exp(sum(map(math.log, ratios)) / len(ratios))


def row(*cells):
    print(f"| {' | '.join(cells)} |", flush=True)


def measure(name, programs, work, files):
    """Prints a workload's row, and returns its three ratios."""
    fewer, more = files
    most = [memory(it, more.words) for it in programs]
    pairs = (costs(programs, work), times(fewer, more), most)
    row(name, *(cell for proved, plain in pairs for cell in (f"{proved:,}", f"{plain:,}", f"{proved / plain:.2f}")))
    return [proved / plain for proved, plain in pairs]


def main():
    options = argparse.ArgumentParser(description=__doc__, formatter_class=argparse.RawDescriptionHelpFormatter)
    options.add_argument("--program")
    options.add_argument("--plain")
    options.add_argument("--only", nargs="+", default=[""])
    options.add_argument("--lines", type=int, default=100_000)
    options.add_argument("--seed", type=int, default=1)
    options.add_argument("--bytes", action="store_true")
    given = options.parse_args()
    known = {name: it for name, it in module.workloads(given.seed).items() if it[0] != ["compare"]}
    works = {name: it for name, it in known.items() if any(word in name for word in given.only)}
    same, ratios = 0, []
    with tempfile.TemporaryDirectory() as room:
        programs = [os.path.abspath(it) for it in (given.program or module.program(), given.plain or built(room))]
        counts = [given.lines] if given.bytes else [given.lines // 10, given.lines]
        files = {name: [Files(f"{room}/{name} {count}", programs, work, count) for count in counts] for name, work in works.items()}
        for name, of_it in files.items():
            same += check_bytes(name, programs, of_it[-1].words)
        if not given.bytes:
            for _ in range(ROUNDS):
                for it in (it for of_it in files.values() for it in of_it):
                    it.run(programs)
            kinds = [f"{kind}, {which}" for kind in ("instructions a line", "nanoseconds a line", "KiB") for which in ("proved", "plain", "ratio")]
            row("workload", *kinds)
            print(f"|---|{'---|' * len(kinds)}", flush=True)
            ratios = [measure(name, programs, work, files[name]) for name, work in works.items()]
    if ratios:
        row("geometric mean", *(cell for it in zip(*ratios) for cell in ("", "", f"{mean(it):.2f}")))
    print(f"\n{same} runs of {len(works)} workloads, {given.lines:,} lines each: the same bytes")


if __name__ == "__main__":
    main()
