#!/usr/bin/env python3
"""Where a program reads back in one piece what it has just written in several. A benchmark and no test.

    bench/waits.py                         that of `./uds_play`: how many such reads a line, by workload
    bench/waits.py --program P             another executable
    bench/waits.py --only WORD ..          the workloads with such a word in their names
    bench/waits.py --sites N               the N functions in which most of them stand, too

A processor hands a value on from a store to a load behind it where one store wrote all that the load reads. Where several
did, or a shorter one, as when a value is filled field by field and then moved whole, the load waits until they are in the
cache, some twelve cycles, and no count of instructions tells it. Counted are loads of which a byte was stored less than
150 instructions before, and not all bytes by the same store. valgrind's lackey lists the accesses of a short run and of one
with twice as many lines; what is told is the difference for a line. It takes some seconds a workload.
"""
import argparse
import bisect
import collections
import os
import subprocess
import sys
import tempfile

sys.dont_write_bytecode = True
import workloads as module

# so many instructions behind a store its bytes are taken to be in the cache
NEAR = 150
# the lines of the shorter run
SHORT = 1_500
# where valgrind loads an executable that may stand anywhere
LOADED_AT = 0x108000


def symbols(program):
    """Returns the addresses of the functions of an executable as it is loaded, in order, and their names."""
    with open(program, "rb") as it:
        base = LOADED_AT if it.read(17)[16] == 3 else 0
    lines = subprocess.run(["nm", "-n", "-C", program], capture_output=True, text=True, check=False).stdout.splitlines()
    found = [(base + int(it[0], 16), it[2]) for it in (line.split(None, 2) for line in lines) if len(it) == 3 and it[1] in "tTwW"]
    return [at for at, _ in found], [name for _, name in found]


def waits(program, words):
    """Runs it under lackey, and returns how often each instruction, by its address, waits for stores."""
    found = collections.Counter()
    stored = {}
    count = number = place = 0
    reader, writer = os.pipe()
    traced = ["valgrind", "--tool=lackey", "--trace-mem=yes", f"--log-fd={writer}", program, *words]
    with subprocess.Popen(traced, stdout=subprocess.DEVNULL, stderr=subprocess.DEVNULL, pass_fds=(writer,)):
        os.close(writer)
        with os.fdopen(reader, encoding="ascii", errors="replace") as lines:
            for line in lines:
                kind = line[:2]
                if kind == "I ":
                    place = int(line[3 : line.index(",")], 16)
                    count += 1
                    continue
                if kind not in (" L", " S", " M"):
                    continue
                at, size = line[3:].split(",")
                at = int(at, 16)
                bytes_of = range(at, at + int(size))
                if kind != " S":
                    by = {it if it and count - it[0] <= NEAR else None for it in map(stored.get, bytes_of)}
                    found[place] += len(by) > 1
                if kind != " L":
                    number += 1
                    stored.update(dict.fromkeys(bytes_of, (count, number)))
    return found


def names_of(program, found):
    """Returns the same by the functions' names."""
    places, names = symbols(program)
    by_name = collections.Counter()
    for place, many in found.items():
        at = bisect.bisect(places, place) - 1
        by_name[names[at] if 0 <= at < len(names) - 1 else "libraries"] += many
    return by_name


def measure(room, program, work):
    """Returns the waits of a line more, by function."""
    few = names_of(program, waits(program, module.words_of(room, program, work, SHORT)))
    many = names_of(program, waits(program, module.words_of(room, program, work, 2 * SHORT)))
    many.subtract(few)
    return {name: it / SHORT for name, it in many.most_common() if it > 0}


def main():
    options = argparse.ArgumentParser(description=__doc__, formatter_class=argparse.RawDescriptionHelpFormatter)
    options.add_argument("--program")
    options.add_argument("--only", nargs="+", default=[""])
    options.add_argument("--sites", type=int, default=0)
    options.add_argument("--seed", type=int, default=1)
    given = options.parse_args()
    program = os.path.abspath(given.program or module.program())
    print("| workload | waits a line |\n|---|---|", flush=True)
    with tempfile.TemporaryDirectory() as room:
        for name, work in module.workloads(given.seed).items():
            if any(word in name for word in given.only):
                found = measure(room, program, work)
                print(f"| {name} | {sum(found.values()):.1f} |", flush=True)
                for function, many in list(found.items())[: given.sites]:
                    print(f"    {many:.2f} {function}", flush=True)


if __name__ == "__main__":
    main()
