#!/usr/bin/env python3
"""How fast `bus` answers a capture, beside `serial --stamps` over the same lines, and the memory that it takes. A
benchmark and no test.

    bench/bus.py one        a capture of one tester
    bench/bus.py eight      a capture of eight testers; `serial` is given the whole capture for each of them, and each
                            tester's own lines
    bench/bus.py verify     `verify` and `compare` beside `bus` over a recording of each: the capture and what `bus`
                            answers to it
    bench/bus.py memory     the peak memory of `bus` at 1,000,000 and at 20,000,000 lines of eight testers, for the
                            reply lines, the journal and the end, and that of `compare`, all exchanges told or those
                            that differ

For each run of the first three: lines of the capture per second, of three runs the quickest. The time of a line should
be no more than `serial` takes, and of `compare` no more than twice that of `verify`, which eight testers don't reach; the memory
the same for both lengths. The lines are those of bench/runs.py, the testers' turns of twelve lines one behind the other. The program is
that of `./uds_play`.
"""
import re
import subprocess
import sys
import tempfile
import time

sys.dont_write_bytecode = True
from runs import NAMES, peak_memory, program, setup, stamped, turn

# as many lines as make a journal that `serial` can hold, which gives each tester's ticks an entry of their own
LINES = 250_000


def capture(testers, lines):
    """Yields the lines of a capture of so many testers."""
    texts = [it for tester in range(testers) for it in turn(tester)]
    for number in range(lines):
        yield f"{stamped(number, texts[number % len(texts)])}\n"


def own_lines(lines, tester):
    """Yields the lines that count for a tester."""
    own = re.compile(f"tick|.* (7DF|{0x7E0 + tester:03X})#")
    return (it for it in lines if own.match(it))


def write(path, lines):
    with open(path, "w", encoding="ascii") as it:
        it.writelines(lines)
    return path


def seconds(words):
    """Returns the seconds of the quickest of three runs."""
    runs = []
    for _ in range(3):
        begun = time.monotonic()
        ran = subprocess.run([program(), "--quiet", *words], stdout=subprocess.DEVNULL, check=False)
        runs.append(time.monotonic() - begun)
        if ran.returncode:
            sys.exit(f"bus: {' '.join(words)} ended with status {ran.returncode}")
    return min(runs)


def measure(name, words, lines=LINES):
    took = seconds(words)
    print(f"{name}: {lines / took:,.0f} lines a second", flush=True)


def beside_serial(room, testers):
    config = write(f"{room}/setup.toml", setup(testers))
    whole = write(f"{room}/capture", capture(testers, LINES))
    for flags in ([], ["--journal"], ["--end"]):
        measure(f"{' '.join(['bus', *flags])}, testers: {testers}", ["bus", *flags, config, whole])
    measure(f"serial, the whole capture for each, testers: {testers}", ["serial", "--stamps", config, *[whole] * testers])
    if testers > 1:
        logs = [write(f"{room}/{NAMES[it]}.log", own_lines(capture(testers, LINES), it)) for it in range(testers)]
        measure(f"serial, each tester's own lines, testers: {testers}", ["serial", "--stamps", config, *logs])


def asked(testers):
    """Yields the lines of a capture with neither ticks nor frames of the unit."""
    return (it for it in capture(testers, LINES) if not re.match(r"tick|.* 7E[89A-F]#", it))


def moment_of(line):
    """The seconds and whole milliseconds of a line, which has ten digits before its point."""
    return line[: line.index(".") + 4]


def recording(room, config, testers):
    """Writes what was asked and what `bus` answers to it, in the order of the milliseconds."""
    whole = write(f"{room}/asked", asked(testers))
    answers = subprocess.run([program(), "bus", config, whole], stdout=subprocess.PIPE, check=True).stdout.decode()
    lines = [*asked(testers), *answers.splitlines(True)]
    return write(f"{room}/recording", sorted(lines, key=moment_of)), len(lines)


def beside_bus(room):
    for testers in (1, 8):
        config = write(f"{room}/setup.toml", setup(testers))
        whole, lines = recording(room, config, testers)
        for command in ("bus", "verify", "compare"):
            measure(f"{command}, testers: {testers}", [command, config, whole], lines)


def feed(child, lines):
    """Gives the program the lines, and waits till it has read them all."""
    for line in lines:
        child.stdin.write(line.encode())
    child.stdin.flush()
    time.sleep(1)


def measure_memory(config, words, lines):
    child = subprocess.Popen([program(), "--quiet", *words, config], stdin=subprocess.PIPE, stdout=subprocess.DEVNULL, bufsize=1 << 16)
    feed(child, capture(8, lines))
    peak = peak_memory(child)
    child.stdin.close()
    # the unit in the capture answers otherwise
    if child.wait() != (8 if words[0] == "compare" else 0):
        sys.exit(f"bus: {' '.join(words)} ended with status {child.returncode}")
    print(f"{' '.join(words)}, lines: {lines:,}: {peak:,} KiB at most", flush=True)


def main():
    wanted = sys.argv[1:]
    if wanted not in (["one"], ["eight"], ["verify"], ["memory"]):
        sys.exit(__doc__)
    with tempfile.TemporaryDirectory() as room:
        if wanted == ["memory"]:
            config = write(f"{room}/setup.toml", setup(8))
            for words in (["bus"], ["bus", "--journal"], ["bus", "--end"], ["compare"], ["compare", "--differences"]):
                for lines in (1_000_000, 20_000_000):
                    measure_memory(config, words, lines)
        elif wanted == ["verify"]:
            beside_bus(room)
        else:
            beside_serial(room, 1 if wanted == ["one"] else 8)


if __name__ == "__main__":
    main()
