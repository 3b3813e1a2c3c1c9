#!/usr/bin/env python3
"""How fast whole runs are, and the memory that they take. A benchmark and no test.

    bench/runs.py serial    `serial` of one log of 62,500, of 250,000 and of 1,000,000 lines
    bench/runs.py play      `play` beside `serial`, for one, two and eight testers' logs of 1,000,000 lines in all

For each run: lines per second, the peak memory of the process, and that memory by line. The time of a line should stay the same as the
log grows, and the memory below 300 bytes a line. Each run is made three times and the quickest counts. The program is that
of `./uds_play`. Notes are left out (`--quiet`).

A log is a mixed one: of twelve lines, three are of other identifiers, two are ticks, and the rest are TesterPresent, a read that
is answered in one frame, a read of the identification with its flow control, a write in two frames, and a functional request.
"""
import functools
import os
import re
import subprocess
import sys
import tempfile
import time

TOP = os.path.dirname(os.path.dirname(os.path.abspath(__file__)))
NAMES = "ABCDEFGH"


@functools.cache
def program():
    """The path of the executable that `./uds_play` runs, which is proved and built first where none is there."""
    subprocess.run([f"{TOP}/uds_play", "--help"], check=True, stdout=subprocess.DEVNULL)
    told = subprocess.run([f"{TOP}/uds_play", "--origin"], check=True, capture_output=True, text=True).stdout
    return f"{TOP}/{told.partition(':')[0]}"


def setup(testers):
    """Returns the text of a setup of so many testers, with two data identifiers."""
    rows = [f'[[tester]]\nname = "{NAMES[i]}"\nrequest = {0x7E0 + i}\nresponse = {0x7E8 + i}\n' for i in range(testers)]
    data = '[[did]]\nid = 0xF190\nvalue = "5445535456494E30313233343536373839"\n[[did]]\nid = 0x0100\nvalue = "01"\n'
    return "".join(rows) + data


def turn(tester):
    """Returns twelve lines around one tester, without their stamps."""
    own = f"{0x7E0 + tester:03X}"
    return [
        f"{own}#023E00", "123#0011223344556677", f"{own}#0322F190", f"{own}#300000", "tick", "7E8#065003003201F4CC",
        f"{own}#03220100", "3A0#00", f"{own}#10092E0100414243", f"{own}#2144454647", "tick 10", "7DF#023E80",
    ]


def stamped(number, text):
    """Returns a line by its number, which gives its stamp."""
    stamp = number * 500
    return text if text.startswith("tick") else f"({stamp // 1000000:010d}.{stamp % 1000000:06d}) can0 {text}"


def log(tester, lines):
    """Yields the lines of one tester's log."""
    texts = turn(tester)
    for number in range(lines):
        yield stamped(number, texts[number % len(texts)])


def peak_memory(child):
    """The most memory that a process had so far, in KiB, and 0 once it has ended. (What is told of a child that has ended
    counts what this process had as it began.)"""
    with open(f"/proc/{child.pid}/status", encoding="ascii") as it:
        told = re.search(r"VmHWM:\s+(\d+)", it.read())
    return int(told[1]) if told else 0


def watched(words, each=0.001, out=subprocess.DEVNULL, well=(0,)):
    """Runs the words, and returns the seconds that this took and the most memory in KiB, looked at each so many seconds; it
    ends where the run has another status than these."""
    begun, peak = time.monotonic(), 0
    with subprocess.Popen(words, stdout=out) as child:
        while child.poll() is None:
            peak = max(peak, peak_memory(child))
            time.sleep(each)
    if child.returncode not in well:
        sys.exit(f"{' '.join(words)} ended with status {child.returncode}")
    return time.monotonic() - begun, peak


def run(words):
    """Returns the seconds and the peak memory in KiB of the quickest of three runs."""
    return min(watched([program(), "--quiet", *words]) for _ in range(3))


def measure(room, command, testers, lines):
    config = f"{room}/setup.toml"
    with open(config, "w", encoding="ascii") as it:
        it.write(setup(testers))
    logs = []
    for tester in range(testers):
        logs.append(f"{room}/{NAMES[tester]}.log")
        with open(logs[-1], "w", encoding="ascii") as it:
            it.writelines(f"{line}\n" for line in log(tester, lines // testers))
    took, peak = run([command, config, *logs])
    print(f"{command}, testers: {testers}, lines: {lines}: {lines / took:,.0f} lines a second, {peak:,} KiB at most, {peak * 1024 / lines:.0f} bytes a line", flush=True)


def main():
    wanted = sys.argv[1:]
    if wanted not in (["serial"], ["play"]):
        sys.exit(__doc__)
    with tempfile.TemporaryDirectory() as room:
        if wanted == ["serial"]:
            for lines in (62_500, 250_000, 1_000_000):
                measure(room, "serial", 1, lines)
        else:
            for testers in (1, 2, 8):
                for command in ("serial", "play"):
                    measure(room, command, testers, 1_000_000)


if __name__ == "__main__":
    main()
