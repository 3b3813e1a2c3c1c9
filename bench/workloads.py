#!/usr/bin/env python3
"""What a line costs by the kind of traffic. A benchmark and no test.

    bench/workloads.py                      that of `./uds_play`
    bench/workloads.py BEFORE AFTER         two executables of it, side by side in one run
    bench/workloads.py --only WORD ..       the workloads with such a word in their names
    bench/workloads.py --lines N            N lines a workload, where it isn't 200,000
    bench/workloads.py --seed N             other random frames

It prints a table in Markdown, a row for each workload: lines a second (the quickest of five runs, in which the two
executables take turns), the instructions of the program for a line more, by valgrind's callgrind where that is installed
(they are the same in each run, and don't feel what else the machine does), and the most memory of the process in KiB
(of five runs, each looked at five times a millisecond). Where two executables are given it is also checked that they
write the same bytes. Notes are left out (`--quiet`), for behind a run they look at the first MiB of a file again.
"""
import argparse
import os
import random
import re
import shutil
import subprocess
import sys
import tempfile
import time

sys.dont_write_bytecode = True
from bus import moment_of
from runs import NAMES, program, setup, stamped, turn, watched

# the lines of the two short runs whose difference tells the instructions of a line
SHORT = 20_000
# the commands whose captures have the unit's own frames
RECORDINGS = (["verify"], ["compare"])
# a request of a tester of 29 bits, by normal fixed addressing
WIDE = "18DA10F1#03220100"


# ---- traffic: a list of texts without stamps, which is gone through again and again


def reads(tester=0):
    own = f"{0x7E0 + tester:03X}"
    return [f"{own}#023E00", f"{own}#03220100", f"{own}#03220100CCCCCCCC", f"{own}#021003"]


def other_traffic(dice):
    """Nine frames of ten are for nobody."""
    others = [f"{dice.randrange(0x100, 0x700):03X}#{dice.randbytes(8).hex().upper()}" for _ in range(90)]
    return [it for at in range(0, 90, 9) for it in [*others[at : at + 9], "7E0#03220100"]]


def wide_traffic(dice, asks):
    """Nine frames of ten are of J1939, which are for nobody: parameter groups of a few senders. The tenth is the tester's."""
    others = [f"{0x0CF00000 + dice.randrange(0x10000):08X}#{dice.randbytes(8).hex().upper()}" for _ in range(90)]
    return [it for at in range(0, 90, 9) for it in [*others[at : at + 9], asks]]


def message(own, length):
    """The frames of a request of so many bytes: a write that is refused for its length."""
    data = bytes([0x2E, 0xF1, 0x90]) + bytes(it % 251 for it in range(length - 3))
    frames = [f"{own}#{0x1000 + length:04X}{data[:6].hex()}"]
    for number, at in enumerate(range(6, length, 7), 1):
        frames.append(f"{own}#{0x20 + number % 16:02X}{data[at : at + 7].hex()}")
    return [it.upper() for it in frames]


def long_replies():
    """A read that asks for one long value many times, and is answered in hundreds of frames."""
    data = "22" + "F190" * 190
    frames = [f"7E0#1{len(data) // 2:03X}{data[:12]}"]
    for number, at in enumerate(range(12, len(data), 14), 1):
        frames.append(f"7E0#{0x20 + number % 16:02X}{data[at : at + 14]}")
    return [*frames, "7E0#300000"]


def fd_reads():
    """As `reads`, by CAN FD, and a read whose answer is a SingleFrame of 24 bytes."""
    return ["7E0##1023E00", "7E0##103220100", "7E0##103220100CCCCCCCC", "7E0##10322F190"]


def fd_message(length):
    """As `message`, by CAN FD in frames of 64 bytes; the last is filled up."""
    data = f"1{length:03X}{(bytes([0x2E, 0xF1, 0x90]) + bytes(it % 251 for it in range(length - 3))).hex()}"
    frames = [f"7E0##1{data[:128]}"]
    for number, at in enumerate(range(128, len(data), 126), 1):
        frames.append(f"7E0##1{0x20 + number % 16:02X}{data[at : at + 126].ljust(126, 'C')}")
    return [it.upper() for it in frames]


def ticks():
    return ["tick", "7E0#023E00", "tick 10", "tick", "7E0#03220100", "tick 3"]


def hostile(dice):
    """Frames of random bytes with the tester's identifiers."""
    ids = ["7E0", "7E0", "7E0", "7DF", "7e1"]
    return [f"{dice.choice(ids)}#{dice.randbytes(dice.randrange(9)).hex()}" for _ in range(997)]


def eight():
    return [it for tester in range(8) for it in turn(tester)]


def asked(texts):
    """Those of a recording's frames that aren't the unit's own."""
    return [it for it in texts if not it.startswith(("7E8", "tick"))]


# ---- files


def lines_of(texts, count, apart=500):
    """Yields so many lines, each so many microseconds behind the last."""
    for number in range(count):
        yield f"{stamped(number * apart // 500, texts[number % len(texts)])}\n"


def written(path, lines):
    with open(path, "w", encoding="ascii") as it:
        it.writelines(lines)
    return path


def config_of(room, testers, texts):
    """The setup of so many testers; of one with 29 bits, or by CAN FD, where that asks."""
    if WIDE in texts:
        text = setup(1).replace("request = 2016\nresponse = 2024", "extended = true\nrequest = 0x18DA10F1\nresponse = 0x18DAF110")
        return written(f"{room}/wide.toml", [text])
    if any("##" in it for it in texts):
        return written(f"{room}/fd.toml", [setup(1).replace("response = 2024", "response = 2024\nfd = true")])
    return written(f"{room}/{testers}.toml", [setup(testers)])


def workloads(seed):
    """By name: the words of the command, how many testers, each tester's texts (of `bus` one list), the microseconds."""
    dice = random.Random(seed)
    other = other_traffic(dice)
    rough = hostile(dice)
    narrow, wide = wide_traffic(dice, "7E0#03220100"), wide_traffic(dice, WIDE)
    return {
        "reads": (["serial"], 1, [reads()], 500),
        "other traffic": (["serial"], 1, [other], 500),
        "long requests": (["serial"], 1, [message("7E0", 4000)], 500),
        "long replies": (["serial"], 1, [long_replies()], 500),
        "ticks": (["serial"], 1, [ticks()], 500),
        "stamps": (["serial", "--stamps"], 1, [turn(0)], 500),
        "eight testers": (["serial"], 8, [turn(it) for it in range(8)], 500),
        "hostile lines": (["serial"], 1, [rough], 500),
        "silence": (["serial", "--stamps"], 1, [reads()], 90_000_000),
        "bus, one tester": (["bus"], 1, [turn(0)], 500),
        "bus, eight testers": (["bus"], 8, [eight()], 500),
        "bus, other traffic": (["bus"], 1, [other], 500),
        "bus, J1939 beside a tester of 11 bits": (["bus"], 1, [narrow], 500),
        "bus, J1939 beside a tester of 29 bits": (["bus"], 1, [wide], 500),
        "verify, one tester": (["verify"], 1, [asked(turn(0))], 500),
        "verify, eight testers": (["verify"], 8, [asked(eight())], 500),
        "compare, one tester": (["compare"], 1, [asked(turn(0))], 500),
        "compare, eight testers": (["compare"], 8, [asked(eight())], 500),
        "replay of reads": (["replay"], 1, [reads()], 500),
        "replay of eight testers": (["replay"], 8, [turn(it) for it in range(8)], 500),
        "bus, CAN FD, reads": (["bus"], 1, [fd_reads()], 500),
        "bus, CAN FD, long requests": (["bus"], 1, [fd_message(4000)], 500),
    }


def add_replies(program, config, capture):
    """Puts the frames that the unit sends into a capture, each behind the lines of its millisecond."""
    replies = subprocess.run([program, "bus", "--quiet", config, capture], stdout=subprocess.PIPE, check=True).stdout.decode("ascii").splitlines()
    with open(capture, encoding="ascii") as it:
        lines = it.read().splitlines()
    return written(capture, (f"{it}\n" for it in sorted([*lines, *replies], key=moment_of)))


def words_of(room, program, work, lines):
    """Writes the files of a workload, and returns the words of the command."""
    command, testers, texts, apart = work
    config = config_of(room, testers, texts[0])
    logs = [written(f"{room}/{NAMES[it]}.log", lines_of(own, lines // len(texts), apart)) for it, own in enumerate(texts)]
    if command in RECORDINGS:
        add_replies(program, config, logs[0])
    kind, *flags = command
    if kind != "replay":
        return [kind, "--quiet", *flags, config, *logs]
    journal = f"{room}/journal"
    with open(journal, "wb") as it:
        subprocess.run([program, "serial", "--quiet", "--journal", config, *logs], stdout=it, check=True)
    return [kind, "--quiet", config, journal]


# ---- measures


def well(words):
    """The statuses of a run that read its files to the end; a comparison may tell of exchanges that differ."""
    return (0, 8) if "compare" in words else (0,)


def ran(words, **how):
    """A run that went well."""
    done = subprocess.run(words, **how)
    if done.returncode not in well(words):
        sys.exit(f"workloads: {' '.join(words)} ended with status {done.returncode}")
    return done


def seconds(program, words):
    begun = time.monotonic()
    ran([program, *words], stdout=subprocess.DEVNULL)
    return time.monotonic() - begun


def peak(program, words):
    """The most memory in KiB, as the process told it last."""
    return watched([program, *words], 0.0002, well=well(words))[1]


def instructions(program, words):
    done = ran(
        ["valgrind", "--tool=callgrind", "--callgrind-out-file=/dev/null", program, *words],
        stdout=subprocess.DEVNULL, stderr=subprocess.PIPE,
    )
    return int(re.search(rb"Collected : (\d+)", done.stderr)[1])


def count_of(work, words, lines):
    """How many lines a run reads: with the unit's own frames they are more than were asked for."""
    if work[0] not in RECORDINGS:
        return lines
    with open(words[-1], "rb") as it:
        return sum(1 for _ in it)


def for_a_line(room, programs, work):
    """The instructions of each program for a line more."""
    if not shutil.which("valgrind"):
        return ["-"] * len(programs)
    short = SHORT * work[1]
    first = words_of(room, programs[0], work, short)
    fewer = count_of(work, first, short)
    less = [instructions(it, first) for it in programs]
    more = words_of(room, programs[0], work, 2 * short)
    lines = count_of(work, more, 2 * short) - fewer
    return [f"{(instructions(it, more) - less[at]) / lines:,.0f}" for at, it in enumerate(programs)]


def answers(program, words):
    return ran([program, *words], stdout=subprocess.PIPE).stdout


def measure(room, name, programs, work, lines):
    cost = for_a_line(room, programs, work)
    words = words_of(room, programs[0], work, lines)
    lines = count_of(work, words, lines)
    if len({answers(it, words) for it in programs}) > 1:
        sys.exit(f"workloads: {name}: the two write other bytes")
    runs = [[seconds(it, words) for it in programs] for _ in range(5)]
    speed = [f"{lines / min(each):,.0f}" for each in zip(*runs)]
    memory = [f"{max(peak(it, words) for _ in range(5)):,}" for it in programs]
    print(f"| {' | '.join([name, *speed, *cost, *memory])} |", flush=True)


def main():
    options = argparse.ArgumentParser(description=__doc__, formatter_class=argparse.RawDescriptionHelpFormatter)
    options.add_argument("programs", nargs="*")
    options.add_argument("--only", nargs="+", default=[""])
    options.add_argument("--lines", type=int, default=200_000)
    options.add_argument("--seed", type=int, default=1)
    given = options.parse_args()
    programs = [os.path.abspath(it) for it in given.programs or [program()]]
    kinds = [f"{kind}{which}" for kind in ("lines a second", "instructions a line", "KiB") for which in ([""] if len(programs) == 1 else [" before", " after"])]
    print(f"| workload | {' | '.join(kinds)} |\n|---|{'---|' * len(kinds)}", flush=True)
    with tempfile.TemporaryDirectory() as room:
        for name, work in workloads(given.seed).items():
            if any(word in name for word in given.only):
                measure(room, name, programs, work, given.lines)


if __name__ == "__main__":
    main()
