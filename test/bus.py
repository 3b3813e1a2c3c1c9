#!/usr/bin/env python3
"""Runs `bus` of the built program over captures that are made here: line by line through a pipe, beside `serial` and
`replay`, with an output that takes nothing, and over a long capture. The last line is 'N passed, M failed'."""
import os
import random
import re
import select
import subprocess
import sys
import time

from harness import PROGRAM, TOP, Tally

with open(f"{TOP}/runs/setup.toml", encoding="ascii") as it:
    SETUP = it.read()
THIRD = '\n[[tester]]\nname = "C"\nrequest = 0x7E2\nresponse = 0x7EA\n'
# rows of answers for some of FRAMES: of a service of its maker's own, at once and later, in a session of its own
ANSWERS = """
[[answer]]
request = "23"
reply = ["63", "7F2310", "", "63??112233445566"]

[[answer]]
request = "22F190"
after_ms = 40

[[answer]]
request = "14*"
after_ms = 5600

[[answer]]
request = "3E80"
reply = ["7E80"]
after_ms = 5

[[answer]]
request = "1101..*"
reply = ["51$1"]
session = 3
enter = 2
after_ms = 60
"""
FLAGS = ([], ["--journal"], ["--end"])
# the most seconds that the program may take to write what is due
PATIENCE = 20
LONG = 1_000_000
MOST_MEMORY = 16 * 1024
# what a tester sends: requests of one frame and of several, flow control, frames out of place
FRAMES = [
    "021003", "021003", "021001", "023E00", "023E80", "0322F190", "0322F190", "0522F190F190", "031902FF", "0414FFFFFF",
    "022701", "062702AABBCCDD", "06270200000000", "0431010203", "0431030203", "028502", "0211010000000000", "0123",
    "10142EF190414243", "214445464748494A", "224B4C4D4E4F5051", "300000", "300000CCCCCCCCCC", "30000A", "300105",
    "3003F1", "310000", "320000", "037F", "40", "",
]
OTHERS = ["123#00", "7E8#065003003201F4CC", "18DB33F1#021003", "7E0#R8", "7E0##1021001", "7DF#023E80", "7DF#0322F190"]
WRONG = ["tick 0", "tick 60001", "(0.000000) can0 800#00", "can0 7E0#00", "(0.000000) can0 123#000102030405060708"]
told = Tally("bus", most=700)


def run(words, **how):
    """Runs the program; returns its status, what it wrote and what it told."""
    ran = subprocess.run([PROGRAM, "--quiet", *words], capture_output=True, timeout=120, **how)
    return ran.returncode, ran.stdout, ran.stderr


def put(path, text):
    with open(path, "wb") as it:
        it.write(text)
    return path


# ---- captures


def stamped(ms, frame, rest=0):
    return f"({ms // 1000:010d}.{ms % 1000:03d}{rest:03d}) can0 {frame}"


def next_moment(chance, ms):
    """A moment a little later, or much later, or the same, or earlier."""
    step = chance.choice([0, 1, 5, 10, 10, 15, 30, 30, 200, 1000, 4999, 70_000, -500])
    return max(ms + step, 0)


def capture(chance, testers, count, falls=True):
    """So many lines of a bus: frames of the testers, of others, ticks and empty lines."""
    ms, lines = chance.randrange(10**9), []
    for _ in range(count):
        then = next_moment(chance, ms)
        ms = then if falls else max(then, ms)
        kind = chance.random()
        if kind < 0.7:
            lines.append(stamped(ms, f"{0x7E0 + chance.randrange(testers):03X}#{chance.choice(FRAMES)}", chance.randrange(1000)))
        elif kind < 0.9:
            lines.append(stamped(ms, chance.choice(OTHERS), chance.randrange(1000)))
        else:
            lines.append(chance.choice(["", "tick", "tick 7", "tick 1000"]))
    return lines


def text_of(chance, lines):
    """The lines, each ended by LF or by CR LF."""
    return "".join(it + chance.choice(["\n", "\n", "\r\n"]) for it in lines).encode()


def pieces(chance, text):
    """The text cut in pieces: of a few bytes, of some lines, or between two lines."""
    at, found = 0, []
    while at < len(text):
        size = chance.choice([1, 7, 40, 200, 1500])
        end = at + chance.randint(1, size)
        if chance.random() < 0.3:
            end = text.find(b"\n", at) + 1 or len(text)
        found.append(text[at:end])
        at = end
    return found


# ---- line by line


class Live:
    """The program over a pipe that stays open."""

    def __init__(self, words):
        self.child = subprocess.Popen([PROGRAM, "--quiet", *words], stdin=subprocess.PIPE, stdout=subprocess.PIPE, stderr=subprocess.PIPE, bufsize=0)
        self.got = b""

    def give(self, text):
        try:
            self.child.stdin.write(text)
        except BrokenPipeError:
            pass

    def wrote(self, want):
        """Whether it writes this in all, and nothing more, without further input."""
        end = time.monotonic() + PATIENCE
        while len(self.got) < len(want) and time.monotonic() < end:
            if select.select([self.child.stdout], [], [], 0.1)[0]:
                more = os.read(self.child.stdout.fileno(), 1 << 16)
                if not more:
                    break
                self.got += more
        return self.got == want

    def ended(self):
        """Its status and what it told, once it has ended by itself; None where it goes on."""
        try:
            status = self.child.wait(PATIENCE)
        except subprocess.TimeoutExpired:
            return None
        return status, self.child.stderr.read()

    def close(self):
        """Ends its input; returns its status, all that it wrote, and what it told."""
        self.child.stdin.close()
        while more := os.read(self.child.stdout.fileno(), 1 << 16):
            self.got += more
        return self.child.wait(PATIENCE), self.got, self.child.stderr.read()

    def stop(self):
        self.child.kill()
        self.child.wait()
        for it in (self.child.stdin, self.child.stdout, self.child.stderr):
            it.close()


def due(room, words, lines):
    """What the program writes for these whole lines, from a file, but for the end."""
    _, out, _ = run([*words, put(f"{room}/lines", lines)])
    return b"" if "--end" in words else out


def goes_live(room, words, text, chance):
    """What is wrong with a run over the text that comes in pieces, each whole line's text being due before more comes."""
    live, given = Live(words), b""
    try:
        for piece in pieces(chance, text):
            live.give(piece)
            given += piece
            want = due(room, words, given[: given.rfind(b"\n") + 1])
            if not live.wrote(want):
                return f"after {given[-200:]}: {live.got[-200:]} in place of {want[-200:]}"
        found, want = live.close(), run([*words, put(f"{room}/whole", text)])
        return "" if found == want else f"{found} in place of {want}"
    finally:
        live.stop()


def streams(room):
    for seed in range(24):
        chance = random.Random(seed)
        testers = chance.choice([1, 2, 3])
        config = put(f"{room}/setup", (SETUP + THIRD + ANSWERS * (seed % 2)).encode())
        lines = capture(chance, testers, chance.randint(5, 60))
        text = text_of(chance, lines)
        if seed % 4 == 1:
            text = text.rstrip()
        flags = FLAGS[seed % 3]
        wrong = goes_live(room, ["bus", *flags, config], text, chance)
        told(not wrong, f"line by line, {seed}: {' '.join(flags)}", wrong)


def faults(room):
    """A line at fault ends the program, though more may come: what was due before it is written."""
    config = put(f"{room}/setup", SETUP.encode())
    for number, (line, flags) in enumerate([(line, flags) for line in WRONG for flags in FLAGS]):
        chance = random.Random(1000 + number)
        text = text_of(chance, [*capture(chance, 2, 20), line])
        ends_early(room, ["bus", *flags, config], text, f"a bad line {line}")
    for flags in FLAGS:
        ends_early(room, ["bus", *flags, config], stamped(5000, "7E0#021003\n").encode() + b"(" * 70_000, "a line without an end")


def ends_early(room, words, text, name):
    want = run([*words, put(f"{room}/whole", text)])
    live = Live(words)
    try:
        live.give(text)
        good = live.wrote(want[1]) and live.ended() == (want[0], want[2]) and want[0] == 3
        told(good, f"{name}: {' '.join(words[1:-1])}", f"{live.got[-200:]} in place of {want}")
    finally:
        live.stop()


# ---- beside serial and replay


def milliseconds(stamp):
    seconds, _, parts = stamp.partition(".")
    return int(seconds) * 1000 + int(parts[:3])


def beginning(lines):
    """The moment of the first stamped line, and the time of the tick lines before it."""
    before = 0
    for line in lines:
        if line.startswith("("):
            return milliseconds(line[1:]), before
        if line.startswith("tick"):
            before += int(line[5:] or "1")
    return 0, before


def moved(lines, text):
    """The reply lines of a play with stamps, as the bus tells the time."""
    moment, before = beginning(lines)
    found = []
    for line in text.decode().split("\n"):
        if line.startswith("("):
            stamp, _, rest = line[1:].partition(") ")
            ms = milliseconds(stamp) - before + moment
            found.append(f"({ms // 1000:010d}.{ms % 1000:03d}000) {rest}\n")
    return "".join(found).encode()


def with_others(chance, lines):
    """The lines with other traffic among them, with no stamp later than that of a stamped line behind it."""
    found = []
    for line in lines:
        found.append(line)
        if line.startswith("(") and line != lines[-1]:
            found.append(stamped(milliseconds(line[1:]), chance.choice(OTHERS[:5])))
    return found


def one_tester(room):
    """A tester's own frames draw what `serial --stamps` draws from them; other traffic among them changes nothing."""
    one = SETUP.replace('[[tester]]\nname = "B"\nrequest = 0x7E1\nresponse = 0x7E9\n', "")
    for seed in range(20):
        chance = random.Random(2000 + seed)
        config = put(f"{room}/setup", (one + ANSWERS * (seed // 2 % 2)).encode())
        lines = [it for it in capture(chance, 1, 80, falls=seed % 2 == 0) if re.match(r"tick|\(.*(7E0|7DF)#[^#R]|\(.*7E0#$", it)]
        own = put(f"{room}/own", "".join(f"{it}\n" for it in lines).encode())
        status, out, _ = run(["serial", "--stamps", config, own])
        found = run(["bus", config, own])
        told(status == 0 and found == (0, moved(lines, out), b""), f"as serial, {seed}", f"{found} beside {out}")
        if seed % 2:
            more = put(f"{room}/more", "".join(f"{it}\n" for it in with_others(chance, lines)).encode())
            told(run(["bus", config, more]) == found, f"as serial, with other traffic, {seed}")


def several_testers(room):
    """The journal of a capture replays to the capture's end; a capture is answered alike each time and in each way."""
    for seed in range(20):
        chance = random.Random(3000 + seed)
        config = put(f"{room}/setup", (SETUP + THIRD + ANSWERS * (seed % 2)).encode())
        text = text_of(chance, capture(chance, 3, 200))
        path = put(f"{room}/capture", text)
        _, journal, _ = run(["bus", "--journal", config, path])
        _, end, _ = run(["bus", "--end", config, path])
        want = (0, f"entries {journal.count(10) - 1}\n".encode() + end, b"")
        found = run(["replay", config, put(f"{room}/journal", journal)])
        told(found == want and end.startswith(b"session "), f"the journal replays, {seed}", f"{found} in place of {want}")
        for flags in FLAGS:
            ways = [run(["bus", *flags, config, path]), run(["bus", *flags, config, path]), run(["bus", *flags, config], input=text)]
            ways.append(run(["bus", *flags, config, "-"], input=text))
            told(ways[0][0] == 0 and all(it == ways[0] for it in ways), f"alike each time, {seed}: {' '.join(flags)}")


# ---- an output that takes nothing


def cannot_write(room):
    config = put(f"{room}/setup", SETUP.encode())
    lines = "".join(f"{stamped(1000 + it, '7E0#021003')}\n" for it in range(20_000)).encode()
    path = put(f"{room}/capture", lines)
    want = (7, b"uds_play: cannot write\n")
    for flags in FLAGS:
        with open("/dev/full", "wb") as full:
            ran = subprocess.run([PROGRAM, "--quiet", "bus", *flags, config, path], stdout=full, stderr=subprocess.PIPE, timeout=120)
        told((ran.returncode, ran.stderr) == want, f"a full device: {' '.join(flags)}", f"{ran}")
    for flags in FLAGS[:2]:
        child = subprocess.Popen([PROGRAM, "--quiet", "bus", *flags, config, path], stdout=subprocess.PIPE, stderr=subprocess.PIPE)
        first = child.stdout.readline()
        child.stdout.close()
        found = child.wait(PATIENCE), child.stderr.read()
        child.stderr.close()
        told(first != b"" and found == want, f"an output that is closed: {' '.join(flags)}", f"{found}")
    closed_while_it_waits(config, want)


def closed_while_it_waits(config, want):
    """The program ends at the first line that it can't write, though its input stays open."""
    live = Live(["bus", config])
    try:
        live.give(f"{stamped(1000, '7E0#021003')}\n".encode())
        first = live.wrote(b"(0000000001.000000) A 7E8#065003003201F4CC\n")
        live.child.stdout.close()
        live.give(f"{stamped(1001, '7E0#021003')}\n".encode())
        found = live.ended()
        told(first and found == want, "an output that is closed, the input open", f"{found}")
    finally:
        live.stop()


# ---- a long capture


def long_lines(count):
    """A bus of three testers, sessions, long replies and traffic of others, at 2,000 frames a second: each reply has gone
    before its tester asks again."""
    others = ["123#0011223344556677", "7E8#065003003201F4CC", "3A0#00", "3A1#01"]
    turn = [
        "7E0#021003", *others, "7E1#0322F190", "7E1#300000", *others, "7E0#023E00", "7E2#031902FF", *others,
        "7E0#0522F190F190", "7E0#300000", *others * 3, "7DF#023E80", "7E2#10142EF190414243", *others,
    ]
    for number in range(count):
        at = 1_000_000 + number * 500
        yield f"({at // 1_000_000:010d}.{at % 1_000_000:06d}) can0 {turn[number % len(turn)]}\n"


def peak_of(child):
    """Waits for the child; returns its status and the most memory that it had at a time, in KiB. (What wait4 tells of
    a child counts what this process had as it began.)"""
    peak, status = 0, None
    while status is None:
        try:
            with open(f"/proc/{child.pid}/status", encoding="ascii") as it:
                peak = max(peak, int(re.search(r"VmHWM:\s+(\d+)", it.read())[1]))
        except (OSError, TypeError):
            pass
        time.sleep(0.005)
        status = child.poll()
    return status, peak


def long_capture(room):
    """The memory doesn't grow with the capture."""
    config = put(f"{room}/setup", (SETUP + THIRD).encode())
    path = f"{room}/capture"
    with open(path, "w", encoding="ascii") as it:
        it.writelines(long_lines(LONG))
    for flags in FLAGS:
        with open(f"{room}/out", "wb") as out:
            status, peak = peak_of(subprocess.Popen([PROGRAM, "--quiet", "bus", *flags, config, path], stdout=out))
        told(status == 0 and 0 < peak < MOST_MEMORY, f"{LONG} lines, {peak} KiB: {' '.join(flags)}", f"status {status}")


def main():
    told.needs_program()
    told.in_rooms(streams, faults, one_tester, several_testers, cannot_write, long_capture)
    return told.ended()


if __name__ == "__main__":
    sys.exit(main())
