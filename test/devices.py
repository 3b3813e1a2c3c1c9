#!/usr/bin/env python3
"""Runs the built program with devices that fail (test/fail.c, preloaded). Files come byte by byte and each write takes one:
each read of each file fails in turn, and each write, or it takes no byte. What was written, the line on standard error,
the status and the number of calls are compared. Then come a config past its limit, a clock that can't be read when `live`
starts, and logs of which the testers of `play` have to mix. The last line is 'N passed, M failed'."""
import concurrent.futures
import os
import subprocess
import sys
import tempfile
import threading

from examples import files_of, frames_of, of_files, text
from harness import PROGRAM, TOP, Tally

MOST_OF_A_CONFIG = 1_048_576
CANNOT_WRITE = "uds_play: cannot write\n"
told = Tally("devices", most=700)
own = threading.local()


def read(path):
    with open(f"{TOP}/runs/{path}", "rb") as it:
        return it.read()


class Case:
    """A run: its words, its files by their names in the order of the words, and how it ends where nothing fails."""

    def __init__(self, name, words, files, text=b"", tells="", status=0, settled=None):
        self.name, self.words, self.files, self.text, self.tells, self.status = name, words, files, text, tells, status
        # from where on the lines of the text may stand in another order
        self.settled = len(text) if settled is None else settled

    def is_front(self, found):
        """Whether a front of the text was written."""
        if found[: self.settled] != self.text[: self.settled][: len(found)]:
            return False
        lines = self.text[self.settled :].split(b"\n")
        return all(it in lines for it in found[self.settled :].split(b"\n")[:-1])


def ran(room, words, preload, **fails):
    """Runs the program byte by byte; its status, what it wrote and told, and how often it called what may fail."""
    count = f"{room}.{threading.get_ident()}"
    env = {"LD_PRELOAD": preload, "FAIL_ROOM": room, "FAIL_MOST": "1", "FAIL_COUNT": count, **fails}
    with open(f"{room}/-" if "-" in words else os.devnull, "rb") as given:
        it = subprocess.run([PROGRAM, "--quiet", *words], cwd=room, env=env, stdin=given, capture_output=True, timeout=120, close_fds=False)
    with open(count, "rb") as called:
        return it.returncode, it.stdout, it.stderr.decode(), int.from_bytes(called.read(), sys.byteorder)


def all_of(pool, name, tries, is_right):
    """Tries all, and tells of the first that is wrong."""
    for one, found in zip(tries, pool.map(lambda one: one[1](), tries)):
        if not is_right(one[0], found):
            told(False, name, f"{one[0]}: {found}")
            return
    told(True, f"{name}: {len(tries)} calls")


def reads_fail(pool, room, case, preload, names, written):
    """Each read of these files fails in turn, the last of which would find the file's end. `written` says what was written
    when so many bytes of a file were read. Where none fails, one read more than the file has bytes is made."""
    for place, file in enumerate(case.files):
        if file not in names:
            continue
        size = len(case.files[file])
        well = ran(room, case.words, preload, FAIL_FILE=file)
        good = well[0] == case.status and well[2] == case.tells and len(well[1]) == len(case.text) and case.is_front(well[1])
        told(good and well[3] == size + 1, f"{case.name}, byte by byte: {file}", well)
        tries = [(at, lambda at=at: ran(room, case.words, preload, FAIL_FILE=file, FAIL_AT=str(at))) for at in range(1, size + 2)]
        tells = f"uds_play: cannot read file {place}\n"
        all_of(pool, f"{case.name}, a read of {file} fails", tries, lambda at, found: found == (7, written(at - 1), tells, at))


def writes_fail(pool, room, case, preload):
    """Each write fails in turn, or takes no byte; then no other is made."""
    for how in ({}, {"FAIL_NONE": "1"}) if case.text else ():
        tries = [(at, lambda at=at: ran(room, case.words, preload, FAIL_AT=str(at), **how)) for at in range(1, len(case.text) + 1)]
        all_of(pool, f"{case.name}, a write {'takes no byte' if how else 'fails'}", tries, lambda at, found:
               (found[0], found[2], found[3]) == (7, CANNOT_WRITE, at) and len(found[1]) == at - 1 and case.is_front(found[1]))


def example(name):
    """The setup and the logs of a worked example, and what its play prints."""
    parts = next(it for it in of_files() if it["name"] == name)
    return dict(zip(("setup", "a", "b"), (it.encode() for it in files_of(parts)))), text(parts, "prints")


SETUP = {"setup": read("setup.toml")}
# a row of answers that takes its time: response pending, then the answer, behind which another reply waits
SLOW, SLOWLY = example("rule-slow")
MIXED = b"diag-journal 1\n"
PLAYED = read("logs/threaded_play/lines")
CAPTURE = read("bus/order/no_last_line_feed.log")
# how many lines of the text each line of that capture draws, the last at the end
REPLIES, ENTRIES, COMPARED = (1, 0, 1, 1, 1), (1, 0, 3, 3, 3), (0, 0, 0, 1, 5)
FILES = [
    Case("serial", ["serial", "setup", "a", "b"], {**SETUP, "a": read("logs/two_testers/a.log"), "b": read("logs/two_testers/b.log")}, read("logs/two_testers/stdout")),
    Case("play", ["play", "setup", "a", "b"], {**SETUP, "a": read("logs/threaded_play/a.log"), "b": read("logs/threaded_play/b.log")}, PLAYED,
         settled=PLAYED.index(MIXED) + len(MIXED)),
    *(Case(f"{it}, a slow answer", [it, "setup", "a", "b"], SLOW, SLOWLY.encode()) for it in ("serial", "play")),
    Case("replay", ["replay", "setup", "journal"], {**SETUP, "journal": read("logs/replay/journal")}, read("logs/replay/stdout")),
]


def drawn(text, header, lines, capture=CAPTURE):
    """What a capture whose lines draw so many lines of the text has written when so many of its bytes were read."""
    parts = text.splitlines(keepends=True)

    def written(count):
        whole = capture[:count].count(b"\n")
        return b"".join(parts[: header + sum(lines[:whole])]) if count else b""

    return written


def captures():
    """The runs over a capture, with what each has written when so many of its bytes were read."""
    replies, journal, compared = read("bus/order/bus.stdout"), read("bus/order/journal.stdout"), read("bus/order/compare.stdout")
    capture, unwritten = {**SETUP, "capture": CAPTURE}, lambda count: b""
    verify = ["verify", "setup", "capture"]
    lacking = read("bus/order/verify.stderr").decode()
    slow = "".join(f"{it}\n" for it in frames_of(SLOWLY)).encode()
    slowly = {"setup": SLOW["setup"], "capture": SLOW["a"]}
    return [
        (Case("bus, a slow answer", ["bus", "setup", "capture"], slowly, slow), drawn(slow, 0, (0, 0, 3), SLOW["a"])),
        (Case("bus", ["bus", "setup", "capture"], capture, replies), drawn(replies, 0, REPLIES)),
        (Case("bus -", ["bus", "setup", "-"], {**SETUP, "-": CAPTURE}, replies), drawn(replies, 0, REPLIES)),
        (Case("bus --journal", ["bus", "--journal", "setup", "capture"], capture, journal), drawn(journal, 1, ENTRIES)),
        (Case("bus --end", ["bus", "--end", "setup", "capture"], capture, read("bus/order/end.stdout")), unwritten),
        (Case("compare", ["compare", "setup", "capture"], capture, compared, status=8), drawn(compared, 0, COMPARED)),
        (Case("verify", verify, {**SETUP, "capture": read("verify/agrees/capture.log")}, read("verify/agrees/stdout")), unwritten),
        (Case("verify, of which a frame lacks", verify, capture, tells=lacking, status=8), unwritten),
    ]


def long_config(room, preload):
    """A config of one byte past its limit, and of some more, is read to that byte."""
    for more in (1, 20):
        folder = put(f"{room}/long{more}", {"setup": b"\n" * (MOST_OF_A_CONFIG + more), "a": b"", "b": b""})
        found = ran(folder, ["serial", "setup", "a", "b"], preload, FAIL_FILE="setup")
        told(found == (2, b"", "uds_play: config: too long\n", MOST_OF_A_CONFIG + 1), f"a config of {more} bytes past its limit", found)


def no_clock(room, preload):
    """Where no clock can be read when `live` starts, nothing is served, and that is told as an input that can't be read."""
    folder = put(f"{room}/clock", SETUP)
    found = ran(folder, ["live", "--record", "record", "setup"], preload, FAIL_CLOCK="1")
    good = found[:3] == (7, b"", "uds_play: cannot read file 1\n") and os.path.getsize(f"{folder}/record") == 0
    told(good, "a clock that can't be read", found)


def play_mixes(room):
    """In one of a hundred plays of 20,000 ticks each the testers mix: neither turn by turn, nor one wholly before the other."""
    folder = put(f"{room}/mixed", {**SETUP, "log": b"tick\n" * 20_000})
    changes = []
    for _ in range(100):
        words = [PROGRAM, "--quiet", "play", "--journal", "setup", "log", "log"]
        journal = subprocess.run(words, cwd=folder, capture_output=True, timeout=120, check=True).stdout.split(b"\n")[1:-1]
        who = [it[:1] for it in journal]
        changes.append(1 + sum(one != other for one, other in zip(who, who[1:])))
        if len(who) == 40_000 and 2 < changes[-1] < 40_000:
            told(True, "play_mixes")
            return
    told(False, "play_mixes", f"changes of the tester: {changes}")


def put(folder, files):
    os.mkdir(folder)
    for name, text in files.items():
        with open(f"{folder}/{name}", "wb") as it:
            it.write(text)
    return folder


def main():
    told.needs_program()
    with tempfile.TemporaryDirectory() as room, concurrent.futures.ThreadPoolExecutor(os.cpu_count()) as pool:
        room, preload = os.path.realpath(room), f"{os.path.realpath(room)}/fail.so"
        subprocess.run(["cc", "-O2", "-shared", "-fPIC", "-o", preload, f"{TOP}/test/fail.c", "-ldl"], check=True)
        for number, case in enumerate(FILES):
            folder = put(f"{room}/{number}", case.files)
            reads_fail(pool, folder, case, preload, case.files, lambda count: b"")
            writes_fail(pool, folder, case, preload)
        for number, (case, written) in enumerate(captures(), len(FILES)):
            folder = put(f"{room}/{number}", case.files)
            reads_fail(pool, folder, case, preload, [it for it in case.files if it != "setup"], written)
            writes_fail(pool, folder, case, preload)
        long_config(room, preload)
        no_clock(room, preload)
        play_mixes(room)
    return told.ended()


if __name__ == "__main__":
    sys.exit(main())
