#!/usr/bin/env python3
"""Tests tools/learn.py by recordings of a small unit of its own: sessions, security, measured values, response pending, long
answers, services that the server's model lacks. The setup that is learned from each has to agree with it. The demo's
recordings, one that can't be explained, other forms of pairs, and how long a million lines take. The recordings are the
same each time. The last line is 'N passed, M failed'.
Usage: test/learn_test.py [--program PROGRAM] [RUNS [FIRST]]
  RUNS, FIRST    so many recordings (default 200), the first with this seed (default 1)"""
import argparse
import io
import os
import random
import re
import signal
import subprocess
import sys
import tempfile
import time
import tomllib
import unittest
from contextlib import redirect_stderr, redirect_stdout
from dataclasses import dataclass, field
from typing import Callable, Iterator, Optional

from harness import DEBIAN, TOP, Tally, run_without
import learn
import learn_bus
import live
from learn_changes import Changes
from learn_judge import Exchange
from learn_lost import Order, lines_at
from learn_model import Held, one_round, s3_of, values_in
from learn_rows import Case, orders_of, pattern_of, shortened, template_of
from learn_setup import Did, Row, Seen, Unit, between, code_name, free_identifier, row_words
from uds_link import LENGTHS, cut
from uds_link import Setup as LinkSetup

LONG = 1_000_000
MOST_SECONDS = 20
# the seed of a recording that is played on a bus: of two testers, with long messages and response pending, of some seconds
ON_A_BUS = 87
OTHERS = ["0C9#0021C07F0A00", "3A0#4E0080FFFF000064", "18FEF100#FFFFFF00FFFFFFFF", "123#0322F190AAAAAAAA", "7FF#"]


# ---- a small unit, which is no uds_play


@dataclass
class Answer:
    """What the unit sends to a request: the message, None for nothing; after how many milliseconds; and how often it says
    before that it isn't ready."""

    data: Optional[bytes]
    after: int = 3
    pendings: int = 0


class Refusal(Exception):
    def __init__(self, code: int):
        super().__init__(code)
        self.code = code


@dataclass
class UnitModel:
    """A unit with values of its own; what it does beside the server's model depends on its seed."""

    chance: random.Random
    session: int = 1
    holder: Optional[int] = None
    level: int = 0
    until: int = 0
    seed: Optional[bytes] = None
    wrong: int = 0
    deaf: int = -1
    block: int = 0
    now: int = 0
    values: dict = field(default_factory=dict)
    codes: dict = field(default_factory=dict)
    begun: dict = field(default_factory=dict)

    def __post_init__(self) -> None:
        chance = self.chance
        self.values = {
            0xF190: b"WVWZZZ1KZ%08d" % chance.randrange(10**8),
            0xF18C: chance.randbytes(chance.choice([4, 8, 20])),
            0x0100: chance.randbytes(1),
            0x0101: chance.randbytes(60),
            0x0102: chance.randbytes(2),
        }
        self.codes = {chance.randrange(1, 0xFFFFFE): chance.choice([0x09, 0x2F, 0x08, 0x24]) for _ in range(chance.randint(0, 9))}
        self.availability = chance.choice([0xFF, 0x7F, 0x2F])
        self.p2, self.p2_star = chance.choice([(50, 500), (25, 500), (20, 200)])
        self.s3 = chance.choice([5000, 5000, 3000])
        # what it does otherwise than the server
        self.always_new_seed = chance.random() < 0.3
        self.has_busy = chance.random() < 0.5
        self.codes_after = chance.choice([0x50, 0x00])
        self.reset_time = chance.random() < 0.3
        self.routine_info = chance.random() < 0.3
        self.reads_locked = chance.random() < 0.5
        self.tells_times = chance.random() < 0.8
        self.minds_bit = chance.random() < 0.9
        self.hears_all = chance.random() < 0.7

    # ---- the session

    def end(self) -> None:
        self.session, self.holder, self.level, self.seed = 1, None, 0, None

    def session_of(self, tester: int) -> int:
        return self.session if tester == self.holder else 1

    def want_session(self, tester: int, *sessions: int) -> None:
        if self.session_of(tester) not in sessions:
            raise Refusal(0x7F)

    def want_level(self, tester: int) -> None:
        if tester != self.holder or not self.level:
            raise Refusal(0x33)

    # ---- requests

    def answer(self, tester: int, request: bytes, is_functional: bool, now: int) -> Answer:
        """Answers a request at a moment in milliseconds."""
        self.now = now
        if self.holder is not None and now - self.until >= self.s3:
            self.end()
        service = SERVED.get(request[0])
        try:
            if service is None:
                raise Refusal(0x11)
            found = service(self, tester, request)
            found = found if isinstance(found, Answer) else Answer(found)
            if len(request) > 1 and request[1] & 0x80 and request[0] in WITH_SUB and not found.pendings and self.minds_bit:
                found.data = None
        except Refusal as it:
            hidden = is_functional and it.code in (0x11, 0x12, 0x31, 0x7F)
            found = Answer(None if hidden else bytes([0x7F, request[0], it.code]))
        if tester == self.holder:
            self.until = max(self.until, now + found.after)
        return found

    def control_session(self, tester: int, request: bytes) -> bytes:
        if len(request) != 2:
            raise Refusal(0x13)
        sub = request[1] & 0x7F
        if sub not in (1, 2, 3):
            raise Refusal(0x12)
        if sub > 1 and self.holder not in (None, tester) and self.has_busy:
            raise Refusal(0x21)
        if sub == 2 and self.session_of(tester) not in (2, 3):
            raise Refusal(0x7E)
        if sub == 1:
            if tester == self.holder:
                self.end()
        else:
            self.end()
            self.session, self.holder, self.until = sub, tester, self.now
        times = self.p2.to_bytes(2, "big") + self.p2_star.to_bytes(2, "big")
        return bytes([0x50, sub]) + (times if self.tells_times else b"")

    def reset(self, tester: int, request: bytes) -> Answer:
        if self.holder not in (None, tester) and self.has_busy:
            raise Refusal(0x21)
        self.end()
        self.begun.clear()
        return Answer(bytes([0x51, request[1] & 0x7F]) + (b"\x0a" if self.reset_time else b""), 10)

    def clear(self, tester: int, request: bytes) -> Answer:
        if len(request) != 4:
            raise Refusal(0x13)
        if request[1:] != b"\xff\xff\xff":
            raise Refusal(0x31)
        self.codes = {it: self.codes_after for it in self.codes}
        return Answer(b"\x54", 300, 1)

    def read_codes(self, tester: int, request: bytes) -> bytes:
        sub = request[1] & 0x7F
        if sub == 2 and len(request) == 3:
            listed = [(code, status & self.availability) for code, status in self.codes.items() if status & request[2] & self.availability]
        elif sub == 0x0A and len(request) == 2:
            listed = [(code, status & self.availability) for code, status in self.codes.items()]
        elif sub == 1 and len(request) == 3:
            count = sum(bool(status & request[2] & self.availability) for status in self.codes.values())
            return bytes([0x59, 1, self.availability, 1]) + count.to_bytes(2, "big")
        elif sub == 6 and len(request) == 6:
            return b"\x59\x06" + request[2:5] + b"\x2f\x01\x02"
        else:
            raise Refusal(0x12 if sub not in (1, 2, 6, 0x0A) else 0x13)
        return bytes([0x59, sub, self.availability]) + b"".join(code.to_bytes(3, "big") + bytes([status]) for code, status in listed)

    def read(self, tester: int, request: bytes) -> bytes:
        found = b"\x62"
        for at in range(1, len(request) - 1, 2):
            number = int.from_bytes(request[at : at + 2], "big")
            if number == 0x0102 and self.reads_locked:
                self.want_level(tester)
            value = self.value(tester, number)
            found += request[at : at + 2] + value if value is not None else b""
        if len(found) == 1 or len(request) % 2 == 0:
            raise Refusal(0x31 if len(request) % 2 else 0x13)
        return found

    def value(self, tester: int, number: int) -> Optional[bytes]:
        """The value of an identifier: the session, one that is measured, one that counts, or one that is kept."""
        if number == 0xF186:
            return bytes([self.session_of(tester)])
        if number == 0xF40C:
            return self.chance.randbytes(2)
        if number == 0xF40D:
            self.block = (self.block + 1) % 3
            return bytes([self.block])
        return self.values.get(number)

    def write(self, tester: int, request: bytes) -> bytes:
        self.want_session(tester, 2, 3)
        number = int.from_bytes(request[1:3], "big")
        if number not in (0xF190, 0x0100):
            raise Refusal(0x31)
        if number == 0xF190:
            self.want_level(tester)
        if len(request) - 3 != len(self.values[number]):
            raise Refusal(0x13)
        self.values[number] = request[3:]
        return b"\x6e" + request[1:3]

    def unlock(self, tester: int, request: bytes) -> bytes:
        self.want_session(tester, 2, 3)
        sub = request[1] & 0x7F
        if self.now < self.deaf:
            raise Refusal(0x37)
        if sub == 1:
            if self.level:
                return b"\x67\x01\0\0\0\0"
            if self.seed is None or self.always_new_seed:
                self.seed = self.chance.randbytes(4).replace(b"\0", b"\1")
            return b"\x67\x01" + self.seed
        if sub != 2:
            raise Refusal(0x12)
        return self.key(request[2:])

    def key(self, key: bytes) -> bytes:
        if self.seed is None:
            raise Refusal(0x24)
        if len(key) != 4:
            raise Refusal(0x13)
        seed, self.seed = self.seed, None
        if key == key_of(seed):
            self.level, self.wrong = 1, 0
            return b"\x67\x02"
        self.wrong += 1
        if self.wrong < 3:
            raise Refusal(0x35)
        self.wrong, self.deaf = 0, self.now + 2000
        raise Refusal(0x36)

    def routine(self, tester: int, request: bytes) -> Answer:
        self.want_session(tester, 2, 3)
        number, sub = request[2:4], request[1] & 0x7F
        if number not in (b"\x02\x03", b"\xff\x00"):
            raise Refusal(0x31)
        if number == b"\xff\x00":
            self.want_level(tester)
            return Answer(b"\x71\x01\xff\x00", 1800, 3)
        if sub == 1:
            if self.now < self.begun.get(number, -1000) + 250:
                raise Refusal(0x22)
            self.begun[number] = self.now
            return Answer(b"\x71\x01\x02\x03" + (b"\x77" if self.routine_info else b""))
        if sub != 3:
            raise Refusal(0x12)
        if number not in self.begun:
            raise Refusal(0x24)
        runs = self.now < self.begun[number] + 250
        return Answer(b"\x71\x03\x02\x03" + (b"\x01" if runs else b"\x00\xAB\xCD"))

    def control_communication(self, tester: int, request: bytes) -> bytes:
        self.want_session(tester, 3)
        return bytes([0x68, request[1] & 0x7F])

    def control_io(self, tester: int, request: bytes) -> bytes:
        self.want_session(tester, 3)
        return b"\x6f" + request[1:4] + b"\x00"

    def download(self, tester: int, request: bytes) -> Answer:
        self.want_session(tester, 2)
        self.want_level(tester)
        return Answer({0x34: b"\x74\x20\x00\x82", 0x36: b"\x76" + request[1:2], 0x37: b"\x77"}[request[0]], 20)

    def present(self, tester: int, request: bytes) -> bytes:
        if request[1] & 0x7F:
            raise Refusal(0x12)
        return b"\x7e\x00"

    def set_codes(self, tester: int, request: bytes) -> bytes:
        self.want_session(tester, 2, 3)
        return bytes([0xC5, request[1] & 0x7F])


def key_of(seed: bytes) -> bytes:
    return bytes(it ^ 0x5A for it in seed)


SERVED: dict[int, Callable] = {
    0x10: UnitModel.control_session,
    0x11: UnitModel.reset,
    0x14: UnitModel.clear,
    0x19: UnitModel.read_codes,
    0x22: UnitModel.read,
    0x27: UnitModel.unlock,
    0x28: UnitModel.control_communication,
    0x2E: UnitModel.write,
    0x2F: UnitModel.control_io,
    0x31: UnitModel.routine,
    0x34: UnitModel.download,
    0x36: UnitModel.download,
    0x37: UnitModel.download,
    0x3E: UnitModel.present,
    0x85: UnitModel.set_codes,
}
WITH_SUB = (0x10, 0x11, 0x19, 0x28, 0x31, 0x3E, 0x85)


# ---- a recording of it


@dataclass
class Bus:
    """A bus that is recorded: the frames with their moments in milliseconds, of CAN FD with at most `tx_dl` bytes, classic ones
    where that is 0."""

    chance: random.Random
    pad: Optional[int]
    flow: tuple[int, int]
    frames: list = field(default_factory=list)
    ms: int = 1_000_000
    numbers: list = field(default_factory=lambda: [(0x7E0, 0x7E8), (0x7E1, 0x7E9)])
    everyone: int = 0x7DF
    tx_dl: int = 0

    def cut(self, message: bytes) -> list[bytes]:
        link = LinkSetup([], 0x7DF, 0, 0, 65535, self.pad, 1000, 1000, None, fill=0x5A if self.pad is None else self.pad)
        return cut(link, message, self.tx_dl or 8)

    def put(self, identifier: int, data: bytes) -> None:
        mark = "##5" if self.tx_dl else "#"
        self.frames.append((self.ms, f"{identifier:0{8 if identifier > 0x7FF else 3}X}{mark}{data.hex().upper()}"))

    def send(self, identifier: int, back: int, message: bytes, flow: bytes) -> None:
        """A message in frames, with the flow control of the other side."""
        frames = self.cut(message)
        for number, frame in enumerate(frames):
            self.put(identifier, frame)
            block = flow[1]
            if number == 0 and len(frames) > 1 or (block and number and number % block == 0 and number < len(frames) - 1):
                self.ms += 1
                self.put(back, flow if self.pad is None else flow.ljust(8, bytes([self.pad])))
            self.ms += 1 if number else 0

    def ask(self, unit: UnitModel, tester: int, request: bytes, wait: int = 0) -> Answer:
        """A physical request, and its answer; `wait` milliseconds before it."""
        own, back = self.numbers[tester]
        self.ms += wait
        self.send(own, back, request, bytes([0x30, *self.flow]))
        found = unit.answer(tester, request, False, self.ms)
        self.reply(tester, request, found)
        return found

    def ask_all(self, unit: UnitModel, testers: int, request: bytes) -> None:
        """A functional request: each tester's connection has it."""
        self.put(self.everyone, self.cut(request)[0])
        at = self.ms
        for tester in range(testers if unit.hears_all else 1):
            self.reply(tester, request, unit.answer(tester, request, True, at))

    def reply(self, tester: int, request: bytes, found: Answer) -> None:
        own, back = self.numbers[tester]
        if found.data is None:
            return
        for _ in range(found.pendings):
            self.ms += found.after // (found.pendings + 1)
            self.put(back, self.cut(bytes([0x7F, request[0], 0x78]))[0])
        self.ms += max(1, found.after // (found.pendings + 1))
        self.send(back, own, found.data, b"\x30\0\0")

    def text(self) -> str:
        lines, us = [], 0
        for ms, frame in self.frames:
            if self.chance.random() < 0.2:
                lines.append((ms * 1000, self.chance.choice(OTHERS)))
            lines.append((ms * 1000 + min(us, 999), frame))
        lines.append((lines[-1][0] + 2_000_000 if lines else 0, OTHERS[0]))
        return "".join(f"({us // 1_000_000:010d}.{us % 1_000_000:06d}) can0 {frame}\n" for us, frame in lines)


# what testers do, each as a list of requests; a key is put in where `KEY` or `WRONG` stands
KEY, WRONG, SLEEP = b"KEY", b"WRONG", b"SLEEP"
UNLOCK = [b"\x27\x01", KEY]
SCRIPTS: list[list[bytes]] = [
    [b"\x22\xf1\x90", b"\x22\xf1\x8c", b"\x22\xf1\x86"],
    [b"\x22\xf4\x0c", b"\x22\xf4\x0c", b"\x22\xf4\x0d", b"\x22\xf4\x0c"],
    [b"\x22\xf1\x90\xf1\x8c", b"\x22\x01\x00\xf4\x0c", b"\x22\xff\xff\x01\x00", b"\x22\xff\xff"],
    [b"\x22\x01\x01", b"\x22\x01\x02"],
    [b"\x19\x02\xff", b"\x19\x0a", b"\x19\x01\x08", b"\x19\x02\x08", b"\x19\x06\x12\x34\x56\x01"],
    [b"\x14\xff\xff\xff", b"\x19\x02\xff", b"\x14\x00\x00\x01"],
    [b"\x10\x03", *UNLOCK, b"\x2e\xf1\x90WVWZZZ1KZ00000001", b"\x22\xf1\x90", b"\x22\x01\x02", b"\x22\xf1\x86"],
    [b"\x10\x03", b"\x2e\xf1\x90WVWZZZ1KZ00000002", b"\x2e\x01\x00\x11", b"\x22\x01\x00", b"\x2e\x01\x00\x11\x22", b"\x2e\x55\x55\x11"],
    [b"\x10\x03", b"\x31\x01\x02\x03", b"\x31\x03\x02\x03", SLEEP, b"\x31\x03\x02\x03", b"\x31\x01\x55\x55", b"\x31\x02\x02\x03"],
    [b"\x10\x03", b"\x31\x01\xff\x00", *UNLOCK, b"\x31\x01\xff\x00", b"\x22\xf1\x86"],
    [b"\x28\x03\x01", b"\x10\x03", b"\x28\x03\x01", b"\x28\x00\x01", b"\x28\x83\x01", b"\x2f\x01\x00\x03\x05", b"\x2f\x01\x02\x00"],
    [b"\x10\x02", b"\x10\x03", b"\x10\x02", *UNLOCK, b"\x34\x00\x44\0\0\x80\0\0\0\x10\0", b"\x36\x01" + b"\xa5" * 40, b"\x36\x02" + b"\x5a" * 30, b"\x37", b"\x11\x01"],
    [b"\x10\x03", b"\x27\x01", WRONG, b"\x27\x01", WRONG, b"\x27\x01", WRONG, b"\x27\x01", SLEEP, b"\x27\x01", KEY, b"\x27\x01"],
    [b"\x10\x03", b"\x27\x01", b"\x27\x01", KEY, b"\x27\x02\x00\x00\x00\x00", b"\x27\x05"],
    [b"\x3e\x00", b"\x3e\x80", b"\x10\x83", b"\x85\x02", b"\x85\x01", b"\x3e\x80", b"\x10\x01"],
    [b"\x39\x11", b"\xba\x00", b"\x3e\x01", b"\x10\x55", b"\x22\xf1", b"\x11\x81"],
    [b"\x10\x03", SLEEP, SLEEP, SLEEP, b"\x85\x02", b"\x10\x01"],
]


def recording(seed: int, scripts: int = 12, is_fd: bool = False) -> str:
    """The recording of a unit and of one or two testers, all by CAN FD or none."""
    chance = random.Random(seed)
    unit, testers = UnitModel(chance), chance.choice([1, 1, 2])
    bus = Bus(chance, chance.choice([0xCC, 0xAA, 0x00, None]), chance.choice([(0, 0), (8, 5), (2, 0)]))
    if chance.random() < 0.2:
        bus.numbers = [(0x710, 0x77A), (0x711, 0x77B)]
    if seed % 4 == 2:
        bus.numbers, bus.everyone = [(0x18DA10F1, 0x18DAF110), (0x18DA10F2, 0x18DAF210)], 0x18DB33F1
    if is_fd:
        bus.tx_dl = chance.choice(LENGTHS)
    for _ in range(scripts):
        tester = chance.randrange(testers)
        for request in chance.choice(SCRIPTS):
            play(bus, unit, tester, request, chance)
            if chance.random() < 0.15:
                bus.ask_all(unit, testers, chance.choice([b"\x3e\x80", b"\x3e\x80", b"\x22\xf1\x86", b"\x10\x81"]))
    return bus.text()


def play(bus: Bus, unit: UnitModel, tester: int, request: bytes, chance: random.Random) -> None:
    """One step of a script."""
    if request == SLEEP:
        bus.ms += chance.choice([400, 1500, 2500])
        return
    if request in (KEY, WRONG):
        seed = unit.seed or b"\1\2\3\4"
        request = b"\x27\x02" + (key_of(seed) if request == KEY else bytes(4))
    bus.ask(unit, tester, request, chance.choice([1, 10, 30, 100]))


# ---- what the parts do


class OfTheBus(unittest.TestCase):
    """Which identifiers belong together, and how the unit sends."""

    @staticmethod
    def lines(*frames: str) -> list[str]:
        return [f"(0000000100.{at * 10:03d}000) can0 {it}\n" for at, it in enumerate(frames)]

    def pairs(self, *frames: str) -> list[str]:
        return [it.shown() for it in learn_bus.pairs_of(learn_bus.look(self.lines(*frames)))]

    def test_a_usual_pair_is_seen_once(self) -> None:
        self.assertEqual(["7E0:7E8"], self.pairs("7E0#023E00", "7E8#027E00"))

    def test_another_pair_is_seen_several_times(self) -> None:
        once = ["710#023E00", "77A#027E00"]
        self.assertEqual([], self.pairs(*once))
        self.assertEqual(["710:77A"], self.pairs(*once, "710#021003", "77A#037F1012"))

    def test_pairs_of_29_bits(self) -> None:
        self.assertEqual(["18DA10F1:18DAF110"], self.pairs("18DA10F1#023E00", "18DAF110#027E00"))

    def test_a_unit_that_is_asked_functionally_alone(self) -> None:
        found = learn_bus.look(self.lines("7DF#02010C", "7E8#04410C1AF8", "123#02010C", "124#04410C1AF8", "123#02010C", "124#04410C1AF8"))
        pairs = learn_bus.pairs_of(found)
        self.assertEqual((["7E0:7E8"], 0x7DF), ([it.shown() for it in pairs], learn_bus.functional_of(found, pairs)))

    def test_long_answers_are_answers(self) -> None:
        self.assertEqual(["7E1:7E9"], self.pairs("7E1#0322F190", "7E9#101462F190000000"))
        self.assertEqual(["7E1:7E9"], self.pairs("7E1#0322F190", "7E9#10000000138B62F1"))
        self.assertEqual(["7E1:7E9"], self.pairs("7E1#10000000138B3601", "7E9#027601"))
        # (one that breaks off before its message)
        self.assertEqual([], self.pairs("7E1#0322F190", "7E9#10000000138B", "7E9#1000"))

    def test_a_functional_identifier_is_of_no_pair(self) -> None:
        frames = ["700#023E00", "77A#027E00", "77B#027E00", "710#023E00", "77A#027E00", "711#023E00", "77B#027E00"] * 2
        found = learn_bus.look(self.lines(*frames))
        pairs = learn_bus.pairs_of(found)
        self.assertEqual({"710:77A", "711:77B"}, {it.shown() for it in pairs})
        self.assertEqual(0x700, learn_bus.functional_of(found, pairs))

    def test_tester_present_tells_the_functional_identifier(self) -> None:
        found = learn_bus.look(self.lines("7E0#023E00", "7E8#027E00", "7DF#023E80"))
        self.assertEqual(0x7DF, learn_bus.functional_of(found, learn_bus.pairs_of(found)))

    def test_what_asks_another_unit_is_no_functional_identifier(self) -> None:
        one = ["710#021003", "77A#065003003201F4", "710#0322F190", "77A#0462F19001"]
        for other, its, is_answered, wanted in (
            ("7A0", "7A8", True, None), ("7E0", "7E8", True, None), ("18DA11F1", "18DAF111", True, None), ("7A0", "77A", True, 0x7A0),
            ("7A0", "7A8", False, 0x7A0), ("7E1", "7E9", False, None), ("7DF", "7E9", True, 0x7DF), ("18DA11F1", "18DAF111", False, None),
        ):
            asks = [f"{other}#023E80", *([f"{other}#0322F190", f"{its}#0462F19002"] * 4 if is_answered else []), f"{other}#023E80"]
            found = learn_bus.look(self.lines(*one, *asks, *one[2:]))
            pair, is_wide = learn_bus.Pair(0x710, 0x77A), len(other) == 8
            pairs = [learn_bus.Pair(0x18DA10F1, 0x18DAF110, True) if is_wide else pair]
            self.assertEqual(wanted, learn_bus.functional_of(found, pairs, is_wide), (other, its, is_answered))

    def test_how_the_unit_sends(self) -> None:
        pair = [learn_bus.Pair(0x7E0, 0x7E8)]
        found = learn_bus.sending_of(self.lines("7E0#1014", "7E8#300805AAAAAAAAAA", "7E0#21", "7E8#037F2E31AAAAAAAA"), pair)
        self.assertEqual((0xAA, 8, 5, 20, 20), (found.pad, found.block_size, found.st_min, found.longest, found.n_cr))
        self.assertIsNone(learn_bus.sending_of(self.lines("7E8#037F2E31", "7E8#027E00"), pair).pad)

    def test_flow_control(self) -> None:
        """What lets frames come tells block size and STmin; a reserved STmin counts as the longest one."""
        pair, first = [learn_bus.Pair(0x7E0, 0x7E8)], "7E0#10142EF190414141"
        for wanted, *flows in (((8, 5), "310000", "310000", "300805"), ((8, 127), "3008F0"), ((0, 249), "3000F9"), ((0, 0), "320805"), ((0, 0), "3008")):
            found = learn_bus.sending_of(self.lines(first, *(f"7E8#{it}" for it in flows)), pair)
            self.assertEqual(wanted, (found.block_size, found.st_min), flows)

    def test_flow_control_wait(self) -> None:
        """That of the unit is told; a tester's isn't the unit's."""
        pair, first = [learn_bus.Pair(0x7E0, 0x7E8)], "7E0#10142EF190414141"
        for wanted, *flows in (([], "7E8#300000"), ([100010], "7E8#310000", "7E8#300000"), ([100010, 100030], "7E8#310000", "123#00", "7E8#310000"), ([], "7E0#310000"), ([], "7E8#3100")):
            self.assertEqual(wanted, learn_bus.sending_of(self.lines(first, *flows), pair).paused, flows)

    def test_how_long_flow_control_took(self) -> None:
        """Of each block, behind FlowControl wait anew; what isn't within a message doesn't count."""
        pair, first, flow = [learn_bus.Pair(0x7E0, 0x7E8)], "7E8#101462F190414141", "7E0#300100"
        one, two = "7E8#2141414141414141", "7E8#2241414141414141"
        for wanted, *steps in (
            (20, first, "123#00", flow, one, flow, two), (30, first, flow, one, "123#00", "123#00", flow, two), (20, first, "7E0#310000", "123#00", flow, one),
            (10, first, flow, one, two, "123#00", "123#00", flow), (0, "7E8#0462F19041", "123#00", flow), (10, first, flow, two, "123#00", flow),
        ):
            self.assertEqual(wanted, learn_bus.sending_of(self.lines(*steps), pair).n_bs, steps)

    def test_requests_that_are_too_long(self) -> None:
        """The unit's flow control says so; one of the same length that it took, or said nothing to, isn't."""
        pair = [learn_bus.Pair(0x7E0, 0x7E8)]
        long, longer, longest = ((f"7E0#1{it:03X}2EF190414141", it) for it in (20, 256, 512))
        no, yes = "7E8#320000", "7E8#300000"
        for wanted, *asks in (
            ((20, 256), long[0], yes, longer[0], no), ((20, 256), longest[0], no, longer[0], no, long[0]), ((0, 256), longer[0], no),
            ((256, 512), longer[0], no, longer[0], "7E8#310000", yes, longest[0], no), ((512, None), longer[0], no, longest[0], yes, no),
        ):
            found = learn_bus.sending_of(self.lines(*asks), pair)
            self.assertEqual(wanted, (found.longest, found.too_long), asks)

    def test_filling(self) -> None:
        """It is seen of SingleFrames, of FlowControl, and of the last ConsecutiveFrame."""
        pair, first = [learn_bus.Pair(0x7E0, 0x7E8)], "7E8#100862F18C010203"
        for pad, *frames in (
            (0xAA, "7E8#300805AAAAAAAAAA"), (None, "7E8#300805"), (0xAA, first, "7E8#210405AAAAAAAAAA"), (None, first, "7E8#210405"),
            (0xCC, "7E8#100D62F18C010203", "7E8#2104050607080910"), (0xCC, "7E8#101462F18C010203", "7E8#2104050607080910"),
            (0xCC, first, "7E8#220405AAAAAAAAAA"), (0xCC, "7E8#210405AAAAAAAAAA"), (0xCC, "7E8#0000000000000000"), (0xCC, "7E8#")
        ):
            self.assertEqual(pad, learn_bus.sending_of(self.lines(*frames), pair).pad, frames)

    def test_filling_by_can_fd(self) -> None:
        pair, first = [learn_bus.Pair(0x7E0, 0x7E8, is_fd=True)], f"7E8##11012{'41' * 10}"
        for pad, fill, *frames in (
            (0x55, 0x55, first, f"7E8##121{'41' * 8}555555"), (None, 0x55, "7E8##1023E00", first, f"7E8##121{'41' * 8}555555"),
            (0xAA, None, f"7E8##1100F{'41' * 10}", f"7E8##121{'41' * 5}AAAA"), (None, None, f"7E8##1100F{'41' * 10}", f"7E8##121{'41' * 5}"),
        ):
            found = learn_bus.sending_of(self.lines(*frames), pair)
            self.assertEqual((pad, fill, 12), (found.pad, found.fill, found.tx_dl), frames)

    def test_pairs_of_can_fd(self) -> None:
        frames = ["7E0##10322F190", f"7E8##1001462F190{'41' * 17}CCCC", "7E1#023E00", "7E9#027E00", "7DF##1023E80"]
        found = learn_bus.look(self.lines(*frames))
        pairs = [found.joined(it) for it in learn_bus.pairs_of(found)]
        self.assertEqual([("7E0:7E8", True), ("7E1:7E9", False)], [(it.shown(), it.is_fd) for it in pairs])
        self.assertEqual((0x7DF, True), (learn_bus.functional_of(found, pairs), "7DF" in found.by_fd))
        self.assertEqual([], self.pairs("7E0##10008" + "22", "7E8##1000862F190", "7E0##1000722F190F190F1", "7E8##1000A62" + "41" * 8))
        self.assertEqual(["7E0:7E8"], self.pairs(f"7E0##1000922{'F190' * 4}00", "7E8##1037F2231"))

    def test_how_the_unit_sends_by_can_fd(self) -> None:
        pair = [learn_bus.Pair(0x7E0, 0x7E8, is_fd=True)]
        single = f"7E8##A001462F190{'41' * 17}5555"
        found = learn_bus.sending_of(self.lines("7E0##A0322F190", single, "7E8##A037F2231", "7E8##2300000"), pair)
        self.assertEqual((None, 0x55, None, 10), (found.pad, found.fill, found.tx_dl, found.flags))
        found = learn_bus.sending_of(self.lines(single, "7E8##5037F2231AAAAAAAA", f"7E8##51014{'41' * 30}", "7E8#037F2231AAAAAAAA"), [learn_bus.Pair(0x7E0, 0x7E8)])
        self.assertEqual((0xAA, None, None, 1), (found.pad, found.fill, found.tx_dl, found.flags))
        self.assertEqual(0x55, learn_bus.sending_of(self.lines(single), pair).pad)
        # (a length that there isn't is a fault of the recording, which the program tells)
        self.assertEqual(12, learn_bus.sending_of(self.lines("7E8##11014" + "00" * 7), pair).tx_dl)
        self.assertEqual(8, learn_bus.sending_of(self.lines(single, f"7E8##11014{'41' * 6}", f"7E8##121{'41' * 7}"), pair).tx_dl)

    def test_broken_messages_of_can_fd(self) -> None:
        pair = [learn_bus.Pair(0x7E0, 0x7E8, is_fd=True)]
        first, rest = f"7E8##11067620101{'00' * 59}", f"7E8##121{'00' * 41}CCCCCCCCCCCC"
        for count, frames in ((0, [first, "7E0##1300000", rest]), (1, [first, "7E0##1300000", rest.replace("##121", "##122")]), (1, [first, "7E0##1300000", f"7E8##121{'00' * 40}", "7E8##1023E00"])):
            self.assertEqual(count, len(learn_bus.sending_of(self.lines(*frames), pair).losses.found), frames)

    def test_pairs_of_the_command_line(self) -> None:
        self.assertEqual(learn_bus.Pair(0x7E0, 0x7E8, False, "shop"), learn_bus.pair_of("7E0:7E8=shop"))
        self.assertEqual(learn_bus.Pair(0x7E0, 0x7E8, False, "shop", True), learn_bus.pair_of("7E0:7E8:fd=shop"))
        self.assertEqual(learn_bus.Pair(0x7E0, 0x7E8, False, "Shop", True), learn_bus.pair_of("7e0:7e8:FD=Shop"))
        self.assertEqual(learn_bus.Pair(0x18DA10F1, 0x18DAF110, True), learn_bus.pair_of("0x18DA10F1:0x18DAF110"))
        self.assertEqual(learn_bus.Pair(0x7E0, 0x7E8, False, "shop", True, 0x7DF), learn_bus.pair_of("7E0:7E8:7DF:fd=shop"))
        self.assertEqual(learn_bus.Pair(0x18DA10F1, 0x18DAF110, True, functional=0x18DB33F1), learn_bus.pair_of("18DA10F1:18DAF110:0x18DB33F1"))
        for text in ("7E0:7E8:18DB33F1", "7E0:7E8:fd:7DF", "7E0:7E8:7DF:7DF", "7E0", "7E0:18DAF110", "7E0:x", "7:8", "7E0:7E8:f", "7E0:7E8=a b", f"7E0:7E8={'a' * 17}", "7E0:7E8=\u017fhop", "7E0:7E8=\u212a"):
            self.assertRaises(ValueError, learn_bus.pair_of, text)


def exchange(at: int, request: str, sent: str, place: int = 0, pendings: int = 0) -> Exchange:
    answer = bytes.fromhex(sent) if sent else None
    return Exchange(at, at, place, "A", "P", bytes.fromhex(request), answer, "-", 3, pendings)


class OfTheParts(unittest.TestCase):
    def test_times_between(self) -> None:
        self.assertEqual([5000, 6001, 3500, 5000], [between(*it, 5000) for it in ((0, None), (6000, None), (3000, 4000), (4999, 5000))])

    def test_one_round(self) -> None:
        self.assertEqual([[1], [1, 2], [1, 2, 1], [1, 2, 2], []], [one_round(it) for it in ([1, 1], [1, 2, 1, 2, 1], [1, 2, 1], [1, 2, 2], [])])

    def test_s3(self) -> None:
        alive = [exchange(0, "1003", "5003003201F4"), exchange(6000, "8501", "C501")]
        self.assertEqual(6001, s3_of(alive))
        self.assertEqual(1500, s3_of([exchange(0, "1003", "5003003201F4"), exchange(3000, "8501", "7F857F")]))

    def test_code_names(self) -> None:
        self.assertEqual(["P0562-00", "U0100-11", "C1234-56", "B2ABC-DE"], [code_name(it) for it in (0x056200, 0xC10011, 0x523456, 0xAABCDE)])

    def test_words_of_rows(self) -> None:
        rows = [
            Row("2761", ["7F2770"]), Row("2743", ["7F2770"]), Row("1905*", ["7F1994"]), Row("1003", [""]), Row("22F190", ["62F19041", "", "62F19041"]),
            Row("14FFFFFF", ["7F1478"]), Row("14FFFFFF", ["7F1478", "54"]), Row("14FFFFFF"), Row("3101FF00*", ["7101FF00"]), Row("31....00", [""]), Row("2FF40C03*", ["6FF40C03"]),
        ]
        want = [
            "SecurityAccess requestSeed, uploadDownloadNotAccepted",
            "SecurityAccess, uploadDownloadNotAccepted",
            "ReadDTCInformation reportDTCStoredDataByRecordNumber, reservedForSpecificConditionsNotCorrect",
            "DiagnosticSessionControl extendedDiagnosticSession, no answer",
            "ReadDataByIdentifier VIN, at times no answer",
            "ClearDiagnosticInformation, response pending and no answer",
            "ClearDiagnosticInformation, at times response pending and no answer",
            "ClearDiagnosticInformation",
            "RoutineControl startRoutine eraseMemory",
            "RoutineControl, no answer",
            "InputOutputControlByIdentifier OBDDataIdentifier",
        ]
        self.assertEqual(want, [row_words(it) for it in rows])

    def test_patterns(self) -> None:
        self.assertEqual("28..01", pattern_of([b"\x28\x03\x01", b"\x28\x00\x01"]))
        self.assertEqual("36..*", pattern_of([b"\x36\x03\x01", b"\x36\x00"]))
        self.assertEqual("AB" * 64 + "*", pattern_of([b"\xab" * 65]))

    def test_short_patterns(self) -> None:
        self.assertEqual("36..*", shortened("36......*", ["76$1"]))
        self.assertEqual("36*", shortened("36......*", ["76"]))
        self.assertEqual(["36....", "36..01*"], [shortened(it, ["76$1"]) for it in ("36....", "36..01*")])

    def test_templates(self) -> None:
        def template(*pairs: tuple[str, str]) -> Optional[str]:
            return template_of([Case(Held(), it[1], [exchange(0, *it)]) for it in pairs])

        self.assertEqual("68$1", template(("280301", "6803"), ("280001", "6800")))
        self.assertEqual("6803", template(("280301", "6803")))
        self.assertIsNone(template(("280301", "6803"), ("280301", "7F2822")))
        self.assertEqual("", template(("280301", ""), ("280001", "")))

    def test_orders(self) -> None:
        """Splits that part nothing aren't tried."""
        blocks = [Case(Held(3), f"76{at:02X}", [exchange(0, f"36{at:02X}AA", f"76{at:02X}")]) for at in range(3)]
        refused = Case(Held(3), "7F3673", [exchange(0, "3603BB", "7F3673")])
        self.assertEqual([("sub-function", "request")], list(orders_of(blocks)))
        self.assertEqual([("refusal", "sub-function", "request")], list(orders_of([*blocks, refused])))
        self.assertEqual([()], list(orders_of(blocks[:1])))


class Terminal(io.StringIO):
    """A standard error that is a terminal."""

    def isatty(self) -> bool:
        return True


class OfTheProgress(unittest.TestCase):
    @staticmethod
    def shown(err: io.StringIO, seconds: float) -> str:
        with redirect_stderr(err):
            progress = learn.Progress()
            progress.begun -= seconds
            progress.at(0.5, "half of it")
            progress.end()
        return err.getvalue()

    def test_a_bar_is_for_a_terminal_that_waits(self) -> None:
        self.assertEqual("", self.shown(io.StringIO(), 5))
        self.assertEqual("", self.shown(Terminal(), 0.5))
        self.assertEqual(f"\r\x1b[K{'#' * 15:<30} half of it\r\x1b[K", self.shown(Terminal(), 5))


# ---- runs


def put(path: str, text: str) -> str:
    with open(path, "w", encoding="latin-1") as it:
        it.write(text)
    return path


@dataclass
class Learned:
    """What the tool made of a recording: the setup's text, its status, and what it told."""

    text: str
    status: int
    told: str

    def tree(self) -> dict:
        return tomllib.loads(self.text)


# what the command line gives: the program, and the seeds
OPTIONS: list[str] = []
RUNS = range(1, 201)


def learned(*words: str) -> Learned:
    out, err = io.StringIO(), io.StringIO()
    with redirect_stdout(out), redirect_stderr(err):
        status = learn.main([*OPTIONS, *words])
    return Learned(out.getvalue(), status, err.getvalue())


def learned_of(lines: str, *words: str) -> Learned:
    with tempfile.TemporaryDirectory() as room:
        return learned(*words, put(f"{room}/capture.log", lines))


def heard() -> None:
    """Lets Ctrl-C end what is started."""
    signal.signal(signal.SIGINT, signal.SIG_DFL)


def frames(*pairs: tuple[int, str]) -> str:
    """A recording of frames by their milliseconds."""
    return "".join(f"({100 + ms // 1000:010d}.{ms % 1000:03d}000) can0 {it}\n" for ms, it in pairs)


def asked(*asks: tuple[str, ...]) -> str:
    """A recording of requests, each with what the unit sends to it: the first message 4 ms later, any further one 60 ms later.
    What is longer than a frame comes in several."""
    link, steps = LinkSetup([], 0x7DF, 0, 0, 65535, None, 1000, 1000, None, fill=0xCC), []
    for at, (request, *sent) in enumerate(asks):
        for identifier, own, ms in ((0x7E0, request, 0), *((0x7E8, it, 4 + 60 * place) for place, it in enumerate(sent))):
            first, *rest = (f"{identifier:03X}#{it.hex().upper()}" for it in cut(link, bytes.fromhex(own), 8))
            flow = [f"{0x7E8 if identifier == 0x7E0 else 0x7E0:03X}#300000"] if rest else []
            steps += [(at * 1000 + ms, it) for it in (first, *flow, *rest)]
    return frames(*steps, (len(asks) * 1000, "123#00"))


def judged(command: str, it: Learned, lines: str) -> tuple[int, str, str]:
    """What a command of the program says of a recording by a learned setup: the status, standard output and error."""
    with tempfile.TemporaryDirectory() as room:
        words = [OPTIONS[1], command, put(f"{room}/unit.toml", it.text), put(f"{room}/unit.log", lines)]
        ran = subprocess.run(words, capture_output=True, text=True, timeout=60)
    return ran.returncode, ran.stdout, ran.stderr


def rows_of(it: Learned) -> dict[str, list[str]]:
    return {row["request"]: row.get("reply") for row in it.tree().get("answer", [])}


class OfRecordings(unittest.TestCase):
    """The setup that is learned from a recording agrees with it."""

    def test_the_small_unit(self) -> None:
        for seed in RUNS:
            with self.subTest(seed=seed):
                found = learned_of(recording(seed))
                self.assertEqual((0, ""), (found.status, self.doubtful(found)))

    @staticmethod
    def doubtful(found: Learned) -> str:
        """What was told, but for the pairs, and for a session that several testers have at once."""
        return re.sub("learn: (.* pairs are taken|10.. is answered as recorded, but begins no session: ).*\n", "", found.told)

    def test_the_small_unit_by_can_fd(self) -> None:
        for seed in RUNS[:: 8]:
            with self.subTest(seed=seed):
                lines = recording(seed, is_fd=True)
                found, pairs = learned_of(lines), {"7E8", "7E9", "77A", "77B", "18DAF110", "18DAF210"}
                self.assertEqual((0, ""), (found.status, self.doubtful(found)))
                firsts = {len(data) // 2 for identifier, data in re.findall(r" ([0-9A-F]+)##5(1[0-9A-F]*)", lines) if identifier in pairs}
                self.assertEqual((firsts or {64}, 5), ({found.tree()["tx_dl"]}, found.tree()["fd_flags"]))
                self.assertEqual(not firsts, "tx_dl = 64  # no FirstFrame told it\n" in found.text)
                self.assertTrue(all(it["fd"] for it in found.tree()["tester"]))

    def test_single_frames_of_can_fd_alone(self) -> None:
        """They are as short as they can be, so the greatest length verifies them all."""
        for size in (3, 4, 5, 8, 20, 59):
            message = f"62F190{'41' * size}"
            length = next(it for it in LENGTHS if it >= size + (4 if size < 5 else 5))
            answer = f"{size + 3:02X}{message}" if size < 5 else f"00{size + 3:02X}{message}"
            lines = frames((0, "7E0##10322F190"), (3, f"7E8##1{answer.ljust(2 * length, 'C')}"), (50, "7E0##1023E00"), (53, "7E8##1027E00CCCCCCCCCC"), (90, "123#00"))
            found = learned_of(lines)
            self.assertEqual((0, 64), (found.status, found.tree()["tx_dl"]))
            self.assertIn("tx_dl = 64  # no FirstFrame told it\n", found.text)
            self.assertEqual((0, "tester_7E0 2 frames agree\n", ""), judged("verify", found, lines))

    def test_the_filling_of_long_messages(self) -> None:
        flow = "7E8#300805AAAAAAAAAA"
        classic = ["7E0#0322F18C", "7E8#100862F18C010203", "7E0#300000", "7E8#210405AAAAAAAAAA", "7E0#10082EF18C010203", flow]
        by_fd = ["7E0##1023E00", "7E8##1027E00", "7E0##10322F18C", "7E8##1101262F18C41414141414141", "7E0##1300000", f"7E8##121{'41' * 8}AAAAAA"]
        for asks in (classic, by_fd):
            lines = frames(*((at * 2, it) for at, it in enumerate([*asks, "123#00"])))
            found = learned_of(lines)
            self.assertEqual((0, 0xAA, "tester_7E0 3 frames agree\n"), (found.status, found.tree()["pad_byte"], judged("verify", found, lines)[1]))
        self.assertEqual((False, 12), (found.tree()["pad"], found.tree()["tx_dl"]))

    def test_another_unit_beside_it(self) -> None:
        """Its requests are none of the learned unit's, though its tester says TesterPresent, too."""
        one, own = ["710#021003", "77A#065003003201F4"], ["710#0322F190", "77A#0462F19001"]
        for request, response in (("7A0", "7A8"), ("7E0", "7E8")):
            asks = [*one, *own, f"{request}#023E80", *[f"{request}#0322F190", f"{response}#0462F19002"] * 4, f"{request}#023E80", *own]
            found = learned_of(frames(*((at * 100, it) for at, it in enumerate(asks))), "--pair", "710:77A")
            self.assertEqual((0, "", {}, [{"id": 0xF190, "value": "01"}]), (found.status, found.told, rows_of(found), found.tree()["did"]))
            self.assertNotIn("functional", found.text)

    def test_a_classic_pair_beside_one_of_can_fd(self) -> None:
        """They can't have one functional identifier."""
        value = "41" * 17
        asks = ["7E0##10322F190", f"7E8##1001462F190{value}CCCC", "7E1#023E00", "7E9#027E00"]
        for functional, own in (("7DF##1023E80", [None, 0x7FF]), ("7DF#023E80", [0x7FF, None]), ("123#00", [0x7FF, None])):
            found = learned_of(frames(*((at * 100, it) for at, it in enumerate([*asks, functional]))))
            self.assertEqual((0, [True, None]), (found.status, [it.get("fd") for it in found.tree()["tester"]]), found.told)
            self.assertEqual(own, [it.get("functional") for it in found.tree()["tester"]], functional)
            other, one = ("CAN FD", "classic CAN") if own[1] else ("classic CAN", "CAN FD")
            self.assertIn(f"functional = 0x7FF  # a free one: 7DF is of {other} here, and a tester by {one} can't have it, too\n", found.text)
            self.assertEqual((64, 0xCC, [{"id": 0xF190, "value": value}]), (found.tree()["tx_dl"], found.tree()["pad_byte"], found.tree()["did"]))

    def test_a_tester_to_whom_no_functional_request_is_answered(self) -> None:
        """It has a functional identifier of its own, and rows have no answer for it, unless it begins a session."""
        read = [("7E0", "0322F195", "7E8", "0562F1950203"), ("7A0", "0322F195", "7A8", "0562F1950203"), ("7DF", "0322F195", "7E8", "0562F1950203")]
        session, late = [("7A0", "021003", "7A8", "065003003201F4")], [("7DF", "0322F195", "7A8", "0562F1950203")]
        own = "functional = 0x7FF  # a free one: functional requests were answered to others alone\n"
        for more, is_own in (([], True), (session, False), (late, False)):
            steps = [*read, *read, *more, ("7DF", "023E80", "7E8", "")]
            lines = frames(*((at * 100 + back, f"{it}#{data}") for at, step in enumerate(steps) for back, it, data in ((0, *step[:2]), (3, *step[2:])) if data))
            found = learned_of(lines, "--pair", "7E0:7E8", "--pair", "7A0:7A8")
            self.assertEqual((0, "", is_own, is_own), (found.status, found.told, own in found.text, not rows_of(found)), more)
            self.assertEqual(0, judged("compare", found, lines)[0], more)
        asks = ["7E0#0322F195", "7E8#0562F1950203", "7A0#023E00", "7A8#027E00", "7DF#0322F195", "7E8#0562F1950203", "7C0##1023E00", "7C8##1027E00"]
        found = learned_of(frames(*((at * 100, it) for at, it in enumerate(asks))), *(it for pair in ("7E0:7E8", "7A0:7A8", "7C0:7C8") for it in ("--pair", pair)))
        self.assertEqual((0, [None, None, 0x7FF]), (found.status, [it.get("functional") for it in found.tree()["tester"]]), found.told)

    def test_both_are_asked_by_one_functional_identifier(self) -> None:
        """The answers of the one that can't have it are told as unasked, with the reason."""
        asks = ["7E0##10322F190", "7E8##1037F2231", "7E1#023E00", "7E9#027E00", "7DF##1023E00", "7E8##1027E00", "7E9#027E00"]
        found = learned_of(frames(*((at * 100, it) for at, it in enumerate(asks))))
        why = "7DF is of CAN FD here, and a tester by classic CAN can't have it, too"
        told = f"learn: line 7: tester_7E1 was sent 7E00 which nobody asked for\nlearn: what tester_7E1 was sent to functional requests counts as unasked: {why}\n"
        self.assertEqual((8, True), (found.status, found.told.endswith(told)), found.told)

    def test_the_demo(self) -> None:
        for name in ("bus.log", "other_unit.log"):
            found = learned("--pair", "7E0:7E8=workshop", "--pair", "7A0:7A8=end_of_line", f"{TOP}/demo/{name}")
            self.assertEqual((0, ""), (found.status, found.told))
            self.assertEqual(["workshop", "end_of_line"], [it["name"] for it in found.tree()["tester"]])
            self.assertEqual([0xF190, 0xF195], [it["id"] for it in found.tree()["did"]])
        self.assertEqual({"14FFFFFF": ["54"], "31010203": None}, rows_of(found))

    def test_lost_frames_are_told(self) -> None:
        """Nothing is learned of their exchanges, and the status is 8, but all else is."""
        long = [(0, "7E0#0322F190"), (3, "7E8#101362F190313233"), (4, "7E0#300000"), (5, "7E8#2134353637383941"), (6, "7E8#22424344454647"), (100, "7E0#023E00"), (105, "7E8#027E00")]
        whole = learned_of(frames(*long))
        self.assertEqual((0, "", {}), (whole.status, whole.told, rows_of(whole)))
        told = "learn: line 2: a ConsecutiveFrame (SequenceNumber {}) of a message to tester_7E0 is missing: nothing is learned of 22F190 at line 1\n"
        for text, wanted, lines in (
            ("the first ConsecutiveFrame is missing", told.format(1), long[:3] + long[4:]),
            ("the last one is missing", told.format(2), long[:4] + long[5:]),
            ("a sequence gap", told.format(1), long[:3] + [(5, "7E8#2334353637383941")] + long[4:]),
            ("a frame twice", told.format(2), long[:4] + [(6, "7E8#2134353637383941")] + long[4:]),
            ("response pending before it", told.format(1).replace("line 2", "line 3"), long[:1] + [(2, "7E8#037F2278")] + long[1:3] + long[4:]),
            ("the FirstFrame is missing", "learn: line 4: the FirstFrame of a message to tester_7E0 is missing: nothing is learned of 22F190 at line 3\n", [*((at - 200, it) for at, it in long[-2:]), *long[:1], *long[3:]]),
        ):
            lines = frames(*((at + 300, it) for at, it in lines))
            found = learned_of(lines)
            self.assertEqual((8, wanted, {}, []), (found.status, found.told, rows_of(found), found.tree().get("did", [])), text)
            status, lines_of_compare, _ = judged("compare", found, lines)
            self.assertEqual((8, True), (status, " P 22F190 - 7F2231 - " in lines_of_compare), text)
        again = learned_of(frames(*long[:3], *long[4:], *((at + 200, it) for at, it in long)))
        self.assertEqual((8, told.format(1), {}), (again.status, again.told, rows_of(again)))
        self.assertEqual(["31323334353637383941424344454647"], [it["value"] for it in again.tree()["did"]])
        for text, lines in (("no FlowControl", long[:2]), ("the tester has no room", [*long[:2], (4, "7E0#320000")]), ("it begins within one", long[3:4])):
            found = learned_of(frames(*lines, *long[-2:]))
            self.assertEqual((0, False), (found.status, "missing" in found.told), text)
        found = learned_of(frames(*long[-2:], *((at + 200, it) for at, it in long[:2])))
        self.assertEqual((0, False), (found.status, "missing" in found.told), "the end before FlowControl")
        found = learned_of(frames(*long, *((at + 300, it) for at, it in long[1:3]), (400, "7E0#023E00"), (405, "7E8#027E00")))
        told = "learn: line 8: a ConsecutiveFrame (SequenceNumber 1) of a message to tester_7E0 is missing: nobody asked for it\n"
        self.assertEqual((8, told, [0xF190]), (found.status, found.told, [it["id"] for it in found.tree()["did"]]), "a second answer")

    def test_lost_frames_within_a_round(self) -> None:
        """The exchange takes its place among answers in turn: those behind it are right."""
        reads = [("22F40C", f"62F40C{at:02X}31323334353637") for at in range(5)]
        whole = asked(*reads).splitlines(keepends=True)
        for gone in range(5):
            lost = [at for at, line in enumerate(whole) if "7E8#2" in line][gone]
            lines = "".join(whole[:lost] + whole[lost + 1 :])
            found = learned_of(lines)
            kept = [sent for at, (_, sent) in enumerate(reads) if at != gone]
            again = kept[max(gone - 1, 0)]
            self.assertEqual((8, 1, {"22F40C": kept[:gone] + [again] + kept[gone:]}), (found.status, found.told.count("learn: line"), rows_of(found)), gone)

    def test_lost_frames_beside_a_round(self) -> None:
        """An exchange in another session than the row's takes no place in the row."""
        extended, default, value = ("1003", "5003003201F4"), ("1001", "5001003201F4"), "62F19031323334353637"
        rounds = ["7F2233", "7F2231", "7F2231"]
        asks = [extended, ("22F190", rounds[0]), default, ("22F190", value), extended, *(("22F190", it) for it in rounds[1:])]
        lines = asked(("22F190", value), *asks, ("3E00", "7E00")).splitlines(keepends=True)
        lost = [at for at, line in enumerate(lines) if "7E8#2" in line][1]
        found = learned_of("".join(lines[:lost] + lines[lost + 1 :]))
        self.assertEqual((8, 1, {"22F190": rounds}), (found.status, found.told.count("learn: line"), rows_of(found)))

    def test_lost_frames_of_a_request_are_told(self) -> None:
        """Its answer isn't what nobody asked for; where there is none the tester left it off."""
        session = [(0, "7E0#021003"), (3, "7E8#065003003201F4")]
        write = [(100, "7E0#100A2EF190313233"), (101, "7E8#300000"), (102, "7E0#2134353637")]
        lines = frames(*session, *write[:2], (110, "7E8#036EF190"), (200, "7E0#023E00"), (203, "7E8#027E00"))
        found = learned_of(lines)
        self.assertEqual((8, "learn: line 3: a ConsecutiveFrame (SequenceNumber 1) of a request of tester_7E0 is missing: nothing is learned of the answer at line 5\n"), (found.status, found.told))
        for text, more in (("no answer", []), ("another message", [(110, "7E8#036EF190"), (111, "7E8#036EF190")])):
            found = learned_of(frames(*session, *(write if more else write[:2]), *more, (200, "7E0#023E00"), (203, "7E8#027E00")))
            self.assertEqual((8 if more else 0, False), (found.status, "missing" in found.told), text)

    def test_many_lost_frames(self) -> None:
        """They don't keep the tool from learning the rest. The first thousand are told."""
        read = [(0, "7E0#0322F190"), (3, "7E8#100C62F190313233"), (4, "7E0#300000")]
        lines = frames(*((at * 20 + ms, it) for at in range(1500) for ms, it in [*read, (10, "7E0#0322F195"), (13, "7E8#0462F19541")]))
        found = learned_of(lines)
        self.assertEqual((8, [0xF195], {}), (found.status, [it["id"] for it in found.tree()["did"]], rows_of(found)))
        self.assertEqual((1000, True), (found.told.count("is missing: nothing is learned of 22F190"), "learn: and 500 more messages lack a frame\n" in found.told))

    def test_lines_out_of_order_are_noted(self) -> None:
        """As are lines that stand twice; both change nothing else."""
        read = ["7E0#0322F190", "7E8#0462F19041", "7E0#023E00", "7E8#027E00"]
        late = learned_of(frames((0, read[0]), (3, read[1]), (100, read[2]), (99, read[3]), (98, "7E0#023E80"), (120, "123#00")))
        self.assertIn("learn: note: frames whose stamps are less than one before: 2, the first is line 4\n", late.told)
        twice = learned_of(frames((0, read[0]), (3, read[1]), (100, read[2]), (105, read[3]), (200, "7E0#023E80"), (200, "7E0#023E80"), (230, "123#00"), (230, "123#00")))
        self.assertEqual((0, "learn: note: frames that repeat the one before, with its stamp: 1, the first is line 6\n"), (twice.status, twice.told))
        order = Order()
        for at, (now, rest) in enumerate(((5, "000"), (5, "001"), (5, "001"), (4, "001"), (5, "001"), (5, "001"))):
            order.take(at, now, rest, "7E0", "023E80")
        self.assertEqual(([3], [2, 5]), (order.late, order.twice))

    def test_numbers_of_lines(self) -> None:
        with tempfile.TemporaryDirectory() as room:
            path = put(f"{room}/capture.log", "a\n\nbb\r\nc\n")
            self.assertEqual({0: 1, 2: 2, 3: 3, 7: 4}, lines_at(path, [7, 0, 3, 2, 3]))
            self.assertEqual({}, lines_at(path, []))
            whole = "x" * 999 + "\n"
            path = put(f"{room}/capture.log", whole * 9000)
            self.assertEqual({it * 1000: it + 1 for it in (0, 4193, 4194, 4195, 8999)}, lines_at(path, [it * 1000 for it in (0, 4193, 4194, 4195, 8999)]))

    def test_functional_identifiers_of_testers(self) -> None:
        """Each tester may be given its own; those without have the one that is found."""
        asks = ["7E0#0322F190", "7E8#0462F19041", "7A0#0322F190", "7A8#0462F19041", "700#0322F190", "7E8#0462F19041", "701#0322F190", "7A8#0462F19041", "7DF#023E80"]
        lines = frames(*((at * 100, it) for at, it in enumerate(asks)), (2000, "123#00"))
        found = learned_of(lines, "--pair", "7E0:7E8:700=a", "--pair", "7A0:7A8:701=b")
        self.assertEqual((0, "", [0x700, 0x701]), (found.status, found.told, [it["functional"] for it in found.tree()["tester"]]))
        self.assertIn(" F 22F190 62F19041 = ", judged("compare", found, lines)[1])
        found = learned_of(lines, "--pair", "7E0:7E8:700=a", "--pair", "7A0:7A8=b")
        self.assertEqual([0x700, None], [it.get("functional") for it in found.tree()["tester"]])
        pairs, reads = ("--pair", "7E0:7E8:700=a", "--pair", "7A0:7A8=b"), frames(*((at * 100, it) for at, it in enumerate(asks[:4])))
        for text, more in (
            ("of another tester alone", [(1000, "700#023E80"), (1100, "700#023E80"), (1200, "700#023E80")]),
            ("answered to a tester that has its own", [(1000, "702#0322F190"), (1004, "7E8#0462F19041"), (1100, "702#0322F190"), (1104, "7E8#0462F19041")]),
        ):
            found = learned_of(reads + frames((800, "701#0322F190"), (804, "7A8#0462F19041"), *more, (3000, "123#00")), *pairs)
            self.assertEqual(0x701, found.tree()["functional"], text)
        apart = frames((0, "7A0##10322F190"), (4, "7A8##10462F19041"), (100, "7DF##1023E80"), (200, "7DF##1023E00"), (204, "7E8#027E00"), (2000, "123#00"))
        found = learned_of(apart, *pairs)
        self.assertEqual([0x700, None], [it.get("functional") for it in found.tree()["tester"]])
        self.assertEqual((8, False), (found.status, "counts as unasked" in found.told), found.told)
        own = [learn_bus.Pair(0x7E0, 0x7E8, functional=0x7FF), learn_bus.Pair(0x7A0, 0x7A8)]
        self.assertEqual(0x7FE, free_identifier(Unit(own, None, learn_bus.Sending())))
        told = "learn: --functional 7DF has no effect: --pair gives each tester its own\n"
        self.assertEqual((0, told), self.told(lines, "--pair", "7E0:7E8:700", "--pair", "7A0:7A8:701", "--functional", "7DF"))

    def test_a_request_that_the_end_cuts_off_is_told(self) -> None:
        """It is the last one of its tester, and the recording ends before the answer had to come."""
        read, other = [(0, "7E0#0322F190"), (3, "7E8#0462F19041")], [(99, "7E1#023E00"), (102, "7E9#027E00")]
        told = "learn: line {}: the recording ends {} ms behind 22F190 of tester_7E0, before an answer: it is learned as unanswered\n"
        slow, present = (140, "7E8#037F2278"), (150, "7E0#023E80")
        left = "learn: line 5: tester_7E0 was sent response pending to 22F190, and nothing behind it: it is learned so\n"
        for wanted, *more in (
            (told.format(5, 0), (110, "7E0#0322F190")), (told.format(5, 999), (110, "7E0#0322F190"), (1109, "123#00")), ("", (110, "7E0#0322F190"), (1110, "123#00")),
            (told.format(5, 4999).replace("unanswered", "response pending alone"), (110, "7E0#0322F190"), slow, (5109, "123#00")),
            (left, (110, "7E0#0322F190"), slow, (5110, "123#00")),
            (told.format(5, 40), (110, "7E0#0322F190"), present), ("", (110, "7E0#0322F190"), (150, "7E0#023E00"), (152, "7E8#027E00")), ("", present),
            (told.format(5, 40), (110, "7E0#0322F190"), (150, "7E1#023E00"), (150, "7E9#027E00")),
        ):
            found = learned_of(frames(*read, *other, *more), "--pair", "7E0:7E8", "--pair", "7E1:7E9")
            self.assertEqual((0, wanted), (found.status, found.told), more)
        with tempfile.TemporaryDirectory() as room:
            for text, wanted in (("(1.500000) can0 7E0#00\n(2.25) a b\n(3.125999) x\r\n\n", 3125), ("(1.500000) can0 7E0#00\ntick 5\n", None), ("", None), ("(1.500000) x 1#", 1500), (f"(9.000000){'x' * 9000}\n", None)):
                self.assertEqual(wanted, learn_bus.end_of(put(f"{room}/end.log", text)), text)

    def test_one_interface(self) -> None:
        lines = frames((0, "7E0#0322F195"), (3, "7E8#0562F1950203"), (100, "7E0#0322F195"), (103, "7E8#0562F1950204")).splitlines(keepends=True)
        both = "".join(lines[:2]) + "".join(it.replace("can0", "can1") for it in lines[2:])
        found = learned_of(both)
        self.assertEqual((0, {"22F195": ["62F1950203", "62F1950204"]}), (found.status, rows_of(found)))
        self.assertIn("learn: uds_play: note: frames of more than one interface count: can0 2, can1 2", found.told)
        for interface, value in (("can0", "0203"), ("can1", "0204")):
            found = learned_of(both, "--interface", interface)
            self.assertEqual((0, "", [{"id": 0xF195, "value": value}]), (found.status, found.told, found.tree()["did"]))
        told = 'learn: uds_play: note: no line of the interface can. was seen: can0 2, can1 2\n'
        self.assertEqual((9, told), self.told(both, "--interface", "can."))

    def test_an_answer_too_long_for_a_row(self) -> None:
        message = "620101" + "41" * 4997
        rest = [f"7E8#2{number % 16:X}{message[at : at + 14]}" for number, at in enumerate(range(4, len(message), 14), 1)]
        lines = frames((0, "7E0#03220101"), (1, f"7E8#100000001388{message[:4]}"), (2, "7E0#300000"), *((3, it) for it in rest))
        found = learned_of(lines, "--pair", "7E0:7E8=A")
        shown = f"{message[:48]}.. (5000 bytes)"
        told = f"learn: line 1: A was sent {shown} to 220101, expected 7F2231; no row has an answer of more than 4095 bytes\n"
        self.assertEqual((8, told), (found.status, found.told))
        self.assertEqual((8, found.text), (learned_of(lines).status, learned_of(lines).text.replace("tester_7E0", "A")))

    def test_more_rows_than_a_setup_has(self) -> None:
        steps = [(at * 20, at) for at in range(1030)]
        found = learned_of(frames(*((ms + back, line) for ms, at in steps for back, line in ((0, f"7E0#0323{at:04X}"), (3, f"7E8#0363{at * 7 % 65521:04X}")))))
        self.assertEqual((8, 1024), (found.status, len(rows_of(found))))
        self.assertIn("learn: the setup is full: of the rows of answers 6 found no room (docs/FORMATS.md, Setup file, has the limits)\n", found.told)

    def test_the_rows_that_find_room(self) -> None:
        """Those that begin a session, then those of short requests, where blocks have checksums in their answers."""
        blocks = [(f"36{at % 256:02X}{at:08X}", f"76{at % 256:02X}{at * 7 % 65521:04X}") for at in range(1030)]
        asks = [("1002", "5002003201F4"), ("34001122", "742000"), *blocks, ("37", "77"), ("8502", "C502")]
        found = learned_of(frames(*((at * 20 + late, f"{it}#{len(data) // 2:02X}{data}") for at, ask in enumerate(asks) for late, it, data in ((0, "7E0", ask[0]), (3, "7E8", ask[1])))))
        rows = rows_of(found)
        self.assertEqual((8, 1024, [["5002003201F4"], ["742000"], ["77"]]), (found.status, len(rows), [rows.get(it) for it in ("1002", "34001122", "37")]))
        self.assertEqual(9, len(re.findall(r"learn: line \d+: tester_7E0 was sent 76", found.told)))

    def test_a_wrong_key_where_seeds_vary(self) -> None:
        """The wrong key has a row, and nothing else does: behind the right one the level is unlocked."""
        asks = [
            ("021003", "065003003201F4"), ("022701", "066701AABBCCDD"), ("062702DEADBEEF", "037F2735"), ("022701", "066701AABBCC01"),
            ("06270211223344", "026702"), ("0431010203", "0471010203"), ("021003", "065003003201F4"), ("0431010203", "037F3133"),
        ]
        lines = [it for at, (ask, sent) in enumerate(asks) for it in ((at * 100, f"7E0#{ask}"), (at * 100 + 4, f"7E8#{sent}"))]
        found = learned_of(frames(*lines), "--varies")
        self.assertEqual((0, "", {"2702DEADBEEF": ["7F2735"]}), (found.status, found.told, rows_of(found)))

    def test_measured_values_come_in_order(self) -> None:
        reads = [(at, it) for ms, value in enumerate(("0B54", "0B70", "0B2E")) for at, it in ((ms * 100, "7E0#0322F40C"), (ms * 100 + 5, f"7E8#0562F40C{value}"))]
        found = learned_of(frames(*reads))
        self.assertEqual((0, {"22F40C": ["62F40C0B54", "62F40C0B70", "62F40C0B2E"]}), (found.status, rows_of(found)))
        varies = learned_of(frames(*reads), "--varies")
        self.assertEqual([{"id": 0xF40C, "value": "0B54", "varies": True}], varies.tree()["did"])

    def varied(self, *answers: list[str]) -> Learned:
        """What is learned with `--varies` of reads of F40C, or of F40C and F40D, each with the answers to it; another
        recording, which has other values, agrees with it."""
        request = "0522F40CF40D" if "F40D" in answers[0][0] else "0322F40C"

        def read(other: str) -> str:
            lines = []
            for at, own in enumerate(answers):
                lines.append((at * 200, f"7E0#{request}"))
                lines += [(at * 200 + 3 + 60 * place, f"7E8#{len(it) // 2:02X}{it.replace('0B', other)}") for place, it in enumerate(own)]
            return frames(*lines)

        found = learned_of(read("0B"), "--varies")
        self.assertEqual((0, ""), (found.status, found.told))
        self.assertEqual(0, judged("compare", found, read("A7"))[0], found.text)
        return found

    def test_what_varies(self) -> None:
        """The identifier is in the model, also where an answer was slow, where one was negative, or where it is read together
        with others."""
        one = [{"id": 0xF40C, "value": "0B54", "varies": True}]
        slow = self.varied(["62F40C0B54"], ["7F2278", "62F40C0B55"], ["62F40C0B56"]).tree()
        self.assertEqual((one, [{"request": "22F40C", "after_ms": 63}]), (slow["did"], slow["answer"]))
        refused = self.varied(["62F40C0B54"], ["7F2222"], ["62F40C0B56"], ["62F40C0B57"])
        self.assertEqual((one, {"22F40C": ["62F40C????", "7F2222", "62F40C????", "62F40C????"]}), (refused.tree()["did"], rows_of(refused)))
        two = [{"id": number, "value": "0B", "varies": True} for number in (0xF40C, 0xF40D)]
        both = self.varied(["62F40C0BF40D0B"], ["62F40C01F40D02"])
        self.assertEqual((two, {}), (both.tree()["did"], rows_of(both)))
        refused = self.varied(["62F40C0BF40D0B"], ["7F2222"], ["62F40C01F40D02"])
        self.assertEqual((two, {"22F40CF40D": ["62F40C??F40D??", "7F2222", "62F40C??F40D??"]}), (refused.tree()["did"], rows_of(refused)))

    def test_what_varies_in_length(self) -> None:
        """A row has as many open bytes as came each time, which is told."""
        told = "learn: the values of F40C have 1, 2 and 3 bytes: any bytes will do, but as many as were recorded each time\n"
        for request, answers, templates in (
            ("22F40C", ["62F40C0B5401", "62F40C0B", "62F40C0B55"], ["62F40C??????", "62F40C??", "62F40C????"]),
            ("22F40CF190", ["62F40C01F19041", "62F40C010203F19041", "62F40C0102F19041"], ["62F40C??F19041", "62F40C??????F19041", "62F40C????F19041"]),
        ):
            lines = asked(*((request, it) for it in answers))
            found, plain = learned_of(lines, "--varies"), learned_of(lines)
            self.assertEqual((0, told, {request: templates}), (found.status, found.told, rows_of(found)))
            self.assertEqual((0, "", {request: answers}), (plain.status, plain.told, rows_of(plain)))
            other = [(request, it.replace("40C0", "40C7")) for it in answers]
            self.assertEqual((0, 8), (judged("compare", found, asked(*other))[0], judged("compare", found, asked(*other[1:]))[0]))

    def test_what_varies_of_other_services(self) -> None:
        """Whole values where the service tells them, else the bytes that changed; also seeds beside those of the model. A recording
        with other values agrees, one with other bytes beside them doesn't."""
        for asks, rows, spoilt in (
            ([("010C", "410C0B54"), ("010C", "410C0B55"), ("010D", "410D10")], {"010C": ["410C????"], "010D": ["410D10"]}, ("410C", "410D")),
            ([("010C0D", "410C0B540D10"), ("010C0D", "410C0B550D11")], {"010C0D": ["410C????0D??"]}, ("0D1", "0E1")),
            ([("0110", "41100B54"), ("0110", "41100B55"), ("010C", "410C0B54"), ("010C", "410C0B55")], {"010C": ["410C????"], "0110": ["4110????"]}, ("4110", "4111")),
            ([("2F010000", "6F0100000B54"), ("2F010000", "6F0100000B55"), ("2F01000301", "6F01000301")], {"2F010000": ["6F010000????"], "2F01000301": ["6F01000301"]}, ("00301", "00302")),
            ([("231101", "63AB0B54"), ("231101", "63AB0B55")], {"231101": ["63??????"]}, ("63AB0B55", "7F2331")),
            ([("1904010203FF", "590401020324010B54"), ("1904010203FF", "590401020324010B55")], {"1904010203FF": ["590401020324010B??"]}, ("020324", "020325")),
            ([("BA01", "FA01")], {"BA01": ["FA01"]}, ("FA", "FB")),
            ([("A501", "E5010B54"), ("A501", "E5010B55"), ("A502", "E5020B54"), ("A502", "E5020B55")], {"A501": ["E5010B??"], "A502": ["E5020B??"]}, ("E501", "E502")),
        ):
            other = [(ask, re.sub("0B5(.)", lambda it: f"{'A7' if '????' in str(rows) else '0B'}F{it[1]}", sent)) for ask, sent in asks]
            found = learned_of(asked(("3E00", "7E00"), *asks), "--varies")
            self.assertEqual((0, "", rows), (found.status, found.told, {it: reply for it, reply in rows_of(found).items() if it != "3E00"}), asks)
            self.assertEqual(0, judged("compare", found, asked(("3E00", "7E00"), *other))[0], found.text)
            bad = [(ask, sent.replace(*spoilt)) for ask, sent in asks]
            self.assertEqual((True, 8), (bad != asks, judged("compare", found, asked(("3E00", "7E00"), *bad))[0]), asks)
            plain = learned_of(asked(("3E00", "7E00"), *asks))
            self.assertEqual((0, "", False), (plain.status, plain.told, "??" in plain.text), asks)

    def test_results_that_vary(self) -> None:
        """Not the byte that says whether the routine runs, where that is the same."""
        start, runs = ("31010203", "71010203"), ("31030203", "7103020301")
        asks = [("1003", "5003003201F4"), start, runs, *[("31030203", f"7103020300{it}") for it in ("0B54", "0B55", "0B56")]]
        found = learned_of(asked(*asks), "--varies")
        self.assertEqual((0, "", {"31030203": ["7103020301", *["7103020300????"] * 3]}), (found.status, found.told, rows_of(found)))

    def test_seeds_that_vary(self) -> None:
        """Also where no key came for them, in more than one level, and of levels that no setup has."""
        seeds = [("1003", "5003003201F4"), ("2703", "67030102"), ("2703", "67030104"), ("2705", "6705010203"), ("2706AA", "6706"), ("1003", "5003003201F4"), ("2705", "6705010204")]
        others = [("2761", "67610102"), ("2762AABB", "6762"), ("2761", "67610109"), ("2762FFFF", "7F2735"), ("2762AACC", "6762")]
        found = learned_of(asked(*seeds, *others), "--varies")
        self.assertEqual((0, ""), (found.status, found.told))
        self.assertEqual([(3, True, True), (5, True, True)], [(it["sub"], it["varies"], it["any_key"]) for it in found.tree()["level"]])
        self.assertEqual({"2761": ["6761????"], "2762FFFF": ["7F2735"], "2762*": ["6762"]}, rows_of(found))
        other = [(ask.replace("62AA", "62A1"), sent.replace("01", "7A") if ask in ("2703", "2705", "2761") else sent) for ask, sent in (*seeds, *others)]
        self.assertEqual(0, judged("compare", found, asked(*other))[0])
        plain = rows_of(learned_of(asked(*seeds, *others)))
        self.assertEqual(([["6762"]] * 2, None), ([plain.get(it) for it in ("2762AABB", "2762AACC")], plain.get("2762*")))

    def test_the_small_unit_where_values_vary(self) -> None:
        for seed in RUNS[:: 8]:
            with self.subTest(seed=seed):
                found = learned_of(recording(seed), "--varies")
                told = re.sub("learn: the values of .*\n", "", self.doubtful(found))
                self.assertEqual((0, ""), (found.status, told))

    def test_one_row_for_a_family(self) -> None:
        """Of requests that differ in their data alone; one that is answered otherwise has its own."""
        session = ("1003", "5003003201F4")
        for asks, rows in (
            ([("3101FF0044000100", "7101FF0010"), ("3101FF00440002", "7101FF0010")], {"3101FF00*": ["7101FF0010"]}),
            ([("3101FF00440001", "7101FF0010"), ("3101FF00440002", "7F3131"), ("3101FF004403", "7101FF0010")], {"3101FF00440002": ["7F3131"], "3101FF00*": ["7101FF0010"]}),
            ([("3101FF0044", "7101FF0010"), ("3101FF0045", "7101FF0011")], {"3101FF0044": ["7101FF0010"], "3101FF0045": ["7101FF0011"]}),
            ([("3101FF00440001", "7101FF0010")], {"3101FF00440001": ["7101FF0010"]}),
            ([("3101FF0044", "7101FF0010"), ("3101FF0045", "7101FF0010"), ("3101FF004501", "7F3113")], {"3101FF004501": ["7F3113"], "3101FF00*": ["7101FF0010"]}),
            ([("3101FF00440001", "7101FF00"), ("3101FF00440002", "7101FF00"), ("3101FF01", "7101FF01")], {"3101FF00*": ["7101FF00"]}),
            ([*((f"3101FF00{it}", "7101FF00AA") for it in ("44", "45")), *((f"3101FF00{it}", "7F3113") for it in ("4400", "4500"))], {f"3101FF00{it}": ["7101FF00AA"] for it in ("44", "45")}),
            ([("3601AABBCC", "7601"), ("3602AABBDD", "7602"), ("3603AABB", "7603")], {"36..*": ["76$1"]}),
            ([("2F01000301AA", "6F010003"), ("2F01000302", "6F010003"), ("2F01010301", "6F010103")], {"2F010003*": ["6F010003"], "2F01010301": ["6F010103"]}),
            ([("2F01000301", "6F01000301"), ("2F01000302", "6F01000302")], {"2F010003..": ["6F010003$4"]}),
            ([("240100", "6401000111"), ("240101", "6401010111"), ("240102", "7F2431"), ("240203", "7F2431")], {"240100": ["6401000111"], "240101": ["6401010111"], "24....": ["7F2431"]}),
        ):
            found = learned_of(asked(session, *asks))
            self.assertEqual((0, "", rows), (found.status, found.told, rows_of(found)), asks)

    def test_places_of_what_changes(self) -> None:
        def template(*pairs: tuple[str, str]) -> str:
            changes = Changes()
            for it in pairs:
                changes.take(exchange(0, *it))
            return changes.template(*map(bytes.fromhex, pairs[0]))

        self.assertEqual("410C????0D??", template(("010C0D", "410C0B540D10"), ("010C0D", "410C0B550D11")))
        self.assertEqual("410C0B0C??0C10", template(("010C0C", "410C0B0C540C10"), ("010C0C", "410C0B0C550C10")), "a PID may stand in several places")
        self.assertEqual("410C0B540D??", template(("010C0D", "410C0B540D10"), ("010C0D", "410C0B540D11")))
        self.assertEqual("4103??????", template(("0103", "4103010203"), ("0103", "41030102")), "another length")
        self.assertEqual("7103020301", template(("31030203", "7103020301"), ("31030203", "710302030001")), "another length says something else")
        self.assertEqual("67010000", template(("2701", "67010000"), ("2701", "67010102")), "a level that is unlocked")
        self.assertEqual("5003003201F4", template(("1003", "5003003201F4"), ("1003", "5003001901F4")))
        self.assertEqual("6702AA", template(("2702", "6702AA"), ("2702", "6702AB")))
        self.assertEqual("7F2231", template(("220101", "7F2231"), ("220101", "7F2233")))

    def test_values_of_one_answer(self) -> None:
        """Where the identifier behind it may stand in several places the lengths aren't known."""
        def values(request: str, sent: str) -> list[tuple[int, str]]:
            unit = Unit([], None, learn_bus.Sending(), dids={0xF190: Did(b"AB", b"AB", Seen())})
            return [(number, value.hex().upper()) for number, value in values_in(unit, exchange(0, request, sent))]

        self.assertEqual([(0xF40C, "01"), (0xF40D, "0203")], values("22F40CF40D", "62F40C01F40D0203"))
        self.assertEqual([(0xF40C, "F4"), (0xF190, "0102"), (0xF40D, "05")], values("22F40CF190F40D", "62F40CF4F1900102F40D05"))
        self.assertEqual([(0xF40C, "01"), (0xF40C, "01")], values("22F40CF40C", "62F40C01F40C01"))
        self.assertEqual([(0xF40C, "0102")], values("22F40CF40D", "62F40C0102"))
        # (F190 had two bytes)
        self.assertEqual([(0xF190, "01")], values("22F190", "62F19001"))
        self.assertEqual([(0xF190, "010203"), (0xF40C, "04")], values("22F190F40C", "62F190010203F40C04"))
        for request, sent in (("22F40CF40D", "62F40C01F40D02F40D03"), ("22F40CF40D", "62F40DF40C"), ("22F40CF40D", "62F40CF40D"), ("22F40C", "62F40C"), ("22F4", "62F4"), ("22F40C", "7F2231")):
            self.assertEqual([], values(request, sent), sent)

    def test_a_value_that_changes_too_often(self) -> None:
        """It has no row where there are more reads than templates."""
        if OPTIONS[1:] != [learn.PROGRAM]:
            return
        chance = random.Random(1)
        reads = [(20 * at + back, it) for at in range(4097) for back, it in ((0, "7E0#0322F40C"), (3, f"7E8#0562F40C{chance.randrange(65536):04X}"))]
        most, more = learned_of(frames(*reads[:-2])), learned_of(frames(*reads))
        self.assertEqual((0, 4096), (most.status, len(rows_of(most)["22F40C"])))
        self.assertEqual((8, {}, 1), (more.status, rows_of(more), len(more.tree()["did"])))
        self.assertIn("learn: with --varies the values that change aren't compared\n", more.told)
        varies = learned_of(frames(*reads), "--varies")
        self.assertEqual((0, {}), (varies.status, rows_of(varies)))

    def test_a_slow_answer(self) -> None:
        found = learned_of(frames((0, "7E0#0414FFFFFF"), (40, "7E8#037F1478"), (700, "7E8#0154")))
        self.assertEqual([{"request": "14FFFFFF", "after_ms": 700}], found.tree()["answer"])
        self.assertEqual(0, found.status)

    def test_an_answer_that_never_came_behind_response_pending(self) -> None:
        """It is learned as response pending alone, which is told."""
        present, start, begun = ("3E00", "7E00"), ("31010203", "7F3178"), ("31010203", "71010203")
        for asks, row in (
            ([start], {"request": "31010203", "reply": ["7F3178"]}),
            ([("31810203", "7F3178")], {"request": "31810203", "reply": ["7F3178"]}),
            ([start, begun], {"request": "31010203", "reply": ["7F3178", "71010203"]}),
            ([("31010203", "7F3178", "71010203"), ("31010203", "7F3178", "7F3178")], {"request": "31010203", "reply": ["71010203", "7F3178"], "after_ms": 64}),
            ([("31010203",), start], {"request": "31010203", "reply": ["", "7F3178"]}),
            ([begun, ("1003", "5003003201F4"), start], {"request": "31010203", "reply": ["7F3178"], "session": 3}),
            ([("3101FF00" + "22" * 62, "7F3178")], {"request": "3101FF00" + "22" * 60 + "*", "reply": ["7F3178"]}),
            ([*((f"36{at:02X}5566", f"76{at:02X}") for at in (1, 2, 4, 5)), ("36065566", "7F3678")], {"request": "36065566", "reply": ["7F3678"]}),
        ):
            lines = asked(present, *asks, *[present] * 6)
            found = learned_of(lines)
            self.assertEqual(0, found.status, asks)
            self.assertRegex(found.told, r"^learn: line \d+: tester_7E0 was sent response pending to .*, and nothing behind it: it is learned so\n$")
            self.assertIn(row, found.tree()["answer"], asks)
            self.assertEqual(0, judged("compare", found, lines)[0], asks)
        found = learned_of(asked(start, present, ("14FFFFFF", "7F1478"), *[present] * 6))
        self.assertEqual("learn: 2 requests had response pending and nothing behind it, the first at line 1: they are learned so\n", found.told)
        self.assertIn("# RoutineControl startRoutine, response pending and no answer: seen once, first at line 1\n", found.text)

    def test_a_request_that_is_silent_in_one_session(self) -> None:
        """It has a row for each session, and no two with one pattern of which the second never applies."""
        silent, loud, session, default = ("280301",), ("280301", "6803"), ("1003", "5003003201F4"), ("1001", "5001003201F4")
        found = learned_of(asked(("3E00", "7E00"), silent, session, loud, default, silent, session, loud, default, silent))
        rows = [{"request": "280301", "reply": [""], "session": 1}, {"request": "280301", "reply": ["6803"], "session": 3}]
        self.assertEqual((0, "", rows), (found.status, found.told, found.tree()["answer"]))

    def test_a_download_with_refused_blocks(self) -> None:
        """The refused ones have rows of their own, also one that was sent again; one row takes all others."""
        blocks = {at: f"36{at:02X}{at * 0x1234567 % 0xFFFFFFFB:08X}" + "5A" * (at % 3) for at in range(1, 20)}
        taken = {at: (it, f"76{at:02X}") for at, it in blocks.items()}
        for refused, again in (((7,), ()), ((), (7,)), ((3, 12), (7, 13))):
            asks = [(blocks[at], "7F3672") for at in refused]
            for at, it in taken.items():
                asks += [] if at in refused else [(it[0], "7F3672"), it] if at in again else [it]
            found = learned_of(asked(*asks))
            rows = {**{blocks[at]: ["7F3672"] for at in refused}, **{blocks[at]: ["7F3672", f"76{at:02X}"] for at in again}, "36..*": ["76$1"]}
            self.assertEqual((0, "", rows), (found.status, found.told, rows_of(found)))

    def test_a_special_row_stands_before_a_general_one(self) -> None:
        """Also where the general one is of one session; a long request's row has `*` at its end."""
        session, last = ("1003", "5003003201F4"), "3605" + "AA" * 64
        lines = asked(("3601", "7F3611"), ("360202", "7F3611"), session, ("3603", "7F367F"), ("360404", "7F367F"), (last, "7605"))
        found = learned_of(lines)
        self.assertEqual((0, "", [last[:128] + "*", "36*", "36*"]), (found.status, found.told, [it["request"] for it in found.tree()["answer"]]))
        self.assertEqual(0, judged("compare", found, lines)[0])

    def test_a_flash_session(self) -> None:
        """Blocks that were refused before the download have rows, by the session or of their own; one row takes all others."""
        chance = random.Random(1)

        def blocks(count: int, answer: str) -> list[tuple[str, str]]:
            return [(f"36{at:02X}{chance.randbytes(100).hex().upper()}", answer.replace("$1", f"{at:02X}")) for at in range(1, count + 1)]

        refused, taken = blocks(2, "7F3624"), blocks(9, "76$1")
        found = learned_of(asked(*blocks(2, "7F367F"), ("1002", "5002003201F4"), *refused, ("3400011020", "742080"), *taken, ("37", "77")))
        rows = [(it["request"], it["reply"], it.get("session")) for it in found.tree()["answer"] if it["request"].startswith("36")]
        own = [(f"{it[:128]}*", ["7F3624"], None) for it, _ in sorted(refused)]
        self.assertEqual((0, "", [*own, ("36..*", ["76$1"], 2), ("36*", ["7F367F"], 1)]), (found.status, found.told, rows))

    def test_long_requests_that_begin_alike(self) -> None:
        """They have one row, since a pattern ends before they differ."""
        begin = "3601" + "AA" * 62
        for ends, wanted in ((("01", "02"), {begin + "*": ["7601", "7F3672"]}), (("", "02"), {begin: ["7601"], begin + "*": ["7F3672"]})):
            found = learned_of(asked((begin + ends[0], "7601"), (begin + ends[1], "7F3672")))
            self.assertEqual((0, "", wanted), (found.status, found.told, rows_of(found)))

    def test_a_session_that_was_refused_at_first(self) -> None:
        """It begins where it was refused, too, unless something was asked there that a session answers otherwise; sessions of rows
        are those that the setup leads to."""
        entry, slow, reset = ("1002", "5002003201F4"), ("22F190", "7F2278", "62F19001"), ("1101", "5101")
        told = "learn: 1002 is answered as recorded, but begins no session: what wasn't recorded there is answered as in the default one\n"
        for between, enter, late, wanted in ((("3E00", "7E00"), {"enter": 2}, {"session": 2}, ""), (("2701", "7F277F"), {}, {}, told)):
            lines = asked(("1002", "7F1022"), between, entry, slow, reset, ("22F190", "62F19001"))
            found = learned_of(lines)
            rows = [{"request": "1002", "reply": ["7F1022", "5002003201F4"], **enter}, {"request": "22F190", **late, "after_ms": 64}]
            self.assertEqual((0, wanted, rows), (found.status, found.told, found.tree()["answer"]))
            self.assertIn("7E8#037F2278", judged("bus", found, lines)[1])
        session, seed, key = ("1003", "5003003201F4"), ("2701", "670101020304"), ("270205060708", "6702")
        found = learned_of(asked(("1003", "7F1022"), session, seed, key, ("2EF19041", "6EF190")))
        self.assertEqual((0, "", {"1003": ["7F1022", "5003003201F4"]}), (found.status, found.told, rows_of(found)))
        self.assertIn("enter = 0x03  # also where it refuses\n", found.text)

    def test_what_changes_the_session_is_explained_first(self) -> None:
        """What differs for that alone has no row: SecurityAccess in a session that a row enters, a value behind a refused write."""
        found = learned_of(asked(("1002", "5002003201F4"), ("2711", "671101020304"), ("271211223344", "6712"), ("3101FF00", "7101FF00"), ("3E00", "7E00")))
        self.assertEqual((0, "", {"1002": ["5002003201F4"]}), (found.status, found.told, rows_of(found)))
        self.assertEqual(([0x11], [0xFF00]), ([it["sub"] for it in found.tree()["level"]], [it["id"] for it in found.tree()["routine"]]))
        read = ("220100", "62010001")
        found = learned_of(asked(("1003", "5003003201F4"), ("2E010001", "6E0100"), read, ("2E0100FF", "7F2E31"), read))
        self.assertEqual((0, "", {"2E0100FF": ["7F2E31"]}), (found.status, found.told, rows_of(found)))

    def test_an_answer_that_by_rows_is_one_to_another_request(self) -> None:
        """Rows are made anew for what it answers then."""
        asks = ["1083", "1003", "0100", "34001122", "107F", "2703", "2F010003", "22F190F191", "1003"]
        moments = [2, 72, 9080, 15200, 15271, 25284, 27184, 30186, 31087]
        lines = [(at, f"7E0#{len(it) // 2:02X}{it}") for at, it in zip(moments, asks)]
        lines[2:2] = [(3072, "7DF#021083"), (3075, "7E8#037F1036")]
        found = learned_of(frames(*lines), "--pair", "7E0:7E8", "--pair", "7E1:7E9")
        self.assertEqual(0, found.status, found.told)

    def test_a_routine_that_is_started_without_a_reply(self) -> None:
        """It begins, be it known or not."""
        session, start, silent, runs, done = ("1003", "5003003201F4"), ("31010204", "71010204"), ("31810204",), ("31030204", "7103020401"), ("31030204", "7103020400AB")
        for asks in ([start, runs, done, silent, runs, done], [silent, runs, done], [silent, runs, ("31820204",), ("31030204", "7F3124"), start, runs, done]):
            found = learned_of(asked(session, *asks))
            self.assertEqual((0, "", {}), (found.status, found.told, rows_of(found)), asks)
            self.assertEqual([(0x0204, 1500, "AB")], [(it["id"], it["time_ms"], it["result"]) for it in found.tree()["routine"]], asks)

    def test_times_that_the_default_session_tells(self) -> None:
        """They count where the unit never told those of 10 03."""
        for asks, times in (
            ([("1001", "5001001901F4")], (25, 500)), ([("1001", "5001001901F4"), ("1001", "500100320064")], (25, 500)),
            ([("1001", "5001001901F4"), ("1003", "500300320064")], (50, 100)), ([("1003", "500300320064"), ("1001", "5001001901F4")], (50, 100)),
            ([("1002", "5002001901F4"), ("1001", "5001")], (50, 500)),
        ):
            found = learned_of(asked(*asks))
            self.assertEqual((0, times), (found.status, (found.tree()["p2_ms"], found.tree()["p2_star_10ms"])), asks)

    def test_classic_answers_to_can_fd(self) -> None:
        """FirstFrames of 8 bytes are such, too."""
        lines = frames((0, "7E0##10322F190"), (3, "7E8#100862F190414141"), (4, "7E0##1300000"), (5, "7E8#214141"), (50, "7E0##1023E00"), (53, "7E8#027E00"), (90, "123#00"))
        found = learned_of(lines)
        self.assertEqual((0, 8, 1), (found.status, found.tree()["tx_dl"], found.tree()["fd_flags"]))
        self.assertEqual((0, "tester_7E0 3 frames agree\n"), judged("verify", found, lines)[:2])

    def test_flow_control_wait_is_told(self) -> None:
        """The unit's is a comment, for no setup has it; a tester's is served, however long it waits."""
        session = [(0, "7E0#021003"), (3, "7E8#065003003201F4")]
        write = [(9, "7E0#10082EF190414141"), (10, "7E8#310000"), (50, "7E8#300805"), (60, "7E0#214141"), (63, "7E8#036EF190")]
        read = [(90, "7E0#0322F190"), (93, "7E8#100862F190414141"), (94, "7E0#310000"), (1594, "7E0#300000"), (1595, "7E8#214141"), (1600, "123#00")]
        found = learned_of(frames(*session, *write))
        self.assertEqual((0, "", 8, 5), (found.status, found.told, found.tree()["block_size"], found.tree()["st_min"]))
        self.assertIn("\n# FlowControl wait: seen once, first at 100.010; the server sends none\nblock_size = 8\n", found.text)
        lines = frames(*session, *read)
        found = learned_of(lines)
        self.assertEqual((0, "", 2000), (found.status, found.told, found.tree()["n_bs_ms"]))
        self.assertNotIn("FlowControl wait", found.text)
        self.assertEqual((0, "tester_7E0 3 frames agree\n"), judged("verify", found, lines)[:2])

    def test_flow_control_that_changes_is_told(self) -> None:
        """What was seen most often counts."""
        write = lambda at, flow: [(at, "7E0#10082EF190414141"), (at + 3, f"7E8#30{flow}"), (at + 9, "7E0#214141"), (at + 12, "7E8#036EF190")]
        found = learned_of(frames(*write(0, "0005"), *write(100, "0814"), *write(200, "0814"), (300, "123#00")))
        self.assertEqual((0, "", 8, 20), (found.status, found.told, found.tree()["block_size"], found.tree()["st_min"]))
        self.assertIn("\n# block size and STmin of the unit changed: 8 and 0x14 2 times, 0 and 0x05 once; the first are taken\nblock_size = 8\n", found.text)
        self.assertNotIn("changed", learned_of(frames(*write(0, "0814"), *write(100, "0814"), (200, "123#00"))).text)

    def test_an_answer_that_is_slow_in_one_session(self) -> None:
        """In the others it is as prompt as it was."""
        clear, slow, session = ("14FFFFFF", "7F1431"), ("14FFFFFF", "7F1478", "54"), ("1003", "5003003201F4")
        late = {"request": "14FFFFFF", "after_ms": 64}
        for asks, wanted in (
            ([slow, session, slow], [late]), ([session, slow, ("1001", "5001003201F4"), slow], [late]),
            ([session, slow], [late]), ([slow, ("14FFFFFF", "54")], [late]), ([("14FFFFFF", "54"), session, slow], [{**late, "session": 3}]),
            ([slow, session, ("14FFFFFF", "54")], [{**late, "session": 1}]),
            ([session, slow, ("1001", "5001003201F4"), clear], [{"request": "14FFFFFF", "reply": ["7F1431"], "session": 1}, late]),
        ):
            lines = asked(*asks)
            found = learned_of(lines)
            self.assertEqual((0, "", wanted), (found.status, found.told, found.tree()["answer"]), asks)
            self.assertEqual(0, judged("verify", found, lines)[0], asks)

    def test_slow_answers_of_one_row(self) -> None:
        """It says how slow they are, so there is no other row for them."""
        found = learned_of(asked(("280301", "7F2878", "6803"), ("280001", "7F2878", "6800")))
        self.assertEqual((0, [{"request": "28..01", "reply": ["68$1"], "after_ms": 64}]), (found.status, found.tree()["answer"]))

    def test_a_row_with_a_few_slow_answers(self) -> None:
        """It delays none, so a download is as quick as it was; unless a session lived on by one."""
        blocks = [(f"36{at:02X}" + f"{at * 7:02X}" * (9 + at % 2), f"76{at:02X}") for at in range(1, 8)]
        prompt, lines = [{"request": "36..*", "reply": ["76$1"]}], asked(*blocks[:4], (blocks[4][0], "7F3678", blocks[4][1]), *blocks[5:])
        found = learned_of(lines)
        self.assertEqual((0, "", prompt), (found.status, found.told, found.tree()["answer"]))
        self.assertEqual(0, judged("verify", found, lines)[0])
        steps = [(at * 20 + late, it) for at in range(1, 9) for late, it in ((0, f"7E0#0336{at:02X}{at * 7:02X}"), (3, f"7E8#0276{at:02X}"))]
        slow = [(1000, "7E0#043609AABB"), (1050, "7E8#037F3678"), (5500, "7E8#027609"), (9500, "7E0#043101AABB"), (9503, "7E8#047101AABB"), (9999, "123#00")]
        found = learned_of(frames((0, "7E0#021003"), (5, "7E8#065003003201F4"), *steps, *slow))
        self.assertEqual((0, "", [{**prompt[0], "after_ms": 4500}]), (found.status, found.told, found.tree()["answer"]))

    def test_an_obd_unit(self) -> None:
        asks = [(0, "7DF#020100"), (9, "7E8#064100BE3EB811"), (20, "7DF#02010C"), (29, "7E8#04410C1AF8"), (40, "7DF#02010C"), (49, "7E8#04410C1B10")]
        found = learned_of(frames(*asks))
        self.assertEqual((0, {"0100": ["4100BE3EB811"], "010C": ["410C1AF8", "410C1B10"]}), (found.status, rows_of(found)))

    def test_the_programming_session(self) -> None:
        found = learned_of(frames((0, "7E0#021002"), (5, "7E8#065002003201F4"), (50, "7E0#0122F1"), (60, "7E0#028502"), (65, "7E8#02C502")))
        self.assertEqual((0, 2), (found.status, found.tree()["answer"][0]["enter"]))

    def test_what_nobody_asked_is_told(self) -> None:
        found = learned_of(frames((0, "7E0#023E00"), (5, "7E8#027E00"), (9, "7E8#025003")))
        self.assertEqual((8, "learn: line 3: tester_7E0 was sent 5003 which nobody asked for\n"), (found.status, found.told))

    def test_requests_that_have_no_answer_are_told(self) -> None:
        ask, one = [(0, "7E0#0322F190"), (2000, "7E0#0322F190")], "the unit didn't answer the only request"
        late = "learn: line 1: the recording ends 5 ms behind 22F190 of A, before an answer: it is learned as unanswered\n"
        for steps, why, more in (
            ([*ask, (9000, "123#00")], "the unit answered none of the 2 requests", ""), ([*ask[:1], (9000, "123#00")], one, ""),
            ([*ask[:1], (5, "123#00")], one, late), ([(0, "123#00")], "no exchange of these testers is in the recording", ""),
        ):
            status, told = self.told(frames(*steps), "--pair", "7E0:7E8=A")
            self.assertEqual((9, f"learn: nothing was compared: {why}\n{more}"), (status, re.sub("learn: uds_play: note: .*\n", "", told)), steps)

    def test_ctrl_c(self) -> None:
        """It ends quietly."""
        with tempfile.TemporaryDirectory() as room:
            os.mkfifo(f"{room}/pipe")
            # (a test that runs in the background has Ctrl-C ignored, and so would the tool)
            words = [sys.executable, learn.__file__, *OPTIONS, f"{room}/pipe"]
            with subprocess.Popen(words, stdout=subprocess.PIPE, stderr=subprocess.PIPE, preexec_fn=heard) as child:
                # (it is there by now, for it reads)
                with open(f"{room}/pipe", "wb"):
                    child.send_signal(signal.SIGINT)
                    self.assertEqual((b"", b"", 130), (*child.communicate(timeout=60), child.returncode))

    def test_a_pair_the_other_way_round_is_told(self) -> None:
        lines = frames((0, "7E0#023E00"), (5, "7E8#027E00"))
        told = "learn: --pair 7E8:7E0: the recording asks by 7E0 and answers by 7E8; are they exchanged?\n"
        self.assertTrue(learned_of(lines, "--pair", "7E8:7E0").told.startswith(told))
        self.assertEqual((0, ""), (learned_of(lines, "--pair", "7E0:7E8").status, learned_of(lines, "--pair", "7E0:7E8").told))

    def test_a_value_that_depends_on_a_write_elsewhere(self) -> None:
        """It comes and goes as another identifier is written: more often than a row has templates."""
        if OPTIONS[1:] != [learn.PROGRAM]:
            return
        chance, steps, flag = random.Random(1), [], 0
        for at in range(2, 4202):
            if chance.random() < 0.5:
                flag = 1 - flag
                steps += [(20 * at, f"7E0#042E0100{flag:02X}"), (20 * at + 3, "7E8#036E0100")]
            steps += [(20 * at + 6, "7E0#03220200"), (20 * at + 9, f"7E8#04620200{flag:02X}")]
        found = learned_of(frames((0, "7E0#021003"), (5, "7E8#065003003201F4"), *steps))
        self.assertEqual(8, found.status)
        self.assertRegex(found.told, "learn: line [0-9]+: tester_7E0 was sent 6202000[01] to 220200, expected 6202000[01]\n")
        self.assertEqual({0x0100, 0x0200}, {it["id"] for it in found.tree()["did"]})

    def test_a_session_that_a_setup_can_not_have(self) -> None:
        """What depends on it has its answers in turn."""
        for request, entry, sent in (("7E0", "0210FF", None), ("7DF", "0210FF", None), ("7E0", "02107F", "06507F003201F4")):
            steps = [(0, "7E0#0228FF"), (3, "7E8#037F2811"), (50, f"{request}#{entry}"), *([(53, f"7E8#{sent}")] if sent else [])]
            steps += [(100, "7E0#0228FF"), (103, "7E8#037F2812"), (200, "7E0#0228FF"), (203, "7E8#037F2812")]
            found = learned_of(frames(*steps), "--pair", "7E0:7E8")
            told = "learn: 107F is answered as recorded, but begins no session: what wasn't recorded there is answered as in the default one\n" if sent else ""
            self.assertEqual((0, told, ["7F2811", "7F2812", "7F2812"]), (found.status, found.told, rows_of(found)["28FF"]), (request, entry))

    def test_pairs_of_29_bits(self) -> None:
        lines = frames((0, "18DA10F1#023E00"), (5, "18DAF110#027E00"), (9, "18DBFFF1#023E80"), (20, "7E0#023E00"), (25, "7E8#027E00"))
        wide = {"name": "shop", "extended": True, "request": 0x18DA10F1, "response": 0x18DAF110, "functional": 0x18DBFFF1}
        narrow = {"name": "tester_7E0", "request": 0x7E0, "response": 0x7E8}
        given = learned_of(lines, "--pair", "18DA10F1:18DAF110=shop")
        self.assertEqual((0, [wide]), (given.status, given.tree()["tester"]))
        found = learned_of(lines)
        self.assertEqual((0, [narrow, {**wide, "name": "tester_18DA10F1"}]), (found.status, found.tree()["tester"]))

    def test_an_obd_unit_of_29_bits(self) -> None:
        asks = [(0, "18DB33F1#020100"), (9, "18DAF110#064100BE3EB811"), (20, "18DB33F1#02010C"), (29, "18DAF110#04410C1AF8")]
        found = learned_of(frames(*asks))
        self.assertEqual((0, {"0100": ["4100BE3EB811"], "010C": ["410C1AF8"]}), (found.status, rows_of(found)))
        tester = {"name": "tester_18DA10F1", "extended": True, "request": 0x18DA10F1, "response": 0x18DAF110}
        self.assertEqual([tester], found.tree()["tester"])

    def test_faults(self) -> None:
        self.assertEqual((3, "learn: uds_play: capture line 3: bad line\n"), self.fault(frames((0, "7E0#023E00"), (5, "7E8#027E00")) + "x\n"))
        for line in ("(1,5) can0 7E0#023E00", "(1.500000) can0 7E0#032", "(1.000000) can0 zz#023E00", "can0  7E0   [2]  3E 00", "\0\xff", "7E0#023E00"):
            self.assertEqual((3, "learn: uds_play: capture line 1: bad line\n"), self.fault(f"{line}\n"), line)
        self.assertIn("learn: uds_play: note: it is what candump shows on the screen", self.told("can0  7E0   [2]  3E 00\n")[1])
        self.assertEqual(9, self.told("")[0])
        self.assertEqual(7, learned("/none").status)

    def test_words(self) -> None:
        status, told = self.told("", "--pair", "7E0:7E8=a b")
        self.assertEqual((1, True), (status, "it is REQUEST:RESPONSE[:FUNCTIONAL][:fd][=NAME], " in told and "a name of 1 to 16 ASCII letters, digits or _" in told))
        status, told = self.told("", "--pair", "7E0:7E8=a", "--pair", "7E0:7E9=b")
        self.assertEqual((2, True), (status, "note: the setup learned: line " in told and "request of [[tester]] 2 is 0x7E0" in told), told)
        found = learned_of("", "--pair", "7E0:7E8=a", "--pair", "7E0:7E9=b")
        last = "learn: the program doesn't take the setup learned; it is printed all the same\n"
        self.assertEqual((["a", "b"], True), ([it["name"] for it in found.tree()["tester"]], found.told.endswith(last)), found.told)
        self.assertNotIn("comes first", learned(f"{TOP}/demo/setup.toml").told)
        for words, wanted in (
            (["--functional", "zz"], "zz is no identifier"),
            (["--functional", "20000000"], "20000000 is no identifier"),
            (["--other"], "unrecognized arguments: --other"),
        ):
            err = io.StringIO()
            with redirect_stderr(err), self.assertRaises(SystemExit) as ended:
                learn.main([*words, "none"])
            self.assertEqual((1, True), (ended.exception.code, wanted in err.getvalue()), err.getvalue())

    def test_more_pairs_than_a_setup_has(self) -> None:
        pairs = [(f"{0x700 + at:03X}", f"{0x780 + at:03X}") for at in range(9)]
        told = self.told(frames(*((at * 1000 + back, it) for at, (own, other) in enumerate(pairs * 2) for back, it in ((0, f"{own}#023E00"), (3, f"{other}#027E00")))))[1]
        taken = ", ".join(f"{own}:{other}" for own, other in pairs[:8])
        self.assertIn("learn: the pair 708:788 is one too many: a setup has 8 testers\n", told)
        self.assertIn(f"learn: 8 pairs are taken as testers of one unit: {taken}; --pair takes one of them\n", told)

    def test_a_functional_identifier_that_no_tester_can_have(self) -> None:
        narrow, wide = frames((0, "7E0#023E00"), (3, "7E8#027E00")), frames((0, "18DA10F1#023E00"), (3, "18DAF110#027E00"))
        for identifier, bits, lines in (("800", 29, narrow), ("18DB33F1", 29, narrow), ("700", 11, wide)):
            told = f"learn: --functional {identifier} has no effect: no tester here has identifiers of {bits} bits\n"
            self.assertEqual((0, told), self.told(lines, "--functional", identifier))
        for identifier, lines in (("700", narrow), ("18DBFFF1", wide), ("700", narrow + wide), ("18DBFFF1", narrow + wide)):
            self.assertNotIn("functional", self.told(lines, "--functional", identifier)[1])

    def test_a_pair_that_is_given_as_one_of_can_fd(self) -> None:
        told = "learn: the pair 7E0:7E8 is given as one of CAN FD, and no such frame of it is in the recording\n"
        for mark, wanted in (("#", told), ("##1", "")):
            found = learned_of(frames((0, f"7E0{mark}023E00"), (3, f"7E8{mark}027E00")), "--pair", "7E0:7E8:fd")
            self.assertEqual((0, wanted, True), (found.status, found.told, found.tree()["tester"][0]["fd"]))

    def test_closed_streams(self) -> None:
        words = [sys.executable, learn.__file__, *OPTIONS]
        for number, path, want in ((0, "-", b"standard input is closed"), (1, f"{TOP}/demo/bus.log", b"cannot write: standard output is closed")):
            ran = run_without(number, [*words, "--pair", "7E0:7E8", path])
            self.assertEqual((7, b"learn: " + want + b"\n"), (ran.returncode, ran.stderr))
        # (what is told doesn't get into the setup)
        ran = run_without(2, [*words, f"{TOP}/demo/bus.log"])
        self.assertEqual((0, learned(f"{TOP}/demo/bus.log").text), (ran.returncode, ran.stdout.decode()))

    def test_a_pipe(self) -> None:
        """It can be read once, be it standard input or one with a name."""
        words, path = f"{sys.executable} {learn.__file__} {' '.join(OPTIONS)} --pair 7E0:7E8", f"{TOP}/demo/bus.log"
        wanted = learned("--pair", "7E0:7E8", path).text.partition("\n")[2]
        with tempfile.TemporaryDirectory() as room:
            pipe = f"{room}/pipe"
            for command in (f"cat {path} | {words} -", f"cat {path} | {words} /dev/stdin", f"mkfifo {pipe}; cat {path} > {pipe} & {words} {pipe}"):
                ran = subprocess.run(["sh", "-c", command], capture_output=True, text=True, timeout=60)
                self.assertEqual((0, wanted, ""), (ran.returncode, ran.stdout.partition("\n")[2], ran.stderr), command)

    def test_a_setup_is_utf_8_whatever_the_locale_is(self) -> None:
        with tempfile.TemporaryDirectory() as room:
            path = put(f"{room}/B\u00fcs.log", frames((0, "7E0#023E00"), (3, "7E8#027E00")))
            for coding in ("latin-1", "ascii", "utf-8"):
                ran = subprocess.run([sys.executable, learn.__file__, *OPTIONS, path], capture_output=True, env={**os.environ, "PYTHONIOENCODING": coding})
                self.assertEqual((0, "# The unit of B\u00fcs.log, "), (ran.returncode, ran.stdout.decode()[:23]), coding)

    def test_a_full_device(self) -> None:
        ran = subprocess.run([sys.executable, learn.__file__, *OPTIONS, f"{TOP}/demo/bus.log"], stdout=open("/dev/full", "wb"), stderr=subprocess.PIPE)
        self.assertEqual((7, True), (ran.returncode, ran.stderr.endswith(b"learn: cannot write: No space left on device\n")), ran.stderr)

    @staticmethod
    def told(lines: str, *words: str) -> tuple[int, str]:
        found = learned_of(lines, *words)
        return found.status, found.told

    def fault(self, lines: str) -> tuple[int, str]:
        """The status, and what was told but for the program's notes."""
        status, told = self.told(lines)
        return status, re.sub("learn: uds_play: note: .*\n", "", told)


class OfOtherForms(unittest.TestCase):
    """A recording of another tool is learned as one of candump, where python-can is installed."""

    def test_asc_and_blf(self) -> None:
        sys.path.append(DEBIAN)
        try:
            import can  # pylint: disable=import-outside-toplevel
        except ImportError:
            print("learn: there is no python-can here: recordings of other tools aren't learned", flush=True)
            return
        names = [(None, "can0"), (1, "can1"), ("1", "can1"), ("vcan0", "vcan0"), ("PCAN USB 1", "PCANUSB1"), (" ", "can0")]
        told = [learn.line_of(can.Message(arbitration_id=0x7E0, data=b"\x01", is_extended_id=False, channel=it)) for it, _ in names]
        self.assertEqual([f"(0000000000.000000) {it} 7E0#01\n" for _, it in names], told)
        want = learned(f"{TOP}/demo/bus.log").tree()
        for form in ("asc", "blf", "csv"):
            with tempfile.TemporaryDirectory() as room:
                path = f"{room}/bus.{form}"
                with can.LogReader(f"{TOP}/demo/bus.log") as messages, can.Logger(path) as out:
                    for it in messages:
                        out(it)
                found = learned(path)
            self.assertEqual((0, want), (found.status, found.tree()), form)


    def test_what_is_not_of_its_form(self) -> None:
        """It is told, with the status of a file that can't be read."""
        line = b"(1763800000.100000) can0 7E0#023E00\n"
        for name, data, words in (
            ("cut.blf", b"", "python-can can't read it: "),
            ("none.trc", b"", "python-can can't read it: "),
            ("junk.asc", b"\x98\xff\n", "python-can can't read it: "),
            ("junk.csv", b"a\nb\n", "python-can can't read it: "),
            ("none.db", b"", "python-can can't read it: "),
            ("none.mf4", b"", "python-can can't read it: "),
            ("candump.asc", line, "by its first line it is a log of candump -L; "),
            ("candump.blf", line, "by its first line it is a log of candump -L; "),
        ):
            with self.subTest(name), tempfile.TemporaryDirectory() as room:
                with open(f"{room}/{name}", "wb") as it:
                    it.write(data)
                found = learned(f"{room}/{name}")
                self.assertEqual((7, ""), (found.status, found.text), found.told)
                self.assertTrue(found.told.startswith(f"learn: {room}/{name}: {words}") or "wants python-can" in found.told, found.told)

    def test_a_data_base_that_is_not_there_is_not_made(self) -> None:
        with tempfile.TemporaryDirectory() as room:
            found = learned(f"{room}/none.db")
            self.assertEqual((7, "", []), (found.status, found.text, os.listdir(room)))
            self.assertEqual(f"learn: {room}/none.db: No such file or directory\n", found.told)

    def test_a_recording_without_frames_is_told(self) -> None:
        with tempfile.TemporaryDirectory() as room:
            found = learned(put(f"{room}/none.csv", "timestamp,arbitration_id,extended,remote,error,dlc,data\n"))
        self.assertTrue(found.status == 9 and "python-can finds no frame in it\n" in found.told or "wants python-can" in found.told, found.told)


class OnABus(unittest.TestCase):
    """`live` with a learned setup answers the recorded testers as the recording has it, but for response pending."""

    def play(self, setup: str, lines: list[str]) -> None:
        """Sends the testers' frames of a recording at their moments, and looks for those of the unit."""
        begun, first = time.monotonic(), moment_of(lines[0].split()[0])
        with tempfile.TemporaryDirectory() as room, live.running(room, setup) as run:
            for stamp, _, frame, *_ in (it.split() for it in lines):
                identifier, _, data = frame.partition("#")
                if identifier in ("7E0", "7A0", "7E1", "7DF"):
                    time.sleep(max(0.0, begun + (moment_of(stamp) - first) / 1000 - time.monotonic()))
                    run.send(identifier, data)
                elif identifier in run.came and not says_pending(data):
                    self.assertEqual(data, self.next(run, identifier), stamp)
            self.assertEqual("", run.ends_well())

    @staticmethod
    def next(run: live.Run, identifier: str) -> str:
        """The next frame of the unit that isn't response pending."""
        return next(data for data in iter(lambda: run.next(identifier)[1], None) if not says_pending(data))

    def test_the_demo(self) -> None:
        found = learned("--pair", "7E0:7E8=workshop", "--pair", "7A0:7A8=end_of_line", f"{TOP}/demo/bus.log")
        with open(f"{TOP}/demo/bus.log", encoding="ascii") as it:
            self.play(found.text, it.readlines())

    def test_the_small_unit(self) -> None:
        lines = recording(ON_A_BUS, 5)
        self.play(learned_of(lines).text, lines.splitlines())


def moment_of(stamp: str) -> int:
    """The moment of a stamp in milliseconds."""
    seconds, _, parts = stamp[1:-1].partition(".")
    return int(seconds) * 1000 + int(parts[:3])


def says_pending(data: str) -> bool:
    return re.match("037F..78", data) is not None


class OfALongOne(unittest.TestCase):
    """A million lines are learned in seconds."""

    def test_a_million_lines(self) -> None:
        if OPTIONS[1:] != [learn.PROGRAM]:
            return
        with tempfile.TemporaryDirectory() as room:
            path, lines = f"{room}/long.log", recording(3).splitlines()
            with open(path, "w", encoding="ascii") as it:
                it.writelines(repeated(lines, LONG))
            begun = processor_time()
            found = learned(path)
            took = processor_time() - begun
        print(f"learn: {LONG} lines in {took:.1f} seconds of processor time", flush=True)
        self.assertEqual(([], True), (re.findall("learn: [^ln].*", found.told), took < MOST_SECONDS))


def processor_time() -> float:
    """What this process and its children took so far, in seconds, however busy the machine is."""
    used = os.times()
    return used.user + used.system + used.children_user + used.children_system


def repeated(lines: list[str], most: int) -> Iterator[str]:
    """The lines again and again, with traffic of others among them, each time behind the last one's end."""
    stamps = [int(it[1:18].replace(".", "")) for it in lines]
    rests, span = [it[19:] for it in lines], stamps[-1] - stamps[0] + 60_000_000
    for number in range(most // 4):
        us = stamps[number % len(lines)] + number // len(lines) * span
        stamp = f"({us // 1_000_000:010d}.{us % 1_000_000:06d})"
        yield f"{stamp} {rests[number % len(lines)]}\n"
        yield f"{stamp} can0 0C9#0021C07F0A00\n" * 3


def main() -> int:
    words = argparse.ArgumentParser(description=__doc__, formatter_class=argparse.RawDescriptionHelpFormatter)
    words.add_argument("--program", default=learn.PROGRAM)
    words.add_argument("runs", type=int, nargs="?", default=200)
    words.add_argument("first", type=int, nargs="?", default=1)
    given = words.parse_args()
    told = Tally("learn")
    told.needs_program(given.program)
    OPTIONS[:] = ["--program", given.program]
    globals()["RUNS"] = range(given.first, given.first + given.runs)
    ran = unittest.TextTestRunner(sys.stdout, verbosity=1).run(unittest.defaultTestLoader.loadTestsFromModule(sys.modules["__main__"]))
    told.failed = len(ran.failures) + len(ran.errors)
    told.passed = ran.testsRun - min(told.failed, ran.testsRun)
    return told.ended()


if __name__ == "__main__":
    sys.exit(main())
