#!/usr/bin/env python3
"""Runs `compare` of the built program over recordings that are made here, beside the slow reading of
test/uds_exchanges.py: the worked examples, units that answer well, that drop, repeat, delay, spoil or exchange their
answers, response pending, TesterPresent in between, messages that are cut off, traffic of others, several testers, classic or
by CAN FD; faults of a capture, pieces as they come, and a long recording. The recordings are the same each time. The last
line is 'N passed, M failed'.
Usage: test/compare.py [--reading] [--long LINES] [RUNS [FIRST]]
  --reading      the slow reading alone, on the worked examples: no `compare` of the program is run
  --long LINES   so many lines of the long recording (default 1000000)
  RUNS, FIRST    so many random recordings of each kind (default 60), the first with this seed (default 1)"""
import argparse
import heapq
import random
import re
import subprocess
import sys
import tempfile
from dataclasses import dataclass, field

from harness import PROGRAM, Tally
from bus import LONG, MOST_MEMORY, SETUP, THIRD, WRONG, Live, long_lines, peak_of, pieces, put, run, stamped, text_of
from uds_exchanges import compared, read, read_setup, written_of
from uds_link import LENGTHS

# the testers, and the identifiers that they and the unit send with
TESTERS = {"A": ("7E0", "7E8"), "B": ("7E1", "7E9"), "C": ("7E2", "7EA")}
# the same of 29 bits, by normal fixed addressing
WIDE_IDS = {"A": ("18DA10F1", "18DAF110"), "B": ("18DA20F1", "18DAF120"), "C": ("18DA30F1", "18DAF130")}
told = Tally("compare", most=1500)


def widened(setup: str, names: list[str]) -> str:
    """A setup in which these testers have identifiers of 29 bits."""
    for name in names:
        (request, response), (wide, own) = TESTERS[name], WIDE_IDS[name]
        old = f"request = 0x{request}\nresponse = 0x{response}\n"
        setup = setup.replace(old, f"request = 0x{wide}\nresponse = 0x{own}\nextended = true\n")
    return setup


# ---- the worked examples

PRESENT = '\n[[answer]]\nrequest = "3E80"\nreply = ["7E80"]\n'
VARIES = SETUP.replace("write_level = 1", "write_level = 1\nvaries = true").replace("sub = 1", "sub = 1\nvaries = true")
HIDDEN = '\n[[answer]]\nrequest = "23*"\nreply = ["63??11"]\n'
CODES = SETUP + "\n[[code]]\ncode = 0x012346\nstatus = 0x2F\n"
SEED_READ = 'ignore = ["22....", "2E*"]\n' + SETUP


@dataclass
class Example:
    """A worked example: the setup, the frames, each with its moment in microseconds, the lines of its exchanges, how many
    each tester has and how many of them differ, and the status."""

    name: str
    setup: str
    frames: list
    told: list[str]
    counts: list[tuple[int, int]] = field(default_factory=lambda: [(1, 0), (0, 0)])
    status: int = 0

    def lines(self) -> list[str]:
        return [it if isinstance(it, str) else stamped(100_000 + it[0] // 1000, it[1], it[0] % 1000) for it in self.frames]

    def text(self) -> str:
        ends = [f"{name} {many} exchanges, {bad} differ" for name, (many, bad) in zip("AB", self.counts)]
        last = ["nothing compared"] if self.status == 9 else []
        return "".join(f"{it}\n" for it in [*self.told, *ends, *last])


ORDER = [(0, "7E0#021003"), (400, "7E8#065003003201F4CC"), (10000, "7E1#021003"), (20000, "7E0#021001"), (30000, "7E1#021003")]
PENDING = [
    (0, "7E0#0322F190"), (2000, "7E8#037F2278"), (5000, "7DF#023E80"), (30000, "7E8#101462F190544553"),
    (31000, "7E0#300000"), (31500, "7E8#215456494E303132"), (32000, "7E8#2233343536373839"),
]
READ = "62F1905445535456494E30313233343536373839"
SLOW = [(0, "7E0#0322F190"), (1000, "7E8#101462F190544553"), (60_000_000, "7E8#215456494E303132"), (119_999_000, "7E8#2233343536373839")]
MANY = bytes(at % 251 for at in range(4096))
EXAMPLES = [
    Example("bus-order, where the unit answered A only once", SETUP, ORDER, [
        "1 0000000100.000000 A P 1003 5003003201F4 = 0 0",
        "3 0000000100.010000 B P 1003 - 7F1021 - 0",
        "4 0000000100.020000 A P 1001 - 5001003201F4 - 0",
        "5 0000000100.030000 B P 1003 - 5003003201F4 - 0",
    ], [(2, 1), (2, 2)], 8),
    Example("response pending, and TesterPresent while it is waited for", SETUP, PENDING, [
        f"1 0000000100.000000 A P 22F190 {READ} = 30 1",
        "3 0000000100.005000 A F 3E80 - = - 0",
        "3 0000000100.005000 B F 3E80 - = - 0",
    ], [(2, 0), (1, 0)]),
    Example("a silent request between", SETUP, [(0, "7E0#023E00"), (100, "7DF#023E80"), (2000, "7E8#027E00")], [
        "1 0000000100.000000 A P 3E00 7E00 = 2 0",
        "2 0000000100.000000 A F 3E80 - = - 0",
        "2 0000000100.000000 B F 3E80 - = - 0",
    ], [(2, 0), (1, 0)]),
    Example("answers that come too late", SETUP, [(0, "7E0#023E00"), (1000, "7E0#023E00"), (2000, "7E8#027E00"), (3000, "7E8#027E00")], [
        "1 0000000100.000000 A P 3E00 - 7E00 - 0",
        "4 0000000100.003000 A U - 7E00 - - 0",
        "2 0000000100.001000 A P 3E00 7E00 = 1 0",
    ], [(3, 2), (0, 0)], 8),
    Example("a message that nobody asked", SETUP, [(0, "7E0#021003"), (1000, "7E8#025003"), (2000, "7E8#025003")], [
        "3 0000000100.002000 A U - 5003 - - 0",
        "1 0000000100.000000 A P 1003 5003 5003003201F4 1 0",
    ], [(2, 2), (0, 0)], 8),
    Example("a negative response in place of the reply", SETUP, [(0, "7E0#0322F190"), (4000, "7E8#037F2231")], [
        f"1 0000000100.000000 A P 22F190 7F2231 {READ} 4 0",
    ], [(1, 1), (0, 0)], 8),
    Example("two services asked, answered the other way round", SETUP, [
        (0, "7E0#023E00"), (1000, "7E0#021001"), (2000, "7E8#065001003201F4"), (3000, "7E8#027E00"),
    ], [
        "1 0000000100.000000 A P 3E00 7E00 = 3 0",
        "2 0000000100.001000 A P 1001 5001003201F4 = 1 0",
    ], [(2, 0), (0, 0)]),
    Example("a message that is cut off", SETUP, [
        (0, "7E0#0322F190"), (1000, "7E8#101462F190544553"), (2000, "7E8#215456494E303132"), (3000, "7E0#023E00"), (4000, "7E8#027E00"),
    ], [
        f"1 0000000100.000000 A P 22F190 - {READ} - 0",
        "4 0000000100.003000 A P 3E00 7E00 = 1 0",
    ], [(2, 1), (0, 0)], 8),
    Example("an exchange waits for the message that is coming in", SETUP, [
        (0, "7E0#0322F190"), (1000, "7E8#101462F190544553"), (2000, "7E0#0322F190"), (3000, "7E8#215456494E303132"),
        (4000, "7E8#2233343536373839"), (5000, "7E0#021001"),
    ], [
        f"1 0000000100.000000 A P 22F190 {READ} = 1 0",
        f"3 0000000100.002000 A P 22F190 - {READ} - 0",
        "6 0000000100.005000 A P 1001 - 5001003201F4 - 0",
    ], [(3, 2), (0, 0)], 8),
    Example("response pending alone", SETUP, [(0, "7E0#021001"), (1000, "7E8#037F1078"), (2000, "7E8#037F1078")], [
        "1 0000000100.000000 A P 1001 - 5001003201F4 - 2",
    ], [(1, 1), (0, 0)], 8),
    Example("a row that answers with response pending wants no more", SETUP + '\n[[answer]]\nrequest = "1001"\nreply = ["7F1078"]\n', [
        (0, "7E0#021001"), (1000, "7E8#037F1078"),
    ], ["1 0000000100.000000 A P 1001 - = - 1"]),
    Example("a row that answers where the model is silent", SETUP + PRESENT, [(0, "7E0#023E80"), (1000, "7E8#027E80")], [
        "1 0000000100.000000 A P 3E80 7E80 = 1 0",
    ]),
    Example("a value and a seed that vary", VARIES, [
        (0, "7E0#021003"), (100, "7E8#065003003201F4"), (1000, "7E0#022701"), (2000, "7E8#066701ABCDEF01"),
        (3000, "7E0#0322F190"), (4000, "7E8#101462F190000000"), (5000, "7E0#300000"), (6000, "7E8#2100000000000000"),
        (7000, "7E8#2200000000000000"),
    ], [
        "1 0000000100.000000 A P 1003 5003003201F4 = 0 0",
        "3 0000000100.001000 A P 2701 6701ABCDEF01 = 1 0",
        f"5 0000000100.003000 A P 22F190 62F190{'00' * 17} = 1 0",
    ], [(3, 0), (0, 0)]),
    Example("the length counts always", VARIES, [(0, "7E0#021003"), (1000, "7E0#022701"), (2000, "7E8#056701ABCDEF")], [
        "1 0000000100.000000 A P 1003 - 5003003201F4 - 0",
        "2 0000000100.001000 A P 2701 6701ABCDEF 670111223344 1 0",
    ], [(2, 2), (0, 0)], 8),
    Example("a byte that a template leaves open", SETUP + HIDDEN, [
        (0, "7E0#022301"), (1000, "7E8#0363AA11"), (2000, "7E0#022301"), (3000, "7E8#0363AA12"),
    ], [
        "1 0000000100.000000 A P 2301 63AA11 = 1 0",
        "3 0000000100.002000 A P 2301 63AA12 63??11 1 0",
    ], [(2, 1), (0, 0)], 8),
    Example("trouble codes in another order", CODES, [
        (0, "7E0#031902FF"), (1000, "7E8#100B5902FF012346"), (2000, "7E0#300000"), (3000, "7E8#212F0123452F"),
        (4000, "7E0#02190A"), (5000, "7E8#100B590AFF012345"), (6000, "7E0#300000"), (7000, "7E8#212F0123452F"),
    ], [
        "1 0000000100.000000 A P 1902FF 5902FF0123462F0123452F = 1 0",
        "5 0000000100.004000 A P 190A 590AFF0123452F0123452F 590AFF0123452F0123462F 1 0",
    ], [(2, 1), (0, 0)], 8),
    Example("a trouble code twice", CODES, [
        (0, "7E0#031902FF"), (1000, "7E8#100F5902FF012346"), (2000, "7E0#300000"), (3000, "7E8#212F0123452F0123"), (4000, "7E8#22462F"),
    ], [
        "1 0000000100.000000 A P 1902FF 5902FF0123462F0123452F0123462F 5902FF0123452F0123462F 1 0",
    ], [(1, 1), (0, 0)], 8),
    Example("a message of four bytes isn't response pending", SETUP, [(0, "7E0#023E00"), (1000, "7E8#047F3E7800"), (2000, "7E8#027E00")], [
        "3 0000000100.002000 A U - 7E00 - - 0",
        "1 0000000100.000000 A P 3E00 7F3E7800 7E00 1 0",
    ], [(2, 2), (0, 0)], 8),
    Example("7F isn't the positive response of 3F", SETUP, [(0, "7E0#023F00"), (1000, "7E8#037F2231")], [
        "2 0000000100.001000 A U - 7F2231 - - 0",
        "1 0000000100.000000 A P 3F00 - 7F3F11 - 0",
    ], [(2, 2), (0, 0)], 8),
    Example("two testers' exchanges that one line ends", SETUP, [(0, "7E1#023E00"), (1000, "7E0#023E00"), (2000, "7DF#023E00")], [
        "1 0000000100.000000 B P 3E00 - 7E00 - 0",
        "2 0000000100.001000 A P 3E00 - 7E00 - 0",
        "3 0000000100.002000 A F 3E00 - 7E00 - 0",
        "3 0000000100.002000 B F 3E00 - 7E00 - 0",
    ], [(2, 2), (2, 2)], 8),
    Example("exchanges that a line ends by its time and by its request", SETUP, [
        (0, "7E0#023E00"), (1000, "7E0#0322F190"), (2000, "7E8#101462F190544553"), (3000, "7E0#0322F190"), (60_002_000, "7E0#023E00"),
    ], [
        "1 0000000100.000000 A P 3E00 - 7E00 - 0",
        f"2 0000000100.001000 A P 22F190 - {READ} - 0",
        f"4 0000000100.003000 A P 22F190 - {READ} - 0",
        "5 0000000160.002000 A P 3E00 - 7E00 - 0",
    ], [(4, 4), (0, 0)], 8),
    Example("requests that are ignored", SEED_READ, [(0, "7E0#0322F190"), (1000, "7E8#037F2231"), (2000, "7E0#023E00"), (3000, "7E8#027E00")], [
        "1 0000000100.000000 A P 22F190 7F2231 ~ 1 0",
        "3 0000000100.002000 A P 3E00 7E00 = 1 0",
    ], [(2, 0), (0, 0)]),
    Example("nothing but what is ignored", SEED_READ, [(0, "7E0#0322F190"), (1000, "7E8#037F2231"), (2000, "7E1#023E80")], [
        "1 0000000100.000000 A P 22F190 7F2231 ~ 1 0",
        "3 0000000100.002000 B P 3E80 - = - 0",
    ], [(1, 0), (1, 0)], 9),
    Example("a bus without these testers", SETUP, [(0, "123#00"), (1000, "321#0011")], [], [(0, 0), (0, 0)], 9),
    Example("ticks before the first stamp and behind it", SETUP, ["tick 700", (0, "7E0#021003"), "tick 2", (1000, "7E8#065003003201F4")], [
        "2 0000000100.000000 A P 1003 5003003201F4 = 3 0",
    ]),
    Example("59999 ms between two frames of a message", SETUP, SLOW, [f"1 0000000100.000000 A P 22F190 {READ} = 1 0"]),
    Example("60000 ms between two frames of a message", SETUP, [*SLOW[:3], (120_000_000, SLOW[3][1])], [
        f"1 0000000100.000000 A P 22F190 - {READ} - 0",
    ], [(1, 1), (0, 0)], 8),
    Example("a message of more than max_request", "max_request = 8\n" + SETUP, [
        (0, "7E0#0322F190"), (1000, f"7E8#100000001000{MANY[:2].hex()}"),
        *((2000 + at, f"7E8#2{at % 16:X}{MANY[7 * at - 5 : 7 * at + 2].hex()}") for at in range(1, 586)),
    ], [f"2 0000000100.001000 A U - {MANY.hex().upper()} - - 0", f"1 0000000100.000000 A P 22F190 - {READ} - 0"], [(2, 2), (0, 0)], 8),
    Example("identifiers of 29 bits", widened(SETUP, ["A"]), [
        (0, "18DA10F1#021003"), (1000, "7E8#065003003201F4"), (2000, "000007E8#065003003201F4"), (3000, "18DAF110#065003003201F4"),
        (4000, "18DB33F1#023E80"), (5000, "7DF#023E80"), (6000, "7E1#023E00"), (7000, "7E9#027E00"),
    ], [
        "1 0000000100.000000 A P 1003 5003003201F4 = 3 0",
        "6 0000000100.005000 B F 3E80 - = - 0",
        "5 0000000100.004000 A F 3E80 - = - 0",
        "7 0000000100.006000 B P 3E00 7E00 = 1 0",
    ], [(2, 0), (2, 0)]),
]


def recorded_run(room: str, setup: str, lines: list[str]) -> tuple[str, str, str]:
    """The files of a setup and of a capture, and the text of the journal."""
    config, path = put(f"{room}/setup", setup.encode()), put(f"{room}/capture", "".join(f"{it}\n" for it in lines).encode())
    return config, path, run(["bus", "--journal", config, path])[1].decode()


def worked(room: str, reads_alone: bool) -> None:
    """The worked examples by the slow reading, and by the program."""
    for it in EXAMPLES:
        config, path, journal = recorded_run(room, it.setup, it.lines())
        found, want = compared(read_setup(it.setup), it.lines(), journal), (it.status, it.text())
        told(found == want, f"{it.name}: the slow reading", f"{found} in place of {want}")
        if not reads_alone:
            found, want = run(["compare", config, path]), (it.status, it.text().encode(), b"")
            told(found == want, it.name, f"{found} in place of {want}")


# ---- recordings by chance

REQUESTS = [
    "021003", "021003", "021001", "021083", "023E00", "023E00", "023E80", "0322F190", "0322F190", "0522F190F190", "0322F1AA",
    "031902FF", "02190A", "03190101", "0414FFFFFF", "022701", "022701", "062702AABBCCDD", "06270200000000", "0431010203", "0431030203",
    "028502", "021101", "022301", "0423010203", "022801", "0210601A", "0139",
]
LONG_REQUEST = ["10142EF190414243", "214445464748494A", "224B4C4D4E4F5051"]
MORE_CODES = "".join(f"\n[[code]]\ncode = {it}\nstatus = 47\n" for it in (0x012346, 0x012347, 0xA00001))
ROWS = """
[[answer]]
request = "23"
reply = ["63", "7F2378", "", "63??1122??445566", "7F2322"]

[[answer]]
request = "2301*"
reply = ["63????", "63$1??778899AABBCC", "7E0000"]

[[answer]]
request = "22F1AA"
reply = ["62F1AA01", "62F1AA??"]

[[answer]]
request = "1101"
after_ms = 30

[[answer]]
request = "31*"
after_ms = 75

[[answer]]
request = "28*"
reply = ["7F2822", "6801"]
session = 3

[[answer]]
request = "3E80"
reply = ["7E80", ""]
session = 3
"""
# what a unit may send unasked, and frames that begin or continue a message, or do nothing
UNASKED = ["027E00", "037F2231", "017F", "027F10", "100862F190AABBCC", "0163", "065003003201F4", "037F7F78", "037F2278"]
ODD = [
    "21DDEEFF", "22", "2F0102", "300000", "31", "10", "1007AABBCCDDEEFF", "100862F190AABB", "1000000000080102", "100000000FFF0102",
    "10000000100062F1", "1000FFFFFFFF62F1", "08AABBCCDDEEFF11", "00", "0711223344", "40", "",
]
IGNORES = ['["3E*"]', '["22F190", "10.."]', '["19*", "27..*"]', "[]"]


def setup_by(chance: random.Random) -> str:
    """A setup by chance."""
    text = SETUP + THIRD + (MORE_CODES if chance.random() < 0.7 else "") + (ROWS if chance.random() < 0.7 else "")
    text = text.replace("write_level = 1", f"varies = {chance.choice(['true', 'false'])}\nwrite_level = 1")
    text = text.replace("sub = 1", f"varies = {chance.choice(['true', 'false'])}\nany_key = {chance.choice(['true', 'false'])}\nsub = 1")
    head = f"ignore = {chance.choice(IGNORES)}\n" if chance.random() < 0.4 else ""
    head += f"pad = {chance.choice(['true', 'false'])}\ns3_ms = {chance.choice([60, 400, 5000])}\np2_star_10ms = 1\n"
    head += f"max_request = {chance.choice([8, 4095, 4095])}\n"
    return head + f"delay_ms = 30\n{text.removeprefix('delay_ms = 2000')}"


def asked(chance: random.Random, testers: int, count: int) -> list[tuple[int, str]]:
    """What the testers send, as pairs of the moment in milliseconds and a frame: each reply has time for its flow control,
    mostly."""
    found, ms = [], 5000
    while len(found) < count:
        own = list(TESTERS.values())[chance.randrange(testers)][0]
        kind = chance.random()
        if kind < 0.1:
            found += [(ms + at, f"{own}#{it}") for at, it in enumerate(LONG_REQUEST[: chance.choice([3, 3, 3, 2])])]
        elif kind < 0.25:
            found.append((ms, f"7DF#{chance.choice(['023E80', '023E80', '023E80', '0322F190', '021003', '021083', '023E00'])}"))
        else:
            found.append((ms, f"{own}#{chance.choice(REQUESTS)}"))
        if chance.random() < 0.85:
            found.append((ms + 1, f"{own}#{chance.choice(['300000', '300000', '300000', '300002', '300100', '320000'])}"))
        if chance.random() < 0.15:
            found.append((ms, f"{own}#{chance.choice(['02', '', '40', '2199', '1008AABBCCDDEEFF'])}"))
        ms += chance.choice([0, 1, 5, 12, 12, 40, 70, 420])
    return sorted(found, key=lambda it: it[0])


def parted(line: str) -> tuple[str, str]:
    """A line up to its frame's mark, and the frame's digits."""
    return re.fullmatch("(.*?#(?:#.)?)(.*)", line).groups()


def millisecond(line: str) -> str:
    """A line's stamp in whole milliseconds: that of an answer has no more, and in one the answer is behind its request."""
    return line[1:15]


class Recording:
    """The lines of a recording by their moments, with the unit's frames as the server sends them, to be spoilt."""

    def __init__(self, chance: random.Random, config: str, room: str, frames: list[tuple[int, str]]):
        self.chance = chance
        own = [stamped(ms, frame) for ms, frame in frames]
        text = "".join(f"{it}\n" for it in [*own, stamped(frames[-1][0] + 500, "123#00")]).encode()
        sent = run(["bus", config, put(f"{room}/asked", text)])[1].decode().splitlines()
        self.lines = list(heapq.merge(own, sent, key=millisecond))

    def answers(self) -> list[int]:
        """The places of the unit's frames."""
        return [at for at, it in enumerate(self.lines) if re.search(r" 7E[89A]#", it)]

    def ways(self) -> list:
        return [
            self.drop, self.repeat, self.delay, self.spoil_byte, self.spoil_rest, self.exchange, self.wait, self.between,
            self.unasked, self.other, self.shuffle, self.lower,
        ]

    def spoil(self, times: int) -> None:
        """Does so many odd things to the lines."""
        for _ in range(times):
            places = self.answers()
            self.chance.choice(self.ways())(self.chance.choice(places) if places else 0)
        if times and self.chance.random() < 0.15:
            self.pause(self.chance.choice([59_999, 60_000, 60_001]))

    def drop(self, at: int) -> None:
        del self.lines[at]

    def repeat(self, at: int) -> None:
        self.lines.insert(at, self.lines[at])

    def delay(self, at: int) -> None:
        """The frame comes some lines later."""
        line = self.lines.pop(at)
        self.lines.insert(min(len(self.lines), at + self.chance.randint(1, 12)), line)

    def spoil_byte(self, at: int) -> None:
        head, data = parted(self.lines[at])
        if data:
            it = 2 * self.chance.randrange(len(data) // 2)
            data = f"{data[:it]}{int(data[it:it + 2], 16) ^ (1 << self.chance.randrange(8)):02X}{data[it + 2:]}"
        self.lines[at] = f"{head}{data}"

    def spoil_rest(self, at: int) -> None:
        """The frame's last bytes are others: of a value or a seed, often."""
        head, data = parted(self.lines[at])
        more = data[: 2 * self.chance.randint(0, 7)]
        self.lines[at] = f"{head}{more}{self.chance.randbytes((len(data) - len(more)) // 2).hex().upper()}"

    def exchange(self, at: int) -> None:
        """Two answers change their places."""
        other = self.chance.choice(self.answers() or [at])
        self.lines[at], self.lines[other] = self.lines[other], self.lines[at]

    def wait(self, at: int) -> None:
        """Response pending before it."""
        found = re.search(r" (7E[89A])#(?:#.)?(?:00..|0.|1...)(7F)?(..)", self.lines[at])
        own, service = (found[1], found[3]) if found and found[2] else ("7E8", "22")
        if found and not found[2]:
            own, service = found[1], f"{int(found[3], 16) & 0xBF:02X}"
        for _ in range(self.chance.choice([1, 1, 2, 3])):
            self.lines.insert(at, f"{self.stamp(at)} can0 {own}#037F{service}78{self.chance.choice(['', 'CCCCCCCC'])}")

    def between(self, at: int) -> None:
        """TesterPresent in between."""
        frame = self.chance.choice(["7DF#023E80", "7E0#023E80", "7E0#023E00", "7E1#023E80"])
        self.lines.insert(at, f"{self.stamp(at)} can0 {frame}")

    def unasked(self, at: int) -> None:
        own = self.chance.choice(list(TESTERS.values()))[1]
        frame = self.chance.choice([*UNASKED, *ODD])
        self.lines.insert(at, f"{self.stamp(at)} can0 {own}#{frame}")

    def other(self, at: int) -> None:
        """Others' traffic, or time."""
        frame = self.chance.choice(["123#0011", "18DA11F1#021003", "000007E8#027E00", "000007E0#023E00", "7E0#R8", "7E8##1021001"])
        self.lines.insert(at, self.chance.choice(["tick 3", "", f"{self.stamp(at)} can0 {frame}", f"{self.stamp(at)} can0 {frame}"]))

    def lower(self, at: int) -> None:
        """The frame's digits are written small."""
        self.lines[at] = self.lines[at].lower()

    def shuffle(self, _: int) -> None:
        """The records of a list of DTCs, in another order."""
        texts = {"100F5902FF012345": "100F5902FF012346", "100F590AFF012345": "100F590AFF012346", "212F0123462F0123": "212F0123452F0123"}
        for old, new in texts.items():
            self.lines = [it.replace(old, new) for it in self.lines]

    def pause(self, ms: int) -> None:
        """From some line on all is so much later: within one of the last messages of several frames, where there is one."""
        parts = [at for at in self.answers() if parted(self.lines[at])[1][:1] == "2"] or [len(self.lines)]
        at = self.chance.choice(parts[-3:])
        self.lines[at:] = [later(it, ms) if it.startswith("(") else it for it in self.lines[at:]]

    def widen(self, names: list[str]) -> None:
        """These testers have identifiers of 29 bits; what was functional reaches them, or the others, or both."""
        texts = {f" {old}#": f" {new}#" for name in names for old, new in zip(TESTERS[name], WIDE_IDS[name])}
        found = []
        for line in self.lines:
            for old, new in texts.items():
                line = line.replace(old, new)
            ways = [line, line.replace(" 7DF#", " 18DB33F1#")]
            found += ways if line != ways[1] and self.chance.random() < 0.3 else [self.chance.choice(ways)]
        self.lines = found

    def stamp(self, at: int) -> str:
        near = [it for it in self.lines[max(0, at - 3) : at + 1] if it.startswith("(")]
        return near[-1].split(" ")[0] if near else "(0000000005.000000)"


class FdRecording(Recording):
    """The same of testers that talk by CAN FD."""

    def ways(self) -> list:
        return [*super().ways(), self.resize, self.resize, self.fd_unasked]

    def sized(self, digits: str) -> str:
        """The digits, cut or filled to a length of CAN FD."""
        return (digits + "C5" * 64)[: 2 * self.chance.choice([*range(8), *LENGTHS, *LENGTHS])]

    def resize(self, at: int) -> None:
        head, data = parted(self.lines[at])
        if "##" in head:
            self.lines[at] = f"{head}{self.sized(data)}"

    def fd_unasked(self, at: int) -> None:
        """A frame of CAN FD that nobody asked: a message, the first frame of one, a part, or nothing."""
        size, sid = self.chance.choice(LENGTHS) + self.chance.choice([-3, -2, -1, 0]), self.chance.choice(["62F190", "7F2231", "7E00", "5902FF"])
        frame = self.chance.choice([f"00{size:02X}{sid}", f"10{size:02X}{sid}", "21", f"0{size % 8:X}{sid}", "100000001001"])
        self.lines.insert(at, f"{self.stamp(at)} can0 {self.chance.choice(list(TESTERS.values()))[1]}##0{self.sized(frame)}")


def by_fd(chance: random.Random, frames: list[tuple[int, str]]) -> list[tuple[int, str]]:
    """Most of the frames as such of CAN FD."""
    return [(ms, it if chance.random() < 0.2 else it.replace("#", "##1")) for ms, it in frames]


def fd_recording(chance: random.Random, room: str, testers: int, count: int, times: int) -> tuple[str, list[str]]:
    """A setup of testers that talk by CAN FD and the lines of a recording, whose unit sends otherwise than the server may."""
    setup = setup_by(chance).replace("[[tester]]\n", "[[tester]]\nfd = true\n")
    own, other = (f"tx_dl = {chance.choice(LENGTHS)}\n{setup}" for _ in range(2))
    it = FdRecording(chance, put(f"{room}/setup", own.encode()), room, by_fd(chance, asked(chance, testers, count)))
    it.spoil(times)
    names = [name for name in TESTERS if chance.random() < 0.25]
    it.widen(names)
    return widened(other, names), it.lines


def recording(chance: random.Random, room: str, testers: int, count: int, times: int) -> tuple[str, list[str]]:
    """A setup and the lines of a recording."""
    setup = setup_by(chance)
    it = Recording(chance, put(f"{room}/setup", setup.encode()), room, asked(chance, testers, count))
    it.spoil(times)
    names = [name for name in TESTERS if chance.random() < 0.25]
    it.widen(names)
    return widened(setup, names), it.lines


def agrees_with(room: str, setup: str, lines: list[str], name: str) -> tuple[int, str]:
    """Compares the program with the slow reading, of all exchanges and of those that differ; returns the status and the
    text of all."""
    config, path, journal = recorded_run(room, setup, lines)
    read_by = read_setup(setup)
    every = read(read_by, lines, journal)
    for words in (["--differences"], []):
        found = run(["compare", *words, config, path])
        status, text = written_of(read_by, lines, every, bool(words), True)
        told(found == (status, text.encode(), b""), f"{name} {' '.join(words)}".strip(), apart(found, status, text))
    return status, text


def apart(found: tuple[int, bytes, bytes], status: int, text: str) -> str:
    """The first line in which two texts differ, and the statuses."""
    lines, want = found[1].decode(errors="replace").splitlines(), text.splitlines()
    at = next((it for it, (one, other) in enumerate(zip(lines, want)) if one != other), min(len(lines), len(want)))
    return f"status {found[0]} for {status}, line {at + 1}: {lines[at : at + 1]} in place of {want[at : at + 1]}; {found[2]}"


# what the recordings brought about: a comparison of nothing would show nothing
had = dict.fromkeys(["exchanges", "that agree", "that differ", "unasked", "ignored", "with response pending", "open bytes", "of 29 bits"], 0)


def count(text: str) -> None:
    for line in text.splitlines():
        parts = line.split(" ")
        if len(parts) == 9:
            had["exchanges"] += 1
            had["that agree"] += parts[6] == "="
            had["that differ"] += parts[6] not in "=~"
            had["unasked"] += parts[3] == "U"
            had["ignored"] += parts[6] == "~"
            had["with response pending"] += parts[8] != "0"
            had["open bytes"] += "?" in parts[6]


def by_chance(room: str, runs: int, first: int) -> None:
    for seed in range(first, first + runs):
        chance = random.Random(seed)
        setup, lines = recording(chance, room, chance.choice([1, 1, 2, 3]), chance.choice([20, 60, 100]), chance.choice([0, 1, 3, 10, 25]))
        _, text = agrees_with(room, setup, lines, f"at random, {seed}")
        count(text)
        had["of 29 bits"] += sum(" 18DAF1" in it for it in lines)
    told(all(it >= runs // 8 for it in had.values()), "the recordings bring enough about", had)
    print(f"compare: {', '.join(f'{it} {name}' for name, it in had.items())}", flush=True)


def fd_by_chance(room: str, runs: int, first: int) -> None:
    frames = answers = 0
    for seed in range(first, first + runs // 2 + 1):
        chance = random.Random(9000 + seed)
        setup, lines = fd_recording(chance, room, chance.choice([1, 1, 2, 3]), chance.choice([20, 60, 100]), chance.choice([0, 1, 3, 10, 25]))
        _, text = agrees_with(room, setup, lines, f"at random by CAN FD, {seed}")
        frames += sum("##" in it and len(parted(it)[1]) > 16 for it in lines)
        answers += len(re.findall(" [0-9A-F]{16,} = ", text))
    told(min(frames, answers) > runs // 8, f"by CAN FD: {frames} frames of more than 8 bytes, {answers} long answers that agree")


def well_behaved(room: str, runs: int, first: int) -> None:
    """A unit that answers as the server does, each request before the next: nothing differs, however late an answer is
    and however often the unit says before it that it isn't ready."""
    for seed in range(first, first + runs // 4):
        chance, setup, frames = random.Random(7000 + seed), SETUP + THIRD, []
        for at in range(40):
            own = chance.choice(list(TESTERS.values()))[0]
            frames += [(5000 + 50 * at, f"{own}#{chance.choice(REQUESTS)}"), (5001 + 50 * at, f"{own}#300000")]
        it = Recording(chance, put(f"{room}/setup", setup.encode()), room, frames)
        late = [line for at, line in enumerate(it.lines) if at not in it.answers() or re.search("#[12]", line)]
        late += [f"{later(line, chance.randint(0, 40))}" for line in set(it.lines) - set(late)]
        it.lines = sorted(late, key=lambda line: line[1:18])
        for _ in range(10):
            firsts = [at for at in it.answers() if re.search("#[01]", it.lines[at])]
            chance.choice([it.other, it.wait])(chance.choice(firsts))
        status, text = agrees_with(room, setup, it.lines, f"a unit that answers well, {seed}")
        told(status == 0, f"its status, {seed}", text)


def later(line: str, ms: int) -> str:
    """A line, so many milliseconds later."""
    found = re.match(r"\((\d+)\.(\d{3})\d{3}\) \S+ (.*)", line)
    return stamped(int(found[1] + found[2]) + ms, found[3])


# ---- faults, pieces, a long recording


def faults(room: str) -> None:
    """The faults of a capture are those of `bus`, behind the lines of the exchanges that were over."""
    lines = [f"(0000000100.{at:06d}) can0 {it}" for at, it in ORDER]
    for line in [*WRONG, "x" * 4097]:
        config, path, journal = recorded_run(room, SETUP, [*lines, line, lines[0]])
        _, text = compared(read_setup(SETUP), lines, run(["bus", "--journal", config, path])[1].decode(), is_whole=False)
        found, want = run(["compare", config, path]), run(["bus", config, path])
        told(found == (3, text.encode(), want[2]), f"a bad line {line[:40]}", f"{found} in place of {text}, {want[2]}")
    config, path, _ = recorded_run(room, SETUP, lines)
    for words in (["compare", config, f"{room}/none"], ["compare", f"{room}/none", path], ["compare", f"{room}/none"]):
        want = run(["bus", *words[1:]], input=b"")
        told(run(words, input=b"") == want and want[0] == 7, f"a file that isn't there: {len(words)}", want)
    for words in (["compare"], ["compare", "--journal", config], ["compare", "--end", config], ["compare", config, path, path]):
        told(run(words)[:2] == (1, b""), f"usage: {len(words)}", run(words))
    told(run(["compare", config], input=b"") == (9, b"A 0 exchanges, 0 differ\nB 0 exchanges, 0 differ\nnothing compared\n", b""), "an empty capture")
    with open("/dev/full", "wb") as full:
        ran = subprocess.run([PROGRAM, "--quiet", "compare", config, path], stdout=full, stderr=subprocess.PIPE, timeout=120)
    told((ran.returncode, ran.stderr) == (7, b"uds_play: cannot write\n"), "a full device", f"{ran}")


def due(room: str, setup: str, text: bytes) -> bytes:
    """What is due for the whole lines of a text that goes on."""
    lines = [it.removesuffix("\r") for it in text.decode().split("\n")[:-1]]
    config = put(f"{room}/due_setup", setup.encode())
    journal = run(["bus", "--journal", config, put(f"{room}/due", text[: text.rfind(b"\n") + 1])])[1].decode()
    return compared(read_setup(setup), lines, journal, is_whole=False)[1].encode() if lines else b""


def in_pieces(room: str) -> None:
    """A recording that comes in pieces: each exchange is told as soon as it is over."""
    for seed in range(6):
        chance = random.Random(900 + seed)
        setup, lines = recording(chance, room, 2, 25, 3)
        text = text_of(chance, lines)
        config, live, given, quiet = put(f"{room}/setup", setup.encode()), None, b"", True
        want = run(["compare", config, put(f"{room}/whole", text)])
        live = Live(["compare", config])
        try:
            for piece in pieces(chance, text):
                live.give(piece)
                given += piece
                quiet = quiet and live.wrote(due(room, setup, given))
            found = live.close()
        finally:
            live.stop()
        told(quiet and found == want, f"in pieces, {seed}", f"{found} in place of {want}")


def long_recording(room: str, count: int) -> None:
    """The memory doesn't grow with a recording, of a unit that answers well or otherwise."""
    config = put(f"{room}/setup", (SETUP + THIRD).encode())
    with open(f"{room}/capture", "w", encoding="ascii") as it:
        it.writelines(line for line in long_lines(count) if " 7E8#" not in line)
    with open(f"{room}/out", "wb") as out:
        subprocess.run([PROGRAM, "--quiet", "bus", config, f"{room}/capture"], stdout=out, check=True, timeout=3600)
    with open(f"{room}/capture", encoding="ascii") as one, open(f"{room}/out", encoding="ascii") as other, open(f"{room}/whole", "w", encoding="ascii") as it:
        it.writelines(heapq.merge(one, other, key=millisecond))
    with open(f"{room}/differs", "w", encoding="ascii") as it, open(f"{room}/whole", encoding="ascii") as whole:
        it.writelines(line for line in whole if not re.match(r"\S+ [AB] ", line))
    for name, status, words in (("whole", 0, []), ("differs", 8, []), ("whole", 0, ["--differences"])):
        with open(f"{room}/said", "wb") as out:
            ended, peak = peak_of(subprocess.Popen([PROGRAM, "--quiet", "compare", *words, config, f"{room}/{name}"], stdout=out))
        told(ended == status and 0 < peak < MOST_MEMORY, f"{count} lines, {peak} KiB: {name} {' '.join(words)}", f"status {ended}")


def main() -> int:
    words = argparse.ArgumentParser(description=__doc__, formatter_class=argparse.RawDescriptionHelpFormatter)
    words.add_argument("--reading", action="store_true")
    words.add_argument("--long", type=int, default=LONG)
    words.add_argument("runs", type=int, nargs="?", default=60)
    words.add_argument("first", type=int, nargs="?", default=1)
    given = words.parse_args()
    told.needs_program()
    with tempfile.TemporaryDirectory() as room:
        worked(room, given.reading)
        if not given.reading:
            by_chance(room, given.runs, given.first)
            fd_by_chance(room, given.runs, given.first)
            well_behaved(room, given.runs, given.first)
            faults(room)
            in_pieces(room)
            long_recording(room, given.long)
    return told.ended()


if __name__ == "__main__":
    sys.exit(main())
