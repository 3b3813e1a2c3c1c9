#!/usr/bin/env python3
"""Runs the built program with testers that talk by CAN FD beside small models of docs/FORMATS.md: each identifier with every
rest, in a capture and in each tester's log; messages of 1 to 65535 bytes both ways, in frames of each length, by testers of 11
and of 29 bits and a classic one at once, from a capture and from their logs, with the journal, its replay and both verdicts;
captures and logs of classic testers of which the frames are made such of CAN FD, which has to change nothing else; recordings
with both through log2asc and asc2log, whose lines are those of candump and canplayer, and through python-can, and what scapy
and Wireshark read, where these are there; and a live run. The last line is 'N passed, M failed'."""
import itertools
import random
import re
import shutil
import sys
import time
from dataclasses import dataclass
from typing import Iterator

from harness import TOP, Tally
import addressing
import bus
import live
import live_scapy
import twin
from bus import put, run, stamped
from uds_link import LENGTHS, Setup, cut, read_setup

PRESENT, REFUSED = "027E00CCCCCCCCCC", "037F2213CCCCCCCC"
told = Tally("fd", most=1500)


@dataclass(frozen=True)
class Tester:
    """A tester: its name and its identifiers as lines have them, and whether it talks by CAN FD."""

    name: str
    request: str
    response: str
    functional: str
    is_fd: bool

    def frame(self, data: str, flags: str = "1") -> str:
        """A frame of the unit to it."""
        return f"{self.response}{f'##{flags}' if self.is_fd else '#'}{data}"

    def asks(self, data: str, flags: str = "1") -> str:
        return f"{self.request}{f'##{flags}' if self.is_fd else '#'}{data}"

    def table(self) -> str:
        keys = [f'name = "{self.name}"', f"request = 0x{self.request}", f"response = 0x{self.response}", f"functional = 0x{self.functional}"]
        keys += ["extended = true"] * (len(self.request) == 8) + ["fd = true"] * self.is_fd
        return "\n".join(["[[tester]]", *keys, "", ""])


TESTERS = [
    Tester("A", "7E0", "7E8", "7DF", True),
    Tester("F", "18DA10F1", "18DAF110", "18DB33F1", True),
    Tester("C", "7E1", "7E9", "700", False),
    Tester("W", "18DA10F2", "18DAF210", "18DB33F2", False),
]


def setup_of(testers: list[Tester], *keys: str) -> str:
    return "\n".join([*keys, "", *(it.table() for it in testers)])


def text(lines: list[str]) -> bytes:
    return "".join(f"{it}\n" for it in lines).encode()


# ---- each identifier with every rest


def single(size: int) -> str:
    """The digits of a frame of so many bytes: of more than 8 a read of an even number of bytes, which is refused."""
    return (f"00{max(size - 2, 0):02X}22" + "FF" * size)[: 2 * size]


IDENTIFIERS = ["7E0", "7e0", "7DF", "7E8", "7E1", "700", "7E9", "123", "18DA10F1", "18da10f1", "18DAF110", "18DB33F1", "18DA10F2", "18DB33F2", "000007E0", "38DA10F1", "FFFFFFFF"]
# behind the second mark: frames of each length, what draws an answer, and what is no frame of CAN FD
RESTS = [
    *(f"1{single(size)}" for size in range(67)), f"1{'F' * 129}", f"1{'F' * 4000}", f"1{single(12)}0", f"1{single(64)} R", f"1{single(64)}_",
    *(f"{flags}023E00" for flags in "0123456789ABCDEFabcdef"), "1023e00 T", "1023E00CCCCCCCCCC  x#y", "1 ", "1 zz", "1023E00CCCCCCCCCC_9",
    "1023E0", "1023E0G", "1023E00x", "1023E00\t", "1023E00_9", "1#", "1R8", "1-", "", " ", "#", "##", "G", "G023E00", "g1", "R", "R8", "-1", " 1023E00",
    f"1000{7:X}22{'FF' * 9}", f"1000B22{'FF' * 9}", f"10322F190{'FF' * 8}", f"1023E00{'CC' * 9}",
]
FD_SIZES = (*range(9), *LENGTHS)


def fd_data(rest: str) -> bytes:
    """The bytes of a frame of CAN FD, by what stands behind the second mark. ValueError where it is a fault."""
    digits = re.match("[0-9A-Fa-f]*", rest[1:])[0]
    if re.match("[0-9A-Fa-f]", rest) and len(digits) > 128:
        raise ValueError("too many bytes")
    if not re.fullmatch("[0-9A-Fa-f]+( .*)?", rest) or len(digits) % 2 or len(digits) // 2 not in FD_SIZES:
        raise ValueError("bad line")
    return bytes.fromhex(digits)


def data_of(tester: Tester, rest: str) -> bytes:
    """The bytes of a frame to a tester, none of one that is passed over. ValueError where it is a fault."""
    if rest.startswith("#"):
        return fd_data(rest[1:]) if tester.is_fd else b""
    return bytes.fromhex(addressing.data_of(rest) or "")


def answer(data: bytes) -> list[str]:
    """What the unit sends to a frame."""
    if len(data) <= 8:
        return [PRESENT] if data.startswith(b"\x02\x3e\0") else []
    is_single = data[0] == 0 and 8 <= data[1] <= len(data) - 2
    return [REFUSED] if is_single and data[2] == 0x22 else []


def said(testers: list[Tester], identifier: str, rest: str) -> list[str]:
    """What the unit sends to these testers where a line with this frame comes. ValueError where it is a fault."""
    known = [it for it in testers if identifier.upper() in (it.request, it.response, it.functional)]
    if not known:
        # (one of 8 digits is passed over; else the line has to be one, of classic CAN)
        _ = len(identifier) == 8 or data_of(TESTERS[2], rest)
        return []
    data = data_of(known[0], rest)
    heard = [it for it in known if identifier.upper() != it.response]
    return [f"{it.name} {it.frame(sent)}" for it in heard for sent in answer(data)]


def sorted_out(testers: list[Tester]) -> tuple[list[str], list[str], dict[str, str]]:
    """The frames that are no fault in these testers' traffic, what the unit sends to them, and the others with their faults."""
    well, replies, faults = [], [], {}
    # (of the others' one that draws a session is left out)
    rests = [*(f"#{it}" for it in RESTS), *(it for it in addressing.RESTS if it != "#1021003")]
    for identifier, rest in itertools.product(IDENTIFIERS, rests):
        frame = f"{identifier}#{rest}"
        try:
            replies += said(testers, identifier, rest)
            well.append(frame)
        except ValueError as fault:
            faults[frame] = str(fault)
    return well, replies, faults


def each_rest(room: str) -> None:
    """The lines that are no fault in one run, and each fault in one of its own. On another interface those are no fault that
    have anything behind a second mark."""
    config, path = put(f"{room}/setup", setup_of(TESTERS).encode()), f"{room}/log"
    well, replies, faults = sorted_out(TESTERS)
    put(path, text([stamped(1000, it) for it in well]))
    status, out, tells = run(["bus", config, path])
    sent = [it.partition(") ")[2] for it in out.decode().splitlines()]
    told((status, sent, tells) == (0, replies, b""), f"{len(well)} lines that are no fault, {len(replies)} with an answer", (status, tells, first_apart(sent, replies)))
    wrong = {}
    for frame, fault in faults.items():
        found = run(["bus", config, put(path, text([stamped(1000, frame)]))])
        want = (3, b"", f"uds_play: capture line 1: {fault}\n".encode())
        wrong.update({} if found == want else {frame[:80]: found})
    told(not wrong, f"{len(faults)} lines that are a fault", wrong)
    others = [stamped(1000, it).replace("can0", "can1") for it in [*well, *(it for it in faults if "##" in it)]]
    found = run(["bus", "--interface=can0", config, put(path, text(others))])
    told(found == (0, b"", b""), f"{len(others)} lines of another interface", found)


def each_rest_of_a_log(room: str) -> None:
    """The same in the log of each tester, beside empty ones: another's frames of CAN FD are passed over."""
    config, nothing = put(f"{room}/setup", setup_of(TESTERS).encode()), put(f"{room}/nothing", b"")
    for place, tester in enumerate(TESTERS):
        well, replies, faults = sorted_out([tester])
        logs = [f"{room}/log" if it is tester else nothing for it in TESTERS]
        put(f"{room}/log", text([stamped(1000, it) for it in well]))
        for job in ("serial", "play"):
            status, out, tells = run([job, config, *logs])
            sent = [it.partition(") ")[2] for it in out.decode().splitlines() if it.startswith("(")]
            name = f"{job}: {len(well)} lines that are no fault to {tester.name}, {len(replies)} with an answer"
            told((status, sent, tells) == (0, replies, b""), name, (status, tells, first_apart(sent, replies)))
        own = (tester.request, tester.response, tester.functional)
        faults = {it: fault for it, fault in faults.items() if it.partition("#")[0].upper() in own}
        wrong = {}
        for frame, fault in faults.items():
            found = run(["serial", config, *logs[:place], put(f"{room}/log", text([stamped(1000, frame)])), *logs[place + 1 :]])
            want = (3, b"", f"uds_play: log {place + 1} line 1: {fault}\n".encode())
            wrong.update({} if found == want else {frame[:80]: found})
        told(not wrong, f"serial: {len(faults)} lines that are a fault to {tester.name}", wrong)


def first_apart(found: list, wanted: list):
    """The first place in which two lists differ, with both."""
    at = next((it for it, (one, other) in enumerate(zip(found, wanted)) if one != other), min(len(found), len(wanted)))
    return at, found[at : at + 2], wanted[at : at + 2]


# ---- messages of each length, both ways

MESSAGES = [*range(1, 131), 255, 256, 4094, 4095, 4096, 4097, 65535]
# (a classic message of so many bytes has thousands of frames)
CLASSIC_MESSAGES = [*range(1, 31), 4095, 4096]
SHORT_REPLIES = {1: ("BB01", "FB"), 2: ("BB02", "FB02"), 3: ("BB03", "FB0303")}
# the values that are read, each under its length
VALUES = {size: bytes((size + at) % 256 for at in range(size)) for size in range(1, 256)}
ANSWERS = "".join(f'[[answer]]\nrequest = "{ask}"\nreply = ["{reply}"]\n\n' for ask, reply in [("BA*", "FA"), *SHORT_REPLIES.values()])
DIDS = "".join(f'[[did]]\nid = {size}\nvalue = "{value.hex()}"\n\n' for size, value in VALUES.items())
GRANT, GO_ON = bytes.fromhex("300000"), bytes.fromhex("300000CCCCCCCCCC")


def reads(length: int) -> list[int]:
    """The lengths of the values of a reply of so many bytes, at least 4: each has two bytes more."""
    found, rest = [], length - 1
    while rest:
        size = min(255, rest - 2)
        size -= 3 if 0 < rest - size - 2 < 3 else 0
        found.append(size)
        rest -= size + 2
    return found


def asking(length: int) -> tuple[bytes, bytes]:
    """A request, and its reply of so many bytes."""
    if length in SHORT_REPLIES:
        request, reply = SHORT_REPLIES[length]
        return bytes.fromhex(request), bytes.fromhex(reply)
    sizes = reads(length)
    return b"\x22" + b"".join(it.to_bytes(2, "big") for it in sizes), b"\x62" + b"".join(it.to_bytes(2, "big") + VALUES[it] for it in sizes)


def exchanges(lengths: list[int]) -> list[tuple[bytes, bytes]]:
    """Requests of each length, and replies of each."""
    chance = random.Random(1)
    return [it for length in lengths for it in ((b"\xba" + chance.randbytes(length - 1), b"\xfa"), asking(length))]


def draws(link: Setup, tx_dl: int, request: bytes, reply: bytes) -> Iterator[tuple[bytes, list[bytes]]]:
    """The frames of a tester, all as long as those of the unit to it, each with those that it draws."""
    asked, sent = cut(link, request, tx_dl), cut(link, reply, tx_dl)
    grant = [GRANT if link.pad is None else GO_ON]
    for number, frame in enumerate(asked):
        is_last = number == len(asked) - 1
        yield frame, sent[:1] if is_last else grant if number == 0 else []
    if len(sent) > 1:
        yield GRANT, sent[1:]


def moment(ms: int) -> str:
    return f"({ms // 1000:010d}.{ms % 1000:03d}000)"


class Recording:
    """The frames of all testers in turn, a millisecond each, with those of the unit behind each that draws them."""

    def __init__(self, link: Setup, tx_dl: int, testers: list[Tester]):
        # the testers' lines, the unit's, and all; where the unit's stand; the entries of requests; and the lines of each tester,
        # and the frames to it
        self.lines, self.sent, self.whole, self.places, self.asked = [], [], [], [], []
        self.own: dict[str, tuple[list[str], list[str]]] = {it.name: ([], []) for it in testers}
        own = [turns(link, tx_dl, place, it) for place, it in enumerate(testers, 1)]
        for ms, turn in enumerate(it for round_of in itertools.zip_longest(*own) for it in round_of if it):
            self.add(1_000_000 + ms, *turn)

    def add(self, ms: int, tester: Tester, frame: bytes, asked: str, drawn: list[bytes]) -> None:
        """A tester's frame, the entry of the request that it completes, or none, and what it draws."""
        self.lines.append(stamped(ms, tester.asks(frame.hex().upper(), "0")))
        frames = [f"{tester.name} {tester.frame(it.hex().upper())}" for it in drawn]
        own = [f"{moment(ms)} {it}" for it in frames]
        self.places += range(len(self.whole) + 1, len(self.whole) + 1 + len(own))
        self.whole += [self.lines[-1], *own]
        self.sent += own
        self.asked += [asked] if asked else []
        self.own[tester.name][0].append(self.lines[-1])
        self.own[tester.name][1].extend(frames)


def turns(link: Setup, tx_dl: int, place: int, tester: Tester) -> Iterator[tuple]:
    """What a tester adds to a recording."""
    for request, reply in exchanges(MESSAGES if tester.is_fd else CLASSIC_MESSAGES):
        entry = f"{place} P {request.hex().upper()} {reply.hex().upper()}"
        for frame, drawn in draws(link, tx_dl if tester.is_fd else 8, request, reply):
            # (a request is complete with the frame that draws the reply's first one)
            is_complete = bool(drawn) and drawn[0][0] >> 4 in (0, 1)
            yield tester, frame, entry if is_complete else "", drawn


def messages(room: str) -> None:
    for tx_dl, pad in itertools.product(LENGTHS, (True, False)):
        testers = TESTERS[:3]
        keys = [f"tx_dl = {tx_dl}", f"pad = {str(pad).lower()}", "max_request = 65535", ""]
        config = setup_of(testers, *keys) + ANSWERS + DIDS
        it = Recording(read_setup(config), tx_dl, testers)
        name = f"messages in frames of {tx_dl}, {'padded' if pad else 'not padded'}"
        both_ways(room, name, put(f"{room}/setup", config.encode()), it)
        from_logs(room, name, f"{room}/setup", it)
        judged(room, name, f"{room}/setup", it)


def both_ways(room: str, name: str, config: str, it: Recording) -> None:
    """What `bus` writes, its journal, and where that leads."""
    path = put(f"{room}/capture", text(it.lines))
    status, out, tells = run(["bus", config, path])
    sent = out.decode().splitlines()
    told((status, sent, tells) == (0, it.sent, b""), f"{name}: {len(it.lines)} lines draw {len(it.sent)} frames", (status, tells, first_apart(sent, it.sent)))
    _, journal, _ = run(["bus", "--journal", config, path])
    asked = [line.partition(" ")[2] for line in journal.decode().splitlines() if " P " in line]
    told(asked == it.asked, f"{name}: {len(asked)} requests are in the journal", first_apart(asked, it.asked))
    _, end, _ = run(["bus", "--end", config, path])
    want = (0, f"entries {journal.count(10) - 1}\n".encode() + end, b"")
    found = run(["replay", config, put(f"{room}/journal", journal)])
    told(found == want, f"{name}: the journal replays", f"{found} in place of {want}")


def from_logs(room: str, name: str, config: str, it: Recording) -> None:
    """What `serial` and `play` write of each tester's lines, at one moment. The lines of the recording come in turns, as those of
    the logs do, so its requests are in the order of serial's journal."""
    logs = [put(f"{room}/{tester}", text(lines)) for tester, (lines, _) in it.own.items()]
    sent = [f"{moment(0)} {frame}" for _, frames in it.own.values() for frame in frames]
    want = [*sent, "diag-journal 1", *it.asked, "session default", "holder none"]
    status, out, tells = run(["serial", config, *logs])
    found = out.decode().splitlines()
    told((status, found, tells) == (0, want, b""), f"{name}: serial", (status, tells, first_apart(found, want)))
    # (the threads take any order, but each the requests of its own tester as they stand)
    status, out, tells = run(["play", config, *logs])
    found, want = (sorted(lines, key=lambda line: line[:2]) for lines in (out.decode().splitlines(), want))
    told((status, found, tells) == (0, want, b""), f"{name}: play", (status, tells, first_apart(found, want)))


def judged(room: str, name: str, config: str, it: Recording) -> None:
    """The verdicts on a recording with the unit's frames, and with a bit of one of them changed."""
    path = put(f"{room}/recording", text(it.whole))
    want = "".join(f"{tester} {len(frames)} frames agree\n" for tester, (_, frames) in it.own.items())
    found = run(["verify", config, path])
    told(found == (0, want.encode(), b""), f"{name}: verify", found)
    status, out, tells = run(["compare", "--differences", config, path])
    counts = [int(count) for count in re.findall(r"(\d+) exchanges, 0 differ", out.decode())]
    told((status, sum(counts), tells) == (0, len(it.asked), b""), f"{name}: compare", (status, out[:300], tells))
    chance = random.Random(2)
    for at in chance.sample(it.places, 12):
        line, tells = spoilt(chance, at + 1, it.whole[at])
        found = run(["verify", config, put(path, text([*it.whole[:at], line, *it.whole[at + 1 :]]))])
        told(found == (8, b"", tells), f"{name}: a bit of line {at + 1}", f"{found} in place of {tells}")


def spoilt(chance: random.Random, number: int, line: str) -> tuple[str, bytes]:
    """A line of the unit with a bit of its frame changed, and what is told of that."""
    head, data = re.fullmatch("(.*?#(?:#.)?)([0-9A-F]+)", line).groups()
    at = chance.randrange(len(data))
    other = f"{data[:at]}{int(data[at], 16) ^ 1 << chance.randrange(4):X}{data[at + 1:]}"
    return head + other, f"uds_play: line {number}: {line.split(' ')[1]} sent {other}, expected {data}\n".encode()


# ---- captures of classic testers, made such of CAN FD

FRAME = re.compile(r"(\(\S+ +\S+ )([0-9A-Fa-f]+)#((?:[0-9A-Fa-f]{2})*)(?:_[0-9A-Fa-f])?( .*)?\r?$")


def by_fd(lines: list[str], own: set[str], chance: random.Random) -> list[str]:
    """The lines with the frames of these identifiers as such of CAN FD, most of them; what was passed over is a remote frame."""
    found = []
    for line in lines:
        is_kept = line.startswith("tick") or not line.strip() or not own & {line.split()[2].partition("#")[0].upper()}
        if not is_kept and "##" in line:
            line = f"{line.partition('#')[0]}#R"
        frame = None if is_kept or chance.random() < 0.2 else FRAME.match(line)
        found.append(f"{frame[1]}{frame[2]}##{chance.choice('0123456789abcdefABCDEF')}{frame[3]}{frame[4] or ''}" if frame else line)
    return found


def joined(setup: str, *keys: str) -> str:
    """The setup with all its testers by CAN FD."""
    return "\n".join([*keys, setup.replace("[[tester]]\n", "[[tester]]\nfd = true\n")])


def own_ids(setup: str) -> set[str]:
    it = read_setup(setup)
    return {number for _, request, response in it.testers for number in (request, response)} | set(it.functionals)


def as_classic(room: str) -> None:
    """Frames of up to 8 bytes are the same by CAN FD, where the unit's have no more: but for their marks."""
    for seed in range(30):
        chance = random.Random(seed)
        if seed % 2:
            setup = twin.setup_text(chance, 4)
            lines = twin.stamped_lines([twin.Tester(chance, read_setup(setup), place) for place in range(4)])
        else:
            setup = bus.SETUP + bus.THIRD + bus.ANSWERS * (seed // 2 % 2)
            lines = [it for it in bus.capture(chance, 3, 200, falls=False) if it]
        flags = f"{chance.randrange(16):X}"
        same_texts(room, f"a classic capture by CAN FD, {seed}", setup, joined(setup, "tx_dl = 8", f"fd_flags = 0x{flags}"), lines, flags)


def same_texts(room: str, name: str, setup: str, fd_setup: str, lines: list[str], flags: str) -> None:
    """Compares what the program makes of a classic capture, and of a recording of it, with what it makes of both by CAN FD."""
    chance, own = random.Random(name), own_ids(setup)
    configs = put(f"{room}/classic", setup.encode()), put(f"{room}/fd", fd_setup.encode())
    capture = put(f"{room}/a", text(lines)), put(f"{room}/b", text(by_fd(lines, own, chance)))
    classic, found = (run(["bus", *it]) for it in zip(configs, capture))
    want = re.sub(rb"(?m)^(\S+ \S+ [0-9A-F]+)#", rb"\1##" + flags.encode(), classic[1])
    told(found == (0, want, b""), f"{name}: bus", first_apart(found[1].splitlines(), want.splitlines()))
    # (each tester's log is the whole capture, in which it passes the others' frames over)
    testers = len(read_setup(setup).testers)
    logs, found = (run(["serial", "--stamps", config, *[path] * testers]) for config, path in zip(configs, capture))
    want = re.sub(rb"(?m)^(\(\S+ \S+ [0-9A-F]+)#", rb"\1##" + flags.encode(), logs[1])
    told(found == (0, want, b""), f"{name}: serial", first_apart(found[1].splitlines(), want.splitlines()))
    sent = classic[1].decode().splitlines()
    whole = sorted([*(it for it in lines if it.startswith("(")), *sent], key=lambda it: it[1:18])
    lost = set(chance.sample(sent, min(3, len(sent))))
    whole = [it for it in whole if it not in lost]
    recording = put(f"{room}/a", text(whole)), put(f"{room}/b", text(by_fd(whole, own, chance)))
    for words in (["bus", "--journal"], ["verify"], ["compare"]):
        classic, found = (run([*words, *it]) for it in zip(configs, recording))
        told(found == classic, f"{name}: {' '.join(words)}", f"{found[1][-200:]}, {found[2]} in place of {classic[1][-200:]}, {classic[2]}")
    # (what is compared are messages, however the server would send its own)
    config = put(f"{room}/fd", fd_setup.replace("tx_dl = 8", "tx_dl = 64").encode())
    told(run(["compare", config, recording[1]]) == classic, f"{name}: compare, whatever the server would send")


# ---- recordings of other tools

VALUE = "5445535456494E30313233343536373839"
# a bus of all testers: sessions, requests and replies of one frame and of several, with each of the flags that tools keep,
# classic frames of a tester by CAN FD, others' frames of both kinds, and remote and error frames
RECORDING = [
    "7E0##1021003", "7E8##1065003003201F4CC", "18DA10F1##0021003", "7E1#021003", "7E0##20322F190", "18DA10F1##30322F190",
    f"7E8##1001462F190{VALUE}CCCC", "7E0#300000", "7E0#0322F190", "7E0##3300000CCCCCCCCCC", "18DA10F1##0300000", "7E1#0322F190",
    "7E1#300000CCCCCCCCCC", "18DA10F2#0322F190", "18DA10F2#300000",
    *(f"7E0##1{it}{'FF' * size}" for it, size in (("10C922", 61), ("21", 63), ("22", 63), ("23", 15))), "7DF##1023E00", "7DF#023E00",
    "700#023E00", "18DB33F1##1023E80", "18DB33F2#023E80", f"123##1{'00' * 64}", "18FEF100##0FFFFFF00FFFFFFFF", "0CF00400#F07D8700000000FF",
    "7E1##1021001", "7E0#R", "20000080#0000000000000000", f"18DA10F1##1000922{'FF' * 9}",
]


def others(room: str) -> None:
    """Their forms, and who reads what the program writes. (python-can's TRC has no frames of CAN FD, and its CSV has not which
    are.)"""
    this = addressing.Bus(f'{setup_of(TESTERS, "tx_dl = 20")}[[did]]\nid = 0xF190\nvalue = "{VALUE}"\n', RECORDING, 21)
    if shutil.which("log2asc"):
        addressing.through(told, this, room, "log2asc and asc2log", lambda path, names: addressing.by_can_utils(path, room, names))
    else:
        told.note("can-utils isn't there: its recordings aren't read")
    if addressing.has_python_can():
        for form in ("blf", "asc"):
            addressing.through(told, this, room, f"python-can's {form}", lambda path, _, form=form: addressing.by_python_can(path, room, form))
    else:
        told.note("python-can isn't there: its recordings aren't read")
    written = this.recorded(room)[2]
    want = [frame for _, _, frame in addressing.replies(addressing.whole(written))]
    if live_scapy.loads():
        told(by_scapy(written) == want, "scapy reads what the program writes", by_scapy(written))
    else:
        told.note("scapy isn't there: it reads nothing")
    if shutil.which("tshark"):
        told(by_wireshark(written) == want, "Wireshark reads what the program writes", by_wireshark(written))
    else:
        told.note("tshark (Wireshark) isn't there: it reads nothing")


def by_scapy(written: str) -> list[str]:
    """The frames of what the program writes, as scapy reads them."""
    from scapy.layers.can import CANFD, rdcandump  # pylint: disable=import-outside-toplevel

    found = []
    for it in rdcandump(written):
        # (its flags are the digit's character)
        mark = f"##{chr(int(it.fd_flags))}" if isinstance(it, CANFD) and it.fd_flags is not None else "#"
        found.append(f"{it.identifier:0{8 if it.flags.extended else 3}X}{mark}{bytes(it.data).hex().upper()}")
    return found


def by_wireshark(written: str) -> list[str]:
    """The same by Wireshark."""
    fields = addressing.shown(written, "can.id", "can.flags.xtd", "canfd.flags.brs", "data.data")
    return [f"{int(number):0{8 if wide == '1' else 3}X}{'##1' if fast == '1' else '#'}{data.upper()}" for number, wide, fast, data in fields]


# ---- a live run


def on_a_bus(room: str) -> None:
    """Testers of both kinds by the clock, STmin among it; the record gives the same frames."""
    with open(f"{TOP}/runs/fd.toml", encoding="ascii") as it:
        setup = "tx_dl = 12\n" + it.read()
    request, reply = b"\x22" + b"\xff" * 200, b"\x62\x01\0" + bytes(range(100))
    asked, sent = ([it.hex().upper() for it in cut(read_setup(setup), message, 12)] for message in (request, reply))
    with live.running(room, setup) as own:
        wrong = asks(own, "021003", ["065003003201F4CC"]) + own.asks(1, "021003", "037F1021CCCCCCCC")
        wrong += asks(own, asked[0], ["300000CCCCCCCCCC"])
        for frame in asked[1:-1]:
            own.send("7E0", f"#1{frame}")
        wrong += asks(own, asked[-1], ["037F2231CCCCCCCC"]) + asks(own, "03220100", sent[:1])
        begun = time.monotonic()
        wrong += asks(own, "300014", sent[1:])
        took, least = time.monotonic() - begun, 0.02 * (len(sent) - 2) - live.SOONER
        wrong += "" if took >= least else f"the ConsecutiveFrames took {took} seconds"
        wrong += own.ends_well()
    told(not wrong, "a live run", wrong)


def asks(own: live.Run, data: str, frames: list[str]) -> str:
    """What is wrong with the answer to a frame of CAN FD, which is to be these."""
    own.send("7E0", f"#1{data}")
    found, want = [own.next("7E8")[1] for _ in frames], [f"#1{it}" for it in frames]
    return "" if found == want else f"{data}: {found} in place of {want}; "


def main() -> int:
    told.needs_program()
    told.in_rooms(each_rest, each_rest_of_a_log, messages, as_classic, others, on_a_bus)
    return told.ended()


if __name__ == "__main__":
    sys.exit(main())
