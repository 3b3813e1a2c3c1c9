#!/usr/bin/env python3
"""Runs the built program over lines with identifiers of 11 and of 29 bits, each identifier with every rest, beside a small
model of docs/FORMATS.md; and over recordings with both that other people's tools made: log2asc and asc2log (can-utils), BLF,
TRC and CSV (python-can), both ways, the program's output among them, which scapy and Wireshark read, too. Of these tools each
is used where it is there; where the environment has INSTALL_PACKAGES, Debian's packages are installed, but for Wireshark,
which is much. The last line is 'N passed, M failed'."""
import itertools
import logging
import os
import re
import shutil
import subprocess
import sys
from dataclasses import dataclass
from typing import Optional

from harness import DEBIAN, Tally
import live_scapy
import packages
from bus import put, run

SETUP = """
[[tester]]
name = "A"
request = 0x7E0
response = 0x7E8

[[tester]]
name = "F1"
extended = true
request = 0x18DA10F1
response = 0x18DAF110

[[tester]]
name = "F2"
extended = true
request = 0x18DA10F2
response = 0x18DAF210

[[did]]
id = 0xF190
value = "30313233343536373839414243444546"
"""
PRESENT = "027E00CCCCCCCCCC"
told = Tally("addressing")


# ---- each identifier with every rest


@dataclass(frozen=True)
class Tester:
    """A tester's name, and its identifiers as numbers; of 29 bits where its lines have 8 digits."""

    name: str
    digits: int
    request: int
    response: int
    functional: int

    def reads(self, identifier: str) -> bool:
        own = self.request, self.response, self.functional
        return len(identifier) == self.digits and int(identifier, 16) in own

    def hears(self, identifier: str) -> bool:
        return self.reads(identifier) and int(identifier, 16) != self.response

    def reply(self) -> str:
        return f"{self.name} {self.response:0{self.digits}X}#{PRESENT}"


TESTERS = [
    Tester("A", 3, 0x7E0, 0x7E8, 0x7DF),
    Tester("F1", 8, 0x18DA10F1, 0x18DAF110, 0x18DB33F1),
    Tester("F2", 8, 0x18DA10F2, 0x18DAF210, 0x18DB33F1),
]
# testers' requests, functional and response identifiers, other units' and other traffic's, those of error frames (above
# 1FFFFFFF), the numbers of testers with the other kind's digits, and texts that are no identifier
IDENTIFIERS = [
    "7E0", "7e0", "7DF", "7E8", "7E1", "000", "7FF", "18DA10F1", "18da10f1", "18DA10F2", "18DAF110", "18DB33F1", "18DA11F1",
    "18FEF100", "00000000", "1FFFFFFF", "20000080", "38DA10F1", "FFFFFFFF", "000007E0", "000007DF", "800", "FFF", "7E", "07E0",
    "8DA10F1", "018DA10F1", "18DA10FG", "7EG", "", "18DA 10F1",
]
# what draws an answer, data that draws none, CAN FD and remote frames, what stands behind the data, and what is no rest
RESTS = [
    "023E00", "023e00", "023E00CCCCCCCCCC", "023E00CCCCCCCCCC_9", "023E00CCCCCCCCCC_f R", "023E00 R", "023E00 T", "023E00  x#y",
    "", " ", "02", "40", "300000CCCCCCCCCC", "R", "R8", "Rzz", "#1021003", "#", "#zz", "## #", "02 3E 00", "023E0", "0", "zz",
    "023E0G", "023E00x", "023E00\t", "023E00_9", "023E00CCCCCCCCC", "023E00CCCCCCCCCC_", "023E00CCCCCCCCCC_G",
    "023E00CCCCCCCCCC_99", "023E00CCCCCCCCCCx", "023E00CCCCCCCCCCC", "023E00CCCCCCCCCCCC", "023E00CCCCCCCCCCCCzz", "r", "-",
]
DATA = re.compile(r"([0-9A-Fa-f]*)(_[0-9A-Fa-f])?( .*)?")


def data_of(rest: str) -> Optional[str]:
    """The digits of a rest that is a classic data frame; None of one that is passed over. ValueError where it is a fault."""
    if rest[:1] in ("#", "R"):
        return None
    digits = re.match("[0-9A-Fa-f]*", rest)[0]
    if len(digits) > 16:
        raise ValueError("too many bytes")
    whole = DATA.fullmatch(rest)
    if not whole or len(digits) % 2 or (whole[2] and len(digits) < 16):
        raise ValueError("bad line")
    return digits


def said(testers: list[Tester], identifier: str, rest: str) -> list[str]:
    """What the unit sends where a line with this frame comes to these testers. ValueError where it is a fault."""
    if not re.fullmatch("[0-9A-Fa-f]{3}|[0-9A-Fa-f]{8}", identifier) or (len(identifier) == 3 and int(identifier, 16) > 0x7FF):
        raise ValueError("bad line")
    if len(identifier) == 8 and not any(it.reads(identifier) for it in testers):
        return []
    is_asked = (data_of(rest) or "").upper().startswith("023E00")
    return [it.reply() for it in testers if is_asked and it.hears(identifier)]


def sorted_out(testers: list[Tester]) -> tuple[list[str], list[str], dict[str, str]]:
    """The frames that are no fault, what the unit sends to them, and the others with their faults."""
    well, replies, faults = [], [], {}
    for identifier, rest in itertools.product(IDENTIFIERS, RESTS):
        frame = f"{identifier}#{rest}"
        try:
            replies += said(testers, identifier, rest)
            well.append(frame)
        except ValueError as fault:
            faults[frame] = str(fault)
    return well, replies, faults


def line(frame: str) -> str:
    return f"(0000000001.000000) can0 {frame}\n"


def each_rest(room: str) -> None:
    """The lines that are no fault in one run, and each fault in one of its own: of a capture, and of a log of each tester."""
    config, log, empty = put(f"{room}/setup", SETUP.encode()), f"{room}/log", put(f"{room}/empty", b"")
    for name, testers in (("bus", TESTERS), *((it.name, [it]) for it in TESTERS)):
        place = [it.name for it in TESTERS].index(name) if name != "bus" else 0
        words = ["bus", config, log] if name == "bus" else ["serial", config, *(log if it == place else empty for it in range(len(TESTERS)))]
        well, replies, faults = sorted_out(testers)
        put(log, "".join(map(line, well)).encode())
        status, out, tells = run(words)
        sent = [it.partition(") ")[2] for it in out.decode().splitlines() if it.startswith("(")]
        told((status, sent, tells) == (0, replies, b""), f"{len(well)} lines that are no fault, {len(replies)} with an answer: {name}", (status, sent, tells))
        wrong = {}
        # (of a log the faults are those of a capture but for the identifiers that it has, so some of them are enough)
        for frame, fault in list(faults.items())[:: 1 if name == "bus" else 17]:
            put(log, line(frame).encode())
            want = (3, b"", f"uds_play: {'capture' if name == 'bus' else f'log {place + 1}'} line 1: {fault}\n".encode())
            found = run(words)
            wrong.update({} if found == want else {frame: found})
        told(not wrong, f"lines that are a fault, of {len(faults)}: {name}", wrong)


# ---- recordings of other tools

# a bus of all three testers: a session, a long reply by each, other units, J1939, remote and error frames
RECORDING = [
    "7E0#021003", "7E8#065003003201F4CC", "18FEF100#FFFFFF00FFFFFFFF", "18DA10F1#021003", "18DAF110#037F1021CCCCCCCC",
    "18DA10F1#0322F190", "18DA10F1#300000", "18DAF110#101362F190303132", "20000080#0000000000000000", "18DA10F2#0322F190",
    "18DA11F1#021003", "18DA10F2#30000A", "000007E0#021001", "18DB33F1#023E00", "7DF#023E80", "7E0#023E00", "18DA10F1#R",
    "0CF00400#F07D8700000000FF", "18DB33F1#023E80", "7E0#0322F190", "7E0#300005", "123#", "00000000#00", "1FFFFFFF#0102030405060708",
]
FRAME = re.compile(r"\((\d+)\.(\d{3})\d*\) (\S+) ([0-9A-F]+#(?:#[0-9A-F])?[0-9A-F]*)(?: [RT])?")
# the forms that python-can writes and reads, by their suffixes
FORMS = ("blf", "asc", "trc", "csv")


def frames(text: str) -> list[tuple[int, str]]:
    """The data frames of a recording, each with its moment behind the first line's, in milliseconds; without remote
    frames, and error frames, of which the forms keep nothing but that there was one."""
    found = [it for it in map(FRAME.fullmatch, text.splitlines()) if it]
    first = int(found[0][1] + found[0][2]) if found else 0
    return [(int(it[1] + it[2]) - first, it[4]) for it in found if int(it[4].partition("#")[0], 16) <= 0x1FFFFFFF]


def replies(text: str) -> list[tuple[int, str, str]]:
    """The lines that the program wrote, with their moments behind the first one's."""
    found = [(int(it[1] + it[2]), it[3], it[4]) for it in map(FRAME.fullmatch, text.splitlines())]
    return [(at - found[0][0], name, frame) for at, name, frame in found]


def whole(path: str) -> str:
    with open(path, encoding="ascii") as it:
        return it.read()


def by_can_utils(path: str, room: str, names: list[str]) -> str:
    """The recording through log2asc and asc2log."""
    subprocess.run(["log2asc", "-I", path, "-O", f"{room}/utils.asc", *names], check=True, timeout=60, **packages.QUIET)
    subprocess.run(["asc2log", "-I", f"{room}/utils.asc", "-O", f"{room}/utils.log"], check=True, timeout=60, **packages.QUIET)
    return f"{room}/utils.log"


def by_python_can(path: str, room: str, form: str) -> str:
    """The recording through a form of python-can's."""
    import can  # pylint: disable=import-outside-toplevel

    for given, made in ((path, f"{room}/can.{form}"), (f"{room}/can.{form}", f"{room}/can.log")):
        with can.LogReader(given) as messages, can.Logger(made) as out:
            for it in messages:
                # (python-can writes no remote frame into a TRC)
                if not (it.is_remote_frame and form == "trc"):
                    out(it)
    return f"{room}/can.log"


@dataclass(frozen=True)
class Bus:
    """A setup, the frames of a recording, and how many the program writes of it."""

    setup: str
    frames: list[str]
    answers: int

    def names(self) -> list[str]:
        return re.findall('name = "(.*)"', self.setup)

    def recorded(self, room: str) -> tuple[str, str, str]:
        """The paths of the setup, of the recording, and of what the program writes of it."""
        config = put(f"{room}/setup", self.setup.encode())
        lines = "".join(f"(17638000{at // 100:02d}.{at % 100:02d}0250) can0 {frame}\n" for at, frame in enumerate(self.frames, 95))
        path = put(f"{room}/bus.log", lines.encode())
        return config, path, put(f"{room}/replies.log", run(["bus", config, path])[1])


BUS = Bus(SETUP, RECORDING, 14)


def through(tell: Tally, bus: Bus, room: str, name: str, convert) -> None:
    """The recording and what the program writes of it come back from another form as they went, and the program writes of
    what came back what it writes of the recording. `convert` has the path, and the names of the interfaces."""
    config, path, written = bus.recorded(room)
    tell(len(replies(whole(written))) == bus.answers, f"{name}: there are answers", whole(written))
    back = whole(convert(path, ["can0"]))
    tell(frames(back) == frames(whole(path)), f"{name}: the recording comes back", back)
    status, out, tells = run(["bus", config, put(f"{room}/back.log", back.encode())])
    tell((status, replies(out.decode()), tells) == (0, replies(whole(written)), b""), f"{name}: it is answered as before", (status, out, tells))
    back = whole(convert(written, bus.names()))
    tell(frames(back) == frames(whole(written)), f"{name}: what the program writes comes back", back)


def has_python_can() -> bool:
    if os.path.isdir(f"{DEBIAN}/can") and DEBIAN not in sys.path:
        sys.path.append(DEBIAN)
    try:
        import can  # pylint: disable=import-outside-toplevel,unused-import
    except ImportError:
        return False
    logging.getLogger("can").setLevel(logging.CRITICAL)
    return True


def others(room: str) -> None:
    if shutil.which("log2asc") or packages.install("can-utils", "addressing: can-utils is installed for its recordings"):
        through(told, BUS, room, "log2asc and asc2log", lambda path, names: by_can_utils(path, room, names))
    else:
        print("addressing: can-utils isn't there: its recordings aren't read", flush=True)
    if has_python_can() or (packages.install("python3-can", "addressing: python-can is installed for its recordings") and has_python_can()):
        for form in FORMS:
            through(told, BUS, room, f"python-can's {form}", lambda path, _, form=form: by_python_can(path, room, form))
    else:
        print("addressing: python-can isn't there: its recordings aren't read", flush=True)


# ---- who reads what the program writes


def by_scapy(room: str) -> None:
    """scapy's reader of recordings."""
    if not live_scapy.found():
        print("addressing: scapy isn't there: it reads nothing", flush=True)
        return
    from scapy.layers.can import rdcandump  # pylint: disable=import-outside-toplevel

    written = BUS.recorded(room)[2]
    found = [f"{it.identifier:0{8 if it.flags.extended else 3}X}#{bytes(it.data).hex().upper()}" for it in rdcandump(written)]
    told(found == [it[2] for it in replies(whole(written))], "scapy reads what the program writes", found)


def by_wireshark(room: str) -> None:
    """Wireshark opens what the program writes, has its identifiers as those of their kind, and finds the UDS messages in a
    recording with the answers among it."""
    if not shutil.which("tshark"):
        print("addressing: tshark (Wireshark) isn't there: it reads nothing", flush=True)
        return
    _, path, written = BUS.recorded(room)
    kinds = shown(written, "can.id", "can.flags.xtd", "data.data")
    found = [f"{int(number):0{8 if wide == '1' else 3}X}#{data.upper()}" for number, wide, data in kinds]
    told(found == [it[2] for it in replies(whole(written))], "Wireshark reads what the program writes", found)
    both = sorted((whole(path) + whole(written)).splitlines(keepends=True), key=lambda it: it[1:18])
    put(f"{room}/both.log", "".join(both).encode())
    uds = ["-d", "can.subdissector,iso15765", "-d", "iso15765.subdissector,uds", "-Y", "uds.reply == 1 && uds.rdbi.data_record"]
    values = {(int(number), value) for number, value in shown(f"{room}/both.log", "can.id", "uds.rdbi.data_record", more=uds)}
    want = {(it.response, "30313233343536373839414243444546") for it in TESTERS}
    told(values == want, "Wireshark finds the values that were read", values)


def shown(path: str, *names: str, more: Optional[list[str]] = None) -> list[list[str]]:
    """These fields of each frame that tshark shows of a recording."""
    fields = [word for name in names for word in ("-e", name)]
    ran = subprocess.run(["tshark", "-r", path, *(more or []), "-T", "fields", *fields], capture_output=True, timeout=120, text=True)
    return [it.split("\t") for it in ran.stdout.splitlines()]


def main() -> int:
    told.needs_program()
    told.in_rooms(each_rest, others, by_scapy, by_wireshark)
    return told.ended()


if __name__ == "__main__":
    sys.exit(main())
