"""The judge of what was learned: `compare` of the program, which says of each exchange of the recording whether a setup
answers it so. For tools/learn.py; no part of what is proved."""
import subprocess
from sys import intern
from dataclasses import dataclass, field
from typing import TYPE_CHECKING, Callable, Iterable, Optional

if TYPE_CHECKING:
    from learn_lost import Lost

AGREES, BAD_SETUP, DIFFERS, NOTHING = 0, 2, 8, 9
# the most digits of a message that is told
MOST_DIGITS = 64


def shortened(digits: str) -> str:
    """A message's digits, of many the first ones and how many bytes there are."""
    return digits if len(digits) <= MOST_DIGITS else f"{digits[: MOST_DIGITS - 16]}.. ({len(digits) // 2} bytes)"


@dataclass(slots=True)
class Exchange:
    """A request of a tester, or a message that nobody asked, where the request is empty: its line, its moment in
    milliseconds, the tester's place from 0 and its name, `P`, `F` or `U`; what the unit sent, None for nothing; what was
    expected, as it is told; how long the answer took; and how often response pending came before it."""

    line: int
    at: int
    place: int
    name: str
    kind: str
    request: bytes
    sent: Optional[bytes]
    expected: str
    wait: int
    pendings: int
    # whether a frame of it isn't in the recording: then nothing is known of it
    is_lost: bool = False

    def differs(self) -> bool:
        return self.expected not in ("=", "~") and not self.is_lost

    def told(self) -> str:
        """The difference in words."""
        sent = "nothing" if self.sent is None else shortened(self.sent.hex().upper())
        expected = "nothing" if self.expected == "-" else shortened(self.expected)
        asked = "which nobody asked for" if self.kind == "U" else f"to {shortened(self.request.hex().upper())}, expected {expected}"
        return f"line {self.line}: {self.name} was sent {sent} {asked}"


@dataclass
class Verdict:
    """What the judge says of a setup: its exchanges in the order of their lines, the status, and its notes; and the messages
    that lack a frame, each with its exchange, None where it has none."""

    exchanges: list[Exchange]
    status: int
    notes: str = ""
    lost: list[tuple["Lost", Optional[Exchange]]] = field(default_factory=list)

    def differing(self) -> list[Exchange]:
        return [it for it in self.exchanges if it.differs()]


class Refused(Exception):
    """The program doesn't take the recording, or the setup; with its status, what it tells, its notes too, and the setup."""

    def __init__(self, status: int, told: str, setup: str):
        super().__init__(told)
        self.status, self.told, self.setup = status, told, setup


# what judges a setup, by its text
Judge = Callable[[str], Verdict]


class Messages(dict):
    """Messages by their digits, each read once; None of a dash."""

    def __missing__(self, digits: str) -> Optional[bytes]:
        found = self[digits] = None if digits == "-" else bytes.fromhex(digits)
        return found


def read_exchanges(lines: Iterable[str], names: Iterable[str]) -> list[Exchange]:
    """The exchanges of the lines that `compare` wrote, in the order of the recording's lines."""
    places = {name: place for place, name in enumerate(names)}
    found, messages = [], Messages()
    for text_of_one in lines:
        parts = text_of_one.split(" ")
        if len(parts) == 9:
            line, stamp, name, kind, request, sent, expected, wait, pendings = parts
            at = int(stamp[:-7] + stamp[-6:-3])
            asked, waited = messages[request] or b"", 0 if wait == "-" else int(wait)
            found.append(Exchange(int(line), at, places[name], name, kind, asked, messages[sent], intern(expected), waited, int(pendings)))
    found.sort(key=lambda it: (it.line, it.place))
    return found


class Program:
    """`compare` of the built program, on a recording, or on one interface of it."""

    def __init__(self, program: str, capture: str, room: str, names: list[str], interface: Optional[str] = None):
        self.program, self.capture, self.room, self.names = program, capture, room, names
        self.flags = [] if interface is None else [f"--interface={interface}"]

    def __call__(self, setup: str) -> Verdict:
        path = f"{self.room}/setup.toml"
        with open(path, "w", encoding="utf-8") as it:
            it.write(setup)
        with open(f"{self.room}/told", "w+", encoding="utf-8", errors="replace") as told:
            words = [self.program, "compare", *self.flags, path, self.capture]
            with subprocess.Popen(words, stdout=subprocess.PIPE, stderr=told, encoding="utf-8") as child:
                found = read_exchanges(child.stdout, self.names)
            told.seek(0)
            # (no file of this tool's own is named)
            notes = told.read().strip().replace(path, "the setup learned").replace(f"{self.room}/capture.log", "the recording")
            notes = notes.replace(": the setup comes first, then the recording", "")
        if child.returncode not in (AGREES, DIFFERS, NOTHING):
            raise Refused(child.returncode, notes, setup)
        return Verdict(found, child.returncode, notes)
