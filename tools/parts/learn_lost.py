"""What a recording lacks: frames of a message of several, the unit's or a tester's; and lines that are out of order, or stand
twice. Nothing is learned of an exchange of which a frame is lost. For tools/learn.py; no part of what is proved."""
from bisect import bisect_left
from dataclasses import dataclass, field
from typing import Iterable, NamedTuple, Optional

from learn_frames import BLOCK, LENGTHS, length_of, message_at
from learn_judge import Exchange, Judge, Verdict, shortened

# the SequenceNumber after each, as their digits
BEHIND = dict(zip("0123456789ABCDEF", "123456789ABCDEF0"))


class Loss(NamedTuple):
    """A message that lacks a frame: where its first line begins in the recording, the identifier that sent it, the first four
    digits of the message, empty where they are lost, and the SequenceNumber of the ConsecutiveFrame that is missing, None where
    the FirstFrame is."""

    at: int
    identifier: str
    begin: str
    number: Optional[int]


@dataclass(slots=True)
class Open:
    """A message that is coming in: where its first line begins, its first four digits, how many bytes are wanted still, the
    next SequenceNumber as its digit, and whether the other side let them come."""

    at: int
    begin: str
    wanted: int
    number: str = "1"
    is_let: bool = False


@dataclass
class Losses:
    """Which messages of several frames lack one, or have one with another SequenceNumber; of each identifier its message that is coming
    in, and the kind of its latest frame. What the other side didn't let come lacks nothing."""

    found: list[Loss] = field(default_factory=list)
    open: dict[str, Open] = field(default_factory=dict)
    last: dict[str, str] = field(default_factory=dict)

    def take(self, at: int, identifier: str, data: str) -> None:
        """A frame, whose line begins there."""
        kind = data[:1]
        was = self.open.get(identifier)
        if was and kind == "2" and data[1] == was.number:
            self.go_on(was, identifier, len(data) // 2 - 1)
        elif kind in ("0", "1", "2"):
            self.break_off(at, identifier, kind)
            if kind == "1" and len(data) // 2 in LENGTHS:
                begin = message_at(data)
                self.open[identifier] = Open(at, data[begin : begin + 4], length_of(data) - len(data) // 2 + begin // 2)
            self.last[identifier] = kind

    def go_on(self, was: Open, identifier: str, size: int) -> None:
        """The next ConsecutiveFrame, with so many bytes at most."""
        was.wanted, was.number, was.is_let = was.wanted - size, BEHIND[was.number], True
        if was.wanted <= 0:
            del self.open[identifier]
        self.last[identifier] = "2"

    def break_off(self, at: int, identifier: str, kind: str) -> None:
        """A frame of this kind that isn't the next one of a message."""
        was = self.open.pop(identifier, None)
        if was and was.is_let:
            self.found.append(Loss(was.at, identifier, was.begin, int(was.number, 16)))
        elif not was and kind == "2" and self.last.get(identifier, "2") != "2":
            self.found.append(Loss(at, identifier, "", None))

    def ended_by(self, identifier: str, data: str) -> int:
        """How many bytes of its message a frame has that ends it; 0 of one that ends none."""
        was = self.open.get(identifier)
        is_next = was is not None and data[:1] == "2" and data[1] == was.number
        return was.wanted if is_next and was.wanted < len(data) // 2 else 0

    def let(self, identifier: str, data: str) -> None:
        """FlowControl for what this identifier sends."""
        was = self.open.get(identifier)
        if was and data[1:2] in ("0", "1"):
            was.is_let = True
        elif was:
            del self.open[identifier]

    def settle(self) -> None:
        """What is still coming in at the recording's end lacks a frame, too."""
        self.found += [Loss(it.at, identifier, it.begin, int(it.number, 16)) for identifier, it in self.open.items() if it.is_let]


@dataclass
class Order:
    """Whether frames are in order: where the lines begin whose stamps are less than that of a frame before, and those that say
    what the frame before says, with its stamp."""

    late: list[int] = field(default_factory=list)
    twice: list[int] = field(default_factory=list)
    latest: int = 0
    # the frame before, and its data
    last: tuple[int, str, str] = 0, "", ""
    data: str = ""

    def take(self, at: int, now: int, rest: str, identifier: str, data: str) -> None:
        """A frame, whose line begins there, with its moment in milliseconds and what its stamp has behind that."""
        if now < self.latest:
            self.late.append(at)
        else:
            self.latest = now
        if data == self.data and self.last == (now, rest, identifier):
            self.twice.append(at)
        self.data, self.last = data, (now, rest, identifier)

    def notes(self, lines: dict[int, int]) -> Iterable[str]:
        """What is told of it, by the numbers of these lines."""
        for found, what in (
            (self.late, "frames whose stamps are less than one before"),
            (self.twice, "frames that repeat the one before, with its stamp"),
        ):
            if found:
                yield f"note: {what}: {len(found)}, the first is line {lines[found[0]]}"


def lines_at(path: str, places: Iterable[int]) -> dict[int, int]:
    """The numbers of the lines that begin at these places of a file."""
    found, left, line, begin = {}, sorted(set(places)), 1, 0
    with open(path, "rb") as it:
        while len(found) < len(left) and (block := it.read(BLOCK)):
            at = 0
            while len(found) < len(left) and left[len(found)] < begin + len(block):
                place = left[len(found)] - begin
                line += block.count(b"\n", at, place)
                found[begin + place], at = line, place
            line += block.count(b"\n", at)
            begin += len(block)
    return found


# ---- which exchanges they are of


@dataclass(frozen=True)
class Lost:
    """A message that lacks a frame: its first line, the place of its tester, whether it is the tester's request, and the rest
    as a loss has it."""

    line: int
    place: int
    is_request: bool
    begin: str
    number: Optional[int]

    def told(self, of: Optional[Exchange], name: str) -> str:
        """What is missing, in words, and of what exchange."""
        frame = "the FirstFrame" if self.number is None else f"a ConsecutiveFrame (SequenceNumber {self.number:X})"
        if self.is_request:
            rest = f"nothing is learned of the answer at line {of.line}"
            return f"line {self.line}: {frame} of a request of {name} is missing: {rest}"
        rest = f"nothing is learned of {shortened(of.request.hex().upper())} at line {of.line}" if of else "nobody asked for it"
        return f"line {self.line}: {frame} of a message to {name} is missing: {rest}"


def lost_of(losses: Losses, lines: dict[int, int], pairs: Iterable[tuple[str, str]]) -> list[Lost]:
    """The losses with their lines, in their order, of these pairs of a request and a response identifier."""
    places = {it: (place, it == pair[0]) for place, pair in enumerate(pairs) for it in pair}
    found = sorted(losses.found, key=lambda it: it.at)
    return [Lost(lines[it.at], *places[it.identifier], it.begin, it.number) for it in found]


def answers(begin: str, request: bytes) -> bool:
    """Whether a message that begins so may answer a request."""
    first = bytes.fromhex(begin)
    return not first or first[0] == request[0] + 0x40 or first[0] == 0x7F and first[1:2] == request[:1]


def exchange_of(lost: Lost, own: list[Exchange]) -> Optional[Exchange]:
    """The exchange of which a frame is lost, of those of its tester: the latest request that the message may answer, where it has
    no other answer; of a request what answers it, which then nobody asked for."""
    at = bisect_left(own, lost.line, key=lambda it: it.line)
    if lost.is_request:
        asked = bytes.fromhex(lost.begin)
        later = (own[place] for place in range(at, len(own)))
        return next((it for it in later if it.kind == "U" and asked and answers(it.sent[:2].hex(), asked)), None)
    # (no copy of what was asked before: there may be many losses in a long recording)
    before = (own[place] for place in range(at - 1, -1, -1))
    found = next((it for it in before if it.request and answers(lost.begin, it.request)), None)
    return found if found is not None and found.sent is None else None


def knowing(judge: Judge, lost: list[Lost]) -> Judge:
    """A judge that knows which exchanges lack a frame: these neither agree nor differ."""

    def judged(setup: str) -> Verdict:
        verdict = judge(setup)
        by_place: dict[int, list[Exchange]] = {}
        for it in verdict.exchanges:
            by_place.setdefault(it.place, []).append(it)
        for it in lost:
            of = exchange_of(it, by_place.get(it.place, []))
            # (a request that nothing answers was left off by its tester)
            if of is not None or not it.is_request:
                verdict.lost.append((it, of))
            if of is not None:
                of.is_lost = True
        return verdict

    return judged if lost else judge
