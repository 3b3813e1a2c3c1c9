"""The exchanges of a recording: which message of the unit answers which request, whether it is what the server replies,
and what `compare` has to write. The slow reading of it: each question is asked of whole lists, and nothing is kept from
one line to the next (docs/DEFINITIONS.md, Exchanges of a recording). What the server replies is read from the journal that
`bus --journal` writes. For test/compare.py and for tests; no part of what is proved."""
import math
import tomllib
from dataclasses import dataclass, replace
from typing import Optional

import uds_link
import uds_run
from uds_link import FIRST, SINGLE, begun, bus_events, is_a, moments_of, reception, steps
from uds_rules import fits, pattern_of

# a listener takes the longest message, and waits so long for its next frame, in milliseconds
LONGEST, PATIENCE = 65535, 60000


# ---- the setup


@dataclass
class Setup:
    """A setup as the links have it, and what isn't compared: the identifiers whose values vary, the levels whose seeds
    do, and the patterns of requests that are ignored."""

    link: uds_link.Setup
    values: set[int]
    seeds: set[int]
    ignore: list[tuple]

    @property
    def names(self) -> list[str]:
        return [name for name, _, _ in self.link.testers]


def read_setup(text: str) -> Setup:
    tree = tomllib.loads(text)
    return Setup(
        uds_link.read_setup(text),
        {it["id"] for it in tree.get("did", []) if it.get("varies", False)},
        {it["sub"] for it in tree.get("level", []) if it.get("varies", False)},
        [pattern_of(it) for it in tree.get("ignore", [])],
    )


# ---- requests, and what the server makes of them


def says_pending(data: bytes) -> bool:
    """Whether a message is response pending."""
    return len(data) == 3 and data[0] == 0x7F and data[2] == 0x78


@dataclass(frozen=True)
class Expected:
    """The server's reply, or None; for each of its bytes whether any will do, and whether it is shown as `??`; whether the
    reply is the model's own; and whether the request is ignored."""

    reply: Optional[bytes]
    free: tuple[bool, ...]
    hidden: tuple[bool, ...]
    is_own: bool
    is_ignored: bool

    def is_loud(self) -> bool:
        return self.reply is not None and not says_pending(self.reply)


@dataclass(frozen=True)
class Request:
    """A request: the line that completed it, from 1; `P` or `F`; its bytes, and what the server makes of it."""

    line: int
    kind: str
    data: bytes
    expected: Expected

    def is_loud(self) -> bool:
        return self.expected.is_loud()

    def replaces(self, earlier: "Request") -> bool:
        """Whether it has the first byte of the earlier one, and isn't silent behind a loud one."""
        return self.data[0] == earlier.data[0] and (self.is_loud() or not earlier.is_loud())


def free_bytes(setup: Setup, entry: uds_run.Entry) -> tuple[bool, ...]:
    """Of each byte of the model's own reply whether any will do."""
    request, reply = entry.request, entry.reply
    if reply is None or reply[0] == 0x7F:
        return ()
    if request[0] == 0x22:
        return free_values(setup, reply)
    is_seed = request[0] == 0x27 and reply[1] % 2 == 1
    return (False, False, *[is_seed and reply[1] in setup.seeds] * (len(reply) - 2))


def free_values(setup: Setup, reply: bytes) -> tuple[bool, ...]:
    """The same of a reply to 22: each identifier, and its value as long as the setup has it."""
    found = [False]
    while len(found) < len(reply):
        identifier = int.from_bytes(reply[len(found) : len(found) + 2], "big")
        found += [False, False, *[identifier in setup.values] * setup.link.unit.lengths[identifier]]
    return tuple(found)


def expected_of(setup: Setup, session: uds_run.Session, entry: uds_run.Entry) -> Expected:
    """What the server makes of a request, in the session before it."""
    at = session.deciding(entry)
    row = None if at is None else setup.link.unit.rows[at]
    is_own = row is None or row.reply is None
    free, hidden = (), ()
    if is_own:
        free = free_bytes(setup, entry)
    elif not session.is_past(row, entry):
        free = hidden = tuple(it == "??" for it in row.template(session.next[at]))
    is_ignored = any(fits(*it, entry.request) for it in setup.ignore)
    return Expected(entry.reply, free, hidden, is_own, is_ignored)


def lines_of(setup: uds_link.Setup, lines: list[str]) -> list[list[int]]:
    """Of each tester the lines, from 1, that complete its requests."""
    found = []
    by_line = bus_events(setup, lines)
    for place in range(len(setup.testers)):
        own = [(number, event) for number, pairs in enumerate(by_line, 1) for who, event in pairs if who == place]
        given = steps(setup, [event for _, event in own])
        found.append([number for (number, _), step in zip(own, given) if step and step[0] != "T"])
    return found


def requests(setup: Setup, lines: list[str], entries: list[uds_run.Entry]) -> list[list[Request]]:
    """The requests of each tester, in order. `entries` are those of the journal of the run on these lines."""
    at_lines = [iter(it) for it in lines_of(setup.link, lines)]
    session, found = uds_run.Session(setup.link.unit), [[] for _ in at_lines]
    for entry in entries:
        if entry.kind != "T":
            expected = expected_of(setup, session, entry)
            found[entry.place].append(Request(next(at_lines[entry.place]), entry.kind, entry.request, expected))
        session.take(entry)
    return found


# ---- messages of the unit


@dataclass(frozen=True)
class Message:
    """What the unit sent, from the line of its first frame on: the bytes of this frame; the lines after which more of it
    is to come; and, of one that was completed, the line and all its bytes, else None twice."""

    first: int
    begin: bytes
    coming: frozenset[int]
    last: Optional[int]
    data: Optional[bytes]


def unit_side(setup: uds_link.Setup, place: int) -> uds_link.Setup:
    """The links' setup of a listener that takes the unit's frames to a tester as physical ones."""
    name, request, response = setup.testers[place]
    side = {"testers": [(name, response, request)], "functionals": [None], "fds": [setup.fds[place]]}
    return replace(setup, **side, most=LONGEST, n_cr=PATIENCE)


def messages(setup: Setup, lines: list[str], place: int) -> list[Message]:
    """The messages of the unit to a tester, and those that it began, in order."""
    side = unit_side(setup.link, place)
    by_line = [[event for _, event in pairs] for pairs in bus_events(side, lines)]
    log = [event for events in by_line for event in events]
    moments, places = moments_of(side, log)
    given = steps(side, log)
    line_at = {at: number for at, number in zip(places, (n for n, events in enumerate(by_line, 1) for _ in events))}
    starts = [at for at in places if is_a(moments[at][1], SINGLE, FIRST)]
    ended = {begun(moments, at): (line_at[at], step[1]) for at, step in zip(places, given) if step and step[0] == "P"}
    open_after = unfinished(side, by_line, moments, places)
    found = []
    for at in starts:
        coming = frozenset(number for number, start in open_after.items() if start == at)
        begin = moments[at][1][1] if is_a(moments[at][1], SINGLE) else moments[at][1][2]
        found.append(Message(line_at[at], begin, coming, *ended.get(at, (None, None))))
    return found


def unfinished(side: uds_link.Setup, by_line: list[list], moments: list[tuple], places: list[int]) -> dict[int, int]:
    """For each line after which a message is coming in, the moment at which that began."""
    found, events = {}, 0
    for number, here in enumerate(by_line, 1):
        events += len(here)
        now = places[events - 1] if events else 0
        is_open = reception(side, moments, now)
        if is_open and not is_open.is_whole():
            found[number] = begun(moments, now)
    return found


# ---- which message answers which request


def begins_as(message: bytes, reply: bytes) -> bool:
    """Whether a message has the first byte of a reply, where that is 7F its first two."""
    return message[:2] == reply[:2] if reply[:1] == b"\x7f" else message[:1] == reply[:1]


def may_answer(message: bytes, request: Request) -> bool:
    """Whether a message that begins so fits the request: as a positive or a negative response, or as the server's."""
    sid, reply = request.data[0], request.expected.reply
    is_positive = message[0] == sid + 0x40 and message[0] != 0x7F
    return is_positive or message[:2] == bytes([0x7F, sid]) or (reply is not None and begins_as(message, reply))


def is_final(message: Message) -> bool:
    """Whether a message is whole, and not response pending."""
    return message.data is not None and not says_pending(message.data)


def candidates(asked: list[Request], before: list[tuple[Message, Optional[int]]], message: Message) -> list[int]:
    """The requests, by their places, that a message may answer; `before` are the messages before it, each with the place
    of the request that it answers."""
    answered = {at for it, at in before if is_final(it)}
    there = [at for at, it in enumerate(asked) if it.line < message.first]
    return [
        at
        for at in there
        if at not in answered
        and may_answer(message.begin, asked[at])
        and not any(asked[it].replaces(asked[at]) for it in there if it > at)
    ]


def answered_by(asked: list[Request], heard: list[Message]) -> list[Optional[int]]:
    """Of each message the place of the request that it answers, or would if it were whole; None where nobody asked."""
    found = []
    for it in heard:
        may = candidates(asked, list(zip(heard, found)), it)
        loud = [at for at in may if asked[at].is_loud()]
        found.append(max(loud, default=max(may, default=None)))
    return found


# ---- exchanges


@dataclass(frozen=True)
class Exchange:
    """A request with what answered it, or a message that nobody asked, where the request is None. `over` is the line
    with which it is over, math.inf where that is the end."""

    place: int
    request: Optional[Request]
    answer: Optional[Message]
    pendings: int
    over: float

    @property
    def line(self) -> int:
        return self.request.line if self.request else self.answer.first

    @property
    def is_ignored(self) -> bool:
        return self.request is not None and self.request.expected.is_ignored

    def agrees(self) -> bool:
        if self.request is None:
            return False
        return self.is_ignored or is_reply(self.request.expected, self.answer.data if self.answer else None)

    def is_compared(self) -> bool:
        """Whether there is a message of the unit to compare, response pending included."""
        return not self.is_ignored and (self.answer is not None or self.pendings > 0)


def is_reply(expected: Expected, sent: Optional[bytes]) -> bool:
    """Whether what the unit sent, or None, is the server's reply, but for what varies."""
    if not expected.is_loud():
        return sent is None
    if sent is None:
        return False
    reply = expected.reply
    free = [*expected.free, *[False] * len(reply)]
    is_same = len(sent) == len(reply) and all(any_one or one == other for any_one, one, other in zip(free, sent, reply))
    return is_same or (expected.is_own and has_same_records(sent, reply))


def has_same_records(sent: bytes, reply: bytes) -> bool:
    """Whether both are a list of DTCs with the same records, in any order."""
    return reply[:2] in (b"\x59\x02", b"\x59\x0a") and sent[:3] == reply[:3] and records(sent) == records(reply)


def records(data: bytes) -> list[bytes]:
    return sorted(data[at : at + 4] for at in range(3, len(data), 4))


def over_line(asked: list[Request], at: int, own: list[Message], last_line: int) -> float:
    """The first line at which an exchange is over; `own` are the messages that answer its request."""
    request = asked[at]
    answer = next((it for it in own if is_final(it)), None)
    closing = [it.line for it in asked[at + 1 :] if it.replaces(request) or (answer and answer.last < it.line)]
    coming = set().union(*(it.coming for it in own))
    return next((it for it in range(min(closing), last_line + 1) if it not in coming), math.inf) if closing else math.inf


def exchanges_of(setup: Setup, lines: list[str], asked: list[Request], place: int) -> list[Exchange]:
    """The exchanges of a tester whose requests these are."""
    heard = messages(setup, lines, place)
    answers = answered_by(asked, heard)
    found = [
        Exchange(place, None, it, 0, it.last) for it, at in zip(heard, answers) if at is None and it.data is not None
    ]
    for at, request in enumerate(asked):
        own = [it for it, of in zip(heard, answers) if of == at]
        answer = next((it for it in own if is_final(it)), None)
        pendings = sum(it.data is not None and says_pending(it.data) for it in own)
        found.append(Exchange(place, request, answer, pendings, over_line(asked, at, own, len(lines))))
    return found


def exchanges(setup: Setup, lines: list[str], entries: list[uds_run.Entry]) -> list[Exchange]:
    """All exchanges, in the order in which they are told."""
    found = []
    for place, asked in enumerate(requests(setup, lines, entries)):
        found += exchanges_of(setup, lines, asked, place)
    return sorted(found, key=lambda it: (it.over, it.line, it.place))


# ---- the text


def clocks(lines: list[str]) -> list[int]:
    """What each tester's clock tells after each line, in milliseconds."""
    found, reference, now = [], None, 0
    for line in lines:
        stamp = uds_link.STAMP.match(line)
        if line.startswith("tick"):
            now += uds_link.ticks_of(line)
        elif stamp:
            moment = int(stamp[1] + stamp[2])
            now += 0 if reference is None else max(0, moment - reference)
            reference = max(moment, reference or 0)
        found.append(now)
    return found


def stamp_text(ms: int) -> str:
    return f"{ms // 1000:010d}.{ms % 1000:03d}000"


def shown(expected: Expected) -> str:
    """The server's reply as it is told."""
    if expected.reply is None:
        return "-"
    hidden = [*expected.hidden, *[False] * len(expected.reply)]
    return "".join("??" if hide else f"{it:02X}" for hide, it in zip(hidden, expected.reply))


def expected_text(it: Exchange) -> str:
    if it.request is None:
        return "-"
    return "~" if it.is_ignored else "=" if it.agrees() else shown(it.request.expected)


class Telling:
    """How the exchanges of some lines are told."""

    def __init__(self, setup: Setup, lines: list[str]):
        self.names = setup.names
        self.clocks = clocks(lines)
        self.start, self.before = uds_link.beginning(lines)

    def clock(self, line: int) -> int:
        return self.clocks[line - 1]

    def line(self, it: Exchange) -> str:
        """The line of an exchange."""
        waited = self.clock(it.answer.first) - self.clock(it.line) if it.request and it.answer else "-"
        return " ".join(
            [
                str(it.line),
                stamp_text(self.clock(it.line) - self.before + self.start),
                self.names[it.place],
                it.request.kind if it.request else "U",
                it.request.data.hex().upper() if it.request else "-",
                it.answer.data.hex().upper() if it.answer else "-",
                expected_text(it),
                str(waited),
                str(it.pendings),
            ]
        )


def written_of(setup: Setup, lines: list[str], every: list[Exchange], differences: bool, is_whole: bool) -> tuple[int, str]:
    """What `compare` writes of these exchanges, and its status."""
    telling = Telling(setup, lines)
    told = [it for it in every if (is_whole or it.over < math.inf) and not (differences and it.agrees())]
    text = "".join(f"{telling.line(it)}\n" for it in told)
    if not is_whole:
        return 3, text
    for place, name in enumerate(setup.names):
        own = [it for it in every if it.place == place]
        text += f"{name} {len(own)} exchanges, {sum(not it.agrees() for it in own)} differ\n"
    if not all(it.agrees() for it in every):
        return 8, text
    is_nothing = not any(it.is_compared() for it in every)
    return (9, text + "nothing compared\n") if is_nothing else (0, text)


def read(setup: Setup, lines: list[str], journal: str) -> list[Exchange]:
    """All exchanges of these lines, with `bus --journal`'s text of them."""
    return exchanges(setup, lines, uds_run.read_run(setup.link.unit, [("journal", journal)]).entries)


def compared(
    setup: Setup, lines: list[str], journal: str, differences: bool = False, is_whole: bool = True
) -> tuple[int, str]:
    """What `compare` writes of these lines, with `bus --journal`'s text of them, and its status. Where the capture has a
    fault behind them, it isn't whole: then the status is 3, and what is open isn't told."""
    return written_of(setup, lines, read(setup, lines, journal), differences, is_whole)
