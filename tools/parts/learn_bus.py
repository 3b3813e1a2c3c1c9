"""What a recording tells of the bus before any message is looked at: which identifiers belong together, and how the unit
and its testers send their frames. For tools/learn.py; no part of what is proved."""
import re
from collections import Counter, defaultdict
from dataclasses import dataclass, field, replace
from typing import Iterable, Optional

from learn_frames import LENGTHS, frames_of, length_of, message_at
from learn_lost import Losses, Order
from uds_names import OTHERS, SERVICES

# a request's answer comes within a second
ANSWER_MS = 1000
# an answer has to be seen so often, and to so great a part of the requests, before two identifiers are taken for a pair
LEAST_ANSWERS, LEAST_PART = 2, 0.5
# the most bytes of a line, with its end
LONGEST_LINE = 4098
# the most testers of a setup
MOST_TESTERS = 8
PAIR = re.compile(
    r"(?:0x)?(?P<request>[0-9A-F]{3}|[0-9A-F]{8}):(?:0x)?(?P<response>[0-9A-F]{3}|[0-9A-F]{8})"
    r"(?::(?:0x)?(?P<functional>[0-9A-F]{3}|[0-9A-F]{8}))?(?P<fd>:fd)?(?:=(?P<name>[A-Z0-9_]{1,16}))?",
    re.IGNORECASE | re.ASCII,
)
# how a SingleFrame or a FirstFrame begins, one of more than 8 bytes too
BEGINNING = "0[1-7]|00(?:0[89A-F]|[12][0-9A-F]|3[0-9A-E])|1[0-9A-F][0-9A-F]{2}"
REQUESTS = {f"{sid:02X}": f"{sid:02X}" for sid in [*SERVICES, *OTHERS]}
POSITIVES = {f"{sid + 0x40:02X}": f"{sid:02X}" for sid in [*SERVICES, *OTHERS] if sid < 0xBF}
# functional identifiers of ISO 15765-4
FUNCTIONAL, FUNCTIONAL_29 = 0x7DF, 0x18DB33F1
USUAL_FUNCTIONAL = (f"{FUNCTIONAL:03X}", f"{FUNCTIONAL_29:08X}")
# services of OBD (ISO 15031-5), which count on the identifiers of ISO 15765-4 alone: other traffic looks like them
OBD = range(1, 11)
OBD_REQUESTS = {f"{sid:02X}" for sid in OBD}
OBD_POSITIVES = {f"{sid + 0x40:02X}": f"{sid:02X}" for sid in OBD}
USUAL_REQUESTS = {*USUAL_FUNCTIONAL, *(f"{it:03X}" for it in range(0x7E0, 0x7E8)), *(f"18DA{it:02X}F1" for it in range(256))}
USUAL_RESPONSES = {*(f"{it:03X}" for it in range(0x7E8, 0x7F0)), *(f"18DAF1{it:02X}" for it in range(256))}


@dataclass(frozen=True)
class Pair:
    """The identifiers of a tester's requests and of the unit's answers to it, and the tester's name. Of 29 bits where
    `is_extended`; they talk by CAN FD where `is_fd`. The tester's own functional identifier, None where it has that of all."""

    request: int
    response: int
    is_extended: bool = False
    name: str = ""
    is_fd: bool = False
    functional: Optional[int] = None

    def texts(self) -> tuple[str, str]:
        """Its identifiers as lines have them."""
        wide = 8 if self.is_extended else 3
        return f"{self.request:0{wide}X}", f"{self.response:0{wide}X}"

    def functional_text(self) -> str:
        """Its own functional identifier as lines have it, empty where it has none."""
        return "" if self.functional is None else f"{self.functional:0{8 if self.is_extended else 3}X}"

    def shown(self) -> str:
        return ":".join(self.texts())

    def is_usual(self) -> bool:
        """Whether it is a pair of ISO 15765-4."""
        if self.is_extended:
            # normal fixed addressing: target and source change their places
            is_fixed = self.request >> 16 == self.response >> 16 == 0x18DA
            return is_fixed and self.request & 0xFF == self.response >> 8 & 0xFF and self.request >> 8 & 0xFF == self.response & 0xFF
        return 0x7E0 <= self.request <= 0x7E7 and self.response == self.request + 8


def pair_of(text: str) -> Pair:
    """The pair that the command line gives as REQUEST:RESPONSE[:FUNCTIONAL][:fd][=NAME]. ValueError where it is none."""
    found = PAIR.fullmatch(text)
    own = [it for it in (found["request"], found["response"], found["functional"]) if it] if found else []
    if not found or len(set(map(len, own))) > 1:
        raise ValueError(
            f"{text}: it is REQUEST:RESPONSE[:FUNCTIONAL][:fd][=NAME], with identifiers of 3 hex digits, or of 8, and a name of 1 to 16 ASCII letters, digits or _"
        )
    request, response, *functional = (int(it, 16) for it in own)
    return Pair(request, response, len(own[0]) == 8, found["name"] or "", bool(found["fd"]), functional[0] if functional else None)


# ---- which identifiers belong together


@dataclass
class Sight:
    """What was seen of requests and answers: how often an identifier asked, how often another one answered it, which
    identifiers sent TesterPresent without wanting a reply, and which ones sent frames of CAN FD."""

    asked: Counter = field(default_factory=Counter)
    answered: Counter = field(default_factory=Counter)
    present: Counter = field(default_factory=Counter)
    by_fd: set[str] = field(default_factory=set)

    def joined(self, pair: Pair) -> Pair:
        """A pair that is one of CAN FD, too, where a frame of it was."""
        return replace(pair, is_fd=pair.is_fd or not self.by_fd.isdisjoint(pair.texts()))


def look(blocks: Iterable[str], interface: Optional[str] = None) -> Sight:
    """Looks at all frames that can be a SingleFrame, or the FirstFrame of an answer."""
    sight, recent = Sight(), defaultdict(dict)
    for now, identifier, data, flags, *_ in frames_of(blocks, "[0-9A-F]{3}|[0-9A-F]{8}", BEGINNING, interface):
        at = message_at(data)
        if not at:
            continue
        if flags:
            sight.by_fd.add(identifier)
        first = data[at : at + 2]
        if first in REQUESTS or (first in OBD_REQUESTS and identifier in USUAL_REQUESTS):
            sight.asked[identifier] += 1
            recent[first][identifier] = now
            if data[at : at + 4] == "3E80":
                sight.present[identifier] += 1
        asking = asked_by(recent.get(service_of(identifier, data[at:])), identifier, now)
        if asking:
            sight.answered[asking, identifier] += 1
    return sight


def service_of(identifier: str, message: str) -> Optional[str]:
    """The service that a message answers, as digits; None where it answers none."""
    first = message[:2]
    if first == "7F":
        return message[2:4]
    return POSITIVES.get(first) or (OBD_POSITIVES.get(first) if identifier in USUAL_RESPONSES else None)


def asked_by(recent: Optional[dict[str, int]], identifier: str, now: int) -> Optional[str]:
    """The identifier that asked last, and not long ago, what a frame of this one answers."""
    if not recent:
        return None
    found = [(at, asking) for asking, at in recent.items() if asking != identifier and 0 <= now - at <= ANSWER_MS]
    return max(found)[1] if found else None


def pairs_of(sight: Sight) -> list[Pair]:
    """The pairs, the usual ones first, then by how often they were seen; each identifier is of one pair."""
    found, taken = [], set()
    for (request, response), count in sorted(sight.answered.items(), key=rank):
        it = Pair(int(request, 16), int(response, 16), len(request) == 8)
        if request in taken or response in taken or len(request) != len(response) or is_functional(sight, request, taken):
            continue
        if it.is_usual() or (count >= LEAST_ANSWERS and count >= LEAST_PART * sight.asked[request]):
            found.append(it)
            taken |= {request, response}
    found += [it for it in asked_functionally(sight) if not taken & set(it.texts())]
    usual = sorted((it for it in found if it.is_usual()), key=lambda it: (it.is_extended, it.request))
    return usual + [it for it in found if not it.is_usual()]


def asked_functionally(sight: Sight) -> list[Pair]:
    """The usual pairs of those that answered a usual functional identifier."""
    answers = {asking: sorted(it for other, it in sight.answered if other == asking) for asking in USUAL_FUNCTIONAL}
    narrow, wide = (answers[it] for it in USUAL_FUNCTIONAL)
    found = [Pair(int(it, 16) - 8, int(it, 16)) for it in narrow if it in USUAL_RESPONSES]
    fixed = (int(it, 16) for it in wide if len(it) == 8)
    return found + [it for it in (Pair(changed_places(response), response, True) for response in fixed) if it.is_usual()]


def changed_places(number: int) -> int:
    """An identifier of normal fixed addressing with its target and its source changed."""
    return number & 0x1FFF0000 | (number & 0xFF) << 8 | number >> 8 & 0xFF


def rank(seen: tuple[tuple[str, str], int]) -> tuple[bool, int, tuple[str, str]]:
    (request, response), count = seen
    return not Pair(int(request, 16), int(response, 16), len(request) == 8).is_usual(), -count, (request, response)


def is_functional(sight: Sight, request: str, taken: set[str]) -> bool:
    """Whether several answer an identifier, or one that has a pair of its own: then it asks all."""
    if int(request, 16) in (FUNCTIONAL, FUNCTIONAL_29):
        return True
    answers = {response: count for (asking, response), count in sight.answered.items() if asking == request}
    most = max(answers.values())
    return any(it in taken for it, count in answers.items() if count == most) or sum(2 * it > most for it in answers.values()) > 1


def is_of_another(sight: Sight, request: str, responses: set[str]) -> bool:
    """Whether an identifier asks one unit, which isn't the one with these response identifiers: by ISO 15765-4, or since
    another response identifier alone answers it."""
    if request.startswith("18DA") or 0x7E0 <= int(request, 16) <= 0x7E7:
        return True
    return any(asking == request for asking, _ in sight.answered) and not is_functional(sight, request, responses)


def functional_of(sight: Sight, pairs: list[Pair], is_extended: bool = False) -> Optional[int]:
    """The functional identifier of 11 bits, or of 29: of those that are of no pair, nor another unit's, the one that says
    TesterPresent to all, or that the unit answers, most often; the usual one first. None where no tester of this kind has
    one."""
    own = {it for pair in pairs for it in (*pair.texts(), pair.functional_text())}
    responses = {it.texts()[1] for it in pairs if it.is_extended == is_extended and it.functional is None}
    usual = USUAL_FUNCTIONAL[is_extended]
    count = Counter({it: many for it, many in sight.present.items() if responses and it not in own and len(it) == len(usual)})
    for (request, response), many in sight.answered.items():
        if request not in own and response in responses and len(request) == len(usual) and sight.asked[request] <= 2 * many:
            count[request] += many
    left = [it for it in count if not is_of_another(sight, it, responses)]
    if usual in left or not left:
        return int(usual, 16) if usual in left else None
    return int(max(left, key=lambda it: (count[it], it)), 16)


def end_of(path: str) -> Optional[int]:
    """The stamp of a recording's last line in milliseconds; None where it has none."""
    with open(path, "rb") as it:
        it.seek(max(0, it.seek(0, 2) - LONGEST_LINE))
        last = it.read().rstrip(b"\r\n").rpartition(b"\n")[2]
    found = re.match(rb"\((\d{1,12})\.(\d{3})", last)
    return int(found[1] + found[2]) if found else None


# ---- how they send


@dataclass
class Sending:
    """How the unit and its testers send: the padding byte, None for none; block size and STmin of the unit's flow control, and how
    often it had which;
    the longest request that it didn't refuse by that, and the shortest that it did, None where it refused none; the longest
    time within a request, and that for which an answer waited for flow control, in milliseconds; which messages lack a frame,
    and which lines are out of order; when it sent FlowControl wait; and of its frames of CAN FD the length of FirstFrames, the
    flags, and the byte that fills those of more than 8 bytes, None where none was seen."""

    pad: Optional[int] = 0xCC
    block_size: int = 0
    st_min: int = 0
    flows: Counter = field(default_factory=Counter)
    longest: int = 0
    too_long: Optional[int] = None
    n_cr: int = 0
    n_bs: int = 0
    losses: Losses = field(default_factory=Losses)
    order: Order = field(default_factory=Order)
    paused: list[int] = field(default_factory=list)
    tx_dl: Optional[int] = None
    flags: int = 1
    fill: Optional[int] = None


def sending_of(blocks: Iterable[str], pairs: list[Pair], interface: Optional[str] = None) -> Sending:
    """How the frames of these pairs are sent."""
    hearing = Hearing(pairs)
    for frame in frames_of(blocks, "|".join(hearing.identifiers()), "", interface):
        hearing.take(*frame)
    return hearing.settled()


class Hearing:
    """Hears the frames of some pairs, one after the other."""

    def __init__(self, pairs: list[Pair]) -> None:
        self.responses = dict(it.texts() for it in pairs)
        self.requests = {response: request for request, response in self.responses.items()}
        self.by_fd = {text for it in pairs if it.is_fd for text in it.texts()}
        self.found, self.flows, self.filling, self.fd = Sending(), Flows(), Filling(), FdFrames()
        self.order = self.found.order.take
        # when a request's latest frame came; and since when an answer waits for FlowControl
        self.last: dict[str, int] = {}
        self.waits: dict[str, int] = {}

    def identifiers(self) -> list[str]:
        return [*self.responses, *self.requests]

    def take(self, now: int, identifier: str, data: str, flags: Optional[str], at: int, rest: str) -> None:
        """A frame, as a recording has it."""
        if flags and identifier not in self.by_fd:
            return
        self.order(at, now, rest, identifier, data)
        if identifier in self.requests:
            self.take_answer(now, identifier, data, flags, at)
        else:
            self.take_request(now, identifier, data, at)

    def take_answer(self, now: int, identifier: str, data: str, flags: Optional[str], at: int) -> None:
        """A frame of the unit."""
        losses = self.found.losses
        self.filling.take(data, losses.ended_by(identifier, data))
        losses.take(at, identifier, data)
        if identifier in self.by_fd:
            self.fd.take(data, flags)
        if data[:1] == "3":
            losses.let(self.requests[identifier], data)
        if data[:1] == "3" and len(data) >= 6:
            self.flows.take(now, identifier, data)
        elif identifier in losses.open:
            self.waits[identifier] = now
        else:
            self.waits.pop(identifier, None)

    def take_request(self, now: int, identifier: str, data: str, at: int) -> None:
        """A frame of a tester."""
        kind, found, response = data[:1], self.found, self.responses[identifier]
        found.losses.take(at, identifier, data)
        if kind == "3":
            found.losses.let(response, data)
            if response in self.waits:
                found.n_bs = max(found.n_bs, now - self.waits[response])
                # (behind FlowControl wait it goes on waiting)
                self.waits[response] = now
        elif kind == "1":
            self.last[identifier] = now
            self.flows.asked(response, length_of(data))
        elif kind == "2" and identifier in self.last:
            found.n_cr = max(found.n_cr, min(now - self.last[identifier], 60000))
            self.last[identifier] = now

    def settled(self) -> Sending:
        """What was heard, once the recording is at its end."""
        self.flows.settle(self.found)
        self.filling.settle(self.found)
        self.fd.settle(self.found)
        self.found.losses.settle()
        return self.found


@dataclass
class Filling:
    """How the unit's frames were filled: those of up to 8 bytes, by the byte or None, and longer ones, which CAN FD may have
    to fill."""

    short: Counter = field(default_factory=Counter)
    long: Counter = field(default_factory=Counter)

    def take(self, data: str, ending: int) -> None:
        """A frame, with so many bytes of its message where it is the last ConsecutiveFrame."""
        size, used = len(data) // 2, used_of(data, ending)
        if 0 < used == size < 8:
            self.short[None] += 1
        elif 0 < used < size == 8:
            self.short[int(data[-2:], 16)] += 1
        elif 0 < used < size and size > 8:
            self.long[int(data[-2:], 16)] += 1

    def settle(self, found: Sending) -> None:
        """What was seen most often counts; where no short frame tells how these are padded, the long ones do."""
        found.fill = self.long.most_common(1)[0][0] if self.long else None
        if self.short:
            found.pad = self.short.most_common(1)[0][0]
        elif found.fill is not None:
            found.pad = found.fill


def used_of(data: str, ending: int) -> int:
    """How many bytes of a SingleFrame, of FlowControl or of the last ConsecutiveFrame aren't filling; 0 of another frame."""
    if data[:2] == "00":
        return 2 + int(data[2:4], 16) if len(data) > 16 else 0
    if data[:1] == "0":
        return 1 + int(data[1], 16) if len(data) <= 16 else 0
    return 3 if data[:1] == "3" else 1 + ending if ending else 0


@dataclass
class Flows:
    """The unit's flow control: how often which block size and STmin let frames come; and how long the requests of several
    frames are, by what it says to their FirstFrames: `0` lets them come, `2` refuses them as too long; and when it said wait."""

    let: Counter = field(default_factory=Counter)
    lengths: dict[str, set[int]] = field(default_factory=lambda: defaultdict(set))
    # by the response identifier how long the request is to which it has said neither
    open: dict[str, int] = field(default_factory=dict)
    paused: list[int] = field(default_factory=list)

    def asked(self, response: str, length: int) -> None:
        """A FirstFrame of the tester that has the answers of this identifier."""
        self.open[response] = length
        self.lengths[""].add(length)

    def take(self, now: int, response: str, data: str) -> None:
        """A frame of flow control."""
        status, block_size, st_min = data[1], int(data[2:4], 16), int(data[4:6], 16)
        if status == "0":
            # (ISO 15765-2 has a reserved STmin taken as the longest one)
            self.let[block_size, st_min if st_min <= 127 or 241 <= st_min <= 249 else 127] += 1
        if status == "1":
            self.paused.append(now)
        if status in ("0", "2") and response in self.open:
            self.lengths[status].add(self.open.pop(response))

    def settle(self, found: Sending) -> None:
        """The flow control that was seen most often counts."""
        if self.let:
            (found.block_size, found.st_min), _ = self.let.most_common(1)[0]
        found.flows = self.let
        found.paused = self.paused
        refused = self.lengths["2"] - self.lengths["0"]
        found.longest = max(self.lengths[""] - refused, default=0)
        found.too_long = min((it for it in refused if it > found.longest), default=None)


@dataclass
class FdFrames:
    """What was seen of the unit's frames to testers by CAN FD: the lengths of FirstFrames, for a SingleFrame is as short as it
    can be, and the flags. Some units answer by classic frames."""

    lengths: Counter = field(default_factory=Counter)
    flags: Counter = field(default_factory=Counter)

    def take(self, data: str, flags: Optional[str]) -> None:
        if data[:1] == "1":
            self.lengths[len(data) // 2] += 1
        if flags:
            self.flags[int(flags, 16)] += 1

    def settle(self, found: Sending) -> None:
        """What was seen most often counts."""
        if self.lengths:
            length = self.lengths.most_common(1)[0][0]
            found.tx_dl = next((it for it in LENGTHS if it >= length), LENGTHS[-1])
        found.flags = self.flags.most_common(1)[0][0] if self.flags else found.flags
