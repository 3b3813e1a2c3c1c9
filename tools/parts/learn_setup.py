"""The unit that was learned, and its text as a setup that is read and edited by a person. For tools/learn.py; no part of
what is proved."""
import textwrap
from dataclasses import dataclass, field
from typing import Iterator, Optional

from learn_bus import FUNCTIONAL, FUNCTIONAL_29, Pair, Sending
from learn_changes import Changes
from learn_frames import LENGTHS
from learn_judge import Exchange
from learn_lost import Lost
from uds_names import OF_MANUFACTURER, identifier_name, refusal, routine_name, service_name, sub_name

# the times of links that a setup has where it says nothing
N_CR, N_BS, LONGEST = 1000, 1000, 4095
# the least that a setup may have as the longest request
SHORTEST = 8


def times(count: int) -> str:
    """How often, in words."""
    return "once" if count == 1 else f"{count} times"


def moment(ms: int) -> str:
    """A moment in milliseconds as seconds, as a stamp has it."""
    return f"{ms // 1000}.{ms % 1000:03d}"


@dataclass
class Seen:
    """How often something was seen, and the line where it was seen first."""

    count: int = 0
    line: int = 0

    def at(self, line: int) -> None:
        self.line = self.line or line
        self.count += 1

    def shown(self) -> str:
        return f"seen {times(self.count)}, first at line {self.line}"


@dataclass
class Did:
    """An identifier: its value as the recording begins, and as it is now; whether it is written and behind which levels;
    and whether it was read with other values than it had by then, and with how many bytes."""

    value: bytes
    now: bytes
    seen: Seen
    is_written: bool = False
    read_level: int = 0
    write_level: int = 0
    changes: bool = False
    sizes: set[int] = field(default_factory=set)


@dataclass
class Code:
    status: int
    seen: Seen


@dataclass
class Routine:
    """A routine: whether it runs longer and by when it was done, in milliseconds; its result, and its level."""

    seen: Seen
    least: int = 0
    most: Optional[int] = None
    result: bytes = b""
    level: int = 0


@dataclass
class Key:
    """A seed, the key that was right for it, and one that was wrong."""

    seed: bytes
    right: Optional[bytes] = None
    wrong: Optional[bytes] = None


@dataclass
class Level:
    """A level: its seeds and keys in their order, and how long a key is; and all seeds that were sent, also those for which no
    key came."""

    seen: Seen
    keys: list[Key] = field(default_factory=list)
    size: int = 4
    seeds: set[bytes] = field(default_factory=set)


@dataclass
class Row:
    """A row of answers: its pattern and templates as they are written, the templates None where the server answers."""

    request: str
    reply: Optional[list[str]] = None
    session: int = 0
    level: int = 0
    enter: int = 0
    after: int = 0
    seen: Seen = field(default_factory=Seen)
    # whether it is for several requests, and most of them were answered without response pending
    is_prompt: bool = False

    def refuses(self) -> bool:
        """Whether an answer of it is a negative response."""
        return any(it.startswith("7F") for it in self.reply or ())


@dataclass
class Unit:
    """All that is learned of a unit. Times are milliseconds."""

    pairs: list[Pair]
    functional: Optional[int]
    sending: Sending
    p2: int = 50
    p2_star: int = 5000
    s3: int = 5000
    availability: int = 255
    attempts: int = 3
    delay: int = 10000
    dids: dict[int, Did] = field(default_factory=dict)
    codes: dict[int, Code] = field(default_factory=dict)
    routines: dict[int, Routine] = field(default_factory=dict)
    levels: dict[int, Level] = field(default_factory=dict)
    rows: list[Row] = field(default_factory=list)
    # what changes by itself isn't compared, and what that is
    varies: bool = False
    changes: Changes = field(default_factory=Changes)
    # the functional identifier of testers with 29 bits; None for the usual one
    functional_29: Optional[int] = None
    # whether testers of CAN FD have the functional identifier of 11 bits, and that of 29, where classic ones can't have it, too
    is_all_fd: tuple[bool, bool] = (False, False)
    # the places of testers to which no functional request was answered that was answered to another one
    unheard: set[int] = field(default_factory=set)
    # when the recording ends, and the exchanges that it cuts off
    end: Optional[int] = None
    cut_off: list[Exchange] = field(default_factory=list)
    # the messages that lack a frame, and what is noted of the order of lines
    lost: list[Lost] = field(default_factory=list)
    notes: list[str] = field(default_factory=list)
    # the requests of each tester, by its place, and the line that told P2 and P2*
    asked: dict[int, Seen] = field(default_factory=dict)
    told: int = 0


def between(least: int, most: Optional[int], usual: int) -> int:
    """A time above the least and at most the most that was seen: the usual one, where it may be, else one between."""
    if least < usual and (most is None or usual <= most):
        return usual
    return least + 1 if most is None else max((least + most + 1) // 2, 1)


# ---- the text


def commented(text: str) -> str:
    return "\n".join(f"# {it}" for it in textwrap.wrap(text, 100)) + "\n"


def as_text(value: bytes) -> str:
    """Behind a value of four bytes or more that all are printable: as text."""
    is_text = len(value) >= 4 and all(32 <= it < 127 for it in value)
    return f'  # "{value.decode("ascii")}"' if is_text else ""


def code_name(code: int) -> str:
    """A DTC as ISO 15031-6 writes it, with its failure type."""
    return f"{'PCBU'[code >> 22]}{code >> 20 & 3:X}{code >> 16 & 15:X}{code >> 8 & 255:02X}-{code & 255:02X}"


def setup_text(unit: Unit, source: str) -> str:
    """The setup as TOML."""
    head = f"# The unit of {source}, as tools/learn.py has it.\n\n"
    tables = (unit_keys, tester_tables, did_tables, code_tables, routine_tables, level_tables, answer_tables)
    return head + "".join(line for table in tables for line in table(unit))


def unit_keys(unit: Unit) -> Iterator[str]:
    sending = unit.sending
    yield f"# P2 and P2*: told at line {unit.told}\n" if unit.told else ""
    yield f"p2_ms = {unit.p2}\np2_star_10ms = {unit.p2_star // 10}\ns3_ms = {unit.s3}\n"
    yield from waits(sending)
    yield from paused(sending)
    yield from changed_flow(sending)
    yield f"block_size = {sending.block_size}\nst_min = 0x{sending.st_min:02X}\n"
    yield from longest_request(sending)
    yield from filling(unit)
    yield f"availability = 0x{unit.availability:02X}\n"
    if unit.functional is not None or any(FUNCTIONAL in (it.request, it.response) for it in unit.pairs if not it.is_extended):
        yield f"functional = 0x{unit.functional if unit.functional is not None else free_identifier(unit):03X}\n"
    if unit.levels:
        yield f"attempts = {unit.attempts}\ndelay_ms = {unit.delay}\n"


def filling(unit: Unit) -> Iterator[str]:
    """How frames are filled, and of CAN FD how long they are, with their flags."""
    sending = unit.sending
    byte = sending.fill if sending.pad is None else sending.pad
    yield "pad = false\n" if sending.pad is None else ""
    yield f"pad_byte = 0x{byte:02X}\n" if byte is not None else ""
    if any(it.is_fd for it in unit.pairs):
        # (with the greatest length all SingleFrames are as they were seen)
        yield f"tx_dl = {sending.tx_dl}\n" if sending.tx_dl else f"tx_dl = {LENGTHS[-1]}  # no FirstFrame told it\n"
        yield f"fd_flags = 0x{sending.flags:X}\n"


def longest_request(sending: Sending) -> Iterator[str]:
    """The longest request that the unit takes, where that isn't the usual one: as long as one that it took, or, where it refused
    one as too long, a byte shorter than that."""
    if sending.too_long is not None and sending.too_long <= LONGEST:
        yield f"max_request = {max(sending.too_long - 1, SHORTEST)}\n"
    elif sending.longest > LONGEST:
        yield f"max_request = {min(sending.longest, 65535)}\n"


def waits(sending: Sending) -> Iterator[str]:
    """The times of the links, where a tester took longer than usual."""
    if sending.n_bs >= N_BS:
        yield f"n_bs_ms = {min(sending.n_bs + 500, 60000)}\n"
    if sending.n_cr >= N_CR:
        yield f"n_cr_ms = {min(sending.n_cr + 500, 60000)}\n"


def paused(sending: Sending) -> Iterator[str]:
    """That the unit sent FlowControl wait, which no setup has."""
    if sending.paused:
        yield f"# FlowControl wait: seen {times(len(sending.paused))}, first at {moment(sending.paused[0])}; the server sends none\n"


def changed_flow(sending: Sending) -> Iterator[str]:
    """That the unit's block size or STmin changed, which they can't in a setup."""
    if len(sending.flows) > 1:
        seen = ", ".join(f"{block_size} and 0x{st_min:02X} {times(count)}" for (block_size, st_min), count in sending.flows.most_common())
        yield commented(f"block size and STmin of the unit changed: {seen}; the first are taken")


def free_identifier(unit: Unit, is_extended: bool = False) -> int:
    """An identifier of 11 bits, or of 29, that no tester has."""
    own = {it for pair in unit.pairs if pair.is_extended == is_extended for it in (pair.request, pair.response, pair.functional)}
    usual, seen = (FUNCTIONAL_29, unit.functional_29) if is_extended else (FUNCTIONAL, unit.functional)
    return next(it for it in range(0x1FFFFFFF if is_extended else 0x7FF, 0, -1) if it not in own | {usual, seen})


def is_mixed(unit: Unit, pair: Pair) -> bool:
    """Whether there are testers of CAN FD and classic ones among those with identifiers as wide as a tester's."""
    return len({it.is_fd for it in unit.pairs if it.is_extended == pair.is_extended}) > 1


def is_apart(unit: Unit, pair: Pair) -> bool:
    """Whether a tester has a functional identifier that nobody uses: one of CAN FD and a classic one can't have the same."""
    return pair.functional is None and is_mixed(unit, pair) and pair.is_fd != unit.is_all_fd[pair.is_extended]


def why_apart(unit: Unit, pair: Pair) -> str:
    """Why such a tester hasn't the functional identifier of the others, in words."""
    shown = f"{unit.functional_29 or FUNCTIONAL_29:08X}" if pair.is_extended else f"{unit.functional or FUNCTIONAL:03X}"
    other, own = ("classic CAN", "CAN FD") if pair.is_fd else ("CAN FD", "classic CAN")
    return f"{shown} is of {other} here, and a tester by {own} can't have it, too"


def own_functional(unit: Unit, place: int) -> tuple[Optional[int], str]:
    """The functional identifier that the table of a tester has, and a word about it; None where it needs none."""
    pair = unit.pairs[place]
    if pair.functional is not None:
        return pair.functional, ""
    if is_apart(unit, pair):
        return free_identifier(unit, pair.is_extended), f"  # a free one: {why_apart(unit, pair)}"
    if place in unit.unheard and not is_mixed(unit, pair):
        return free_identifier(unit, pair.is_extended), "  # a free one: functional requests were answered to others alone"
    return unit.functional_29 if pair.is_extended and unit.functional_29 != FUNCTIONAL_29 else None, ""


def tester_tables(unit: Unit) -> Iterator[str]:
    for place, it in enumerate(unit.pairs):
        yield f"\n{commented(f'requests: {unit.asked[place].shown()}')}" if place in unit.asked else "\n"
        request, response = it.texts()
        yield f'[[tester]]\nname = "{it.name}"\n{"extended = true" + chr(10) if it.is_extended else ""}'
        yield f"request = 0x{request}\nresponse = 0x{response}\n"
        functional, why = own_functional(unit, place)
        if functional is not None:
            yield f"functional = 0x{functional:0{len(request)}X}{why}\n"
        yield "fd = true\n" if it.is_fd else ""


def did_tables(unit: Unit) -> Iterator[str]:
    fitted = {it.request for it in unit.rows if it.reply and not it.session and not it.level}
    for number, it in sorted(unit.dids.items()):
        varies = it.changes and unit.varies
        if it.changes and not varies and not it.is_written and f"22{number:04X}" in fitted:
            # its row says all that it is read with
            continue
        name = identifier_name(number) or "identifier"
        yield f"\n{commented(f'{name}: {it.seen.shown()}')}[[did]]\nid = 0x{number:04X}\n"
        yield f'value = "{it.value.hex().upper()}"{as_text(it.value)}\n'
        if it.read_level:
            yield f"read_level = 0x{it.read_level:02X}\n"
        if it.is_written:
            yield "write = true\n" + (f"write_level = 0x{it.write_level:02X}\n" if it.write_level else "")
        yield "varies = true\n" if varies else ""


def code_tables(unit: Unit) -> Iterator[str]:
    for number, it in sorted(unit.codes.items()):
        yield f"\n{commented(f'{code_name(number)}: {it.seen.shown()}')}[[code]]\n"
        yield f"code = 0x{number:06X}\nstatus = 0x{it.status:02X}\n"


def routine_tables(unit: Unit) -> Iterator[str]:
    for number, it in sorted(unit.routines.items()):
        name = f"routine {routine_words(number)}".rstrip()
        yield f"\n{commented(f'{name}: {it.seen.shown()}')}[[routine]]\nid = 0x{number:04X}\n"
        yield f"time_ms = {min(between(it.least, it.most, 1), 600000)}\n"
        yield f'result = "{it.result.hex().upper()}"\n' if it.result else ""
        yield f"level = 0x{it.level:02X}\n" if it.level else ""


def level_tables(unit: Unit) -> Iterator[str]:
    for sub, it in sorted(unit.levels.items()):
        varies = unit.varies and len(it.seeds) > 1
        keys = it.keys[:1] if varies else it.keys[:64]
        yield f"\n{commented(f'SecurityAccess: {it.seen.shown()}')}[[level]]\nsub = 0x{sub:02X}\n"
        yield "any_key = true\nvaries = true\n" if varies else ""
        for key in keys:
            right, note = key_of(key, it)
            yield f'\n[[level.row]]\nseed = "{key.seed.hex().upper()}"\nkey = "{right.hex().upper()}"{note}\n'


def key_of(key: Key, level: Level) -> tuple[bytes, str]:
    """The right key; of a seed without one any other than the wrong one, with a word about it."""
    if key.right is not None:
        return key.right, ""
    wrong = (key.wrong or b"").ljust(level.size, b"\0")[: level.size]
    return bytes(it ^ 0xFF for it in wrong), "  # not in the recording"


def answer_tables(unit: Unit) -> Iterator[str]:
    for it in unit.rows:
        yield f"\n{commented(f'{row_words(it)}: {it.seen.shown()}')}[[answer]]\n"
        yield f'request = "{it.request}"\n'
        yield from reply_lines(it.reply)
        for key, value in (("session", it.session), ("level", it.level)):
            yield f"{key} = 0x{value:02X}\n" if value else ""
        yield f"enter = 0x{it.enter:02X}{'  # also where it refuses' * it.refuses()}\n" if it.enter else ""
        yield f"after_ms = {it.after}\n" if it.after else ""


def routine_words(number: int) -> str:
    """The name of a routine, where it has one that says more than that it is the manufacturer's."""
    name = routine_name(number)
    return "" if name == OF_MANUFACTURER else name


def asked_words(pattern: str) -> str:
    """What a pattern asks for, in words: the service, its sub-function, and its identifier or routine, as far as it has them."""
    sid, sub, behind = int(pattern[:2], 16), pattern[2:4], pattern[4:8]
    found = [service_name(sid), sub_name(sid, int(sub, 16)) if sub.isalnum() else ""]
    if sid in (0x22, 0x24, 0x2E, 0x2F) and len(pattern) >= 6 and pattern[2:6].isalnum():
        found.append(identifier_name(int(pattern[2:6], 16)))
    if sid == 0x31 and len(behind) == 4 and behind.isalnum():
        found.append(routine_words(int(behind, 16)))
    return " ".join(filter(None, found))


def row_words(row: Row) -> str:
    """What a row is for, in words: what is asked, and a negative response, or that no answer came."""
    sid, found = int(row.request[:2], 16), asked_words(row.request)
    replies = set(row.reply or ())
    for text, words in (("", "no answer"), (f"7F{sid:02X}78", "response pending and no answer")):
        if text in replies:
            return f"{found}, {words}" if len(replies) == 1 else f"{found}, at times {words}"
    only = row.reply[0] if row.reply and len(row.reply) == 1 else ""
    is_negative = len(only) == 6 and only.startswith("7F") and only[4:].isalnum()
    return f"{found}, {refusal(int(only[4:], 16), 'refused')}" if is_negative else found


def reply_lines(reply: Optional[list[str]]) -> Iterator[str]:
    """The templates: one or two short ones in a line, else a line each."""
    if reply is None:
        return
    if sum(map(len, reply)) <= 80:
        yield f"reply = [{', '.join(quoted(it) for it in reply)}]\n"
    else:
        yield "reply = [\n" + "".join(f"    {quoted(it)},\n" for it in reply) + "]\n"


def quoted(text: str) -> str:
    return f'"{text}"'
