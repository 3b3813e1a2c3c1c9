"""Rows of answers for what a recorded unit does otherwise than the server's model: of the exchanges that differ those of
one request, or of one service that the model lacks, are explained by as few rows as do. For tools/learn.py; no part of what
is proved."""
from collections import defaultdict
from dataclasses import dataclass, field
from itertools import chain, permutations
from typing import Callable, Hashable, Iterable, Optional

import uds_rules
from learn_judge import Exchange
from learn_model import Held, Walk, is_done, is_left_pending, one_round, session_of, values_in
from learn_setup import Row, Seen, Unit

# limits of rows
MOST_ITEMS, MOST_BYTES, MOST_TEMPLATES = 64, 4095, 4096
# the bytes of a request that a template can name
NAMED = 16
# how often response pending may come before an answer
MOST_PENDINGS = 255
LONGEST_AFTER = 600_000
# services whose requests end with data: how many bytes stand before it. A row for several requests has any data there
DATA_BEHIND = {0x24: 3, 0x27: 2, 0x2F: 4, 0x31: 4, 0x36: 2}
# services whose positive answers are of one identifier, or of one thing that is read: no row gives them for several
OF_ONE = (*range(1, 11), 0x23, 0x24, 0x2F)
# services that change the session, or what is unlocked in it
OF_THE_SESSION = (0x10, 0x11, 0x27)


@dataclass
class Case:
    """Exchanges of one request with one answer, in their order, the answer as a template has it, and their tester's session
    before each; and the line, the tester's place and its session of each exchange with this request that lacks a frame."""

    held: Held
    answer: str
    all: list[Exchange]
    gaps: list[tuple[int, int, Held]] = field(default_factory=list)

    @property
    def request(self) -> bytes:
        return self.all[0].request

    def differs(self) -> bool:
        return any(it.differs() or is_left_pending(it) for it in self.all)


def cases_of(unit: Unit, exchanges: list[Exchange], rows: Optional[list[Row]] = None) -> list[Case]:
    """The exchanges that have a request and lack no frame, those that are alike together, in the sessions to which these rows lead;
    without rows those alone that change the session, in the unit's own."""
    walk, found, deciding, gaps = Walk(unit.s3), {}, Deciding(rows or ()), defaultdict(list)
    for it in exchanges:
        if it.request:
            held = walk.before(it)
            if rows is None and it.request[0] not in OF_THE_SESSION:
                walk.take(it)
                continue
            held = held if held.level in unit.levels or not held.level else Held(held.session)
            if it.is_lost:
                gaps[known(it.request)].append((it.line, it.place, held))
                walk.take(it)
                continue
            key = it.request, it.sent, is_left_pending(it), held
            if key not in found:
                found[key] = Case(held, answer_of(unit, it), [], gaps[known(it.request)])
            found[key].all.append(it)
            walk.take(it, deciding(it.request, held) if it.request[0] in OF_THE_SESSION else None)
    return list(found.values())


def answer_of(unit: Unit, it: Exchange) -> str:
    """What the unit sent, as a template has it: where values vary their bytes are any; response pending where nothing came behind
    it."""
    if is_left_pending(it):
        return f"7F{it.request[0]:02X}78"
    values = values_in(unit, it) if unit.varies and it.request[0] == 0x22 else []
    if not values:
        return unit.changes.template(it.request, it.sent)
    text, end = (it.sent or b"").hex().upper(), 2
    for number, value in values:
        begin, end = end + 4, end + 4 + 2 * len(value)
        if number in unit.dids and unit.dids[number].changes:
            text = text[:begin] + "??" * len(value) + text[end:]
    return text


def grouped(cases: Iterable[Case], key: Callable[[Case], Hashable]) -> dict[Hashable, list[Case]]:
    found = defaultdict(list)
    for it in cases:
        found[key(it)].append(it)
    return found


def answers_of(cases: list[Case], held: Held) -> list[str]:
    """The answers of some cases of one request, in the order of their exchanges, as the row of a session and a level has them. One
    that lacks a frame, and is decided by this row, too, has the answer before it, for it takes a place in the row."""
    decided = (it for it in cases[0].gaps if held.session in (0, it[2].session) and held.level in (0, it[2].level))
    gaps = [(line, place, None) for line, place, _ in decided]
    own = [(it.line, it.place, case.answer) for case in cases for it in case.all]
    found: list[str] = []
    for *_, answer in sorted([*own, *gaps], key=lambda it: it[:2]):
        if answer is not None or found:
            found.append(found[-1] if answer is None else answer)
    lacking = len(own) + len(gaps) - len(found)
    return found[:1] * lacking + found


def known(request: bytes) -> bytes:
    """A request, as far as a pattern can tell it from others: a longer one by its first bytes."""
    return request[:MOST_ITEMS] + bytes(len(request) > MOST_ITEMS)


def request_of(case: Case) -> bytes:
    return known(case.request)


# ---- a row for some exchanges


def pattern_of(requests: list[bytes]) -> str:
    """The pattern that fits these requests: the bytes that they have in common."""
    size = min(MOST_ITEMS, min(map(len, requests)))
    items = [f"{requests[0][at]:02X}" if len({it[at] for it in requests}) == 1 else ".." for at in range(size)]
    return "".join(items) + ("*" if max(map(len, requests)) > size else "")


def shortened(pattern: str, templates: list[str]) -> str:
    """A pattern that lets more bytes follow, without the bytes at its end that may be any and that no template names."""
    items = uds_rules.items_of(pattern.removesuffix("*"))
    named = most_named(templates)
    while pattern.endswith("*") and items[-1] == ".." and len(items) > named + 1:
        items.pop()
    return "".join(items) + "*" * pattern.endswith("*")


def opened(pattern: str, sid: int, templates: list[str]) -> str:
    """A pattern of several requests of a service without the data at its end, but for bytes that a template names."""
    items = uds_rules.items_of(pattern.removesuffix("*"))
    kept = max(DATA_BEHIND.get(sid, len(items)), most_named(templates) + 1)
    return pattern if len(items) <= kept else "".join(items[:kept]) + "*"


def most_named(templates: list[str]) -> int:
    """The last byte of a request that a template names; 0 for none, for the first one is the service."""
    return max((int(it[1], 16) for text in templates for it in uds_rules.items_of(text) if it[0] == "$"), default=0)


def template_of(cases: list[Case]) -> Optional[str]:
    """The one template that gives all answers: bytes that they have in common, or that their requests have at one place;
    None where there is none."""
    answers = [uds_rules.items_of(it.answer) for it in cases]
    if len(set(map(len, answers))) > 1 or len(answers[0]) > MOST_BYTES:
        return None
    items = [template_byte(cases, answers, at) for at in range(len(answers[0]))]
    return None if None in items else "".join(items)


def template_byte(cases: list[Case], answers: list[list[str]], at: int) -> Optional[str]:
    wanted = [it[at] for it in answers]
    if len(set(wanted)) == 1:
        return wanted[0]
    size = min(NAMED, MOST_ITEMS, min(len(it.request) for it in cases))
    named = (place for place in range(size) if [f"{it.request[place]:02X}" for it in cases] == wanted)
    place = next(named, None)
    return None if place is None else f"${place:X}"


def after_of(unit: Unit, cases: list[Case]) -> int:
    """The longest time that an answer took which came behind response pending; 0 where none did."""
    most = unit.p2 + MOST_PENDINGS * max(1, unit.p2_star)
    return min(max((it.wait for case in cases for it in case.all if it.pendings), default=0), most, LONGEST_AFTER)


def entered(cases: list[Case]) -> int:
    """The session that these requests enter, 0 for none: all of them are one request for it, which was done at least once."""
    done = [it.all[0] for it in cases if is_done(it.all[0])]
    if not done or len({it.request for it in cases}) > 1:
        return 0
    return 1 if done[0].request[0] == 0x11 else session_of(done[0])


def row_of(unit: Unit, cases: list[Case], templates: list[str], held: Held) -> Row:
    """The row for these exchanges, in a session and behind a level."""
    pattern = pattern_of([it.request for it in cases])
    if len({request_of(it) for it in cases}) > 1:
        pattern = opened(pattern, cases[0].request[0], templates)
    pattern = shortened(pattern, templates)
    return Row(pattern, templates, held.session, held.level, entered(cases), after_of(unit, cases), seen_of(cases), is_prompt(cases))


def is_prompt(cases: list[Case]) -> bool:
    """Whether these are several requests, and most of them were answered without response pending."""
    late = sum(1 for case in cases for it in case.all if it.pendings)
    return len({it.request for it in cases}) > 1 and 2 * late < seen_of(cases).count


def seen_of(cases: list[Case]) -> Seen:
    return Seen(sum(len(it.all) for it in cases), min(it.all[0].line for it in cases))


def in_order(unit: Unit, cases: list[Case], held: Held) -> list[Row]:
    """The answers to one request, one after the other; no row where they are too many or too long."""
    answers = one_round(answers_of(cases, held))
    if len(answers) > MOST_TEMPLATES or any(len(it) > 2 * MOST_BYTES for it in answers):
        return []
    return [row_of(unit, cases, answers, held)]


# ---- as few rows as do

ANY = Held(0, 0)
# how exchanges are parted that no one row explains
SPLITS: dict[str, Callable[[Case], Hashable]] = {
    "silence": lambda it: it.answer == "",
    "refusal": lambda it: it.answer.startswith("7F"),
    "sub-function": lambda it: it.request[: DATA_BEHIND.get(it.request[0], 2) if it.request[0] in OF_ONE else 2],
    "request": request_of,
    "session": lambda it: it.held.session,
    "level": lambda it: it.held,
}
ORDERS = [
    it
    for it in permutations(SPLITS)
    if it.index("session") < it.index("level") and it.index("silence") < it.index("refusal") < it.index("sub-function") < it.index("request")
]
# those by what the unit sent
BY_ANSWER = ("silence", "refusal")


def explained(unit: Unit, cases: list[Case], held: Held, splits: tuple[str, ...]) -> list[Row]:
    """Rows for these exchanges, by these splits in their order."""
    template = template_of(cases)
    if template is not None and (len({it.request for it in cases}) == 1 or is_wide(cases)):
        return [row_of(unit, cases, [template], held)]
    for at, name in enumerate(splits):
        parts = parts_of(cases, name)
        if len(parts) > 1:
            own = ((part, narrowed(held, name, part[0])) for part in parts.values())
            rows = [row for part, where in own for row in explained(unit, part, where, splits[at + 1 :])]
            return rows if not is_idle(name, cases, rows) else in_order(unit, cases, held)
    parts = grouped(cases, request_of).values()
    return [row for part in parts for row in in_order(unit, part, held)]


def parts_of(cases: list[Case], name: str) -> dict[Hashable, list[Case]]:
    """These exchanges by one of the splits. What the unit sent doesn't part those of one request, for of two rows with its pattern
    the first would decide: such requests are a part of their own."""
    key = SPLITS[name]
    if name not in BY_ANSWER:
        return grouped(cases, key)
    kinds = {request: {key(it) for it in own} for request, own in grouped(cases, request_of).items()}
    return grouped(cases, lambda it: key(it) if len(kinds[request_of(it)]) == 1 else None)


def is_idle(name: str, cases: list[Case], rows: list[Row]) -> bool:
    """Whether it explains nothing to part one request's exchanges by the session: in one session its answers change."""
    is_one = len({it.request for it in cases}) == 1
    return name in ("session", "level") and is_one and any(len(it.reply) > 1 for it in rows)


def is_wide(cases: list[Case]) -> bool:
    """Whether several requests are to have one row: they have their service in common, and no effect on the session, and
    no identifier of its own in an answer, nor what changes in one."""
    sid = cases[0].request[0]
    if sid in (0x10, 0x11):
        return False
    answers = {it.answer for it in cases if it.answer and not it.answer.startswith("7F")}
    if sid not in OF_ONE:
        return sid in DATA_BEHIND or not any("??" in it for it in answers)
    size = DATA_BEHIND.get(sid, MOST_ITEMS)
    return not answers or len({it.request[:size] for it in cases}) == 1


def narrowed(held: Held, name: str, case: Case) -> Held:
    """The session and level that a row wants, parted by one of the splits."""
    if name == "session":
        return held._replace(session=case.held.session)
    return case.held if name == "level" else held


def fewest(unit: Unit, cases: list[Case]) -> list[Row]:
    """The rows for these exchanges, in their order, by which there are the fewest with those that are wanted besides."""
    best, least, tried = [], 0, []
    for order in orders_of(cases):
        rows = explained(unit, cases, ANY, order)
        for key in () if rows in tried else (rank, often):
            own, left = in_use(sorted(rows, key=key), cases)
            if not least or len(own) + left < least:
                best, least = own, len(own) + left
            if not left:
                break
        if least <= 1:
            break
        tried.append(rows)
    return best


def orders_of(cases: list[Case]) -> Iterable[tuple[str, ...]]:
    """The orders of the splits, without those that part none of these exchanges."""
    parting = {name for name, key in SPLITS.items() if len({key(it) for it in cases}) > 1}
    return dict.fromkeys(tuple(name for name in order if name in parting) for order in ORDERS)


def in_use(rows: list[Row], cases: list[Case]) -> tuple[list[Row], int]:
    """The rows that decide one of these exchanges; and how many requests they answer otherwise than the unit did: each of these
    wants a row of its own."""
    deciding = Deciding(rows)
    decided = [(deciding(it.request, it.held), it) for it in cases]
    own = {id(row) for row, _ in decided}
    return [it for it in rows if id(it) in own], len({request_of(it) for row, it in decided if not says(row, it)})


def says(row: Optional[Row], case: Case) -> bool:
    """Whether a row has the answer; one with several is of one request, and has them all."""
    if row is None or len(row.reply) > 1:
        return row is not None
    items = uds_rules.items_of(row.reply[0])
    return case.answer == "".join(f"{case.request[int(it[1], 16)]:02X}" if it[0] == "$" else it for it in items)


# ---- which row decides


def is_wide_row(row: Row) -> bool:
    """Whether a row is for several requests, as far as a pattern can tell them."""
    items = row.request.removesuffix("*")
    return ".." in items or items != row.request and len(items) < 2 * MOST_ITEMS


def rank(row: Row) -> tuple:
    """A row of one request comes before one of several; then one that wants a level, a session, or more bytes to be what they
    are, before one that doesn't; of two alike the one that was seen more often."""
    fixed, is_open = len(row.request.strip("*").replace(".", "")), row.request.endswith("*")
    return is_wide_row(row), row.level == 0, row.session == 0, -fixed, is_open, -row.seen.count, row.request


def often(row: Row) -> tuple:
    """Another order: of the rows of several requests the one that was seen more often comes first."""
    return is_wide_row(row), -row.seen.count, rank(row)


class Deciding:
    """Which of some rows, which stand by rank, decides a request, in a session and behind a level."""

    def __init__(self, rows: Iterable[Row]) -> None:
        self.exact, self.wide = defaultdict(list), []
        # the wide ones by the first two bytes of requests
        self.near: dict[bytes, list] = {}
        for it in rows:
            items, is_open = uds_rules.pattern_of(it.request)
            if is_wide_row(it):
                self.wide.append((items, is_open, it))
            else:
                self.exact[bytes(items) + bytes(is_open)].append(it)

    def __call__(self, request: bytes, held: Held) -> Optional[Row]:
        near = self.near.get(request[:2])
        if near is None:
            near = self.near[request[:2]] = [it for it in self.wide if all(item in (None, byte) for item, byte in zip(it[0], request[:2]))]
        wide = (row for items, is_open, row in near if uds_rules.fits(items, is_open, request))
        own = chain(self.exact.get(known(request), ()), wide)
        return next((it for it in own if it.session in (0, held.session) and it.level in (0, held.level)), None)
