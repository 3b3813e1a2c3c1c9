"""Which requests of a recorded unit have rows of answers, and these rows in the order of the setup, as many as it has room for.
For tools/learn.py; no part of what is proved."""
from collections import defaultdict
from dataclasses import replace
from enum import IntEnum
from typing import Iterable, Optional

import uds_rules
from learn_judge import Exchange
from learn_model import Held, is_left_pending, refusal, sub_of
from learn_rows import (
    ANY,
    DATA_BEHIND,
    MOST_ITEMS,
    OF_THE_SESSION,
    Case,
    Deciding,
    after_of,
    cases_of,
    fewest,
    grouped,
    in_order,
    is_wide_row,
    known,
    opened,
    rank,
    request_of,
    row_of,
    says,
    seen_of,
    shortened,
    template_of,
)
from learn_setup import Row, Unit, setup_text
from uds_names import IN_SESSION, SERVICES

# limits of all rows
MOST_ALL_TEMPLATES, MOST_ROWS = 65536, 1024
# how long a setup may be, what a row may take in it besides its templates, and what each template takes besides its text
MOST_TEXT, ROW_TEXT, TEMPLATE_TEXT = 1_040_000, 420, 8
# services that change what others answer, in the order in which they are explained
CAUSES = ((0x10, 0x11), (0x14, 0x27, 0x2E, 0x31))


class Stage(IntEnum):
    """How a request's exchanges are explained: by rows for a session or a level, by its answers one after the other
    whatever the session, and so without entering a session."""

    BY_SESSION = 1
    IN_ORDER = 2
    IN_ORDER_ALONE = 3


def is_refused_key(it: Exchange) -> bool:
    """Whether the unit refused a key that the server takes."""
    is_key = len(it.request) > 2 and it.request[0] == 0x27 and sub_of(it) % 2 == 0
    return is_key and it.expected.startswith("67") and (it.sent or b"").startswith(b"\x7f")


def hasty(exchanges: Iterable[Exchange]) -> set[bytes]:
    """The requests that change the session and were refused, and behind which the session counted, for this tester or for
    another one, before it changed."""
    found, refused = set(), defaultdict(set)
    for it in exchanges:
        sid = it.request[0] if it.request else 0
        if sid in IN_SESSION:
            found |= refused[it.place]
        elif sid in (0x10, 0x11):
            found.update(*(own for place, own in refused.items() if place != it.place))
            refused[it.place] = refused[it.place] | {known(it.request)} if refusal(it) else set()
    return found


class Plan:
    """Which requests have rows, at which stage, and the rows that come of it. Those that were left pending have rows from the
    beginning: the judge looks away from response pending."""

    def __init__(self, exchanges: list[Exchange]) -> None:
        left = {known(it.request) for it in exchanges if is_left_pending(it)}
        self.stages: dict[bytes, Stage] = {it: Stage.BY_SESSION for it in sorted(left)}
        # requests whose row, where it has refusals too, can't change the session
        self.hasty = hasty(exchanges)
        # the sessions and levels in which the exchanges of a request differed without rows
        self.differed: dict[bytes, set[Held]] = defaultdict(set)
        # services that the model lacks, whose requests share rows
        self.services: set[int] = set()
        # how many of the latest rows found no room in a setup
        self.left_out = 0

    def widen(self, exchanges: list[Exchange]) -> bool:
        """Takes in what differs; returns whether anything is explained in another way than before."""
        differing = {known(it.request) for it in exchanges if it.request and it.differs()}
        lacking = {it[0] for it in differing} - self.services - set(SERVICES)
        own = [it for it in differing if it[0] not in lacking and self.stages.get(it) != Stage.IN_ORDER_ALONE]
        # what the others are answered depends on the session: as long as that isn't explained, they are looked at anew
        first = [it for it in own if it not in self.stages or it[0] in OF_THE_SESSION]
        # a wrong key that any key's level takes unlocks: what differs behind that may differ for this alone
        refused = {known(it.request) for it in exchanges if it.differs() and is_refused_key(it)} - set(self.stages)
        causes = refused or self.causes(own)
        if causes:
            first, lacking = sorted(causes), set()
        self.services |= lacking
        for request in first or own:
            self.stages[request] = self.stage_behind(request)
        return bool(lacking or first or own)

    def causes(self, own: list[bytes]) -> set[bytes]:
        """The requests that are to have rows before others: what these are answered may differ for them alone."""
        parts = ({it for it in own if it[0] in part and it not in self.stages} for part in CAUSES)
        return next(filter(None, parts), set())

    def stage_behind(self, request: bytes) -> Stage:
        """How a request is explained that differs as it is explained now."""
        stage = self.stages.get(request)
        return Stage.BY_SESSION if stage is None else Stage(stage + 1)

    def rows(self, unit: Unit, exchanges: list[Exchange]) -> list[Row]:
        """The rows, the most special ones first."""
        found = sorted(self.own_rows(unit, cases_of(unit, exchanges), True), key=rank)
        cases = cases_of(unit, exchanges, found)
        found += self.own_rows(unit, cases, False)
        shared = (it for it in cases if it.request[0] in self.services and request_of(it) not in self.stages)
        by_service = grouped(shared, lambda it: it.request[0])
        for own in by_service.values():
            found += fewest(unit, own)
        found = merged(unit, found, cases)
        # (those of several requests stand as they were made)
        found.sort(key=lambda it: (True,) if is_wide_row(it) else rank(it))
        room = MOST_TEXT - len(setup_text(replace(unit, rows=[]), ""))
        found += late_rows(unit, cases, found)
        kept = limited(found, room)
        self.left_out = len(found) - len(kept)
        return kept

    def own_rows(self, unit: Unit, cases: list[Case], of_the_session: bool) -> list[Row]:
        """The rows of the requests that have stages, of those that change the session or of the others."""
        found = []
        own = {request: stage for request, stage in self.stages.items() if (request[0] in OF_THE_SESSION) == of_the_session}
        by_request = grouped(cases, request_of) if own else {}
        for request, stage in own.items():
            its = by_request.get(request, [])
            self.differed[request] |= {it.held for it in its if it.differs()}
            rows = rows_at(unit, its, stage, self.differed[request])
            found += [replace(it, enter=0) if it.refuses() else it for it in rows] if request in self.hasty else rows
        return found


# ---- the rows of one request


def rows_at(unit: Unit, cases: list[Case], stage: Stage, differed: set[Held]) -> list[Row]:
    """The rows for all exchanges of one request, which differed in these sessions and levels."""
    if not cases:
        return []
    if stage == Stage.BY_SESSION:
        return by_session(unit, cases, differed)
    found = in_order(unit, cases, ANY)
    return [replace(it, enter=0) for it in found] if stage == Stage.IN_ORDER_ALONE else found


def by_session(unit: Unit, cases: list[Case], differed: set[Held]) -> list[Row]:
    """Rows for the sessions and levels in which the exchanges of a request differ; the model goes on answering in the
    others."""
    by_held = grouped(cases, lambda it: it.held)
    # a row of a session that wants no level decides behind each level, too
    wanted = {held for held in by_held if held in differed or Held(held.session, 0) in differed}
    if wanted == set(by_held) or cases[0].request[0] not in SERVICES:
        return fewest(unit, cases)
    return [row for held in by_held if held in wanted for row in in_order(unit, by_held[held], held)]


# ---- one row for requests that differ in their data alone


def merged(unit: Unit, rows: list[Row], cases: list[Case]) -> list[Row]:
    """The rows, with one in place of those by which a service of the model answers requests alike that differ in their data:
    a routine's options, or keys. Not where that row would answer as many other requests otherwise than the unit did, which then
    want rows of their own."""
    families = defaultdict(list)
    for row in filter(is_of_family, rows):
        families[head_of(row), row.session, row.level].append(row)
    by_service = grouped(cases, lambda it: it.request[0]) if families else {}
    for (head, *_), own in families.items():
        near = [it for it in by_service[int(head[:2], 16)] if it.request.startswith(bytes.fromhex(head))]
        wide = wide_row(unit, own, near)
        if wide is None:
            continue
        gone = set(map(id, own))
        others = [it for it in rows if id(it) not in gone]
        if len(wrong_by(wide, others, near)) < len(own):
            rows = [*others, wide]
    return rows


def is_of_family(row: Row) -> bool:
    """Whether a row answers one request, of a service that the model has, positively, and the request has data at its end."""
    sid = int(row.request[:2], 16)
    size = DATA_BEHIND.get(sid, MOST_ITEMS)
    is_one = not is_wide_row(row) and len(uds_rules.items_of(row.request.removesuffix("*"))) > size
    if not is_one or sid not in SERVICES or row.reply is None or len(row.reply) != 1:
        return False
    return row.reply[0].startswith(f"{sid + 0x40:02X}") and (sid != 0x27 or int(row.request[2:4], 16) % 2 == 0)


def head_of(row: Row) -> str:
    """What a request has before its data."""
    return row.request[: 2 * DATA_BEHIND[int(row.request[:2], 16)]]


def wide_row(unit: Unit, rows: list[Row], cases: list[Case]) -> Optional[Row]:
    """The row in place of these; None where they don't answer alike. Keys have one where the seeds change, also a single one."""
    is_key = rows[0].request.startswith("27")
    if not is_key and len(rows) < 2:
        return None
    request = bytes.fromhex(head_of(rows[0]))
    if is_key and not unit.changes.seeds_change(request[1] - 1 & 0x7F):
        return None
    held = Held(rows[0].session, rows[0].level)
    exact = {known_of(it) for it in rows}
    own = [it for it in cases if request_of(it) in exact and held in (ANY, it.held, Held(it.held.session))]
    template = template_of(own) if own else None
    if template is None:
        return None
    found = row_of(unit, own, [template], held)
    return replace(found, request=shortened(opened(found.request, request[0], [template]), [template]))


def known_of(row: Row) -> bytes:
    """The request of a row of one, as `known` has it."""
    return bytes.fromhex(row.request.removesuffix("*")) + bytes(row.request.endswith("*"))


def wrong_by(wide: Row, others: list[Row], cases: list[Case]) -> set[bytes]:
    """The requests of these exchanges that this row, behind the others, decides and answers otherwise than the unit did."""
    deciding = Deciding([*sorted((it for it in others if not is_wide_row(it)), key=rank), wide])
    return {request_of(it) for it in cases if deciding(it.request, it.held) is wide and not says(wide, it)}


# ---- rows for late answers


def late_rows(unit: Unit, cases: list[Case], rows: list[Row]) -> list[Row]:
    """Rows that leave the answer to the server, and delay it: for requests with response pending that no other row decides. They
    are for the sessions and levels in which the answer was late, where it was prompt in others."""
    deciding = Deciding(rows)
    late = grouped((it for it in cases if is_late(it) and not deciding(it.request, it.held)), late_pattern)
    others = (it for it in cases if it.all[0].sent and not is_late(it) and late_pattern(it) in late)
    prompt = grouped((it for it in others if not deciding(it.request, it.held)), late_pattern)
    found = []
    for pattern, own in late.items():
        by_held = grouped(own, lambda it: it.held)
        is_one = all(it.held in by_held for it in prompt[pattern])
        for held, part in {ANY: own}.items() if is_one else by_held.items():
            found.append(Row(pattern, None, held.session, held.level, after=after_of(unit, part), seen=seen_of(part)))
    return sorted(found, key=lambda it: ("*" in it.request, it.request, it.level == 0, it.session))


def is_late(case: Case) -> bool:
    """Whether the answer came behind response pending."""
    return any(it.pendings and it.wait for it in case.all)


def late_pattern(case: Case) -> str:
    """The pattern of a request that is late: of what it asks for, whatever data is behind that."""
    sizes = {0x2E: 3, 0x31: 4}
    request = case.request
    size = sizes.get(request[0], MOST_ITEMS)
    return request[:size].hex().upper() + ("*" if len(request) > size else "")


# ---- as many rows as a setup has room for


def limited(rows: list[Row], room: int) -> list[Row]:
    """As many rows and templates as a setup may have, and as much text as there is room for: those by which most is explained,
    in the order in which they stand."""
    found, templates = set(), 0
    for at, it in sorted(enumerate(rows), key=lambda numbered: worth(numbered[1])):
        reply = it.reply or []
        size = ROW_TEXT + sum(TEMPLATE_TEXT + len(text) for text in reply)
        if len(found) < MOST_ROWS and templates + len(reply) <= MOST_ALL_TEMPLATES and size <= room:
            found.add(at)
            templates, room = templates + len(reply), room - size
    return [it for at, it in enumerate(rows) if at in found]


def worth(row: Row) -> tuple:
    """What changes the session comes first, for others hang on it; then what was seen most often, then what is shortest."""
    return int(row.request[:2], 16) not in OF_THE_SESSION, -row.seen.count, len(row.request)
