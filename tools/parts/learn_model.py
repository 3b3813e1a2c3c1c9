"""What of a recording goes into the server's model: times, identifiers, DTCs, routines, seeds and keys. One
reader a service, in the table READERS. For tools/learn.py; no part of what is proved."""
from collections import Counter, defaultdict
from typing import Callable, NamedTuple, Optional

from learn_judge import Exchange
from learn_setup import Code, Did, Key, Level, Routine, Row, Seen, Unit, between
from uds_names import IN_SESSION

# limits of a setup
MOST_VALUE, MOST_RESULT, MOST_SEED = 255, 32, 255
GREATEST_CODE, GREATEST_LEVEL, GREATEST_SESSION = 0xFFFFFE, 65, 126
LONGEST_TIME = 600_000
MOST_DIDS, MOST_CODES, MOST_ROUTINES, MOST_LEVELS = 1024, 4096, 256, 4
# how long a row is that lists a code: the code, and its status
RECORD = 4


# ---- answers


def is_positive(it: Exchange) -> bool:
    return it.sent is not None and it.sent[0] == it.request[0] + 0x40


def refusal(it: Exchange) -> int:
    """The negative response code; 0 where the answer is none."""
    sent = it.sent
    return sent[2] if sent is not None and len(sent) == 3 and sent[0] == 0x7F and sent[1] == it.request[0] else 0


def is_left_pending(it: Exchange) -> bool:
    """Whether response pending came, and no answer."""
    return it.sent is None and it.pendings > 0 and not it.is_lost


def sub_of(it: Exchange) -> int:
    """The sub-function, without its bit 7."""
    return it.request[1] & 0x7F if len(it.request) > 1 else 0


def is_done(it: Exchange) -> bool:
    """Whether the unit did what was asked, also where the request wanted no reply: behind response pending it has one."""
    return is_positive(it) or (it.sent is None and not it.pendings and len(it.request) > 1 and it.request[1] >= 0x80)


def session_of(it: Exchange) -> int:
    """The session that a request enters, of those that a setup can have; 0 for none."""
    is_entered = it.request[0] == 0x10 and is_done(it) and 1 <= sub_of(it) <= GREATEST_SESSION
    return sub_of(it) if is_entered else 0


# ---- the session, as the unit's answers tell it


class Held(NamedTuple):
    """A tester's session, by its number, and the level that is unlocked for it, 0 for none."""

    session: int = 1
    level: int = 0


class Walk:
    """Who holds which session, from exchange to exchange."""

    def __init__(self, s3: Optional[int]):
        self.s3 = s3
        self.holder, self.held, self.until = None, Held(), 0
        # how often the session began or ended
        self.turns = 0

    def before(self, it: Exchange) -> Held:
        """The tester's session before an exchange."""
        if self.holder is not None and self.s3 is not None and it.at - self.until >= self.s3:
            self.end()
        return self.held if it.place == self.holder else Held()

    def end(self) -> None:
        self.holder, self.held = None, Held()
        self.turns += 1

    def take(self, it: Exchange, row: Optional[Row] = None) -> None:
        """An exchange, and, where a row of a setup decides it, that row: nothing else changes the session then."""
        sid, sub = it.request[0], sub_of(it)
        if row is not None:
            if row.enter and self.holder in (None, it.place):
                self.enter(it.place, row.enter)
        elif session_of(it):
            self.enter(it.place, sub)
        elif sid == 0x11 and is_done(it):
            self.end()
        elif sid == 0x27 and is_positive(it) and sub and sub % 2 == 0 and it.place == self.holder:
            self.held = Held(self.held.session, sub - 1)
        if it.place == self.holder:
            # an answer behind response pending gets a row that keeps the session up until it goes
            late = it.at + (it.wait if it.pendings else 0)
            self.until = late if sid == 0x10 else max(self.until, late)

    def enter(self, place: int, session: int) -> None:
        if session > 1:
            self.holder, self.held = place, Held(session)
            self.turns += 1
        elif place == self.holder:
            self.end()


def s3_of(exchanges: list[Exchange]) -> int:
    """How long a session lives: between the longest silence that one outlived and the shortest that ended one."""
    walk, least, most = Walk(None), 0, None
    for it in exchanges:
        held = walk.before(it)
        gap = it.at - walk.until
        if held.session > 1 and it.request[0] in IN_SESSION:
            if refusal(it) == 0x7F:
                most = gap if most is None else min(most, gap)
                walk.end()
            else:
                least = max(least, gap)
        walk.take(it)
    return min(between(least, most, 5000), LONGEST_TIME) if most is None or most > least else 5000


# ---- the readers of services


class Notes:
    """What the readers note beside the unit itself."""

    def __init__(self) -> None:
        # by level the seed that waits for its key, and since which turn of the session
        self.outstanding: dict[int, tuple[Key, int]] = {}
        # how often a key was wrong, and since when the unit doesn't listen
        self.wrong, self.since = 0, None
        self.delay: list[Optional[int]] = [0, None]
        # what was refused for want of a level, by its service and its number, and behind which levels it was granted
        self.locked: set[tuple[int, int]] = set()
        self.granted: dict[tuple[int, int], set[int]] = defaultdict(set)
        # when a routine began
        self.begun: dict[int, int] = {}
        self.has_times = self.has_availability = False

    def level_of(self, service: int, number: int) -> int:
        """The level behind which it is, 0 for none: where it was refused for want of one, and never granted without."""
        levels = self.granted.get((service, number), set()) if (service, number) in self.locked else set()
        return min(levels, default=0)


def read_session(unit: Unit, notes: Notes, it: Exchange, _: Held, __: int) -> None:
    """`50 03` tells P2 and P2*, and `50 01` where the unit never sent that."""
    is_new = sub_of(it) == 3 and not notes.has_times or sub_of(it) == 1 and not unit.told
    if is_new and is_positive(it) and len(it.sent) == 6:
        unit.p2, unit.p2_star = int.from_bytes(it.sent[2:4], "big"), 10 * int.from_bytes(it.sent[4:6], "big")
        unit.told, notes.has_times = it.line, sub_of(it) == 3


def read_codes(unit: Unit, notes: Notes, it: Exchange, _: Held, __: int) -> None:
    """`59 02` and `59 0A` list codes with their statuses: the first one counts."""
    if not is_positive(it) or sub_of(it) not in (1, 2, 0x0A) or len(it.sent) < 3:
        return
    if not notes.has_availability:
        unit.availability, notes.has_availability = it.sent[2], True
    if sub_of(it) == 1 or (len(it.sent) - 3) % RECORD:
        return
    for at in range(3, len(it.sent), RECORD):
        code = int.from_bytes(it.sent[at : at + 3], "big")
        if code <= GREATEST_CODE:
            unit.codes.setdefault(code, Code(it.sent[at + 3], Seen())).seen.at(it.line)


def read_values(unit: Unit, notes: Notes, it: Exchange, held: Held, _: int) -> None:
    """`62` has identifiers, each with its value."""
    if refusal(it) == 0x33 and len(it.request) == 3:
        notes.locked.add((0x22, int.from_bytes(it.request[1:], "big")))
    for number, value in values_in(unit, it):
        did = unit.dids.setdefault(number, Did(value, value, Seen()))
        did.seen.at(it.line)
        did.changes = did.changes or value != did.now
        did.sizes.add(len(value))
        notes.granted[0x22, number].add(held.level)


def values_in(unit: Unit, it: Exchange) -> list[tuple[int, bytes]]:
    """The identifiers and values of an answer to 22: where the lengths that are known don't fit it, as far as it tells them
    itself."""
    if not is_positive(it) or len(it.request) % 2 == 0:
        return []
    data, asked = it.sent[1:], [int.from_bytes(it.request[at : at + 2], "big") for at in range(1, len(it.request), 2)]
    left = [number for number in asked if number.to_bytes(2, "big") in data]
    lengths = {number: len(unit.dids[number].value) for number in left if number in unit.dids}
    return parted(data, left, lengths) or parted(data, left, {})


def parted(data: bytes, left: list[int], lengths: dict[int, int]) -> list[tuple[int, bytes]]:
    """Identifiers, each with its value, by these lengths or those that the data tells; one unknown one may be what is left. Nothing
    where they don't fit."""
    found = []
    is_one = sum(number not in lengths for number in left) == 1
    rest = len(data) - sum(2 + lengths.get(number, 0) for number in left)
    at = 0
    for place, number in enumerate(left, 1):
        size = lengths.get(number, rest if is_one else size_before(left[place:], data[at + 2 :]))
        if data[at : at + 2] != number.to_bytes(2, "big") or not 1 <= size <= MOST_VALUE or at + 2 + size > len(data):
            return []
        found.append((number, data[at + 2 : at + 2 + size]))
        at += 2 + size
    return found if at == len(data) else []


def size_before(numbers: list[int], data: bytes) -> int:
    """How long the value is with which some bytes begin, before these identifiers: 0 where the first of these may be in
    several places, or in none."""
    if not numbers:
        return len(data)
    first = numbers[0].to_bytes(2, "big")
    at = data.find(first, 1)
    return at if at > 0 and data.find(first, at + 1) < 0 else 0


def read_writing(unit: Unit, notes: Notes, it: Exchange, held: Held, _: int) -> None:
    """`6E`: the identifier is written."""
    number, value = int.from_bytes(it.request[1:3], "big"), it.request[3:]
    if refusal(it) == 0x33:
        notes.locked.add((0x2E, number))
    if not is_positive(it) or not 1 <= len(value) <= MOST_VALUE:
        return
    did = unit.dids.setdefault(number, Did(value, value, Seen()))
    did.seen.at(it.line)
    did.is_written = True
    if len(value) == len(did.value):
        did.now = value
    notes.granted[0x2E, number].add(held.level)


def read_routine(unit: Unit, notes: Notes, it: Exchange, held: Held, _: int) -> None:
    """`71 01` begins a routine, as a physical start that wants no reply, and `71 03` tells that it runs, or its result."""
    number = int.from_bytes(it.request[2:4], "big")
    if refusal(it) == 0x33:
        notes.locked.add((0x31, number))
    is_taken = is_positive(it) or it.kind == "P" and is_done(it)
    if len(it.request) != 4 or not is_taken and refusal(it) != 0x22:
        return
    gone = it.at - notes.begun[number] if number in notes.begun else None
    if sub_of(it) == 1:
        read_start(unit, notes, it, held, gone)
    elif sub_of(it) == 2:
        notes.begun.pop(number, None)
    elif sub_of(it) == 3 and number in unit.routines and len(it.sent or b"") > 4 and gone is not None:
        read_result(unit.routines[number], it.sent[4:], gone)


def read_start(unit: Unit, notes: Notes, it: Exchange, held: Held, gone: Optional[int]) -> None:
    """A start that is accepted, or refused while the routine runs (0x22)."""
    number = int.from_bytes(it.request[2:4], "big")
    if refusal(it):
        if gone is not None:
            unit.routines[number].least = max(unit.routines[number].least, gone)
    elif it.sent is None or len(it.sent) == 4:
        routine = unit.routines.setdefault(number, Routine(Seen()))
        routine.seen.at(it.line)
        done_by(routine, gone)
        notes.begun[number] = it.at
        notes.granted[0x31, number].add(held.level)


def done_by(routine: Routine, gone: Optional[int]) -> None:
    """After so long the routine was done."""
    if gone is not None and gone > routine.least:
        routine.most = gone if routine.most is None else min(routine.most, gone)


def read_result(routine: Routine, data: bytes, gone: int) -> None:
    """`01` says that it runs, `00` is before its result."""
    if data == b"\x01":
        routine.least = max(routine.least, gone)
    elif data[0] == 0 and len(data) <= 1 + MOST_RESULT:
        routine.result = routine.result or data[1:]
        done_by(routine, gone)


def read_security(unit: Unit, notes: Notes, it: Exchange, held: Held, turn: int) -> None:
    """Seeds in their order, each with the key that was right for it."""
    sub = sub_of(it)
    if not sub or sub > GREATEST_LEVEL + 1:
        return
    if sub % 2:
        read_seed(unit, notes, it, turn)
    else:
        read_key(notes, it, turn)
    if refusal(it) in (0x36, 0x37):
        note_delay(unit, notes, it)


def read_seed(unit: Unit, notes: Notes, it: Exchange, turn: int) -> None:
    """`67` with a seed that isn't zero: a new one, where none waits for its key in this session."""
    sub, seed = sub_of(it), (it.sent or b"")[2:]
    if not is_positive(it) or not any(seed) or len(seed) > MOST_SEED:
        return
    level = unit.levels.setdefault(sub, Level(Seen()))
    level.seen.at(it.line)
    level.seeds.add(seed)
    if notes.since is not None:
        notes.delay[1] = min(notes.delay[1] or it.at, it.at - notes.since)
        notes.since, notes.wrong = None, 0
    if notes.outstanding.get(sub, (None, None))[1] != turn:
        key = Key(seed)
        level.keys.append(key)
        notes.outstanding = {sub: (key, turn)}


def read_key(notes: Notes, it: Exchange, turn: int) -> None:
    """A key that was right, or wrong."""
    key, since = notes.outstanding.get(sub_of(it) - 1, (None, None))
    if key is None or since != turn or not 1 <= len(it.request) - 2 <= MOST_SEED:
        return
    if is_positive(it):
        key.right, notes.wrong = it.request[2:], 0
        notes.outstanding = {}
    elif refusal(it) in (0x35, 0x36):
        key.wrong, notes.wrong = it.request[2:], notes.wrong + 1
        notes.outstanding = {}


def note_delay(unit: Unit, notes: Notes, it: Exchange) -> None:
    """0x36 says after how many wrong keys the unit waits, 0x37 that it waits still."""
    if refusal(it) == 0x36:
        unit.attempts, notes.since = max(notes.wrong, 1), it.at
    elif notes.since is not None:
        notes.delay[0] = max(notes.delay[0], it.at - notes.since)


Reader = Callable[[Unit, Notes, Exchange, Held, int], None]
# what reads the exchanges of a service: the unit, the notes, an exchange, its tester's session, and the session's turn
READERS: dict[int, Reader] = {
    0x10: read_session,
    0x19: read_codes,
    0x22: read_values,
    0x27: read_security,
    0x2E: read_writing,
    0x31: read_routine,
}


def learn_model(unit: Unit, exchanges: list[Exchange]) -> None:
    """Reads into the unit what its model can have."""
    asked = [it for it in exchanges if it.request]
    unit.s3 = s3_of(asked)
    walk, notes = Walk(unit.s3), Notes()
    for it in asked:
        unit.asked.setdefault(it.place, Seen()).at(it.line)
        held = walk.before(it)
        reader = READERS.get(it.request[0])
        if reader and not it.is_lost:
            reader(unit, notes, it, held, walk.turns)
        if unit.varies:
            unit.changes.take(it)
        walk.take(it)
    unit.delay = min(between(notes.delay[0], notes.delay[1], 10000), LONGEST_TIME)
    unit.attempts = min(unit.attempts, 255)
    limit(unit)
    set_levels(unit, notes)


def limit(unit: Unit) -> None:
    """As much as a setup may have: what was seen most often."""
    unit.dids = most_seen(unit.dids, MOST_DIDS)
    unit.codes = most_seen(unit.codes, MOST_CODES)
    unit.routines = most_seen(unit.routines, MOST_ROUTINES)
    unit.levels = most_seen(unit.levels, MOST_LEVELS)
    for level in unit.levels.values():
        limit_keys(level)


def most_seen(items: dict, most: int) -> dict:
    return dict(sorted(items.items(), key=lambda it: -it[1].seen.count)[:most])


def limit_keys(level: Level) -> None:
    """In one level all seeds have one length, and all keys."""
    seed = Counter(len(it.seed) for it in level.keys).most_common(1)[0][0]
    level.keys = one_round([it for it in level.keys if len(it.seed) == seed])
    sizes = Counter(len(it.right or it.wrong or it.seed) for it in level.keys if it.right or it.wrong)
    level.size = sizes.most_common(1)[0][0] if sizes else seed
    for it in level.keys:
        it.right = it.right if it.right and len(it.right) == level.size else None


def set_levels(unit: Unit, notes: Notes) -> None:
    """The levels of identifiers and of routines."""
    notes.granted = {key: {it if it in unit.levels else 0 for it in levels} for key, levels in notes.granted.items()}
    for number, did in unit.dids.items():
        did.read_level, did.write_level = notes.level_of(0x22, number), notes.level_of(0x2E, number)
    for number, routine in unit.routines.items():
        routine.level = notes.level_of(0x31, number)


def one_round(items: list) -> list:
    """The shortest list that gives these, round and round; all of them where it would be more than half."""
    for size in range(1, len(items) // 2 + 1):
        if all(it == items[at % size] for at, it in enumerate(items)):
            return items[:size]
    return items
