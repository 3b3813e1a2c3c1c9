"""The slow twin of a link: what receptions, flow control and time make of a tester's log, looked up in whole lists each
time. It says what docs/DEFINITIONS.md, Transport, says, by another way: no function goes on from what another call has
kept. But which row of answers decides about a request is followed through the journal (tools/parts/uds_run.py). For
test/twin.py and test/examples.py, which compare it with what the program sends; no part of what is proved."""
import re
import tomllib
from dataclasses import dataclass, field

import uds_run
from uds_rules import pending

SINGLE, FIRST, OVERFLOW, CONSECUTIVE, FLOW = "single", "first", "overflow", "consecutive", "flow"
LINE = re.compile(r"\((\d+)\.(\d{3})\d*\) +\S+ +([0-9A-Fa-f]{3}|[0-9A-Fa-f]{8})#((?:[0-9A-Fa-f]{2}){0,8})(?:_[0-9A-Fa-f])?(?: .*)?$")
FD_LINE = re.compile(r"\((\d+)\.(\d{3})\d*\) +\S+ +([0-9A-Fa-f]{3}|[0-9A-Fa-f]{8})##[0-9A-Fa-f]((?:[0-9A-Fa-f]{2}){0,64})(?: .*)?$")
STAMP = re.compile(r"\((\d+)\.(\d{3})\d*\) ")
REPLY = re.compile(r"\((\d+)\.(\d{3})000\) (\S+) ((?:[0-9A-F]{3}|[0-9A-F]{8})#(?:#[0-9A-F])?)([0-9A-F]*)$")
ENTRY = re.compile(r"(?:(\d+) )?([1-8]) (?:(T) (\d+)|([PF]) ([0-9A-F]+) (-|[0-9A-F]+))$")
LONGEST = 60000
# the lengths of the frames of a message of several: on classic CAN 8
LENGTHS = (8, 12, 16, 20, 24, 32, 48, 64)


@dataclass
class Setup:
    """What links need of a setup: the testers as name, request and response identifier, their functional identifiers, and
    each link's settings; the rows of answers, with the times of response pending, in `unit`; and of CAN FD which testers
    talk by it, how long a frame to these is at most, the digit of its flags, and the byte that fills one of more than 8.
    Identifiers are texts of three upper-case hex digits, or of eight."""

    testers: list
    functionals: list
    block_size: int
    st_min: int
    most: int
    pad: int
    n_bs: int
    n_cr: int
    unit: uds_run.Setup
    fds: list = field(default_factory=list)
    tx_dl: int = 64
    flags: int = 1
    fill: int = 0xCC


def read_setup(text):
    tree = tomllib.loads(text)
    return Setup(
        [(it["name"], uds_run.own_id(it, "request"), uds_run.own_id(it, "response")) for it in tree["tester"]],
        [uds_run.own_id(it, "functional", 0x18DB33F1 if it.get("extended") else tree.get("functional", 0x7DF)) for it in tree["tester"]],
        tree.get("block_size", 0),
        tree.get("st_min", 0),
        tree.get("max_request", 4095),
        tree.get("pad_byte", 0xCC) if tree.get("pad", True) else None,
        tree.get("n_bs_ms", 1000),
        tree.get("n_cr_ms", 1000),
        uds_run.read_setup(text),
        [it.get("fd", False) for it in tree["tester"]],
        tree.get("tx_dl", 64),
        tree.get("fd_flags", 1),
        tree.get("pad_byte", 0xCC),
    )


def tx_dl_of(setup, place):
    """How long a frame to a tester is at most."""
    return setup.tx_dl if setup.fds[place] else 8


def sender_of(setup, place):
    """What stands before the bytes of a frame to a tester: its name, and the response identifier with its mark."""
    name, _, response = setup.testers[place]
    return name, f"{response}##{setup.flags:X}" if setup.fds[place] else f"{response}#"


# ---- events: ("T", ticks), ("P", bytes) and ("F", bytes)


def ticks_of(line):
    return int(line[5:] or "1")


def waited(span):
    """So many milliseconds as ticks of at most 60000."""
    return [("T", min(LONGEST, span - at)) for at in range(0, span, LONGEST)]


def frame_of(setup, place, line):
    """What the frame of a line is to a tester, with its moment in milliseconds; None where it is nothing to it."""
    found = LINE.match(line) or (setup.fds[place] and FD_LINE.match(line))
    way = found and {setup.testers[place][1]: "P", setup.functionals[place]: "F"}.get(found[3].upper())
    return (way, bytes.fromhex(found[4]), int(found[1] + found[2])) if way else None


def events(setup, place, lines, stamps):
    """The events of a log."""
    all_of, moments = [], []
    for line in lines:
        frame = frame_of(setup, place, line)
        if line.startswith("tick"):
            all_of.append(("T", ticks_of(line)))
        elif frame:
            all_of += waited(max(0, frame[2] - max(moments))) if stamps and moments else []
            moments.append(frame[2])
            all_of.append(frame[:2])
    return all_of


def bus_events(setup, lines):
    """What each line of a capture gives, as pairs of a tester's place and an event."""
    all_of, moments = [], []
    for line in lines:
        stamp, given = STAMP.match(line), []
        if line.startswith("tick"):
            given = [("T", ticks_of(line))]
        elif stamp:
            moment = int(stamp[1] + stamp[2])
            given = waited(max(0, moment - max(moments))) if moments else []
            moments.append(moment)
        pairs = [(place, event) for event in given for place in range(len(setup.testers))]
        frames = [(place, frame_of(setup, place, line)) for place in range(len(setup.testers))]
        all_of.append(pairs + [(place, frame[:2]) for place, frame in frames if frame])
    return all_of


def turns(logs):
    """One event of each log in turn, a log that has ended being left out."""
    rounds = range(max((len(it) for it in logs), default=0))
    return [(place, log[at]) for at in rounds for place, log in enumerate(logs) if at < len(log)]


# ---- what a received frame is


def single_most(size):
    """The longest message that stands in one frame of so many bytes."""
    return size - 1 if size <= 8 else size - 2


def single_of(data):
    """A message of one frame, by its length in byte 0, or in byte 1 behind 00 where the frame has more than 8 bytes."""
    at, least = (1, 1) if len(data) <= 8 else (2, 8)
    is_one = (at == 1 or data[0] == 0) and least <= data[at - 1] <= single_most(len(data))
    return (SINGLE, data[at : at + data[at - 1]]) if is_one else None


def first_of(data, most):
    """The first of several frames, which are as long as it is: the message's length, which one frame doesn't hold, the bytes
    of it, and how long the frames are."""
    short, escape = int.from_bytes(data[:2], "big") & 0xFFF, int.from_bytes(data[2:6], "big")
    length, head = (short, data[2:]) if short else (escape, data[6:])
    if len(data) not in LENGTHS or length <= (single_most(len(data)) if short else 4095):
        return None
    return (FIRST, length, head, len(data)) if length <= most else (OVERFLOW,)


def kind(data, most):
    """What the bytes of a frame are; None where they are nothing."""
    if not data:
        return None
    high, low = data[0] >> 4, data[0] & 15
    if high == 0:
        return single_of(data)
    if high == 1:
        return first_of(data, most)
    if high == 2:
        return (CONSECUTIVE, low, data[1:])
    return (FLOW, low, data[1], data[2]) if high == 3 and len(data) >= 3 else None


def is_a(kind_of, *names):
    return kind_of is not None and kind_of[0] in names


# ---- moments: pairs of the time and of what the physical frame is


def moments_of(setup, log):
    """The moments of events, of which 0 is the opening, and the moment of each event."""
    all_of, places, now = [(0, None)], [], 0
    for way, it in log:
        if way == "T":
            all_of += [(now + tick, None) for tick in range(1, it + 1)]
            now += it
        else:
            all_of.append((now, kind(it, setup.most) if way == "P" else None))
        places.append(len(all_of) - 1)
    return all_of, places


# ---- receptions


@dataclass
class Reception:
    """A message that comes in: its length, the bytes of its First, how long its frames are, and the parts that came."""

    length: int
    head: bytes
    size: int
    parts: list

    def count(self):
        """How many Consecutives the message has."""
        return -(-(self.length - len(self.head)) // (self.size - 1))

    def least(self, at):
        """How many bytes of the message the Consecutive at this place has."""
        return min(self.size - 1, self.length - len(self.head) - (self.size - 1) * at)

    def is_whole(self):
        return len(self.parts) >= self.count()

    def message(self):
        return (self.head + b"".join(self.parts))[: self.length]


def begun(moments, now):
    """The last moment up to `now` at which a message began, 0 where none did."""
    return next((at for at in range(now, 0, -1) if is_a(moments[at][1], SINGLE, FIRST, OVERFLOW)), 0)


def reception(setup, moments, now):
    """The reception that is open after moment `now`; None where none is."""
    start = begun(moments, now)
    if not is_a(moments[start][1], FIRST):
        return None
    came = [(time, *it[1:]) for time, it in moments[start : now + 1] if is_a(it, CONSECUTIVE)]
    found = Reception(*moments[start][1][1:], [part for _, _, part in came])
    good = len(came) <= found.count()
    good = good and all(number == (at + 1) % 16 for at, (_, number, _) in enumerate(came))
    good = good and all(found.least(at) <= len(part) < found.size for at, part in enumerate(found.parts))
    times = [moments[start][0], *(time for time, _, _ in came), moments[now][0]]
    good = good and all(later - one < setup.n_cr for one, later in zip(times, times[1:]))
    return found if good else None


def gives(setup, event, moments, now):
    """The step of an event, whose moment is `now`: ticks, a request, or None."""
    way, it = event
    if way == "T":
        return event
    found = kind(it, setup.most)
    if is_a(found, SINGLE):
        return way, found[1]
    if way == "F" or not is_a(found, CONSECUTIVE):
        return None
    is_open = reception(setup, moments, now)
    return ("P", is_open.message()) if is_open and is_open.is_whole() else None


def steps(setup, log):
    """The step of each event, or None."""
    moments, places = moments_of(setup, log)
    return [gives(setup, event, moments, at) for event, at in zip(log, places)]


# ---- what is sent


def filled(setup, data):
    """A frame: of up to 8 bytes with its padding, where there is any; a longer one filled up to the next length."""
    if len(data) <= 8:
        return data if setup.pad is None else data.ljust(8, bytes([setup.pad]))
    return data.ljust(next(it for it in LENGTHS if it >= len(data)), bytes([setup.fill]))


def cut(setup, message, tx_dl=8):
    """The frames of a message, none longer than `tx_dl`."""
    size = len(message)
    if size <= single_most(tx_dl):
        return [filled(setup, (bytes([size]) if size <= 7 else bytes([0, size])) + message)]
    control = (0x1000 | size).to_bytes(2, "big") if size <= 4095 else b"\x10\0" + size.to_bytes(4, "big")
    at, room = tx_dl - len(control), tx_dl - 1
    parts = [message[it : it + room] for it in range(at, size, room)]
    rest = [filled(setup, bytes([0x20 | number % 16]) + part) for number, part in enumerate(parts, 1)]
    return [control + message[:at], *rest]


def grant(setup, moments, at):
    """The flow control that is owed at a moment, or None."""
    it = moments[at][1]
    go_on = filled(setup, bytes([0x30, setup.block_size, setup.st_min]))
    if is_a(it, FIRST):
        return go_on
    if is_a(it, OVERFLOW):
        return filled(setup, b"\x32\0\0")
    is_open = reception(setup, moments, at) if setup.block_size and is_a(it, CONSECUTIVE) else None
    count = len(is_open.parts) if is_open else 0
    return go_on if count and count % setup.block_size == 0 and not is_open.is_whole() else None


def gap_of(st):
    return st if st < 0x80 else 1 if 0xF1 <= st <= 0xF9 else 127


def draw(setup, moments, count, start):
    """The moments at which so many frames go that start at this one, and the moment at which that ends, None where it
    doesn't."""
    goes, left, since = [start], count - 1, start
    while left:
        late = moments[since][0] + setup.n_bs
        later = range(since + 1, len(moments))
        at = next((it for it in later if moments[it][0] == late or is_a(moments[it][1], FLOW)), None)
        if at is None:
            return goes, None
        _, status, block, st = moments[at][1] if is_a(moments[at][1], FLOW) else (FLOW, 2, 0, 0)
        if status > 1:
            return goes, at
        since = at
        if status == 1:
            continue
        size = min(block, left) if block else left
        for it in range(size):
            since = moment_after(moments, at, since, it * gap_of(st))
            if since is None:
                return goes, None
            goes.append(since)
        left -= size
    return goes, since


def moment_after(moments, at, least, ticks):
    """The first moment that is so many ticks after one; it isn't before `least`."""
    return next((it for it in range(least, len(moments)) if moments[it][0] >= moments[at][0] + ticks), None)


def wire(setup, log, messages, tx_dl=8):
    """All frames of a link, none longer than `tx_dl`: the moment, the time and the bytes of each. `messages` has pairs of the
    moment at which a message is placed and its bytes, in order."""
    moments, _ = moments_of(setup, log)
    found = [(at, 0, 0, grant(setup, moments, at)) for at, (_, it) in enumerate(moments) if it]
    free = 0
    for number, (start, message) in enumerate(messages, 1):
        if free is None:
            break
        frames = cut(setup, message, tx_dl)
        goes, free = draw(setup, moments, len(frames), max(free, start))
        found += [(at, number, it, frames[it]) for it, at in enumerate(goes)]
    return [(at, moments[at][0], frame) for at, _, _, frame in sorted(it for it in found if it[3] is not None)]


# ---- answers that take their time


def due(setup, request, reply, after):
    """The messages that a request brings, each with how long after it: response pending as often as it is due before the
    reply, and the reply, which goes `after` so many milliseconds; none where nothing is sent."""
    if reply is None:
        return []
    return [*((it, pending(request)) for it in setup.unit.times.pendings(after)), (after, reply)]


def placed(setup, log, steps_of, answers):
    """The messages of a tester, each with the moment at which it is placed, in order. `answers` has for each of its steps
    the reply, or None, and after how many milliseconds it goes. A message is placed at the first moment from that of its
    request and from that of the message before it on, whose time is at least its due time; behind one that isn't due by
    the log's end none is."""
    moments, places = moments_of(setup, log)
    asked = [(at, step) for at, step in zip(places, steps_of) if step]
    found, last = [], 0
    for (at, (_, request)), (reply, after) in zip(asked, answers):
        for wait, message in due(setup, request, reply, after):
            last = moment_after(moments, at, max(at, last), wait)
            if last is None:
                return found
            found.append((last, message))
    return found


# ---- what the program wrote


def read_output(text):
    """The reply lines, as time in milliseconds, name, identifier with its mark, and bytes; the journal's entries, as what
    stands before them, the tester's place, the kind, the request or the ticks, and the reply or None."""
    sent, entries = [], []
    for line in text.splitlines():
        reply, entry = REPLY.match(line), ENTRY.match(line)
        if reply:
            sent.append((int(reply[1] + reply[2]), reply[3], reply[4], bytes.fromhex(reply[5])))
        elif entry:
            at, place, tick, ticks, way, request, answer = entry.groups()
            it = ("T", int(ticks)) if tick else (way, bytes.fromhex(request))
            entries.append((at and int(at), int(place) - 1, it, None if answer in (None, "-") else bytes.fromhex(answer)))
    return sent, entries


def rows_say(setup, entries):
    """Of each entry after how many milliseconds its answer goes, and whether a row of answers that decides about it, with
    templates of its own, says another answer: of all entries in the order of the journal."""
    if not setup.unit.rows:
        return [(0, False)] * len(entries)
    session, found = uds_run.Session(setup.unit), []
    for _, place, (way, it), reply in entries:
        is_tick = way == "T"
        entry = uds_run.Entry(0, place, way, it if is_tick else 0, b"" if is_tick else it, reply)
        at = None if is_tick else session.deciding(entry)
        row = None if at is None else setup.unit.rows[at]
        is_other = row is not None and row.reply is not None and session.row_reply(at, entry) != reply
        found.append((row.after if row else 0, is_other))
        session.take(entry)
    return found


def answers_of(entries, said, place):
    """The replies of a tester's entries, with None where nothing is sent, and after how many milliseconds each goes;
    `said` is what the rows say."""
    return [(reply, after) for (_, who, _, reply), (after, _) in zip(entries, said) if who == place]


def other_answer(said):
    """The first entry that a row of answers answers otherwise; None where there is none."""
    found = (number for number, (_, is_other) in enumerate(said, 1) if is_other)
    return next((f"entry {it} isn't what its row says" for it in found), None)


def differs(setup, logs, text, in_turn, stamps):
    """What of a play's whole text isn't as the logs and the replies in its journal make it; None where all is. `in_turn`:
    the testers took turns, so the order of all entries is known."""
    sent, entries = read_output(text)
    all_steps = [steps(setup, log) for log in logs]
    for place, of in enumerate(all_steps):
        own = [it for _, who, it, _ in entries if who == place]
        if own != [it for it in of if it]:
            return f"tester {place + 1}: the journal asks {own}"
        clock, at = 0, []
        for way, it in own:
            clock += it if way == "T" else 0
            at.append(clock if stamps else None)
        if at != [at for at, who, _, _ in entries if who == place]:
            return f"tester {place + 1}: the journal's times"
    if in_turn and [(who, it) for _, who, it, _ in entries] != [it for it in turns(all_steps) if it[1]]:
        return "the journal's order"
    said, wanted = rows_say(setup, entries), []
    for place, (log, of) in enumerate(zip(logs, all_steps)):
        messages = placed(setup, log, of, answers_of(entries, said, place))
        wanted += [(at, *sender_of(setup, place), data) for _, at, data in wire(setup, log, messages, tx_dl_of(setup, place))]
    return other_answer(said) if sent == wanted else first_apart(sent, wanted)


def bus_differs(setup, lines, text, journal):
    """What of a capture's reply lines and journal isn't as its lines and the replies in the journal make it."""
    _, entries = read_output(journal)
    sent, _ = read_output(text)
    by_line = bus_events(setup, lines)
    pairs = [(place, event, line) for line, pairs in enumerate(by_line) for place, event in pairs]
    logs = [[event for who, event, _ in pairs if who == place] for place in range(len(setup.testers))]
    all_steps = [steps(setup, log) for log in logs]
    asked, seen = [], [0] * len(logs)
    for place, _, _ in pairs:
        step, seen[place] = all_steps[place][seen[place]], seen[place] + 1
        asked += [(place, step)] if step else []
    if [(who, it) for _, who, it, _ in entries] != asked:
        return "the journal's steps"
    said, drawn = rows_say(setup, entries), []
    for place, log in enumerate(logs):
        line_of = [line for who, _, line in pairs if who == place]
        _, places = moments_of(setup, log)
        messages = placed(setup, log, all_steps[place], answers_of(entries, said, place))
        frames = wire(setup, log, messages, tx_dl_of(setup, place))
        drawn += [(line_at(places, line_of, moment), at, place, data) for moment, at, data in frames]
    start, before = beginning(lines)
    wanted = [(at - before + start, *sender_of(setup, place), data) for _, at, place, data in sorted(drawn, key=lambda it: it[:3])]
    return other_answer(said) if sent == wanted else first_apart(sent, wanted)


def line_at(places, line_of, moment):
    """The line of the event that a moment is of."""
    return line_of[next(it for it, last in enumerate(places) if last >= moment)]


def beginning(lines):
    """The moment of the first stamped line, and the ticks before it."""
    at = next((it for it, line in enumerate(lines) if STAMP.match(line)), len(lines))
    stamp = STAMP.match(lines[at]) if at < len(lines) else None
    return int(stamp[1] + stamp[2]) if stamp else 0, sum(ticks_of(it) for it in lines[:at] if it.startswith("tick"))


def first_apart(found, wanted):
    at = next((it for it, (one, other) in enumerate(zip(found, wanted)) if one != other), min(len(found), len(wanted)))
    return f"frame {at + 1}: {found[at : at + 1]} in place of {wanted[at : at + 1]}"
