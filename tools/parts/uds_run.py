"""Reads a setup and what the program wrote of a run, and follows the session through the journal: who holds it, which
session it is, which level is unlocked, which routines run, and which row of answers decides. For tools/view.py and the
slow twin; no part of what is proved."""
import os
import re
import sys
from dataclasses import dataclass, field
from typing import Any, Container, Iterable, Optional

sys.path.append(os.path.join(os.path.dirname(os.path.abspath(__file__)), "..", "..", "python"))
from uds_names import IN_SESSION, SERVICES
from uds_rules import Row, Times, rows_of, times_of

try:
    from uds_unit import toml
except ModuleNotFoundError:
    sys.exit("view: the package uds_unit isn't here: this tool takes it from the folder python/ beside tools/, or installed (pip install ./python)")

REPLY_LINE = re.compile(
    r"\((\d{10,19})\.(\d{3})000\) (\S+) ([0-9A-F]{3}|[0-9A-F]{8})(?:#((?:[0-9A-F]{2}){0,8})|##[0-9A-F]((?:[0-9A-F]{2}){0,64}))"
)
ENTRY = re.compile(r"(?:(\d{1,19}) )?([1-8]) (?:T (\d{1,19})|([PF]) ((?:[0-9A-F]{2})+) (-|(?:[0-9A-F]{2})+))")
# a message of more bytes has several classic frames
ONE_FRAME = 7
END = re.compile(r"session (default|programming|extended|safety|[0-9A-F]{2})|holder \S+|code [0-9A-F]{6} [0-9A-F]{2}|entries \d+")


class Wrong(Exception):
    """A text that isn't of a setup or of a run, told in one line."""


# ---- the setup


@dataclass
class Setup:
    """What of a setup the pages name: the testers' names and response identifiers, in order, the time of S3, the length
    of each data identifier's value, the time of each routine, the levels, the rows of answers, and the times of response
    pending. Times are milliseconds."""

    names: list[str]
    responses: list[str]
    s3: int
    lengths: dict[int, int]
    routines: dict[int, int]
    levels: set[int]
    rows: list[Row]
    times: Times


def own_id(tester: dict[str, Any], key: str, default: Optional[int] = None) -> str:
    """An identifier of a tester as it is written: with eight digits where it has 29 bits."""
    return f"{tester.get(key, default):0{8 if tester.get('extended') else 3}X}"


def read_setup(text: str) -> Setup:
    """The setup of a TOML text. The program looks at all of it; here only what is used is read."""
    try:
        tree = toml.loads(text.removeprefix("\ufeff"))
        return Setup(
            [str(it["name"]) for it in tree["tester"]],
            [own_id(it, "response") for it in tree["tester"]],
            int(tree.get("s3_ms", 5000)),
            {it["id"]: len(bytes.fromhex(it["value"])) for it in tree.get("did", [])},
            {it["id"]: int(it["time_ms"]) for it in tree.get("routine", [])},
            {it["sub"] for it in tree.get("level", [])},
            rows_of(tree),
            times_of(tree),
        )
    except (KeyError, IndexError, TypeError, ValueError, AttributeError, RecursionError) as fault:
        raise Wrong(f"config: {type(fault).__name__}: {fault}") from None


# ---- the texts of a run


@dataclass(slots=True)
class Entry:
    """An entry of the journal: the tester's time in milliseconds with it, its place from 0, `P`, `F` or `T`, the ticks
    of a `T`, else the request and the reply, which is None where nothing is sent."""

    time: int
    place: int
    kind: str
    ticks: int
    request: bytes
    reply: Optional[bytes]


@dataclass(slots=True)
class Frame:
    """A frame that was sent, with its stamp in milliseconds and its tester's place from 0."""

    time: int
    place: int
    data: bytes


@dataclass
class Run:
    """The frames, the journal and the end of a run, as far as they were given. `shows` says which of them were."""

    frames: list[Frame] = field(default_factory=list)
    entries: list[Entry] = field(default_factory=list)
    end: list[str] = field(default_factory=list)
    shows: set[str] = field(default_factory=set)


def read_entry(found: re.Match[str], version: int, clocks: list[int]) -> Entry:
    """The entry of a line that matched; `clocks` has each tester's ticks so far."""
    stamp, place, ticks, kind, request, reply = found.groups()
    if (stamp is None) != (version == 1):
        raise Wrong("an entry of the journal's other version")
    place = int(place) - 1
    clocks[place] += int(ticks or 0)
    time = clocks[place] if stamp is None else int(stamp)
    answer = None if reply in (None, "-") else bytes.fromhex(reply)
    return Entry(time, place, kind or "T", int(ticks or 0), bytes.fromhex(request or ""), answer)


def read_frame(found: re.Match[str], setup: Setup) -> Frame:
    """The frame of a reply line that matched."""
    seconds, parts, name, identifier, data, fd_data = found.groups()
    if name not in setup.names or setup.responses[setup.names.index(name)] != identifier:
        raise Wrong(f"no tester of the setup is {name} with the response identifier {identifier}")
    return Frame(int(seconds) * 1000 + int(parts), setup.names.index(name), bytes.fromhex(data or fd_data or ""))


class Reader:
    """Reads what the program wrote, line by line, into a run."""

    def __init__(self, setup: Setup, run: Run) -> None:
        self.setup, self.run = setup, run
        self.version, self.clocks = 0, [0] * 8

    def take(self, line: str) -> None:
        """Takes a line in: of the frames, the journal or the end."""
        if line.startswith("("):
            self.frame(line)
        elif line in ("diag-journal 1", "diag-journal 2"):
            self.header(int(line[-1]))
        elif line[:1].isdigit():
            self.entry(line)
        elif END.fullmatch(line):
            self.run.end.append(line)
            self.run.shows.add("end")
        else:
            raise Wrong("no line of a run")

    def frame(self, line: str) -> None:
        found = REPLY_LINE.fullmatch(line)
        if not found:
            raise Wrong("no reply line")
        self.run.frames.append(read_frame(found, self.setup))
        self.run.shows.add("frames")

    def header(self, version: int) -> None:
        if "journal" in self.run.shows:
            raise Wrong("a second journal")
        self.version = version
        self.run.shows.add("journal")

    def entry(self, line: str) -> None:
        found = ENTRY.fullmatch(line)
        if not found or not self.version:
            raise Wrong("no entry of a journal")
        entry = read_entry(found, self.version, self.clocks)
        if entry.place >= len(self.setup.names):
            raise Wrong("the setup has no such tester")
        self.run.entries.append(entry)


def read_run(setup: Setup, texts: Iterable[tuple[str, str]]) -> Run:
    """The run of the texts, each a pair of a name and the text: a whole output, or its frames and its journal apart."""
    run = Run()
    for name, text in texts:
        reader = Reader(setup, run)
        for number, line in enumerate(text.split("\n")[:-1], 1):
            try:
                reader.take(line)
            except Wrong as fault:
                raise Wrong(f"{name} line {number}: {fault}") from None
        if not text.endswith("\n") and text:
            raise Wrong(f"{name}: the last line has no end")
    return run


# ---- frames as messages


@dataclass
class Message:
    """A message or a flow control frame that the unit sent: its frames, the bytes that they carry, and the length that
    the first one tells, None for flow control."""

    place: int
    frames: list[Frame]
    carried: bytes
    length: Optional[int]

    def is_whole(self) -> bool:
        return self.length is None or len(self.carried) == self.length


def first_of(frame: Frame) -> Optional[Message]:
    """The message that begins with the frame, or None where the frame begins none. In a frame of more than 8 bytes its length
    stands behind 00."""
    data = frame.data
    high = data[0] >> 4 if data else None
    if high == 0 and 0 < data[0] < 8:
        return Message(frame.place, [frame], data[1 : 1 + data[0]], data[0])
    if high == 0 and len(data) > 8 and data[0] == 0 and data[1] > ONE_FRAME:
        return Message(frame.place, [frame], data[2 : 2 + data[1]], data[1])
    if high == 1 and len(data) >= 8:
        short = (data[0] & 15) << 8 | data[1]
        length, carried = (short, data[2:]) if short else (int.from_bytes(data[2:6], "big"), data[6:])
        return Message(frame.place, [frame], carried[:length], length)
    return Message(frame.place, [frame], b"", None) if high == 3 else None


def messages(frames: Iterable[Frame]) -> list[Message]:
    """The messages of the frames, in the order in which they begin. Flow control may stand among a message's frames."""
    found, open_ones = [], {}
    for frame in frames:
        begun = first_of(frame)
        if begun:
            found.append(begun)
            if begun.length is not None:
                open_ones[frame.place] = begun
        elif frame.place in open_ones:
            it = open_ones[frame.place]
            it.frames.append(frame)
            it.carried += frame.data[1 : 1 + it.length - len(it.carried)]
        else:
            raise Wrong(f"a Consecutive frame of no message: {frame.data.hex().upper()}")
    return found


# ---- the session


@dataclass(frozen=True)
class Held:
    """The session at a point of a run: its holder's place or None, the unlocked level or None, the running routines, and
    the holder's session by its number."""

    holder: Optional[int] = None
    level: Optional[int] = None
    routines: tuple[int, ...] = ()
    session: int = 1


class Session:
    """The session through a journal, entry by entry, as docs/FORMATS.md tells it under Services and Answers by rules."""

    def __init__(self, setup: Setup) -> None:
        self.setup = setup
        self.next = [0] * len(setup.rows)
        # by how requests begin the rows, with their numbers, that may fit them
        self.near = {}
        self.clean()

    def clean(self) -> None:
        """As it is while nobody holds it."""
        self.holder, self.session, self.left, self.level, self.routines = None, 1, 0, None, {}

    def enter(self, place: int, session: int) -> None:
        """The tester of this place begins this session."""
        self.holder, self.session, self.left, self.level = place, session, 0, None

    def held(self) -> Held:
        return Held(self.holder, self.level, tuple(sorted(self.routines)), self.session)

    def deciding(self, entry: Entry) -> Optional[int]:
        """The number of the row of answers that decides about a request, from 0; None where none does."""
        is_holder = entry.place == self.holder
        sessions, levels = (0, self.session if is_holder else 1), (0, self.level if is_holder else 0)
        near = self.rows_near(entry.request[:3])
        return next((at for at, it in near if it.session in sessions and it.level in levels and it.fits(entry.request)), None)

    def rows_near(self, begin: bytes) -> list[tuple[int, Row]]:
        """The rows, with their numbers, whose patterns may fit a request that begins so."""
        if begin not in self.near:
            rows = self.rows_near(begin[:-1]) if begin else enumerate(self.setup.rows)
            self.near[begin] = [(at, it) for at, it in rows if all(want in (None, byte) for want, byte in zip(it.items, begin))]
        return self.near[begin]

    def wait(self, entry: Entry) -> int:
        """After how many milliseconds the answer to a request goes, if there is one."""
        at = self.deciding(entry)
        return 0 if at is None else self.setup.rows[at].after

    def is_past(self, row: Row, entry: Entry) -> bool:
        """Whether a row leads into a session that another tester holds."""
        return row.enter > 1 and self.holder not in (None, entry.place)

    def row_reply(self, at: int, entry: Entry) -> Optional[bytes]:
        """What the row of this number answers to a request, of one with templates of its own."""
        row = self.setup.rows[at]
        if self.is_past(row, entry):
            return bytes([0x7F, entry.request[0], 0x21])
        return row.filled(self.next[at], entry.request)

    def take(self, entry: Entry) -> str:
        """Takes an entry in; says of a request what became of it: `done`, `refused`, `suppressed`, `silent`, which is a
        refusal that isn't sent, or `empty`, to which a row answers nothing; of ticks `passed`."""
        if entry.kind == "T":
            if entry.place == self.holder:
                self.pass_time(entry.ticks)
            return "passed"
        at, after = self.deciding(entry), self.wait(entry)
        if at is None or self.setup.rows[at].reply is None:
            outcome = self.outcome(entry)
            if outcome in ("done", "suppressed"):
                self.work(entry)
        else:
            outcome = "empty" if entry.reply is None else self.outcome(entry)
            self.work_by_row(at, entry)
        if entry.place == self.holder:
            self.left = max(self.left, self.setup.s3 + after)
        return outcome

    def pass_time(self, ticks: int) -> None:
        """The holder's ticks."""
        self.routines = {it: left - ticks for it, left in self.routines.items() if left > ticks}
        self.left -= ticks
        if self.left <= 0:
            self.clean()

    def outcome(self, entry: Entry) -> str:
        if entry.reply is not None:
            return "refused" if entry.reply[0] == 0x7F else "done"
        return "silent" if entry.kind == "F" and self.is_refused(entry) else "suppressed"

    def is_refused(self, entry: Entry) -> bool:
        """Whether a functional request without a reply was refused (0x11, 0x12, 0x31, 0x7F): else its bit 7 asked for
        none."""
        request, sid = entry.request, entry.request[0]
        if sid in IN_SESSION and entry.place != self.holder:
            return True
        if len(request) < 2 or not request[1] & 0x80 or request[1] & 0x7F not in self.subs(sid):
            return True
        if sid == 0x31:
            return int.from_bytes(request[2:4], "big") not in self.setup.routines
        return sid == 0x85 and len(request) == 5 and request[2:] != b"\xff\xff\xff"

    def subs(self, sid: int) -> Container[int]:
        """The sub-functions that the unit has of a service."""
        if sid == 0x27:
            return self.setup.levels | {it + 1 for it in self.setup.levels}
        if sid == 0x10:
            return {1, 3}
        return SERVICES[sid].subs if sid in SERVICES else {}

    def work(self, entry: Entry) -> None:
        """What a request that the server itself took does to the session."""
        sid, sub = entry.request[0], (entry.request[1:2] or b"\0")[0] & 0x7F
        if sid == 0x11 or (sid == 0x10 and sub == 1 and entry.place == self.holder):
            self.clean()
        elif sid == 0x10 and sub == 3:
            self.enter(entry.place, 3)
        elif sid == 0x27 and sub % 2 == 0:
            self.level = sub - 1
        elif sid == 0x31:
            self.control(int.from_bytes(entry.request[2:4], "big"), sub)

    def work_by_row(self, at: int, entry: Entry) -> None:
        """What a row with templates of its own does to the session, and to its next template."""
        row = self.setup.rows[at]
        if self.is_past(row, entry):
            return
        self.next[at] += 1
        if row.enter > 1:
            self.enter(entry.place, row.enter)
        elif row.enter == 1 and entry.place == self.holder:
            self.clean()

    def control(self, routine: int, sub: int) -> None:
        if sub == 1:
            self.routines[routine] = self.setup.routines.get(routine, 0)
        elif sub == 2:
            self.routines.pop(routine, None)


def waits(setup: Setup, entries: Iterable[Entry]) -> list[int]:
    """Of each entry after how many milliseconds its answer goes, 0 of ticks."""
    session, found = Session(setup), []
    for entry in entries:
        found.append(0 if entry.kind == "T" else session.wait(entry))
        session.take(entry)
    return found
