"""The unit: frames and moments go in, frames come out."""
import contextlib
import os
import shlex
import threading
from bisect import bisect_left
from collections.abc import Iterable, Iterator, MutableMapping, Sequence
from ctypes import byref, c_size_t, c_uint16, c_uint64, create_string_buffer
from math import isfinite
from operator import index
from typing import Any, NamedTuple, NoReturn, Self

from . import library, toml
from .faults import ClosedFault, FrameFault, MemoryFault, SetupFault, UnitFault
from .library import CLOSED, DONE, LENGTH, MEMORY, NO_FRAME, NONE, ROOM, UNKNOWN, Code, Handle, Reply, State

# the names of the sessions (ISO 14229-1:2013, 9.2); any other is told by its number as two hex digits
SESSIONS = {1: "default", 2: "programming", 3: "extended", 4: "safety"}
# bit 31 of an identifier says that it has 29 bits
EXTENDED = 1 << 31
LOW_11, LOW_29 = (1 << 11) - 1, (1 << 29) - 1
# the functional identifiers that a setup needn't tell (ISO 15765-4)
FUNCTIONAL, FUNCTIONAL_29 = 0x7DF, 0x18DB33F1
MILLI, MICRO = 1_000, 1_000_000
NEVER = 2**64 - 1
# the most seconds that a moment may be from zero: up to there a float tells milliseconds apart
MOST_SECONDS = 10**12
# what stands behind the last DTC: a code above all, and a status
BEHIND = (1 << 24, 0)
# the longest step at once, in microseconds: what it takes, time and with a journal memory, is in proportion to it
CENTURY = 36_525 * 86_400 * MICRO
# the most bytes of a setup, as the program has it, and the most DTCs
MOST_SETUP = 1_048_576
MOST_CODES = 4096

# what is taken as bytes: a bytearray, as messages of python-can have it, a memoryview or a list, too
Bytes = Sequence[int]


class Frame(NamedTuple):
    """A frame that the unit sends."""

    time: float
    """When, in seconds."""
    id: int
    """Its identifier."""
    data: bytes
    """Its bytes, up to 8, to a tester that talks by CAN FD up to 64."""
    tester: str
    """The name of the tester that it is for."""
    extended: bool = False
    """Whether its identifier has 29 bits."""
    fd: bool = False
    """Whether it is a frame of CAN FD, as all are to a tester with `fd = true`."""

    def __repr__(self) -> str:
        kinds = f"extended={self.extended}, fd={self.fd}"
        return f"Frame(time={self.time}, id=0x{self.id:X}, data={self.data!r}, tester={self.tester!r}, {kinds})"


def read_setup(setup: str | os.PathLike[str] | bytes) -> bytes:
    """The bytes of a setup: of a path, or these. SetupFault where they are more than the program takes."""
    if isinstance(setup, bytes):
        config = setup
    else:
        # (a number would be a file that is open)
        with open(os.fspath(setup), "rb") as file:
            config = file.read(MOST_SETUP + 1)
    if len(config) > MOST_SETUP:
        raise SetupFault("config: too long")
    return config


@contextlib.contextmanager
def noting(setup: str | os.PathLike[str] | bytes) -> Iterator[None]:
    """Adds to a setup's fault a note with the command that tells its place, where the setup has a path."""
    try:
        yield
    except SetupFault as fault:
        # (what only Python's reader doesn't take is no fault to that command)
        if not isinstance(setup, bytes) and fault.__cause__ is None:
            fault.add_note(f"uds_play check {shlex.quote(os.fsdecode(setup))} tells the place of each fault")
        raise


def _tables(config: bytes) -> dict[str, Any]:
    """The tables of a setup that the library took. SetupFault where Python doesn't."""
    try:
        return toml.loads(config.decode().removeprefix("\ufeff"))
    except (ValueError, RecursionError) as fault:
        raise SetupFault(f"config: Python doesn't read this TOML: {fault}") from fault


def _raw(data: Bytes) -> bytes:
    """These bytes. TypeError where an item has more than one, as those of an array may, and of a text."""
    if isinstance(data, str):
        raise TypeError("bytes wanted, and no text: bytes.fromhex makes bytes of hex digits")
    length = len(data)
    raw = bytes(data)
    if len(raw) != length:
        raise TypeError("bytes wanted, one item each")
    return raw


def _reply() -> tuple[Reply, Any, Any]:
    """Room for a reply, the pointer to it, and its bytes, which cost time to make."""
    reply = Reply()
    return reply, byref(reply), reply.bytes


def _no_frame(id: int, extended: bool, length: int) -> str:
    """Why there is no such frame."""
    if not 0 <= id <= LOW_29:
        return f"an identifier has up to 29 bits, and is not negative: {id:#x}"
    if id > LOW_11 and not extended:
        return f"an identifier of more than 11 bits wants extended=True: {id:#x}"
    return f"a frame has 0 to 8, 12, 16, 20, 24, 32, 48 or 64 bytes, and not {length}"


def _requests(setup: dict[str, Any]) -> Iterator[tuple[str, tuple[int, bool]]]:
    for tester in setup["tester"]:
        yield tester["name"], (tester["request"], tester.get("extended", False))


def _heard(setup: dict[str, Any], testers: list[dict[str, Any]]) -> Iterator[tuple[int, bool]]:
    for tester in testers:
        extended = tester.get("extended", False)
        functional = FUNCTIONAL_29 if extended else setup.get("functional", FUNCTIONAL)
        yield tester["request"], extended
        yield tester.get("functional", functional), extended


class Unit:
    """A unit of a setup, to which nothing has happened yet. It reads no clock: time is what the caller says, in seconds from
    any zero, rounded down to milliseconds. The first moment that it is given is where its time begins. Threads may share a unit:
    it takes one call at a time. A signal's handler may call it, too, in the middle of a call; each frame is then handed out by
    one of the two. It can't be copied.

    `setup` is the path of a setup in TOML, or the bytes of one. With `journal` the unit keeps the lines of its journal
    until `journal()` hands them out.

    Raises SetupFault where the setup is at fault, OSError where it or the library can't be read, MemoryFault. A step of
    time of more than 100 years is a ValueError, and so is a moment of more than 10^12 seconds, or one that isn't finite.

    To make one takes some 140 KiB of the thread's stack, with a setup of deep tables or arrays up to 2 MiB.
    """

    def __init__(self, setup: str | os.PathLike[str] | bytes, *, journal: bool = False) -> None:
        # (called again, it begins anew)
        if hasattr(self, "_at"):
            self.close()
        self._library = library.load()
        # (a signal's handler may call the unit, too, in the middle of a call)
        self._lock = threading.RLock()
        # the latest moment, in microseconds of the library's; negative before the first
        self._latest = -1
        # what these are ahead of the caller's, whose first moment may be negative
        self._ahead = 0
        self._handle = Handle()
        self._at = byref(self._handle)
        # (looked up once, for they are wanted for each frame)
        self._frame, self._next = self._library.uds_unit_frame, self._library.uds_unit_next
        # replies that no call is filling: each takes one of its own, also one in the middle of another
        self._spare: list[tuple[Reply, Any, Any]] = []
        with noting(setup):
            config = read_setup(setup)
            self._open(config, journal)
        tree = _tables(config)
        testers = tree["tester"]
        self.testers: tuple[str, ...] = tuple(tester["name"] for tester in testers)
        """The testers' names, in the order of the setup."""
        self.requests: dict[str, tuple[int, bool]] = dict(_requests(tree))
        """The identifier by which each tester asks, and whether it has 29 bits, by the tester's name."""
        self.heard: frozenset[tuple[int, bool]] = frozenset(_heard(tree, testers))
        """The identifiers by which testers ask, functional ones too, each with whether it has 29 bits. A frame with any other
        only lets the time pass."""
        by_fd = [tester for tester in testers if tester.get("fd", False)]
        self.fd_requests: frozenset[tuple[int, bool]] = frozenset(_heard(tree, by_fd))
        """The identifiers by which testers ask by CAN FD, each with whether it has 29 bits."""
        self.fd_flags: int = tree.get("fd_flags", 1)
        """The flags of the frames of CAN FD that the unit sends: 1 is bit rate switch, 2 error state indicator."""
        self.codes: Codes = Codes(self)
        """The DTCs: a mapping from code to status."""
        self.values: Values = Values(self)
        """The values of the data identifiers: a mapping from identifier to bytes."""

    def _open(self, config: bytes, journal: bool) -> None:
        text = create_string_buffer(1024)
        call = self._library.uds_unit_open_with_journal if journal else self._library.uds_unit_open
        status = call(self._at, config, len(config), text, len(text))
        if status == MEMORY:
            raise MemoryFault("memory")
        if status != DONE:
            raise SetupFault(text.value.decode().strip().removeprefix("uds_play: "))

    def close(self) -> None:
        """Frees the unit. From then on every other call raises ClosedFault, unless its arguments are at fault already; this one
        does nothing again."""
        self._call("close")

    def __enter__(self) -> Self:
        return self

    def __exit__(self, *_: object) -> None:
        self.close()

    def __del__(self) -> None:
        if hasattr(self, "_at"):
            self.close()

    def __reduce__(self) -> NoReturn:
        # (a copy would have the same handle, and free it)
        raise TypeError("a unit can't be copied or pickled")

    def frame(self, time: float, id: int, data: Bytes, *, extended: bool = False) -> list[Frame]:
        """Takes a frame of the bus at a moment in seconds, and returns the frames that are due up to then, in the bus's order.
        An earlier moment is taken as the latest so far. `id` has 11 bits, or with `extended` 29 bits. The frame has 0 to 8, 12,
        16, 20, 24, 32, 48 or 64 bytes; one of more than 8 is of CAN FD, and only lets the time pass unless it is for a tester
        with `fd = true`. A shorter one is taken whichever kind it is of.

        Raises FrameFault where no frame has this identifier, or so many bytes; then nothing was taken.
        """
        raw, number = _raw(data), index(id)
        if not 0 <= number <= LOW_29:
            raise FrameFault(_no_frame(number, extended, len(raw)))
        if extended:
            number |= EXTENDED
        with self._lock:
            at = self._moment(time)
            status = self._frame(self._at, at, number, raw, len(raw))
            if status == DONE:
                return self._due(at)
        if status == NO_FRAME:
            raise FrameFault(_no_frame(index(id), extended, len(raw)))
        self._raise(status)

    def advance(self, time: float) -> list[Frame]:
        """Lets time pass to a moment in seconds, and returns the frames that are due up to then."""
        with self._lock:
            at = self._moment(time)
            self._check(self._library.uds_unit_pass(self._at, at))
            return self._due(at)

    @property
    def due(self) -> float | None:
        """The next moment, in seconds, at which a frame may fall due where nothing comes in before; None where nothing is
        waited for."""
        at = c_uint64()
        self._check(self._call("due", byref(at)))
        return None if at.value == NEVER else (at.value - self._ahead) / MICRO

    @property
    def session(self) -> str:
        """The session: `default`, `programming`, `extended`, `safety`, or the number of another one as two hex digits."""
        number = self._state().session
        return SESSIONS.get(number, f"{number:02X}")

    @property
    def holder(self) -> str | None:
        """The name of the tester in a session other than the default one; None in the default session."""
        place = self._state().holder
        return self.testers[place - 1] if place else None

    def journal(self) -> str:
        """The journal's lines since the last such call, and first its header; empty where the unit keeps no journal."""
        length = c_size_t()
        text = create_string_buffer(1)
        status = self._call("journal", text, 0, byref(length))
        while status == ROOM:
            text = create_string_buffer(length.value)
            status = self._call("journal", text, length.value, byref(length))
        self._check(status)
        return text.raw[: length.value].decode()

    def _state(self) -> State:
        state = State()
        self._check(self._call("state", byref(state)))
        return state

    def _call(self, name: str, *arguments: Any) -> int:
        """The status of a call of the library's."""
        with self._lock:
            return getattr(self._library, f"uds_unit_{name}")(self._at, *arguments)

    def _moment(self, time: float) -> int:
        """A moment in the library's microseconds, down to its millisecond, as the library takes it."""
        if not isfinite(time):
            raise ValueError(f"a moment is a finite number of seconds, and not {time}")
        # (a number of NumPy's may have few bits)
        time = float(time)
        if abs(time) > MOST_SECONDS:
            raise ValueError(f"a moment is at most {MOST_SECONDS} seconds from zero, and not {time}")
        at = round(time * MILLI)
        # (by the quotient as which the unit tells a moment: so that one is itself, and none before it is)
        if at / MILLI > time:
            at -= 1
        at *= 1000
        if self._latest < 0:
            self._ahead = max(-at, 0)
        at = max(at + self._ahead, 0)
        if at - self._latest > CENTURY and self._latest >= 0:
            raise ValueError("more than 100 years at once")
        return at

    def _due(self, at: int) -> list[Frame]:
        """The frames that are due, time having passed to this moment."""
        if at > self._latest:
            self._latest = at
        frames = []
        take, ahead = self._next, self._ahead
        try:
            spare = self._spare.pop()
        except IndexError:
            spare = _reply()
        reply, reply_at, held = spare
        while take(self._at, reply_at) == DONE:
            data, id = bytes(held)[: reply.len], reply.id
            tester = self.testers[reply.tester - 1]
            frames.append(Frame((reply.at_us - ahead) / MICRO, id & LOW_29, data, tester, id >= EXTENDED, reply.fd == 1))
        self._spare.append(spare)
        return frames

    def _check(self, status: int) -> None:
        if status != DONE:
            self._raise(status)

    @staticmethod
    def _raise(status: int) -> NoReturn:
        if status == CLOSED:
            raise ClosedFault("the unit is closed")
        raise MemoryFault("memory")


class Values(MutableMapping[int, bytes]):
    """The values of a unit's data identifiers, in rising order. A value can be set, by one of the same length, as the ECU's
    own software does while it runs; none can be added or removed."""

    def __init__(self, unit: Unit) -> None:
        self._unit = unit

    def __getitem__(self, id: int) -> bytes:
        unit, length, value, id = self._unit, c_size_t(), create_string_buffer(255), _in_range(id, 0xFFFF)
        status = unit._call("value", id, value, 255, byref(length))
        if status == UNKNOWN:
            raise KeyError(id)
        unit._check(status)
        return value.raw[: length.value]

    def __setitem__(self, id: int, value: Bytes) -> None:
        unit, id = self._unit, _in_range(id, 0xFFFF)
        raw = _raw(value)
        status = unit._call("set_value", id, raw, len(raw))
        if status == UNKNOWN:
            raise KeyError(id)
        if status == LENGTH:
            raise ValueError(f"the value of 0x{id:04X} has {len(self[id])} bytes, and not {len(raw)}")
        unit._check(status)

    def __delitem__(self, id: int) -> None:
        raise TypeError("an identifier can't be removed")

    def __iter__(self) -> Iterator[int]:
        unit, id, place = self._unit, c_uint16(), 0
        while (status := unit._call("identifier", place, byref(id))) == DONE:
            yield id.value
            place += 1
        if status != NONE:
            unit._raise(status)

    def __len__(self) -> int:
        return sum(1 for _ in self)

    def __repr__(self) -> str:
        return _told("Values", (f"0x{id:04X}: {value!r}" for id, value in self.items()))


class Codes(MutableMapping[int, int]):
    """The DTCs of a unit with their status, in rising order. A status can be set, as the ECU's own software does
    while it runs; no code can be added or removed."""

    def __init__(self, unit: Unit) -> None:
        self._unit = unit

    def __getitem__(self, code: int) -> int:
        number = _in_range(code, 0xFFFFFF)
        # (by halves: a look at each row for each code would take seconds for them all)
        found, status = self._row(bisect_left(range(MOST_CODES), number, key=lambda place: self._row(place)[0]))
        if found != number:
            raise KeyError(code)
        return status

    def __setitem__(self, code: int, status: int) -> None:
        unit, code, status = self._unit, _in_range(code, 0xFFFFFF), index(status)
        if not 0 <= status <= 0xFF:
            raise ValueError("no status byte")
        answer = unit._call("set_code", code, status)
        if answer == UNKNOWN:
            raise KeyError(code)
        unit._check(answer)

    def __delitem__(self, code: int) -> None:
        raise TypeError("a code can't be removed")

    def __iter__(self) -> Iterator[int]:
        return (code for code, _ in self._rows())

    def __len__(self) -> int:
        return sum(1 for _ in self)

    def __repr__(self) -> str:
        return _told("Codes", (f"0x{code:06X}: 0x{status:02X}" for code, status in self._rows()))

    def _rows(self) -> Iterator[tuple[int, int]]:
        place = 0
        while (row := self._row(place)) != BEHIND:
            yield row
            place += 1

    def _row(self, place: int) -> tuple[int, int]:
        """The code at a place, and its status; behind the last BEHIND."""
        row = Code()
        status = self._unit._call("code", place, byref(row))
        if status == NONE:
            return BEHIND
        self._unit._check(status)
        return row.code, row.status


def _told(name: str, items: Iterable[str]) -> str:
    """The text of a mapping of this name; of a closed unit's that it is closed."""
    try:
        return f"{name}({{{', '.join(items)}}})"
    except UnitFault as fault:
        return f"<{name}: {fault}>"


def _in_range(key: int, most: int) -> int:
    """A key that is a number of this range. KeyError where it is none."""
    try:
        number = index(key)
    except TypeError:
        raise KeyError(key) from None
    if not 0 <= number <= most:
        raise KeyError(key)
    return number
