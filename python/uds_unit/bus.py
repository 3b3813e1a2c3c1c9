"""A unit on a bus of python-can: virtual, socketcan, PEAK, Vector, Kvaser or any other."""
import contextlib
import os
import threading
import time
from collections import deque
from collections.abc import Iterator, Mapping
from math import inf
from types import MappingProxyType
from typing import Self

import can

from .unit import Bytes, Frame, Unit

# the most seconds without a look whether to stop
PATIENCE = 0.05
# the most seconds that a frame may take to go out (N_As of ISO 15765-2), and between two tries where the adapter takes none
N_AS = 1.0
BREATH = 0.0005
# the first four bits of a frame of ISO 15765-2
FIRST, CONSECUTIVE, FLOW = 1, 2, 3
# FlowControl that asks to wait, and by how many seconds a frame goes late before N_Bs is begun anew by it
WAIT = b"\x31\0\0"
LATE = 0.005
# how many bytes a frame of CAN FD may have
LENGTHS = (*range(9), 12, 16, 20, 24, 32, 48, 64)


def carried(message: can.Message) -> bytes | None:
    """The bytes of a message as a bus carries them: of CAN FD filled with zeros to the next length that there is, as drivers do,
    where the bus is none that has a wire. None where no frame has so many."""
    data = bytes(message.data)
    most = LENGTHS[-1] if message.is_fd else 8
    return data.ljust(next(it for it in LENGTHS if it >= len(data)), b"\0") if len(data) <= most else None


def kind(data: bytes | bytearray) -> int:
    """The first four bits of a frame; 0 where it has no byte."""
    return data[0] >> 4 if data else 0


class _Stopped(Exception):
    """The thread is to end."""


class _Queue:
    """What goes to one tester, in the unit's order. A ConsecutiveFrame waits here until its separation time is over."""

    def __init__(self, request: tuple[int, bool]) -> None:
        self.request = request
        # (each with the seconds that it goes behind the last ConsecutiveFrame, or later)
        self.waiting: deque[tuple[Frame, float]] = deque()
        # when the unit made the last ConsecutiveFrame, and when one went last
        self._made = self._went = 0.0

    @property
    def due(self) -> float | None:
        """When the first that waits may go; None where none waits."""
        return self._went + self.waiting[0][1] if self.waiting else None

    def add(self, frame: Frame, by_time: bool) -> None:
        """Puts a frame behind those that wait. A ConsecutiveFrame that time alone draws is apart from the last one; what
        FlowControl draws begins a block."""
        gap = 0.0
        if kind(frame.data) == CONSECUTIVE:
            if by_time:
                gap = frame.time - self._made
            self._made = frame.time
        self.waiting.append((frame, gap))

    def mark(self, frame: Frame, now: float) -> None:
        """Marks that a frame went."""
        if kind(frame.data) == CONSECUTIVE:
            self._went = now


class UnitBus:
    """A unit on a bus of python-can, in its own thread from `start` (or `with`) to `stop`. Without `stop` the thread goes on
    even if no variable refers to the object any more. The bus stays the caller's, but while the thread runs nobody else reads
    from it: a Notifier, as any tester, wants a bus of its own on the channel. A forked process has no such thread: don't use the
    object there.

    The unit takes frames in order: after a request without an answer send `3E00` and wait for its answer.

    The unit's time is the machine's monotonic clock. Where a ConsecutiveFrame goes late, those behind it to the same tester go
    later, too: two are never nearer to each other than their separation time. FlowControl that comes while one waits is passed
    over, as any in the middle of a block. N_Bs runs from when the last frame went. If the machine's time of day is set back,
    python-can's `recv` waits that much longer, and until a frame comes the unit sends nothing.

    If the bus doesn't accept a frame, the unit tries again for one second; then that is a fault of the bus. After a fault every
    call that reads or sets the unit raises it, except `journal`. A signal's handler may call it, too, in the middle of a call;
    where it stops it, that call may raise ClosedFault.

    `setup` is the path of a setup in TOML, or the bytes of one; SetupFault and OSError as `Unit` raises them.
    """

    def __init__(self, bus: can.BusABC, setup: str | os.PathLike[str] | bytes, *, journal: bool = False) -> None:
        self.bus = bus
        self._unit = Unit(setup, journal=journal)
        # (a signal's handler may ask or stop it in the middle of a look)
        self._lock = threading.RLock()
        self._stopped = threading.Event()
        self._thread: threading.Thread | None = None
        self._begun = time.monotonic()
        self._queues = {name: _Queue(request) for name, request in self._unit.requests.items()}
        self._told: list[str] = []
        self._closed = False
        self.fault: BaseException | None = None
        """What ended the thread, if it ended by itself: a fault of the bus."""

    def start(self) -> Self:
        """Starts the thread. From then on the unit answers, first what the bus took before and nobody read."""
        if self._thread is not None:
            raise RuntimeError("it was started before")
        self._begun = time.monotonic()
        self._unit.advance(0.0)
        self._thread = threading.Thread(target=self._run, name="uds_unit", daemon=True)
        self._thread.start()
        return self

    def stop(self) -> None:
        """Ends the thread and frees the unit; what was told of it before stays. Raises what ended the thread by itself."""
        if self._thread is threading.current_thread():
            raise RuntimeError("stop was called in the unit's own thread, for whose end it waits")
        self._stopped.set()
        if self._thread is not None:
            self._thread.join()
        with self._lock:
            if not self._closed:
                self._catch_up()
                self._journal_so_far()
                self._unit.close()
                self._closed = True
        if self.fault is not None:
            raise self.fault

    def __enter__(self) -> Self:
        return self.start()

    def __exit__(self, *_: object) -> None:
        self.stop()

    @property
    def session(self) -> str:
        """The session, as `Unit.session`."""
        with self._lock:
            self._look()
            return self._unit.session

    @property
    def holder(self) -> str | None:
        """The tester in a session other than the default one, as `Unit.holder`."""
        with self._lock:
            self._look()
            return self._unit.holder

    @property
    def codes(self) -> Mapping[int, int]:
        """The DTCs with their status, as they are now; `set_code` sets one."""
        with self._lock:
            self._look()
            # (row by row: while it is looked at the unit sends nothing)
            return MappingProxyType(dict(self._unit.codes._rows()))

    @property
    def values(self) -> Mapping[int, bytes]:
        """The values of the data identifiers, as they are now; `set_value` sets one."""
        with self._lock:
            self._look()
            return MappingProxyType(dict(self._unit.values))

    def set_value(self, id: int, value: Bytes) -> None:
        """Sets the value of a data identifier, as the ECU's own software does."""
        with self._lock:
            self._look()
            self._unit.values[id] = value

    def set_code(self, code: int, status: int) -> None:
        """Sets the status of a DTC, as the ECU's own software does."""
        with self._lock:
            self._look()
            self._unit.codes[code] = status

    def journal(self) -> str:
        """The whole journal so far; empty where the unit keeps none."""
        with self._lock:
            if not self._closed:
                self._catch_up()
            return "".join(self._journal_so_far())

    def _look(self) -> None:
        """Before the unit is asked or set something: raises what ended the thread, and lets the unit's time pass."""
        if self.fault is not None:
            raise self.fault
        self._catch_up()

    def _journal_so_far(self) -> list[str]:
        """The journal in pieces, up to the last moment that passed. It wants no lock, which the thread has as long as the bus's
        driver doesn't return."""
        if not self._closed and (lines := self._unit.journal()):
            self._told.append(lines)
        return self._told

    def _catch_up(self) -> None:
        """Lets the unit's time pass up to now, where it was started and no frame is due by then: those are the thread's. While
        nothing comes and nothing is asked no time passes, so a silent bus makes no entries of a journal."""
        due, now = self._unit.due, self._now()
        if self._thread is not None and (due is None or now < due):
            self._unit.advance(now)

    # ---- the thread

    def _now(self) -> float:
        return time.monotonic() - self._begun

    def _run(self) -> None:
        try:
            while not self._stopped.is_set():
                self._turn()
        except _Stopped:
            pass
        except BaseException as fault:  # (told by `stop`)
            self.fault = fault

    @contextlib.contextmanager
    def _held(self) -> Iterator[None]:
        """The lock, for the thread; _Stopped where it is to end before it has it, for then who stops it may hold it."""
        while not self._lock.acquire(timeout=PATIENCE):
            if self._stopped.is_set():
                raise _Stopped
        try:
            yield
        finally:
            self._lock.release()

    def _turn(self) -> None:
        """Waits for a frame until one of the unit's falls due or may go, and sends what may."""
        with self._held():
            seconds = self._until_next()
        heard = self.bus.recv(seconds)
        with self._held():
            now, due = self._now(), self._unit.due
            if due is not None and due <= now:
                self._enqueue(self._unit.advance(now), by_time=True)
            self._send()
            if heard is not None and self._is_taken(heard) and (data := carried(heard)) is not None:
                self._enqueue(self._unit.frame(now, heard.arbitration_id, data, extended=heard.is_extended_id), by_time=False)
                self._send()

    def _until_next(self) -> float:
        """The seconds until a frame falls due or may go, at most PATIENCE."""
        dues = (self._unit.due, *(queue.due for queue in self._queues.values()))
        due = min((it for it in dues if it is not None), default=inf)
        return min(max(due - self._now(), 0.0), PATIENCE)

    def _enqueue(self, frames: list[Frame], by_time: bool) -> None:
        for frame in frames:
            self._queues[frame.tester].add(frame, by_time)

    def _send(self) -> None:
        """Sends what may go."""
        for queue in self._queues.values():
            while (due := queue.due) is not None and due <= self._now():
                self._send_first(queue)

    def _send_first(self, queue: _Queue) -> None:
        """Sends the first frame that waits for a tester. The unit takes it to have gone at its time, and N_Bs to run since."""
        frame, _ = queue.waiting.popleft()
        self._put(self._message(frame))
        now = self._now()
        queue.mark(frame, now)
        if now - frame.time > LATE and kind(frame.data) in (FIRST, CONSECUTIVE):
            id, extended = queue.request
            self._enqueue(self._unit.frame(now, id, WAIT, extended=extended), by_time=True)

    def _put(self, message: can.Message) -> None:
        """Gives a message to the bus, again and again where it doesn't accept it. _Stopped where the thread is to end before."""
        end = time.monotonic() + N_AS
        while True:
            try:
                self.bus.send(message)
                return
            except can.CanOperationError:
                if time.monotonic() >= end:
                    raise
                if self._stopped.is_set():
                    raise _Stopped from None
            time.sleep(BREATH)

    def _message(self, frame: Frame) -> can.Message:
        flags = self._unit.fd_flags if frame.fd else 0
        return can.Message(
            arbitration_id=frame.id,
            data=frame.data,
            is_extended_id=frame.extended,
            is_fd=frame.fd,
            bitrate_switch=bool(flags & 1),
            error_state_indicator=bool(flags & 2),
        )

    def _is_taken(self, message: can.Message) -> bool:
        """Whether the unit is given a message: data of the others with an identifier by which a tester asks, by CAN FD only where
        it asks so, and FlowControl only behind a whole block. All other traffic would fill a journal with time alone."""
        if message.is_error_frame or message.is_remote_frame or not message.is_rx:
            return False
        id = (message.arbitration_id, message.is_extended_id)
        if id not in self._unit.heard:
            return False
        if kind(message.data) == FLOW and any(queue.waiting and queue.request == id for queue in self._queues.values()):
            return False
        return not message.is_fd or id in self._unit.fd_requests
