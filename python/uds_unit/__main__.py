"""A unit on a bus of python-can, as a program: python3 -m uds_unit --interface socketcan --channel can0 setup.toml"""
import argparse
import os
import signal
import sys
import time
from io import FileIO
from math import inf
from typing import TYPE_CHECKING

from . import __version__
from .faults import SetupFault, UnitFault
from .unit import Unit, noting, read_setup

if TYPE_CHECKING:
    import can

    from .bus import UnitBus

# what ends the program: Ctrl-C, kill, and a terminal that is closed
SIGNALS = (signal.SIGINT, signal.SIGTERM, signal.SIGHUP)
# the seconds in which it may end by itself after the first
GRACE = 2.0
# how many seconds apart the journal's file is written to
EVERY = 1.0


def _seconds(text: str) -> float:
    """A time of the command line."""
    seconds = float(text)
    if not seconds >= 0:
        raise argparse.ArgumentTypeError(f"{text} is no time that passes")
    return seconds


def _fault_words(fault: Exception) -> str:
    """A fault in words, with the file's name where it has one."""
    words = getattr(fault, "strerror", None) or str(fault)
    name = getattr(fault, "filename", None)
    return words if name is None else f"{name or repr(name)}: {words}"


def _tell(*texts: str) -> None:
    """Tells this on standard error."""
    for text in texts:
        print(f"uds_unit: {text}", file=sys.stderr)


def _arguments() -> argparse.ArgumentParser:
    parser = argparse.ArgumentParser(
        # (else the name by which the console script is called)
        prog="python3 -m uds_unit" if os.path.basename(sys.argv[0]) == "__main__.py" else None,
        description="A diagnostic server on a CAN bus, until Ctrl-C or SIGTERM. It says on standard error when it is on the bus.",
        epilog="Exit status: 2 for wrong arguments or a faulty setup; 1 for a fault of the bus, a file or memory; else 0.",
    )
    parser.add_argument("--version", action="version", version=f"uds_unit {__version__}")
    parser.add_argument("--interface", required=True, help="python-can's interface, such as virtual, socketcan, pcan or kvaser")
    parser.add_argument("--channel", required=True, help="the channel, as can0 or PCAN_USBBUS1")
    parser.add_argument("--bitrate", type=int, help="the bit rate, where the interface takes one")
    parser.add_argument("--fd", action="store_true", help="opens the bus for CAN FD, even if no tester of the setup talks by it")
    parser.add_argument("--data-bitrate", type=int, help="the bit rate of the bytes of CAN FD, where the interface takes one")
    parser.add_argument("--journal", metavar="FILE", help="writes the unit's journal into a new file, each second")
    parser.add_argument("--seconds", type=_seconds, help="ends after so many seconds")
    parser.add_argument("setup", help="the setup, a TOML file")
    return parser


class _End:
    """The end that a signal asks for. Before the unit serves, KeyboardInterrupt brings it at once; from then on the program looks
    for it, so that no line of the journal is lost. Further signals are passed over for two seconds. Then one ends the program
    whatever it does, for the bus's driver may never return."""

    def __init__(self) -> None:
        self.is_looked_for = False
        self.asked_at = inf

    def __call__(self, *_: object) -> None:
        now = time.monotonic()
        if now >= self.asked_at + GRACE:
            _tell("the bus's driver doesn't return; ended without it")
            os._exit(1)
        if self.asked_at == inf:
            self.asked_at = now
            if not self.is_looked_for:
                raise KeyboardInterrupt


def main(words: list[str] | None = None) -> int:
    """The program; its status is 2 where the arguments or the setup are at fault, 1 where the bus, a file or the memory is."""
    given = _arguments().parse_args(words)
    end = _End()
    for number in SIGNALS:
        # (one that is passed over from the start, as behind nohup or a shell's &, stays so)
        if signal.getsignal(number) != signal.SIG_IGN:
            signal.signal(number, end)
    try:
        return _run(given, end)
    except KeyboardInterrupt:
        return 0


def _run(given: argparse.Namespace, end: _End) -> int:
    """Serves, and tells what goes wrong; the program's status."""
    try:
        import can
    except ImportError as fault:
        _tell(f"python-can can't be imported: {fault} (pip install python-can, or apt-get install python3-can)")
        return 1
    try:
        _serve(given, end)
    except SetupFault as fault:
        _tell(str(fault), *(f"note: {it}" for it in getattr(fault, "__notes__", ())))
        return 2
    except (UnitFault, can.CanError, OSError, ValueError) as fault:
        _tell(_fault_words(fault))
        return 1
    return 0


def _serve(given: argparse.Namespace, end: _End) -> None:
    from .bus import UnitBus

    with noting(given.setup):
        setup = read_setup(given.setup)
        with Unit(setup) as unit:
            by_fd = given.fd or bool(unit.fd_requests)
    with _open_bus(given, by_fd) as bus:
        end.is_looked_for = True
        unit_bus = UnitBus(bus, setup, journal=given.journal is not None)
        with _new_file(given.journal) as file:
            journal = _Journal(file, unit_bus)
            try:
                with unit_bus:
                    _tell("the unit is on the bus")
                    _wait(unit_bus, journal, end, given.seconds)
            finally:
                journal.write()


def _new_file(path: str | None) -> FileIO:
    """The file of the journal; where none is wanted one that keeps nothing."""
    if path is None:
        return open(os.devnull, "wb", buffering=0)
    try:
        return open(path, "xb", buffering=0)
    except FileExistsError:
        raise FileExistsError(f"--journal {path}: there is such a file already, and it isn't overwritten") from None


class _Journal:
    """The journal of a unit in a file. It is written piece by piece, so that a run which is killed leaves it."""

    def __init__(self, file: FileIO, unit: "UnitBus") -> None:
        self._file = file
        self._unit = unit
        # how many pieces were taken, and the bytes of them that aren't written yet
        self._taken = 0
        self._rest = b""

    def write(self) -> None:
        """Writes what the journal has more."""
        pieces = self._unit._journal_so_far()
        self._rest += "".join(pieces[self._taken :]).encode()
        self._taken = len(pieces)
        try:
            while self._rest:
                self._rest = self._rest[self._file.write(self._rest) :]
        except OSError as fault:
            raise OSError(fault.errno, fault.strerror, f"--journal {self._file.name!s}") from None


def _open_bus(given: argparse.Namespace, by_fd: bool) -> "can.BusABC":
    import can

    wanted = {"bitrate": given.bitrate, "data_bitrate": given.data_bitrate, "fd": by_fd or None}
    more = {name: value for name, value in wanted.items() if value is not None}
    try:
        return can.Bus(interface=given.interface, channel=given.channel, **more)
    except OSError as fault:
        raise OSError(f"--interface {given.interface} --channel {given.channel}: {_fault_words(fault)}") from fault
    except (can.CanError, ValueError):
        raise
    except Exception as fault:  # (any other kind, where a driver is missing or the arguments don't fit the interface)
        hint = "is its driver installed? Further arguments can stand in python-can's can.conf"
        raise can.CanInitializationError(f"--interface {given.interface}: {type(fault).__name__}: {fault} ({hint})") from fault


def _wait(unit: "UnitBus", journal: _Journal, end: _End, seconds: float | None) -> None:
    """Waits for the end, and writes the journal meanwhile; also at the end, for the unit's thread may not stop."""
    until = inf if seconds is None else time.monotonic() + seconds
    next_write = -inf
    while unit.fault is None and end.asked_at == inf and (now := time.monotonic()) < until:
        if now >= next_write:
            journal.write()
            next_write = now + EVERY
        time.sleep(0.05)
    journal.write()


if __name__ == "__main__":
    sys.exit(main())
