"""Tests of `uds_unit.bus` on a virtual bus, of the program, and of the fixtures. They want python-can, two of them scapy, and
those of the fixtures pytest; a test that wants what isn't there is passed over."""
import contextlib
import importlib.util
import io
import itertools
import os
import resource
import shutil
import signal
import subprocess
import sys
import tempfile
import threading
import time
import unittest
from collections.abc import Iterator
from math import nextafter
from pathlib import Path
from types import SimpleNamespace
from typing import Any
from unittest import mock
from xml.etree import ElementTree

from uds_unit import ClosedFault

SETUP = Path(__file__).resolve().parent.parent.parent / "demo/setup.toml"
PACKAGE = str(Path(__file__).resolve().parent.parent)
# what the program tells, and what ends it
ON_THE_BUS = "uds_unit: the unit is on the bus\n"
SIGNALS = (signal.SIGINT, signal.SIGTERM, signal.SIGHUP)


def has(*names: str) -> bool:
    return all(importlib.util.find_spec(name) is not None for name in names)


def not_taken(number: int, _: object) -> None:
    """What is done at a signal, where the program doesn't take it."""
    raise AssertionError(f"{signal.Signals(number).name} isn't taken")


class ByHand:
    """The bus of a unit and its clock. The test makes the turns of the unit's thread, and says when they are."""

    def __init__(self) -> None:
        self.now = 0.0
        self.unit: Any = None
        self._heard: list[Any] = []
        self._sent: list[Any] = []

    def monotonic(self) -> float:
        return self.now

    def recv(self, _: float) -> Any:
        return self._heard.pop() if self._heard else None

    def send(self, message: Any) -> None:
        self._sent.append(message)

    def turn(self, now: float) -> str:
        """A turn at this moment: what goes in it, each frame by its identifier and its first byte."""
        self.now = now
        self._sent.clear()
        self.unit._turn()
        return " ".join(f"{it.arbitration_id:03X}#{it.data[0]:02X}" for it in self._sent)

    def take(self, now: float, data: str, id: int = 0x7E0) -> str:
        """The same, where the unit hears this frame."""
        import can

        self._heard.append(can.Message(arbitration_id=id, data=bytes.fromhex(data), is_extended_id=id > 0x7FF))
        return self.turn(now)


@contextlib.contextmanager
def by_hand(setup: bytes) -> Iterator[ByHand]:
    from uds_unit.bus import UnitBus

    hand = ByHand()
    with mock.patch("uds_unit.bus.time", hand), mock.patch("threading.Thread"), UnitBus(hand, setup, journal=True) as hand.unit:
        yield hand


@unittest.skipUnless(has("can"), "python-can isn't installed")
class BusTests(unittest.TestCase):
    def setUp(self) -> None:
        import can

        from uds_unit.bus import UnitBus

        self.Message = can.Message
        channel = f"test_{self.id()}"
        self.far = can.Bus(interface="virtual", channel=channel)
        self.near = can.Bus(interface="virtual", channel=channel)
        self.addCleanup(self.near.shutdown)
        self.addCleanup(self.far.shutdown)
        self.unit = UnitBus(self.far, SETUP, journal=True).start()
        self.addCleanup(self.unit.stop)

    def ask(self, data: str, id: int = 0x7E0, **more: bool) -> None:
        self.near.send(self.Message(arbitration_id=id, data=bytes.fromhex(data), is_extended_id=False, **more))

    def hear(self) -> str | None:
        heard = self.near.recv(2)
        return None if heard is None else f"{heard.arbitration_id:03X}#{heard.data.hex().upper()}"

    def test_requests(self) -> None:
        self.ask("021003")
        self.assertEqual(self.hear(), "7E8#065003003201F4CC")
        self.assertEqual((self.unit.session, self.unit.holder), ("extended", "workshop"))
        self.ask("021003", 0x7A0)
        self.assertEqual(self.hear(), "7A8#037F1021CCCCCCCC")
        self.unit.set_value(0xF195, b"\x04\x05")
        self.unit.set_code(0xC10000, 0x2F)
        self.ask("0322F195")
        self.assertEqual(self.hear(), "7E8#0562F1950405CCCC")
        self.assertEqual((self.unit.values[0xF195], self.unit.codes[0xC10000]), (b"\x04\x05", 0x2F))
        # (what would set nothing of the unit isn't taken)
        for items in (self.unit.values, self.unit.codes):
            with self.assertRaises(TypeError):
                items[0xF195] = b"\x06\x07"
        self.unit.stop()
        self.assertIn(" 1 P 22F195 62F1950405\n", self.unit.journal())

    def test_behind_a_request_without_an_answer(self) -> None:
        """The answer to one behind it tells that it was taken."""
        for request, session in 10 * (("021083", "extended"), ("021081", "default")):
            self.ask(request)
            self.ask("023E00")
            self.assertEqual(self.hear(), "7E8#027E00CCCCCCCCCC")
            self.assertEqual(self.unit.session, session)

    def test_separation_time(self) -> None:
        self.ask("0322F190")
        self.assertEqual(self.hear(), "7E8#101462F190303030")
        self.ask("300014")
        first = self.near.recv(2)
        second = self.near.recv(2)
        self.assertEqual([it.data[0] for it in (first, second)], [0x21, 0x22])
        self.assertGreaterEqual(second.timestamp - first.timestamp, 0.0199)

    def test_session_ends(self) -> None:
        from uds_unit.bus import UnitBus

        self.unit.stop()
        short = SETUP.read_bytes().replace(b"s3_ms = 5000", b"s3_ms = 100")
        with UnitBus(self.far, short) as unit:
            self.ask("021003")
            self.assertEqual(self.hear(), "7E8#065003003201F4CC")
            self.assertEqual(unit.session, "extended")
            time.sleep(0.5)
            self.assertEqual(unit.session, "default")

    def test_silence_makes_no_entries(self) -> None:
        self.ask("021003")
        self.assertEqual(self.hear(), "7E8#065003003201F4CC")
        time.sleep(1.0)
        self.ask("023E00")
        self.assertEqual(self.hear(), "7E8#027E00CCCCCCCCCC")
        lines = self.unit.journal().splitlines()
        # (a silent second would be twenty looks of the thread, each with an entry of either tester)
        self.assertEqual([it.split(" ", 3)[2] for it in lines[1:]].count("P"), 2)
        self.assertLess(len(lines), 14, lines)
        self.assertGreater(int(lines[-1].split()[0]), 999)

    def test_a_look_before_the_start(self) -> None:
        from uds_unit.bus import UnitBus

        self.unit.stop()
        unit = UnitBus(self.far, SETUP, journal=True)
        time.sleep(0.3)
        self.assertEqual((unit.session, unit.holder, unit.journal()), ("default", None, "diag-journal 2\n"))
        with unit:
            self.ask("021003")
            self.assertEqual(self.hear(), "7E8#065003003201F4CC")
            time.sleep(0.2)
            self.assertGreater(int(unit.journal().splitlines()[-1].split()[0]), 199)

    def test_29_bits(self) -> None:
        from uds_unit.bus import UnitBus

        self.unit.stop()
        with UnitBus(self.far, b'tester = [{ name = "A", request = 0x18DA10F1, response = 0x18DAF110, extended = true }]'):
            self.near.send(self.Message(arbitration_id=0x18DA10F1, data=bytes.fromhex("021003"), is_extended_id=True))
            heard = self.near.recv(2)
        self.assertEqual((heard.arbitration_id, heard.is_extended_id), (0x18DAF110, True))

    def test_fd(self) -> None:
        from uds_unit.bus import UnitBus

        # a unit whose testers are classic passes frames of CAN FD over
        self.ask("021003", is_fd=True)
        self.ask("023E00")
        self.assertEqual(self.hear(), "7E8#027E00CCCCCCCCCC")
        self.unit.stop()
        with UnitBus(self.far, SETUP.read_bytes().replace(b"response = 0x7E8", b"response = 0x7E8\nfd = true\nfunctional = 0x7D0")):
            # one of CAN FD to a classic tester is passed over, too
            self.ask("021003", 0x7A0, is_fd=True)
            self.ask("0322F190", is_fd=True)
            heard = self.near.recv(2)
        self.assertEqual((heard.is_fd, heard.bitrate_switch, heard.error_state_indicator), (True, True, False))
        self.assertEqual((heard.arbitration_id, heard.data.hex()), (0x7E8, "001462f190" + 17 * "30" + "cccc"))

    def test_a_look_just_before_a_frame_is_due(self) -> None:
        """The frame is still the thread's to send."""
        with by_hand(SETUP.read_bytes()) as hand:
            self.assertEqual(hand.take(0.0, "0322F190"), "7E8#10")
            self.assertEqual(hand.take(0.001, "30000A"), "7E8#21")
            unit = hand.unit
            looks = [lambda: unit.session, lambda: unit.values, lambda: unit.set_code(0xC10000, 1), lambda: unit.journal()]
            for hand.now, look in zip((0.0105, 0.0109994, 0.0109996, nextafter(0.011, 0)), looks):
                look()
                self.assertEqual(hand.turn(hand.now), "")
            self.assertEqual(hand.turn(0.011), "7E8#22")

    def test_its_clock_under_load(self) -> None:
        """It keeps pace while one tester's request is under way and another asks all the while, and with a late frame."""
        with by_hand(SETUP.read_bytes()) as hand:
            hand.take(0.0009, "103022F190F190F1")
            for turn in range(1, 91):
                self.assertEqual(hand.take(turn / 100 + 0.0009, "023E00", 0x7A0), "7A8#02")
            hand.take(0.9109, "21F190F190F190F1")
            hand.take(0.9209, "0322F190", 0x7A0)
            hand.take(0.9315, "300014", 0x7A0)
            self.assertEqual(hand.take(0.94, "103022F190F190F1", 0x7A0), "7A8#30")
            for now, sent in ((0.9505, ""), (0.9514, ""), (0.9516, "7A8#22")):
                self.assertEqual((hand.turn(now), hand.unit._now()), (sent, now))

    def test_frames_that_are_overdue(self) -> None:
        """They go as far apart as ever, and those to the other tester as if there were none."""
        with by_hand(SETUP.read_bytes()) as hand:
            hand.take(0.0, "0522F190F190")
            hand.take(0.0, "0522F190F190", 0x7A0)
            self.assertEqual(hand.take(0.0019, "30000A"), "7E8#21")
            # three are due then
            self.assertEqual(hand.turn(0.0405), "7E8#22")
            self.assertEqual(hand.take(0.0406, "023E00"), "")
            self.assertEqual(hand.take(0.0415, "30000A", 0x7A0), "7A8#21")
            for now, sent in ((0.0504, ""), (0.0506, "7E8#23"), (0.0514, ""), (0.0516, "7A8#22"), (0.0605, ""), (0.0607, "7E8#24")):
                self.assertEqual(hand.turn(now), sent)
            self.assertEqual(hand.turn(0.0708), "7E8#25 7E8#02 7A8#23")

    def test_others_traffic(self) -> None:
        """It makes no entries of the journal, and what is due goes on time."""
        with by_hand(SETUP.read_bytes()) as hand:
            hand.take(0.0, "0322F190")
            hand.take(0.001, "30000A")
            for now in range(2, 11):
                self.assertEqual(hand.take(now / 1000, "023E00", 0x7E1), "")
            self.assertEqual(hand.take(0.011, "023E00", 0x18DA10F1), "7E8#22")
            for now in range(12, 100):
                self.assertEqual(hand.take(now / 1000, "023E00", 0x7E1), "")
            times = [line for line in hand.unit.journal().splitlines() if " 1 T " in line]
            self.assertEqual(times, ["1 1 T 1", "11 1 T 10", "99 1 T 88"])

    def test_flow_control_while_a_frame_waits(self) -> None:
        """To the tester it is in the middle of a block. The first frame of the next block owes no separation time."""
        with by_hand(SETUP.read_bytes()) as hand:
            hand.take(0.0, "0522F190F190")
            self.assertEqual(hand.take(0.0009, "30020A"), "7E8#21")
            self.assertEqual(hand.turn(0.0105), "")
            self.assertEqual(hand.take(0.0106, "300000"), "")
            self.assertEqual(hand.turn(0.0115), "7E8#22")
            self.assertEqual(hand.turn(0.1), "")
            self.assertEqual(hand.take(0.1, "300000"), "7E8#23 7E8#24 7E8#25")

    def test_flow_control_behind_a_late_frame(self) -> None:
        """It is waited for from when the frame went, whatever the tester's frames are."""
        more = b'tx_dl = 8\nn_bs_ms = 20\ndid = [{ id = 1, value = "%s" }]\n' % (30 * b"5A")
        for id, kind in ((0x600, b"fd = false"), (0x600, b"fd = true"), (0x18DA10F1, b"extended = true")):
            setup = more + b'tester = [{ name = "A", request = %d, response = 2, functional = 3, %s }]' % (id, kind)
            for now, sent in ((0.0449, "002#23 002#24"), (0.0451, "")):
                with by_hand(setup) as hand:
                    hand.take(0.0, "03220001", id)
                    self.assertEqual(hand.take(0.0, "30020A", id), "002#21")
                    self.assertEqual(hand.turn(0.0251), "002#22")
                    self.assertEqual(hand.take(now, "300000", id), sent)

    def test_a_handler_that_calls_it(self) -> None:
        """The signal comes in the middle of a look, and the thread has to wait then."""
        look = type(self.unit._unit).session

        def session_and_signal(unit: object) -> str:
            with mock.patch.object(type(unit), "session", look):
                self.ask("023E00")
                time.sleep(0.1)
                signal.raise_signal(signal.SIGUSR1)
            return look.fget(unit)

        for act, fault in ((lambda: self.unit.journal(), None), (self.unit.stop, ClosedFault)):
            self.addCleanup(signal.signal, signal.SIGUSR1, signal.signal(signal.SIGUSR1, lambda *_: act()))
            with mock.patch.object(type(self.unit._unit), "session", property(session_and_signal)):
                if fault is None:
                    self.assertEqual(self.unit.session, "default")
                    self.assertEqual(self.hear(), "7E8#027E00CCCCCCCCCC")
                else:
                    with self.assertRaises(fault):
                        self.unit.session
        self.assertEqual(self.unit.journal().count("1 P 3E00 7E00"), 1)

    def test_frames_that_no_wire_carries(self) -> None:
        """They don't end the unit: a virtual bus hands out what it was given."""
        from uds_unit.bus import UnitBus

        for id, extended in ((0x18DA10F1, False), (0x900, False), (-1, False), (0x20000000, True), (0xFFFFFFFF, True)):
            self.near.send(self.Message(arbitration_id=id, data=bytes.fromhex("023E00"), is_extended_id=extended))
        self.ask("021003" + "00" * 6)
        self.ask("023E00")
        self.assertEqual(self.hear(), "7E8#027E00CCCCCCCCCC")
        self.unit.stop()
        with UnitBus(self.far, SETUP.read_bytes().replace(b"response = 0x7E8", b"response = 0x7E8\nfd = true\nfunctional = 0x7D0")) as unit:
            # a SingleFrame of 11 bytes has 12 on the bus
            self.ask("000922" + "F195" * 4, is_fd=True)
            heard = self.near.recv(2)
            self.assertEqual(heard.data.hex(), "001162" + "f1950203" * 4 + "cc")
            self.ask("023E00" + "00" * 62, is_fd=True)
            self.ask("023E00", is_fd=True)
            self.assertEqual([self.hear(), self.near.recv(0.1)], ["7E8#027E00CCCCCCCCCC", None])
            self.assertIsNone(unit.fault)

    def test_a_full_queue(self) -> None:
        import can

        # a frame in three is taken, as by an adapter whose queue is full
        turns, send = itertools.cycle((False, False, True)), self.far.send

        def take(message: can.Message) -> None:
            if not next(turns):
                raise can.CanOperationError("no room")
            send(message)

        with mock.patch.object(self.far, "send", take):
            self.ask("0322F190")
            self.assertEqual(self.hear(), "7E8#101462F190303030")
            self.ask("300000")
            self.assertEqual([self.hear() for _ in range(2)], ["7E8#2130303030303030", "7E8#2230303030303030"])
        self.assertIsNone(self.unit.fault)

    def test_stopped_while_a_frame_waits_for_room(self) -> None:
        """That is no fault of the bus."""
        import can

        with mock.patch.object(self.far, "send", side_effect=can.CanOperationError("no room")) as send:
            self.ask("021003")
            while not send.called:
                time.sleep(0.001)
            self.unit.stop()
        self.assertIsNone(self.unit.fault)
        self.assertIn(" 1 P 1003 5003003201F4\n", self.unit.journal())

    def test_what_else_ends_the_thread(self) -> None:
        with mock.patch.object(self.far, "recv", side_effect=SystemExit("no driver")):
            self.unit._thread.join()
        for call in (lambda: self.unit.session, self.unit.stop):
            with self.assertRaisesRegex(SystemExit, "no driver"):
                call()
        self.unit.fault = None

    def test_a_bus_that_stops_its_unit(self) -> None:
        with mock.patch.object(self.far, "send", lambda _: self.unit.stop()):
            self.ask("021003")
            self.unit._thread.join()
        with self.assertRaisesRegex(RuntimeError, "stop was called in the unit's own thread"):
            self.unit.stop()
        self.unit.fault = None

    def test_a_bus_at_fault(self) -> None:
        import can

        full = can.CanOperationError("no room")
        with mock.patch("uds_unit.bus.N_AS", 0.1), mock.patch.object(self.far, "send", side_effect=full) as send:
            begun = time.monotonic()
            self.ask("021003")
            while self.unit.fault is None and time.monotonic() < begun + 5:
                time.sleep(0.01)
        self.assertGreaterEqual(time.monotonic() - begun, 0.1)
        self.assertGreater(send.call_count, 2)
        calls = [
            lambda unit: unit.session,
            lambda unit: unit.holder,
            lambda unit: unit.values,
            lambda unit: unit.codes,
            lambda unit: unit.set_value(0xF195, b"\0\0"),
            lambda unit: unit.set_code(0xC10000, 1),
            lambda unit: unit.stop(),
            lambda unit: unit.session,
        ]
        for call in calls:
            with self.assertRaisesRegex(can.CanOperationError, "no room"):
                call(self.unit)
        self.assertIn(" 1 P 1003 5003003201F4\n", self.unit.journal())
        # (or the one at the test's end raised it again)
        self.unit.fault = None

    def test_others_frames(self) -> None:
        for id in (0x18DA00F1, 0x7E0):
            self.near.send(self.Message(arbitration_id=id, data=b"\x02\x10\x03", is_extended_id=True))
        self.near.send(self.Message(arbitration_id=0x7E0, is_extended_id=False, is_remote_frame=True, dlc=3))
        self.ask("023E00", 0x7A0)
        self.assertEqual(self.hear(), "7A8#027E00CCCCCCCCCC")

    @unittest.skipUnless(has("scapy"), "scapy isn't installed")
    def test_scapy_reads(self) -> None:
        from scapy.config import conf

        conf.contribs["CANSocket"] = {"use-python-can": True}
        conf.contribs["ISOTP"] = {"use-can-isotp-kernel-module": False}
        from scapy.contrib.cansocket_python_can import CANSocket
        from scapy.contrib.isotp import ISOTPSocket
        from scapy.contrib.automotive.uds import UDS, UDS_RDBI

        with CANSocket(bustype="virtual", channel=f"test_{self.id()}") as raw:
            with ISOTPSocket(raw, tx_id=0x7E0, rx_id=0x7E8, basecls=UDS) as tester:
                reply = tester.sr1(UDS() / UDS_RDBI(identifiers=[0xF190]), timeout=3, verbose=False)
        self.assertEqual(bytes(reply), b"\x62\xF1\x90" + b"0" * 17)

    @unittest.skipUnless(has("scapy"), "scapy isn't installed")
    def test_scapy_by_fd(self) -> None:
        from scapy.config import conf

        conf.contribs["CANSocket"] = {"use-python-can": True}
        conf.contribs["ISOTP"] = {"use-can-isotp-kernel-module": False}
        from scapy.contrib.cansocket_python_can import CANSocket
        from scapy.contrib.isotp import ISOTPSocket
        from scapy.contrib.automotive.uds import UDS, UDS_RDBI
        from scapy.layers.can import CANFD

        from uds_unit.bus import UnitBus

        def hear(frames: list[bytes], count: int) -> list[tuple[type, int, str]]:
            asked = [CANFD(identifier=0x7E0, fd_flags="fd_frame+bit_rate_switch", data=it) for it in frames]
            heard = raw.sniff(count=count, timeout=3, started_callback=lambda: [raw.send(it) for it in asked])
            return [(type(it), int(it.fd_flags), it.data.hex()) for it in heard]

        self.unit.stop()
        setup = b"tx_dl = 12\n" + SETUP.read_bytes().replace(b"response = 0x7E8", b"response = 0x7E8\nfd = true\nfunctional = 0x7D0")
        grant, refused = (CANFD, 5, "300000cccccccccc"), (CANFD, 5, "037f2231cccccccc")
        with UnitBus(self.far, setup), CANSocket(bustype="virtual", channel=f"test_{self.id()}") as raw:
            # a SingleFrame of 12 bytes, and a request of 65 bytes in frames of 64
            self.assertEqual(hear([b"\0\x09\x22" + b"\xFF" * 9], 1), [refused])
            self.assertEqual(hear([b"\x10\x41\x22" + b"\xFF" * 61, b"\x21\xFF\xFF\xFF"], 2), [grant, refused])
            # its ISO-TP takes the length of an answer's frames from the first
            with ISOTPSocket(raw, tx_id=0x7E0, rx_id=0x7E8, basecls=UDS) as tester:
                reply = tester.sr1(UDS() / UDS_RDBI(identifiers=[0xF190]), timeout=3, verbose=False)
        self.assertEqual(bytes(reply), b"\x62\xF1\x90" + b"0" * 17)


@unittest.skipUnless(has("can"), "python-can isn't installed")
class ProgramTests(unittest.TestCase):
    def serve(self, script: Iterator[None], *words: str, setup: object = SETUP, handler: Any = not_taken) -> tuple[int, str]:
        """The program in this process, with this handler of signals before: its status, and what it tells. Where it waits it
        takes a step of the script."""
        from uds_unit import __main__ as program

        for number in SIGNALS:
            self.addCleanup(signal.signal, number, signal.signal(number, handler))
        clock = SimpleNamespace(monotonic=time.monotonic, sleep=lambda _: next(script))
        with mock.patch.object(program, "time", clock), contextlib.redirect_stderr(io.StringIO()) as told:
            status = program.main(["--interface", "virtual", "--channel", self.id(), *words, str(setup)])
        return status, told.getvalue()

    def refused(self, *words: str, setup: object = SETUP) -> tuple[int, str]:
        """The same, where it doesn't come to wait."""
        return self.serve(iter(()), *words, setup=setup)

    @contextlib.contextmanager
    def other_end(self) -> Iterator[Any]:
        """The tester's end of the bus of `serve`, and a path for its journal."""
        import can

        with tempfile.TemporaryDirectory() as room, can.Bus(interface="virtual", channel=self.id()) as bus:
            ask = can.Message(arbitration_id=0x7E0, data=bytes.fromhex("021003"), is_extended_id=False)
            yield SimpleNamespace(ask=lambda: bus.send(ask), hear=lambda: bus.recv(2), path=Path(room, "j"))

    def test_it_runs(self) -> None:
        with tempfile.TemporaryDirectory() as room:
            path = Path(room, "j")
            words = ["--interface", "virtual", "--channel", "x", "--seconds", "0.3", "--journal", str(path), str(SETUP)]
            ran = subprocess.run([sys.executable, "-m", "uds_unit", *words], cwd=PACKAGE, capture_output=True, text=True, timeout=60)
            self.assertEqual((ran.returncode, ran.stdout, ran.stderr), (0, "", ON_THE_BUS))
            self.assertTrue(path.read_text().startswith("diag-journal 2\n"))

    def test_a_journal_that_is_refused(self) -> None:
        """That is told at once, and not behind the run. A file that is there stays as it was, be it the setup itself."""
        with tempfile.TemporaryDirectory() as room:
            path = shutil.copy(SETUP, room)
            fault = f"uds_unit: --journal {path}: there is such a file already, and it isn't overwritten\n"
            self.assertEqual(self.refused("--journal", path), (1, fault))
            self.assertEqual(Path(path).read_bytes(), SETUP.read_bytes())
            fault = f"uds_unit: {room}/none/j: No such file or directory\n"
            self.assertEqual(self.refused("--journal", f"{room}/none/j"), (1, fault))

    def test_signals(self) -> None:
        """Those that come while it ends are passed over."""
        from uds_unit.bus import UnitBus

        def script() -> Iterator[None]:
            signal.raise_signal(first)
            yield

        def stop_and_signal(unit: UnitBus) -> None:
            for number in SIGNALS:
                signal.raise_signal(number)
            stop(unit)

        stop = UnitBus.stop
        for first in SIGNALS:
            with self.other_end() as tester, mock.patch.object(UnitBus, "stop", stop_and_signal):
                self.assertEqual(self.serve(script(), "--journal", str(tester.path)), (0, ON_THE_BUS))
                self.assertTrue(tester.path.read_text().startswith("diag-journal 2\n"))

    def test_signals_that_were_passed_over_before(self) -> None:
        """As behind nohup: it sets no handler."""

        def script() -> Iterator[None]:
            while True:
                self.assertEqual({signal.getsignal(it) for it in SIGNALS}, {signal.SIG_IGN})
                yield

        self.assertEqual(self.serve(script(), "--seconds", "0.01", handler=signal.SIG_IGN), (0, ON_THE_BUS))

    def test_a_driver_that_does_not_return(self) -> None:
        """A signal ends the program all the same, and the journal is written before."""
        from can.interfaces.virtual import VirtualBus

        from uds_unit.bus import UnitBus

        def send_and_hang(bus: VirtualBus, message: Any) -> None:
            send(bus, message)
            if message.arbitration_id == 0x7E8:
                returns.wait(10)

        def script() -> Iterator[None]:
            tester.ask()
            tester.hear()
            yield signal.raise_signal(signal.SIGINT)

        def stop_and_signal(unit: UnitBus) -> None:
            signal.raise_signal(signal.SIGTERM)
            threading.Timer(0.15, os.kill, (os.getpid(), signal.SIGTERM)).start()
            stop(unit)

        def end(status: int) -> None:
            self.assertIn(" 1 P 1003 5003003201F4\n", tester.path.read_text())
            returns.set()
            raise SystemExit(status)

        send, stop, returns = VirtualBus.send, UnitBus.stop, threading.Event()
        with (
            self.other_end() as tester,
            mock.patch.object(VirtualBus, "send", send_and_hang),
            mock.patch.object(UnitBus, "stop", stop_and_signal),
            mock.patch("uds_unit.__main__.GRACE", 0.1),
            mock.patch("os._exit", end),
            self.assertRaisesRegex(SystemExit, "1"),
        ):
            self.serve(script(), "--journal", str(tester.path))

    def test_the_journal_is_written_meanwhile(self) -> None:
        """A run that is killed leaves it. No time passes by that."""

        def script() -> Iterator[None]:
            for _ in range(3):
                yield time.sleep(0.02)
            self.assertEqual(tester.path.read_text(), "diag-journal 2\n")
            tester.ask()
            yield tester.hear()
            self.assertIn(" 1 P 1003 5003003201F4\n", tester.path.read_text())
            yield signal.raise_signal(signal.SIGTERM)

        with self.other_end() as tester, mock.patch("uds_unit.__main__.EVERY", 0):
            self.assertEqual(self.serve(script(), "--journal", str(tester.path)), (0, ON_THE_BUS))
            self.assertEqual(tester.path.read_text().count(" P "), 1)

    def test_a_journal_that_can_not_be_written(self) -> None:
        def script() -> Iterator[None]:
            resource.setrlimit(resource.RLIMIT_FSIZE, (20, most))
            for _ in range(9):
                tester.ask()
                yield tester.hear()

        soft, most = resource.getrlimit(resource.RLIMIT_FSIZE)
        self.addCleanup(resource.setrlimit, resource.RLIMIT_FSIZE, (soft, most))
        with self.other_end() as tester, mock.patch("uds_unit.__main__.EVERY", 0):
            told = f"{ON_THE_BUS}uds_unit: --journal {tester.path}: File too large\n"
            self.assertEqual(self.serve(script(), "--journal", str(tester.path)), (1, told))

    def test_python_can_that_can_not_be_imported(self) -> None:
        fault = "uds_unit: python-can can't be imported: no libcan (pip install python-can, or apt-get install python3-can)\n"
        for code, ended in (("raise ImportError('no libcan')", (1, fault)), ("signal.raise_signal(signal.SIGINT)", (0, ""))):
            with tempfile.TemporaryDirectory() as room, mock.patch.dict(sys.modules), mock.patch.object(sys, "path", [room, *sys.path]):
                Path(room, "can.py").write_text(f"import signal\n{code}\n")
                sys.modules.pop("can", None)
                self.assertEqual(self.refused(), ended)

    def test_its_name_and_version(self) -> None:
        from uds_unit import __version__
        from uds_unit.__main__ import main

        for called, name in (("/it/uds_unit/__main__.py", "python3 -m uds_unit"), ("/it/bin/uds_unit", "uds_unit")):
            for word, text in (("--help", f"usage: {name} [-h] "), ("--version", f"uds_unit {__version__}\n")):
                with mock.patch("sys.argv", [called]), contextlib.redirect_stdout(io.StringIO()) as told, self.assertRaises(SystemExit):
                    main([word])
                self.assertTrue(told.getvalue().startswith(text), told.getvalue())

    def opened(self, setup: bytes, fault: Exception, *words: str) -> tuple[int, str, bool]:
        """Where the bus has this fault: the program's status, its line, and whether it opened the bus for CAN FD."""
        from uds_unit.__main__ import main

        text = io.StringIO()
        with tempfile.NamedTemporaryFile(suffix=".toml") as file:
            file.write(setup)
            file.flush()
            with mock.patch("can.Bus", side_effect=fault) as bus, mock.patch("signal.signal"), contextlib.redirect_stderr(text):
                status = main(["--interface", "it", "--channel", "x", *words, file.name])
        return status, text.getvalue(), bus.call_args.kwargs.get("fd", False)

    def test_a_bus_that_can_not_be_opened(self) -> None:
        classic, by_fd = SETUP.read_bytes(), b'tester = [{ name = "A", request = 1, response = 2, fd = true }]'
        with tempfile.TemporaryDirectory() as room:
            for fault in (NameError("no canlib"), TypeError("2 missing"), ImportError("no ics")):
                status, line, _ = self.opened(classic, fault, "--journal", f"{room}/j")
                self.assertEqual((status, line.count("\n")), (1, 1), line)
                self.assertTrue(line.startswith(f"uds_unit: --interface it: {type(fault).__name__}: {fault} ("), line)
                # (no empty file is left, by which the next run would be refused)
                self.assertFalse(Path(f"{room}/j").exists())
        words = "uds_unit: --interface it --channel x: "
        for no_device, told in ((OSError("no device"), "no device"), (OSError(19, "No such device"), "No such device")):
            self.assertEqual(self.opened(classic, no_device), (1, f"{words}{told}\n", False))
            self.assertEqual(self.opened(classic, no_device, "--fd"), (1, f"{words}{told}\n", True))
            self.assertEqual(self.opened(by_fd, no_device), (1, f"{words}{told}\n", True))

    def test_faults(self) -> None:
        from uds_unit import MemoryFault
        from uds_unit.__main__ import main

        with tempfile.TemporaryDirectory() as room:
            path = Path(room, "it.toml")
            path.write_text("s3_ms = 1")
            fault = f"uds_unit: config: empty\nuds_unit: note: uds_play check {path} tells the place of each fault\n"
            self.assertEqual(self.refused(setup=path), (2, fault))
            # (to that command it is no fault)
            path.write_text(f"x = 23:59:60\n{SETUP.read_text()}")
            status, line = self.refused(setup=path)
            self.assertEqual((status, line.count("\n")), (2, 1), line)
        self.assertEqual(self.refused("--interface", "no_such")[0], 1)
        self.assertEqual(self.refused(setup="no_such.toml"), (1, "uds_unit: no_such.toml: No such file or directory\n"))
        self.assertEqual(self.refused(setup=""), (1, "uds_unit: '': No such file or directory\n"))
        # (2 would tell of the setup)
        with mock.patch("uds_unit.__main__._serve", side_effect=MemoryFault("memory")):
            self.assertEqual(self.refused(), (1, "uds_unit: memory\n"))
        for seconds in ("-1", "nan", "x"):
            with contextlib.redirect_stderr(io.StringIO()) as told, self.assertRaisesRegex(SystemExit, "2"):
                main(["--interface", "virtual", "--channel", "x", "--seconds", seconds, str(SETUP)])
            self.assertIn("argument --seconds: ", told.getvalue())


TESTS = '''
import can

def ask(bus, data):
    bus.send(can.Message(arbitration_id=0x7E0, data=bytes.fromhex(data), is_extended_id=False))
    return bus.recv(2).data.hex()

def test_good(uds_unit):
    assert ask(uds_unit.bus, "021003") == "065003003201f4cc"
    assert uds_unit.unit.holder == "workshop"

def test_bad(uds_unit):
    assert ask(uds_unit.bus, "021003") == "nothing of the kind"
'''


@unittest.skipUnless(has("can", "pytest"), "python-can and pytest aren't both installed")
class FixtureTests(unittest.TestCase):
    def run_pytest(self, *words: str) -> subprocess.CompletedProcess[str]:
        own = [sys.executable, "-m", "pytest", "-q", "-p", "uds_unit.pytest_plugin", "-p", "no:cacheprovider"]
        return subprocess.run([*own, *words], cwd=PACKAGE, capture_output=True, text=True, timeout=120)

    def test_fixture(self) -> None:
        begun = time.monotonic()
        with tempfile.TemporaryDirectory() as room:
            Path(f"{room}/test_it.py").write_text(TESTS)
            Path(f"{room}/pytest.ini").write_text(f"[pytest]\nuds_setup = {SETUP}\n")
            # (a test's end doesn't wait for it)
            Path(f"{room}/conftest.py").write_text("from uds_unit import bus\nbus.PATIENCE = 30\n")
            ran = self.run_pytest(f"--junit-xml={room}/report.xml", room)
            self.assertIn("1 failed, 1 passed", ran.stdout, ran.stdout + ran.stderr)
            report = ElementTree.parse(f"{room}/report.xml").find(".//failure").text
        for text in (ran.stdout, report):
            self.assertEqual(text.count(" journal of the unit "), 1, text)
            self.assertIn(" 1 P 1003 5003003201F4", text)
        self.assertLess(time.monotonic() - begun, 30)

    def test_without_python_can(self) -> None:
        """The tests fail: were they skipped, nobody would see that nothing is tested."""
        with tempfile.TemporaryDirectory() as room:
            Path(f"{room}/test_it.py").write_text("def test_it(uds_unit):\n    pass\n")
            Path(f"{room}/pytest.ini").write_text(f"[pytest]\nuds_setup = {SETUP}\n")
            Path(f"{room}/conftest.py").write_text("import sys\nsys.modules['can'] = None\n")
            ran = self.run_pytest(room)
        self.assertEqual(ran.returncode, 1, ran.stdout + ran.stderr)
        self.assertIn("the fixture uds_unit wants python-can: ", ran.stdout)

    def test_the_folder_of_the_ini_file(self) -> None:
        with tempfile.TemporaryDirectory() as room:
            sub = Path(room, "sub")
            sub.mkdir()
            shutil.copy(SETUP, sub)
            Path(room, "test_it.py").write_text(TESTS)
            Path(sub, "pytest.ini").write_text(f"[pytest]\nuds_setup = {SETUP.name}\n")
            ran = self.run_pytest("-k", "test_good", "--rootdir", room, "-c", f"{sub}/pytest.ini", f"{room}/test_it.py")
            self.assertIn("1 passed", ran.stdout, ran.stdout + ran.stderr)

    def test_named_though_it_is_installed(self) -> None:
        """The plugin that pytest finds by itself, and that of -p, are one."""
        from wheel_of_unit import tell_of_package

        with tempfile.TemporaryDirectory() as room:
            tell_of_package(room)
            Path(room, "test_it.py").write_text(TESTS)
            Path(room, "pytest.ini").write_text(f"[pytest]\nuds_setup = {SETUP}\n")
            with mock.patch.dict(os.environ, PYTHONPATH=room):
                ran = self.run_pytest("-k", "test_good", room)
        self.assertIn("1 passed", ran.stdout, ran.stdout + ran.stderr)


if __name__ == "__main__":
    unittest.main()
