"""Tests of `uds_unit.Unit`: what it answers, and each fault. They want nothing but the library."""
import copy
import importlib.util
import os
import pickle
import signal
import tempfile
import threading
import unittest
from array import array
from datetime import datetime, time, timedelta, timezone
from decimal import Decimal
from fractions import Fraction
from math import inf, nextafter
from pathlib import Path
from time import process_time
from unittest import mock

from uds_unit import ClosedFault, Frame, FrameFault, SetupFault, Unit, UnitFault, library, toml

SETUP = Path(__file__).resolve().parent.parent.parent / "demo/setup.toml"
EXTENDED, PRESENT = bytes.fromhex("021003"), bytes.fromhex("023E00")
# two testers of 29 bits, and one of 11
WIDE = b"""tester = [
    { name = "A", request = 0x18DA10F1, response = 0x18DAF110, extended = true },
    { name = "B", request = 0x7E0, response = 0x7E8 },
]"""

# one tester that talks by CAN FD, and one that doesn't
LONG = b"""tester = [
    { name = "A", request = 0x7E0, response = 0x7E8, functional = 0x7D0, fd = true },
    { name = "B", request = 0x7A0, response = 0x7A8 },
]
did = [{ id = 0xF190, value = "3031323334353637383930313233343536" }]"""

SEVEN, WEST = time(7, 32), timezone(timedelta(hours=-8))


class UnitTests(unittest.TestCase):
    def setUp(self) -> None:
        self.unit = Unit(SETUP, journal=True)
        self.addCleanup(self.unit.close)

    def test_session_ends(self) -> None:
        frames = self.unit.frame(0.0, 0x7E0, EXTENDED)
        self.assertEqual(frames, [Frame(0.0, 0x7E8, bytes.fromhex("065003003201F4CC"), "workshop")])
        self.assertEqual((self.unit.session, self.unit.holder), ("extended", "workshop"))
        self.assertEqual(self.unit.advance(4.999), [])
        self.assertEqual(self.unit.session, "extended")
        self.unit.advance(5.0)
        self.assertEqual((self.unit.session, self.unit.holder), ("default", None))

    def test_two_testers(self) -> None:
        self.unit.frame(0.0, 0x7E0, EXTENDED)
        busy = self.unit.frame(0.1, 0x7A0, EXTENDED)
        self.assertEqual(busy, [Frame(0.1, 0x7A8, bytes.fromhex("037F1021CCCCCCCC"), "end_of_line")])
        # the functional request is each tester's
        self.assertEqual([it.tester for it in self.unit.frame(0.2, 0x7DF, bytes.fromhex("023E00"))], ["workshop", "end_of_line"])

    def test_long_reply(self) -> None:
        self.assertIsNone(self.unit.due)
        first = self.unit.frame(1.0, 0x7E0, bytes.fromhex("0322F190"))
        self.assertEqual([it.data.hex() for it in first], ["101462f190303030"])
        self.assertEqual(len(self.unit.frame(1.002, 0x7E0, bytes.fromhex("30000A"))), 1)
        self.assertEqual(self.unit.due, 1.012)
        self.assertEqual([it.time for it in self.unit.advance(self.unit.due)], [1.012])
        self.assertIsNone(self.unit.due)

    def test_no_frame_before_it_is_due(self) -> None:
        self.unit.frame(0.0, 0x7E0, bytes.fromhex("0322F190"))
        self.unit.frame(0.001, 0x7E0, bytes.fromhex("30000A"))
        for early in (0.0105, 0.0109996, nextafter(0.011, 0)):
            self.assertEqual((self.unit.advance(early), self.unit.due), ([], 0.011))
        self.assertEqual([it.time for it in self.unit.advance(0.011)], [0.011])

    def test_moments_go_down_to_their_millisecond(self) -> None:
        """One that the unit tells is itself, and the float before it is in the millisecond before."""
        for first in (0, -1_500, 1_763_800_001_000, 6_000_000_000_000):
            with Unit(SETUP) as unit:
                for time, next in ((it / 1000, (it + 1) / 1000) for it in range(first, first + 2_000)):
                    self.assertEqual([it.time for it in unit.frame(time, 0x7E0, PRESENT)], [time])
                    self.assertEqual([it.time for it in unit.frame(nextafter(next, -inf), 0x7E0, PRESENT)], [time])

    def test_the_farthest_moments(self) -> None:
        for first in (-1e12, 1e12 - 0.01):
            with Unit(SETUP) as unit:
                unit.frame(first, 0x7E0, bytes.fromhex("0322F190"))
                self.assertEqual([it.time for it in unit.frame(first + 0.005, 0x7E0, bytes.fromhex("300005"))], [first + 0.005])
                self.assertEqual([it.time for it in unit.advance(first + 0.01)], [first + 0.01])

    def test_time_goes_on(self) -> None:
        self.unit.advance(1.0)
        self.assertEqual(self.unit.frame(0.5, 0x7E0, bytes.fromhex("023E00"))[0].time, 1.0)
        self.assertEqual(self.unit.advance(-1.0), [])

    def test_a_step_of_more_than_100_years(self) -> None:
        century = 100 * 365.25 * 86_400
        # the first moment may be any: nothing passes before it
        self.unit.advance(2 * century)
        for late in (3 * century + 1, 1e12):
            with self.assertRaisesRegex(ValueError, "more than 100 years at once"):
                self.unit.advance(late)
            with self.assertRaisesRegex(ValueError, "more than 100 years at once"):
                self.unit.frame(late, 0x7E0, EXTENDED)
        self.assertEqual(self.unit.frame(0.0, 0x7E0, EXTENDED)[0].time, 2 * century)
        with Unit(SETUP) as unit:
            unit.frame(0.0, 0x7E0, EXTENDED)
            unit.advance(century)
            self.assertEqual(unit.session, "default")

    def test_a_first_moment_below_zero(self) -> None:
        for first, later, due in ((-2.0, -1.99, -1.98), (-2.0005, -1.9996, -1.99)):
            with Unit(SETUP, journal=True) as unit:
                self.assertEqual([it.time for it in unit.frame(first, 0x7E0, bytes.fromhex("0322F190"))], [-2.0 if first == -2.0 else -2.001])
                self.assertEqual([it.data[0] for it in unit.frame(later, 0x7E0, bytes.fromhex("30000A"))], [0x21])
                self.assertEqual(unit.due, due)
                self.assertEqual([it.time for it in unit.advance(due)], [due])
                unit.advance(3.0)
                self.assertEqual(unit.journal().splitlines()[-1].split()[0], "5000" if first == -2.0 else "5001")
        # (a frame that there isn't tells no moment)
        with Unit(SETUP) as unit:
            with self.assertRaises(FrameFault):
                unit.frame(-9.0, 0x7E0, bytes(9))
            self.assertEqual([it.time for it in unit.frame(-1.0, 0x7E0, EXTENDED)], [-1.0])
            self.assertEqual([it.time for it in unit.frame(-3.0, 0x7E0, EXTENDED)], [-1.0])

    def test_what_is_no_moment(self) -> None:
        for wrong in (float("nan"), float("inf"), float("-inf")):
            with self.assertRaisesRegex(ValueError, "finite number of seconds"):
                self.unit.advance(wrong)
        for wrong in ("1", None, timedelta(seconds=1)):
            with self.assertRaisesRegex(TypeError, "real number"):
                self.unit.frame(wrong, 0x7E0, EXTENDED)
        # (the time of day in milliseconds, microseconds and nanoseconds, and the greatest float)
        for far in (1.763e12, 1.763e15, -1.763e15, 1_763_800_001_000_000_000, 1e308):
            with self.assertRaisesRegex(ValueError, "at most 1000000000000 seconds from zero"):
                self.unit.advance(far)
        for good in (Decimal("1.5"), Fraction(3, 2), 1.5):
            self.assertEqual(self.unit.frame(good, 0x7E0, EXTENDED)[0].time, 1.5)

    @unittest.skipUnless(importlib.util.find_spec("numpy"), "numpy isn't installed")
    def test_numbers_of_numpy(self) -> None:
        import numpy

        data = numpy.frombuffer(EXTENDED, dtype=numpy.uint8)
        for second, kind in enumerate((numpy.int16, numpy.uint32, numpy.int64, numpy.float32, numpy.float64), 3000):
            for id in (numpy.int16(0x7E0), numpy.uint32(0x7E0), numpy.int64(0x7E0)):
                self.assertEqual([it.time for it in self.unit.frame(kind(second), id, data)], [second])
        self.unit.values[numpy.uint16(0xF195)] = numpy.array([4, 5], dtype=numpy.uint8)
        self.unit.codes[numpy.int32(0xC10000)] = numpy.uint8(0x2F)
        self.assertEqual((self.unit.values[numpy.int32(0xF195)], self.unit.codes[0xC10000]), (b"\x04\x05", 0x2F))

    def test_made_twice(self) -> None:
        """It begins anew, and the first handle is closed."""
        first = self.unit._handle
        self.unit.frame(0.0, 0x7E0, EXTENDED)
        Unit.__init__(self.unit, WIDE)
        self.assertEqual((first.is_open, self.unit.session, self.unit.testers), (False, "default", ("A", "B")))

    def test_it_can_not_be_copied(self) -> None:
        """A copy would free what is the unit's."""
        for make in (copy.copy, copy.deepcopy, pickle.dumps):
            with self.assertRaisesRegex(TypeError, "a unit can't be copied or pickled"):
                make(self.unit)
        frames = self.unit.frame(0.0, 0x7E0, EXTENDED)
        self.assertEqual((frames[0].data[0], pickle.loads(pickle.dumps(frames))), (6, frames))

    def test_what_is_no_number(self) -> None:
        for wrong in ("7E0", 2016.0, None):
            with self.assertRaisesRegex(TypeError, "interpreted as an integer"):
                self.unit.frame(0.0, wrong, EXTENDED)
            with self.assertRaisesRegex(TypeError, "interpreted as an integer"):
                self.unit.codes[0xC10000] = wrong
            for items in (self.unit.values, self.unit.codes):
                self.assertNotIn(wrong, items)
                with self.assertRaises(KeyError):
                    items[wrong]
                with self.assertRaises(KeyError):
                    items[wrong] = b"\0\0" if items is self.unit.values else 0

    def test_hex_digits_are_no_bytes(self) -> None:
        with self.assertRaisesRegex(TypeError, "bytes.fromhex makes bytes of hex digits"):
            self.unit.frame(0.0, 0x7E0, "021003")
        with self.assertRaisesRegex(TypeError, "bytes.fromhex makes bytes of hex digits"):
            self.unit.values[0xF195] = "0405"

    def test_items_of_other_widths(self) -> None:
        wide = array("q", list(EXTENDED))
        with self.assertRaisesRegex(TypeError, "bytes wanted, one item each"):
            self.unit.frame(0.0, 0x7E0, wide)
        with self.assertRaisesRegex(TypeError, "bytes wanted, one item each"):
            self.unit.values[0xF195] = array("H", [4, 5])
        self.unit.values[0xF195] = [4, 5]
        self.assertEqual(self.unit.values[0xF195], b"\x04\x05")
        for same in (list(EXTENDED), array("B", EXTENDED), memoryview(EXTENDED)):
            self.assertEqual(self.unit.frame(0.0, 0x7E0, same)[0].data.hex(), "065003003201f4cc")

    def test_threads_share_a_unit(self) -> None:
        faults: list[BaseException] = []

        def ask(id: int) -> None:
            try:
                for _ in range(500):
                    frames = self.unit.frame(0.0, id, bytes.fromhex("0322F195"))
                    self.assertEqual([it.id for it in frames], [id + 8])
                    self.assertEqual(self.unit.values[0xF195], b"\x02\x03")
            except BaseException as fault:
                faults.append(fault)

        threads = [threading.Thread(target=ask, args=(id,)) for id in (0x7E0, 0x7A0, 0x7E0, 0x7A0)]
        for it in threads:
            it.start()
        for it in threads:
            it.join()
        self.assertEqual(faults, [])

    def test_a_handler_that_calls_the_unit(self) -> None:
        """The signal comes when a reply was handed out and isn't looked at yet: none is lost, and none comes twice."""
        take, inner = self.unit._next, []

        def take_and_signal(*words: object) -> int:
            status = take(*words)
            signal.raise_signal(signal.SIGUSR1)
            return status

        def ask(*_: object) -> None:
            self.unit._next = take
            inner.extend(self.unit.frame(0.0, 0x7A0, PRESENT))

        self.addCleanup(signal.signal, signal.SIGUSR1, signal.signal(signal.SIGUSR1, ask))
        self.unit._next = take_and_signal
        outer = self.unit.frame(0.0, 0x7E0, PRESENT)
        # (a signal behind the reply, and one behind the answer that there is no other)
        self.assertEqual([[it.id for it in frames] for frames in (outer, inner)], [[0x7E8], [0x7A8, 0x7A8]])

    def test_values(self) -> None:
        values = self.unit.values
        self.assertEqual((list(values), len(values), values[0xF195]), ([0xF190, 0xF195], 2, b"\x02\x03"))
        values[0xF195] = b"\x04\x05"
        self.assertEqual(self.unit.frame(0.0, 0x7E0, bytes.fromhex("0322F195"))[0].data.hex(), "0562f1950405cccc")
        self.assertNotIn(0xF191, values)
        for wrong in (0xF191, -1, 0x1F195):
            with self.assertRaises(KeyError):
                values[wrong] = b"\x04\x05"
            with self.assertRaises(KeyError):
                values[wrong]
        with self.assertRaisesRegex(ValueError, "^the value of 0xF195 has 2 bytes, and not 1$"):
            values[0xF195] = b"\x04"
        with self.assertRaises(TypeError):
            del values[0xF195]

    def test_codes(self) -> None:
        codes = self.unit.codes
        self.assertEqual(dict(codes), {0x056200: 0x2F, 0xC10000: 0x04})
        codes[0xC10000] = 0x2F
        self.assertEqual((codes[0xC10000], len(codes)), (0x2F, 2))
        self.assertEqual(self.unit.frame(0.0, 0x7E0, bytes.fromhex("03190120"))[0].data.hex(), "065901ff010002cc")
        with self.assertRaises(KeyError):
            codes[1] = 0
        with self.assertRaises(KeyError):
            codes[1]
        with self.assertRaises(ValueError):
            codes[0xC10000] = 256
        with self.assertRaises(TypeError):
            del codes[0xC10000]

    def test_texts(self) -> None:
        (frame,) = self.unit.frame(0.0, 0x7E0, PRESENT)
        self.assertEqual(
            repr(frame),
            "Frame(time=0.0, id=0x7E8, data=b'\\x02~\\x00\\xcc\\xcc\\xcc\\xcc\\xcc', tester='workshop', extended=False, fd=False)",
        )
        self.assertEqual(eval(repr(frame)), frame)
        self.assertEqual(repr(self.unit.values), "Values({0xF190: b'00000000000000000', 0xF195: b'\\x02\\x03'})")
        self.assertEqual(repr(self.unit.codes), "Codes({0x056200: 0x2F, 0xC10000: 0x04})")
        self.unit.close()
        texts = [repr(it) for it in (self.unit.values, self.unit.codes)]
        self.assertEqual(texts, ["<Values: the unit is closed>", "<Codes: the unit is closed>"])

    def test_many_codes(self) -> None:
        numbers = [*range(1, 8190, 2), 0xFFFFFE]
        rows = "".join(f"[[code]]\ncode = {it}\nstatus = {it % 256}\n" for it in numbers)
        with Unit(WIDE + b"\n" + rows.encode()) as unit:
            begun = process_time()
            self.assertEqual(dict(unit.codes), {it: it % 256 for it in numbers})
            self.assertLess(process_time() - begun, 3)
            for wrong in (0, 2, 8190, 8191, 0xFFFFFD, 0xFFFFFF, 1 << 24, -1):
                self.assertNotIn(wrong, unit.codes)

    def test_journal(self) -> None:
        self.assertEqual(self.unit.journal(), "diag-journal 2\n")
        self.unit.frame(0.0, 0x7E0, EXTENDED)
        self.unit.advance(0.25)
        self.assertEqual(self.unit.journal(), "0 1 P 1003 5003003201F4\n250 1 T 250\n250 2 T 250\n")
        self.assertEqual(self.unit.journal(), "")
        with Unit(SETUP) as other:
            other.frame(0.0, 0x7E0, EXTENDED)
            self.assertEqual(other.journal(), "")

    def test_no_frame(self) -> None:
        length = "^a frame has 0 to 8, 12, 16, 20, 24, 32, 48 or 64 bytes, and not "
        number = "^an identifier has up to 29 bits, and is not negative: "
        wrong = [
            (0x7E0, bytes(9), False, f"{length}9$"),
            (0x18DA10F1, bytes(65), True, f"{length}65$"),
            (0x800, b"", False, "^an identifier of more than 11 bits wants extended=True: 0x800$"),
            (0x18DA10F1, EXTENDED, False, "^an identifier of more than 11 bits wants extended=True: 0x18da10f1$"),
            (0x20000000, b"", True, f"{number}0x20000000$"),
            (-1, b"", False, f"{number}-0x1$"),
            (1 << 40, b"", False, f"{number}0x10000000000$"),
            (0x98DA10F1, b"", False, f"{number}0x98da10f1$"),
            (0x98DA10F1, b"", True, f"{number}0x98da10f1$"),
        ]
        for id, data, extended, text in wrong:
            with self.assertRaisesRegex(FrameFault, text):
                self.unit.frame(9.0, id, data, extended=extended)
        self.assertEqual(self.unit.frame(0.0, 0x18DB33F1, EXTENDED, extended=True), [])
        self.assertEqual(self.unit.frame(0.0, 0x7E0, bytearray(EXTENDED))[0].time, 0.0)

    def test_fd(self) -> None:
        with Unit(LONG) as unit:
            self.assertEqual((unit.fd_requests, unit.fd_flags), ({(0x7E0, False), (0x7D0, False)}, 1))
            reply = bytes.fromhex("001462F190") + b"01234567890123456" + b"\xCC\xCC"
            asked = bytes.fromhex("0322F190")
            # the same identifier, and three that there aren't
            long = bytes.fromhex("000922F190000100020003CC")
            for data in (asked, long):
                self.assertEqual(unit.frame(0.0, 0x7E0, data), [Frame(0.0, 0x7E8, reply, "A", fd=True)])
            self.assertEqual([(len(it.data), it.fd) for it in unit.frame(0.0, 0x7A0, asked)], [(8, False)])
            # what is too long for its tester only lets the time pass
            self.assertEqual(unit.frame(1.0, 0x7A0, long), [])
            self.assertEqual(unit.frame(0.0, 0x7E0, bytes.fromhex("023E00"))[0].time, 1.0)
            with self.assertRaises(FrameFault):
                unit.frame(9.0, 0x7E0, bytes(13))
        self.assertEqual(self.unit.fd_requests, frozenset())

    def test_the_identifiers_that_it_hears(self) -> None:
        for setup in (SETUP.read_bytes(), b"functional = 0x700\n" + WIDE, LONG):
            with Unit(setup) as unit:
                answered = {(id, False) for id in range(0x800) if unit.frame(0.0, id, PRESENT)}
                wide = (0x7E0, 0x18DA10F1, 0x18DB33F1, 0x18DA10F2)
                answered |= {(id, True) for id in wide if unit.frame(0.0, id, PRESENT, extended=True)}
                self.assertEqual(unit.heard, answered)

    def test_29_bits(self) -> None:
        with Unit(WIDE) as unit:
            reply = bytes.fromhex("065003003201F4CC")
            self.assertEqual(unit.frame(0.0, 0x18DA10F1, EXTENDED, extended=True), [Frame(0.0, 0x18DAF110, reply, "A", True)])
            self.assertEqual(unit.holder, "A")
            # the same number of 11 bits is another identifier
            self.assertEqual(unit.frame(1.0, 0x7E0, bytes.fromhex("023E00"), extended=True), [])
            self.assertEqual([it.id for it in unit.frame(1.0, 0x7E0, bytes.fromhex("023E00"))], [0x7E8])
            # a functional request of 29 bits is each such tester's
            self.assertEqual([it.tester for it in unit.frame(1.0, 0x18DB33F1, bytes.fromhex("023E00"), extended=True)], ["A"])

    def test_closed(self) -> None:
        self.unit.close()
        self.unit.close()
        calls = [
            lambda unit: unit.frame(0.0, 0x7E0, EXTENDED),
            lambda unit: unit.advance(0.0),
            lambda unit: unit.due,
            lambda unit: unit.session,
            lambda unit: unit.holder,
            lambda unit: unit.journal(),
            lambda unit: unit.values[0xF195],
            lambda unit: unit.values.update({0xF195: b"\0\0"}),
            lambda unit: list(unit.values),
            lambda unit: dict(unit.codes),
            lambda unit: unit.codes.update({0xC10000: 1}),
        ]
        for call in calls:
            with self.assertRaisesRegex(ClosedFault, "the unit is closed"):
                call(self.unit)


class LibraryTests(unittest.TestCase):
    def test_an_empty_name_of_the_library(self) -> None:
        with mock.patch.dict(os.environ, UDS_UNIT_LIBRARY=""):
            self.assertNotIn("", library.places())
        with mock.patch.dict(os.environ, UDS_UNIT_LIBRARY="/it"):
            self.assertEqual(list(library.places()), ["/it"])


class SetupTests(unittest.TestCase):
    def test_faults_are_told(self) -> None:
        for setup, text in ((b"s3_ms = 1", "config: empty"), (b"=", "config: syntax"), (b"\xff", "config: syntax")):
            with self.assertRaises(SetupFault) as told:
                Unit(setup)
            self.assertEqual(str(told.exception), text)
            self.assertIsInstance(told.exception, UnitFault)
            self.assertFalse(hasattr(told.exception, "__notes__"))
        with self.assertRaises(OSError):
            Unit("no_such_file.toml")
        # (a number is no file that is open)
        for wrong in (0, True, None, bytearray(b"")):
            with self.assertRaisesRegex(TypeError, "expected str, bytes or os.PathLike object"):
                Unit(wrong)

    def test_a_note_names_the_command_that_tells_the_place(self) -> None:
        with tempfile.TemporaryDirectory() as room:
            path = Path(room, "my setup.toml")
            for text, notes in ((b"s3_ms = 1", [f"uds_play check '{path}' tells the place of each fault"]), (b"x = 23:59:60\n" + WIDE, [])):
                path.write_bytes(text)
                for setup in (path, str(path)):
                    with self.assertRaises(SetupFault) as told:
                        Unit(setup)
                    self.assertEqual(getattr(told.exception, "__notes__", []), notes)

    def test_too_long(self) -> None:
        most = SETUP.read_bytes().ljust(1_048_576)
        with tempfile.NamedTemporaryFile(suffix=".toml") as file:
            file.write(most + b"\n")
            file.flush()
            for setup in (most + b"\n", file.name):
                with self.assertRaisesRegex(SetupFault, "^config: too long$"):
                    Unit(setup)
            file.truncate(len(most))
            for setup in (most, file.name):
                Unit(setup).close()

    def test_kinds_of_setup(self) -> None:
        for setup in (str(SETUP), SETUP, os.fspath(SETUP), SETUP.read_bytes()):
            with Unit(setup) as unit:
                self.assertEqual(unit.testers, ("workshop", "end_of_line"))


class TomlTests(unittest.TestCase):
    def test_what_python_does_not_read(self) -> None:
        with Unit(b"x = 07:32\n" + WIDE) as unit:
            self.assertEqual(unit.testers, ("A", "B"))
        # (the library takes a leap second, and Python none)
        with self.assertRaisesRegex(SetupFault, "^config: Python doesn't read this TOML: .*line 1, column 7"):
            Unit(b"x = 23:59:60\n" + WIDE)

    def test_a_setup_of_toml_1_1(self) -> None:
        text = b"""tester = [
          {   # an inline table of several lines, with a comma at its end
            name = "\\x41",
            request = 0x7E0, response = 0x7E8,
          },
        ]
        """
        for setup in (text, text.replace(b"\n", b"\r\n"), b"\xef\xbb\xbf" + text):
            with Unit(setup) as unit:
                self.assertEqual(unit.testers, ("A",))
                self.assertEqual(unit.frame(0.0, 0x7E0, bytes.fromhex("023E00"))[0].tester, "A")

    def test_text(self) -> None:
        for text, wanted in (
            ("a = { b = 1,\n c = [1,\n2, # x }\n],\n # y\n}\nz = '#{,}'\n", {"a": {"b": 1, "c": [1, 2]}, "z": "#{,}"}),
            ('s = "a\\x41\\e\\\\x41"\nt = \'\\x41\'\n', {"s": "aA\x1b\\x41", "t": "\\x41"}),
            ('s = """a\n\\x41 "" "\n\\""""\n[[x]]\ny = { }\n', {"s": 'a\nA "" "\n"', "x": [{"y": {}}]}),
            ("y = {\n b = \"}\\\"\",\n c = \'\'\'q\n,}\'\'\',\n}\n", {"y": {"b": '}"', "c": "q\n,}"}}),
            ("a = 07:32\nb = '07:32' # 07:32\nc = [07:32,08:40:01]\n", {"a": SEVEN, "b": "07:32", "c": [SEVEN, time(8, 40, 1)]}),
            ("a = 1979-05-27T07:32-08:00\n", {"a": datetime(1979, 5, 27, 7, 32, tzinfo=WEST)}),
            ("a = [1979-05-27 07:32]\n", {"a": [datetime(1979, 5, 27, 7, 32)]}),
        ):
            self.assertEqual(toml.loads(text), wanted)
        for text in ("a = { b = 1,, }", "a = 1,\nb", "a = {\nb = 1", "[a\n]"):
            with self.assertRaises(ValueError):
                toml.loads(text)


if __name__ == "__main__":
    unittest.main()
