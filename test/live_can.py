"""The testers of test/live.py that python-can plays: messages on a virtual bus, classic ones and such of CAN FD, which go to
the program as lines of python-can's writer, and come back by its reader. No part of what is proved."""
import io
import logging
import os
import sys
import threading

import packages
from harness import DEBIAN

# the most seconds that an answer may take
PATIENCE = 10
SETUP = """
[[tester]]
name = "A"
request = 0x7E0
response = 0x7E8

[[tester]]
name = "F1"
extended = true
request = 0x18DA10F1
response = 0x18DAF110

[[tester]]
name = "F2"
extended = true
request = 0x18DA10F2
response = 0x18DAF210
functional = 0x18DB33F2

[[tester]]
name = "D"
request = 0x7E2
response = 0x7EA
functional = 0x7D0
fd = true

[[did]]
id = 0xF190
value = "30313233343536373839414243444546"

[[did]]
id = 0xF191
value = "%s"
""" % bytes(range(100)).hex()
SESSION, BUSY, PRESENT = "065003003201F4CC", "037F1021CCCCCCCC", "027E00CCCCCCCCCC"
FRAMES = ["101362F190303132", "2133343536373839", "22414243444546CC"]
# the same by CAN FD, and an answer of two frames
SINGLE = "##1001362F19030313233343536373839414243444546CCCCCC"
LONG = [f"##1106762F191{bytes(range(59)).hex().upper()}", f"##121{bytes(range(59, 100)).hex().upper()}{'CC' * 6}"]
# a request of 100 identifiers that there aren't, in frames of 64 bytes
ASKED = ["10C922" + "FF" * 61, "21" + "FF" * 63, "22" + "FF" * 63, "23" + "FF" * 13 + "55" * 2]


def found():
    """Whether python-can is there. Where it is missing, Debian's package is installed, if that may be done."""
    return loads() or (packages.install("python3-can", "live: python-can is installed for its testers") and loads())


def loads():
    if os.path.isdir(f"{DEBIAN}/can") and DEBIAN not in sys.path:
        sys.path.append(DEBIAN)
    logging.getLogger("can").setLevel(logging.CRITICAL)
    try:
        import can  # pylint: disable=import-outside-toplevel
    except ImportError:
        return False
    globals().update(can=can)
    return True


class Input(io.TextIOBase):
    """The input of a run as a file that python-can writes."""

    def __init__(self, run):
        self.run = run

    def write(self, text):
        self.run.give(text.encode())
        return len(text)


def run_class(live):
    """The class of a run that is on a virtual bus of python-can."""

    class Joined(live.Run):
        def __init__(self, room):
            self.read_end, self.write_end = os.pipe()
            self.channel = f"vcan{next(live.numbers)}"
            super().__init__(room, SETUP)
            self.unit = bus_of(self)
            self.notifier = can.Notifier(self.unit, [can.CanutilsLogWriter(Input(self))])
            self.sender = threading.Thread(target=self.sends, daemon=True)
            self.sender.start()

        def hear(self):
            piece, now = super().hear()
            os.write(self.write_end, piece)
            if not piece:
                os.close(self.write_end)
            return piece, now

        def sends(self):
            """Sends what the program writes on the bus."""
            with open(self.read_end, encoding="ascii") as text:
                for message in can.CanutilsLogReader(text):
                    self.unit.send(message)

        def finish(self):
            self.notifier.stop()
            return super().finish()

        def stop(self):
            super().stop()
            self.notifier.stop()
            self.sender.join(PATIENCE)
            self.unit.shutdown()

    return Joined


def bus_of(run, *filters):
    """The bus of a run, for one who hears what these filters take."""
    return can.Bus(interface="virtual", channel=run.channel, can_filters=list(filters) or None)


def text_of(message):
    """A frame that was heard, by its bytes; of CAN FD behind its flags, as lines have it."""
    flags = message.bitrate_switch | message.error_state_indicator << 1
    return f"##{flags:X}" * message.is_fd + bytes(message.data).hex().upper()


class Tester:
    """A tester that hears the frames of one identifier alone."""

    def __init__(self, run, request, response, is_extended):
        self.request, self.is_extended = request, is_extended
        self.bus = bus_of(run, {"can_id": response, "can_mask": 0x1FFFFFFF, "extended": is_extended})

    def send(self, data, request=None, **how):
        identifier = self.request if request is None else request
        kind = {"is_extended_id": self.is_extended, **how}
        self.bus.send(can.Message(arbitration_id=identifier, data=bytes.fromhex(data), **kind))

    def hears(self, *want):
        """What is wrong with the frames that come next, which are to be these."""
        found = [self.bus.recv(PATIENCE) for _ in want]
        texts = ["nothing" if it is None else text_of(it) for it in found]
        return "" if texts == list(want) else f"{texts} in place of {list(want)}; "

    def asks(self, data, *want, **how):
        self.send(data, **how)
        return self.hears(*want)


def both_kinds(_, run):
    """Testers of 11 and of 29 bits, physically and functionally."""
    a, one, other = Tester(run, 0x7E0, 0x7E8, False), Tester(run, 0x18DA10F1, 0x18DAF110, True), Tester(run, 0x18DA10F2, 0x18DAF210, True)
    wrong = one.asks("021003", SESSION) + other.asks("021003", BUSY) + a.asks("021003", BUSY)
    wrong += one.asks("0322F190", FRAMES[0]) + one.asks("300002", *FRAMES[1:])
    wrong += one.asks("023E00", PRESENT, request=0x18DB33F1) + other.asks("023E00", PRESENT, request=0x18DB33F2) + a.asks("023E00", PRESENT, request=0x7DF)
    # (what came to another tester meanwhile would stand before this)
    return wrong + "".join(it.asks("0110", "037F1013CCCCCCCC") for it in (a, one, other))


def by_fd(_, run):
    """A tester that talks by CAN FD beside a classic one: short and long frames both ways, with any flags, and classic ones."""
    a, d = Tester(run, 0x7E0, 0x7E8, False), Tester(run, 0x7E2, 0x7EA, False)
    fast, passive = {"is_fd": True, "bitrate_switch": True}, {"is_fd": True, "error_state_indicator": True}
    wrong = d.asks("021003", f"##1{SESSION}", **fast) + a.asks("021003", BUSY)
    wrong += d.asks("0322F190", SINGLE, **passive) + d.asks("0322F190", SINGLE) + a.asks("0322F190", FRAMES[0]) + a.asks("300000", *FRAMES[1:])
    wrong += d.asks("0322F191", LONG[0], is_fd=True) + d.asks("300000", LONG[1], **fast)
    wrong += d.asks(ASKED[0], "##1300000CCCCCCCCCC", **fast)
    for frame in ASKED[1:-1]:
        d.send(frame, **fast)
    wrong += d.asks(ASKED[-1], "##1037F2231CCCCCCCC", **fast)
    wrong += d.asks("023E00", f"##1{PRESENT}", request=0x7D0, **fast) + a.asks("023E00", PRESENT, request=0x7DF)
    # (what came to another tester meanwhile would stand before this)
    return wrong + a.asks("0110", "037F1013CCCCCCCC") + d.asks("0110", "##1037F1013CCCCCCCC")


def others(_, run):
    """What isn't of a tester draws nothing: another kind of identifier, another unit, remote and error frames, CAN FD to a
    classic one."""
    a, one = Tester(run, 0x7E0, 0x7E8, False), Tester(run, 0x18DA10F1, 0x18DAF110, True)
    a.send("021003", is_extended_id=True)
    one.send("021003", request=0x18DA11F1)
    one.send("021003", request=0x18DB33F3)
    one.send("021003", request=0x7DF)
    one.send("", is_remote_frame=True)
    one.send("021003", is_fd=True)
    a.send(f"000922{'FF' * 8}00", is_fd=True)
    a.send("023E00", request=0x7DF, is_fd=True)
    one.send("", is_error_frame=True)
    return one.asks("023E00", PRESENT) + a.asks("023E00", PRESENT)


def plays(group, name):
    def play(room, live):
        run = run_class(live)(room)
        try:
            wrong = group(live, run) + run.ends_well()
        finally:
            run.stop()
        live.told(not wrong, f"python-can: {name}", wrong)

    return play


GROUPS = [
    plays(both_kinds, "testers of 11 and of 29 bits"),
    plays(by_fd, "a tester of CAN FD beside a classic one"),
    plays(others, "what is no tester's"),
]
