"""The separation times of test/live.py: testers that hold STmin against the program, with other traffic beside, while it
runs as it will and while it is stopped now and then. The program writes into a socket whose kernel stamps each frame as
it is written, so a tester that reads late doesn't matter. No part of what is proved."""
import itertools
import random
import signal
import socket
import statistics
import struct
import subprocess
import sys
import tempfile
import threading
import time

# the kernel stamps what comes by a socket, in nanoseconds (SO_TIMESTAMPNS of Linux on x86-64)
STAMPS = 35
# so many programs at a time, each with a reply for each separation time, which comes after so many frames
RUNS, TIMES, GAPS = 8, range(1, 21), 13
# how much shorter than its separation time a gap may be, and how much longer the middle one, in ms
SHORTER, LONGER = 0.05, 0.3
# how long and how often the program is stopped, in seconds
STOP, STOPS = 0.03, (0.05, 0.15)
# how late another program on this machine wakes, in the middle, in ms: where it is later, no middle one is judged
OVERLOADED = 0.15
# how much the program's clock may be behind once no block is under way, in ms, where it is asked so often
BEHIND, ASKED = 25, 5
# a FirstFrame has 6 bytes of the reply 62 F1 90 .., a ConsecutiveFrame 7
VALUE = (6 + 7 * (GAPS + 1) - 3) * "5A"
SETUP = f"""
[[tester]]
name = "A"
request = 0x7E0
response = 0x7E8

[[tester]]
name = "B"
request = 0x7E1
response = 0x7E9

[[did]]
id = 0xF190
value = "{VALUE}"
"""
PROBE = """
import sys, time
late, end = [], time.monotonic() + float(sys.argv[1])
while (begun := time.monotonic()) < end:
    time.sleep(0.001)
    late.append(time.monotonic() - begun - 0.001)
print(1000 * sorted(late)[len(late) // 2])
"""


def now():
    """The time by the clock of the kernel's stamps."""
    return time.clock_gettime(time.CLOCK_REALTIME)


def run_class(live):
    """The class of a run that writes into a socket."""

    class Stamped(live.Run):
        def __init__(self, room):
            self.ours, theirs = socket.socketpair(socket.AF_UNIX, socket.SOCK_SEQPACKET)
            self.ours.setsockopt(socket.SOL_SOCKET, STAMPS, 1)
            # how much later than its stamp says each piece was written
            self.offsets = []
            with theirs:
                super().__init__(room, SETUP, out=theirs)

        def hear(self):
            piece, more, _, _ = self.ours.recvmsg(1 << 18, 256)
            if not piece:
                return piece, now()
            seconds, nanos = struct.unpack("qq", more[0][2])
            at = seconds + nanos / 1e9
            self.offsets.append(at - float(piece.splitlines()[-1].split(b")")[0][1:]))
            return piece, at

        def stop(self):
            super().stop()
            self.ours.close()

    return Stamped


class Tester:
    """A tester that notes when each frame was written, with another one beside it."""

    def __init__(self, live, run, seed):
        self.live, self.run = live, run
        self.random = random.Random(seed)
        self.wrong = ""
        # by how much each gap is longer than its separation time, and how long flow control and other lines took, in ms
        self.gaps, self.held, self.others = [], [], []
        self.asked = []

    def plays(self):
        for gap in TIMES:
            sent = self.asks(gap)
            frames = self.takes()
            places = [it[1][:2] for it in frames]
            self.wrong += "" if places == [f"2{(it + 1) % 16:X}" for it in range(GAPS + 1)] else f"{places}; "
            ats = [it[0] for it in frames]
            self.held.append(1000 * (ats[0] - sent))
            self.gaps += [1000 * (after - before) - gap for before, after in itertools.pairwise(ats)]
            self.gaps.append(1000 * (ats[1] - sent) - gap)
        for at in self.asked:
            came, data = self.run.next("7E9")
            self.wrong += "" if data == self.live.PRESENT else f"{data} to the other tester; "
            self.others.append(1000 * (came - at))

    def asks(self, gap):
        """Asks for a long reply, and sends flow control with this separation time: also in one piece with the request."""
        time.sleep(0.002 * self.random.random())
        ask, flow = self.live.line("7E0", "0322F190"), self.live.line("7E0", f"3000{gap:02X}")
        if self.random.random() < 0.5:
            sent = now()
            self.run.give(ask + flow)
            self.takes_first()
            return sent
        self.run.give(ask)
        self.takes_first()
        time.sleep(0.002 * self.random.random())
        sent = now()
        self.run.give(flow)
        return sent

    def takes_first(self):
        first = self.run.next("7E8")[1]
        self.wrong += "" if first.startswith("10") else f"{first} in place of a First frame; "

    def takes(self):
        """The ConsecutiveFrames, between which the other tester asks now and then."""
        frames = []
        for _ in range(GAPS + 1):
            if self.random.random() < 0.3:
                self.asked.append(now())
                self.run.send("7E1", "023E00")
            frames.append(self.run.next("7E8"))
        return frames

    def catches_up(self):
        """How far its clock is behind once no block is under way, in ms."""
        for _ in range(ASKED):
            self.wrong += self.run.asks(0, "023E00", self.live.PRESENT)
        return 1000 * (min(self.run.offsets[-ASKED:]) - min(self.run.offsets))


def stops(child, ended, seed):
    """Stops the program now and then, until it is enough."""
    pause = random.Random(seed)
    while not ended.wait(pause.uniform(*STOPS)):
        child.send_signal(signal.SIGSTOP)
        time.sleep(STOP)
        child.send_signal(signal.SIGCONT)


def play(live, room, seed, stopped, testers):
    run = run_class(live)(room)
    ended = threading.Event()
    stopper = threading.Thread(target=stops, args=(run.child, ended, seed))
    tester = Tester(live, run, seed)
    testers.append(tester)
    try:
        if stopped:
            stopper.start()
        tester.plays()
        ended.set()
        if stopped:
            stopper.join()
        behind = tester.catches_up()
        tester.wrong += "" if behind <= BEHIND else f"its clock is {behind:.1f} ms behind; "
        tester.wrong += run.ends_well()
    finally:
        ended.set()
        run.stop()


def play_all(live, stopped):
    """Plays a tester at each of several programs at once."""
    testers = []
    with tempfile.TemporaryDirectory() as room:
        threads = [threading.Thread(target=play, args=(live, room, 100 * stopped + it, stopped, testers)) for it in range(RUNS)]
        for it in threads:
            it.start()
        for it in threads:
            it.join()
    return testers


def judge(live, testers, name):
    """Tells whether no gap is shorter than its separation time, and all else went well."""
    gaps = [it for tester in testers for it in tester.gaps]
    wrong = "".join(it.wrong for it in testers)
    wrong += "" if len(gaps) == RUNS * len(TIMES) * (GAPS + 1) else f"{len(gaps)} gaps; "
    short = sorted(it for it in gaps if it < -SHORTER)
    wrong += f"{len(short)} are shorter, by up to {-short[0]:.3f} ms" if short else ""
    live.told(not wrong, f"{len(gaps)} gaps, none shorter than its separation time, {name}", wrong)
    live.note(f"they are {min(gaps):.3f} to {max(gaps):.2f} ms longer, the middle one {statistics.median(gaps):.3f}")
    return gaps


def keeps_pace(live):
    """The program as the system runs it: no gap is shorter, and the middle one is as long as it is to be."""
    with subprocess.Popen([sys.executable, "-c", PROBE, "3"], stdout=subprocess.PIPE) as probe:
        testers = play_all(live, False)
        late = float(probe.stdout.read())
    gaps = judge(live, testers, "beside other traffic")
    held = statistics.median(it for tester in testers for it in tester.held)
    others = statistics.median(it for tester in testers for it in tester.others)
    live.note(f"flow control was answered after {held:.2f} ms, other lines after {others:.2f}, by their middle")
    if late > OVERLOADED:
        live.note(f"this machine is overloaded ({late:.2f} ms late in the middle), so the middle gap isn't judged")
    else:
        middle = statistics.median(gaps)
        live.told(middle <= LONGER, "the middle gap", f"{middle:.3f} ms longer than its separation time")


def is_stopped(live):
    """The program is stopped now and then: what is overdue isn't made up at once."""
    judge(live, play_all(live, True), "the program stopped now and then")
