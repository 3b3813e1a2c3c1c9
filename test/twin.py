#!/usr/bin/env python3
"""Runs the built program over random logs and captures of up to eight testers with random settings of the links and
random rows of answers, and compares what it sends and journals with the slow twin of test/uds_link.py, which computes
both from the whole logs by the definitions: `serial` with ticks and with stamps, `play`, and `bus`, each by classic testers
and with some by CAN FD. The replies' bytes are the journal's own, but for those that a row gives. The logs are the same each
time. The last line is 'N passed, M failed'.
Usage: test/twin.py [RUNS [FIRST]]     so many runs of each kind (default 60), the first with this seed (default 1)"""
import random
import subprocess
import sys
import tempfile
from dataclasses import replace

from harness import PROGRAM, Tally
from uds_link import LENGTHS, bus_differs, cut, differs, events, read_output, read_setup

LINES = 100
# the lengths of the values that may be read, each under its place from 0x0100 on
SIZES = [1, 2, 3, 4, 5, 8, 11, 12, 18, 19, 25, 26, 32, 40, 110, 255]
# what rows of answers are for, and what they answer: nothing, one template, or some round and round
PATTERNS = ["22*", "2201....", "2201000100", "22....*", "3E00", "3E80", "..*", "1003", "1002", "22010001000100*"]
# the lengths of frames of CAN FD, those about the limits of a message in one frame, and how many frames a long one has
FD_LENGTHS = [*range(8), *LENGTHS]
LIMITS = [it + more for it in LENGTHS for more in (-3, -2, -1, 0)]
MANY_FRAMES = 1100
DIGITS = "0123456789abcdefABCDEF"
# lines that are nobody's
OTHERS = ["123#00", "18DAF0F1#0", "18DAF0F1#021003", "38DA1000#zz", "00000700#02100", "701#R8", "701##1021001", "18DA1001#R8", "18DA1001##1021001"]
TEMPLATES = ["", "62$0$1", "7F$078", "7F$021", "??$1", "62" + "5A" * 5, "62$0" + "5A" * 6, "62" + "$1??" * 10, "62" + "A5" * 120]
told = Tally("twin", quiet=True)


# ---- setups and frames by chance


def setup_text(chance, testers, fd=False):
    """A setup with short times; some of its testers may talk by CAN FD."""
    keys = [
        f"block_size = {chance.choice([0, 0, 1, 2, 3])}",
        f"st_min = {chance.choice([0, 5, 127, 241, 249])}",
        f"max_request = {chance.choice([8, 20, 65535, 65535])}",
        f"pad = {chance.choice(['true', 'false'])}",
        f"pad_byte = {chance.randrange(256)}",
        f"n_bs_ms = {chance.randint(1, 12)}",
        f"n_cr_ms = {chance.randint(1, 12) * (chance.choice([1, 20]) if fd else 1)}",
    ]
    keys += answer_keys(chance) if chance.random() < 0.7 else []
    keys += [f"tx_dl = {chance.choice(LENGTHS)}", f"fd_flags = {chance.randrange(16)}"] if fd else []
    tables = [tester_table(chance, it, fd) for it in range(testers)]
    tables += [f'[[did]]\nid = {0x100 + at}\nvalue = "{"5A" * size}"\n' for at, size in enumerate(SIZES)]
    return "\n".join([*keys, *tables])


def tester_table(chance, place, fd):
    """A tester, of 11 bits or of 29 by normal fixed addressing; some have a functional identifier of their own. Those of CAN FD
    have two others."""
    wide = chance.random() < 0.4
    request, response = (0x18DA1000 + place, 0x18DA0010 + 256 * place) if wide else (0x700 + place, 0x710 + place)
    keys = [f'name = "T{place}"', f"request = {request}", f"response = {response}", *(["extended = true"] if wide else [])]
    if fd and chance.random() < 0.6:
        keys += ["fd = true", f"functional = {(0x18DB3301 if wide else 0x7DC) + chance.randrange(2)}"]
    elif chance.random() < 0.2:
        keys.append(f"functional = {0x18DB3300 if wide else 0x7DE}")
    return "\n".join(["[[tester]]", *keys, ""])


def answer_keys(chance):
    """Rows of answers, and short times of response pending and of sessions. A row without templates leaves the answer to
    the server."""
    times = {"p2_ms": [0, 1, 2, 5, 20], "p2_star_10ms": [0, 0, 1], "s3_ms": [9, 40, 5000]}
    keys = [f"{key} = {chance.choice(values)}" for key, values in times.items()]
    return [*keys, f"answer = [{', '.join(answer_row(chance) for _ in range(chance.randint(1, 4)))}]"]


def answer_row(chance):
    pattern = chance.choice(PATTERNS)
    keys = [f'request = "{pattern}"', f"session = {chance.choice([0, 0, 0, 1, 2, 3])}"]
    if chance.random() < 0.5:
        has_second = len(pattern) > 3
        texts = [it for it in chance.sample(TEMPLATES, chance.randint(1, 4)) if has_second or "$1" not in it]
        keys += [f"reply = {texts or ['7F']}".replace("'", '"'), f"enter = {chance.choice([0, 0, 0, 1, 2, 3, 96])}"]
    return f"{{ {', '.join([*keys, f'after_ms = {chance.choice([0, 0, 1, 3, 7, 20, 60])}'])} }}"


class Tester:
    """One that sends messages in frames, with mistakes, and flow control when it likes."""

    # how often a long message comes at once
    EAGER = 0.1

    def __init__(self, chance, setup, place):
        self.chance, self.setup = chance, setup
        self.request, self.functional = setup.testers[place][1], setup.functionals[place]
        self.left = []
        # whether the rest of a long message comes at once and without a mistake
        self.is_eager = False

    def bytes(self, count):
        return self.chance.randbytes(count)

    def cut(self, message):
        return cut(self.setup, message)

    def anything(self):
        return self.bytes(self.chance.randint(0, 8))

    def message(self):
        """A request, mostly one that reads values, each as often as comes."""
        chance = self.chance
        if chance.random() < 0.2:
            return self.bytes(chance.randint(1, 30))
        count = chance.choice([1, 1, 1, 2, 3, 4, 4, 5, 8, 9, 17])
        wide = 255 if chance.random() < 0.03 else 40
        may = [at for at, size in enumerate(SIZES) if size <= wide]
        return b"\x22" + b"".join((0x100 + (may[-1] if wide > 40 else chance.choice(may))).to_bytes(2, "big") for _ in range(count))

    def long_message(self):
        return b"\x22" + b"\x01\x00" * self.chance.randint(52, 60)

    def begin(self):
        """The first frame of a message; the others follow."""
        if self.chance.random() < 0.15:
            return self.odd_first()
        self.is_eager = self.chance.random() < self.EAGER
        self.left = self.cut(self.long_message() if self.is_eager else self.message())
        return self.left.pop(0)

    def odd_first(self):
        """A First of a length about the limits of its form."""
        high = self.chance.choice([0x0F, 0x10, 0xFF])
        escape = bytes([0x10, 0, 0, self.chance.randrange(2), high, self.chance.choice([0, 255])]) + self.bytes(2)
        short = bytes([0x10, self.chance.randrange(1, 40)]) + self.bytes(6)
        return self.chance.choice([escape, short])[: 7 if self.chance.random() < 0.1 else 8]

    def follow(self):
        """The next Consecutive, mostly as it is."""
        frame = self.left.pop(0)
        if self.is_eager:
            return frame
        if self.chance.random() < 0.06:
            frame = bytes([0x20 | self.chance.randrange(16)]) + frame[1:]
        return frame[: self.chance.randint(1, 8)] if self.chance.random() < 0.06 else frame

    def to_all(self):
        """What it sends functionally."""
        return self.chance.choice([self.bytes(8), self.cut(b"\x22\x01\x00\x01\x01")[0], b"\x02\x3E\x80"])

    def flow(self):
        status = self.chance.choice([0, 0, 0, 0, 0, 0, 1, 1, 2, 3, 15])
        gap = self.chance.choice([0, 0, 0, 1, 1, 2, 3, 0xF1, 0xF9, 0x7F, 0x80, 0xF0, 0xFA])
        frame = bytes([0x30 | status, self.chance.randrange(4), gap])
        return frame[:2] if self.chance.random() < 0.06 else frame + self.bytes(self.chance.choice([0, 0, 5]))

    def frame(self):
        """An identifier and the bytes of a frame."""
        if self.left and (self.is_eager or self.chance.random() < 0.7):
            return self.request, self.follow()
        kind = self.chance.choices(["flow", "begin", "single", "functional", "any"], [10, 8, 1, 2, 1])[0]
        if kind == "functional":
            return self.functional, self.to_all()
        singles = [b"\x02\x3E\x00", b"\x02\x3E\x00", b"\x02\x3E\x80", b"\x02\x10\x03", b"\x02\x10\x02"]
        frames = {"flow": self.flow, "begin": self.begin, "single": lambda: self.chance.choice(singles)}
        return self.request, frames.get(kind, self.anything)()

    def text(self):
        """The next frame, as a line has it."""
        identifier, data = self.frame()
        return f"{identifier}#{data.hex().upper()}"

    def span(self):
        """Some milliseconds: few, or about N_Bs and N_Cr, and seldom many."""
        setup = self.setup
        usual = [1, 1, 1, 2, 3, setup.n_bs, setup.n_bs - 1, setup.n_cr, setup.n_cr - 1]
        return max(1, 127 if self.chance.random() < 0.03 else self.chance.choice(usual))


class FdTester(Tester):
    """One that talks by CAN FD: each message in frames of another length, and some of up to 8 bytes in classic ones."""

    EAGER = 0.3

    def cut(self, message):
        return cut(replace(self.setup, pad=self.chance.choice([None, 0x55])), message, self.chance.choice(LENGTHS))

    def anything(self):
        data = self.bytes(self.chance.choice(FD_LENGTHS))
        return b"\0" + data[1:] if data and self.chance.random() < 0.3 else data

    def message(self):
        """A request, more often a longer one."""
        odd = self.chance.random()
        if odd < 0.2:
            return b"\x22" + self.bytes(self.chance.choice(LIMITS))
        return self.bytes(self.chance.randint(60, 1200)) if odd < 0.25 else super().message()

    def long_message(self):
        return b"\x22" + b"\x01\x00" * self.chance.randint(5, self.chance.choice([60, 60, 300]))

    def to_all(self):
        return self.cut(self.message())[0] if self.chance.random() < 0.5 else super().to_all()

    def odd_first(self):
        """A First of a length about what one frame holds, or about the limits of its form."""
        if self.chance.random() < 0.4:
            return self.sized(super().odd_first())
        frame = (0x1000 | self.chance.choice(LIMITS)).to_bytes(2, "big")
        return self.sized(frame)

    def sized(self, frame):
        """The bytes, cut or filled to a length by chance."""
        size = self.chance.choice(FD_LENGTHS if self.chance.random() < 0.3 else LENGTHS)
        return (frame + self.bytes(64))[:size]

    def follow(self):
        """The next Consecutive, mostly as it is."""
        frame = self.left.pop(0)
        if self.chance.random() < 0.06 and not self.is_eager:
            frame = bytes([0x20 | self.chance.randrange(16)]) + frame[1:]
        return self.sized(frame) if self.chance.random() < 0.08 and not self.is_eager else frame

    def flow(self):
        frame = super().flow()
        return self.sized(frame) if self.chance.random() < 0.1 else frame

    def text(self):
        identifier, data = self.frame()
        is_classic = len(data) <= 8 and self.chance.random() < 0.15
        return f"{identifier}{'#' if is_classic else f'##{self.chance.choice(DIGITS)}'}{data.hex().upper()}"


def testers_of(chance, setup):
    return [(FdTester if is_fd else Tester)(chance, setup, place) for place, is_fd in enumerate(setup.fds)]


def others(testers):
    """What is no tester's: frames of CAN FD with the identifiers of classic testers, too, where some of the setup talk by it."""
    if not any(testers[0].setup.fds):
        return OTHERS
    own = [it.request for it in testers if not isinstance(it, FdTester)]
    return OTHERS + [f"{it}##{rest}" for it in own for rest in ("1021003", "0", "Fzz", "", "1" + "5A" * 65)]


def log_lines(tester):
    """A log with ticks."""
    lines = []
    for _ in range(LINES):
        if tester.chance.random() < 0.35 and not (tester.left and tester.is_eager):
            span = tester.span()
            lines.append("tick" if span == 1 else f"tick {span}")
        else:
            lines.append(f"(0000000000.000000) can0 {tester.text()}")
    return lines


def stamped(us, frame):
    return f"({us // 1_000_000:010d}.{us % 1_000_000:06d}) can0 {frame}"


def next_moment(chance, us, span):
    """A little later or as long as `span` in milliseconds; seldom earlier, or minutes later."""
    odd = chance.random()
    if odd < 0.02:
        return max(0, us - 5000)
    if odd < 0.0206:
        return us + 61_000_000
    return us + (span * 1000 if odd < 0.4 else chance.choice([0, 0, 400, 999]))


def stamped_lines(testers):
    """Lines with stamps, of these testers by chance, with some ticks and others' frames among them."""
    chance, lines = testers[0].chance, []
    us = chance.randrange(10**12)
    for _ in range(LINES * (1 if len(testers) == 1 else 3)):
        tester = chance.choice(testers)
        us = next_moment(chance, us, tester.span())
        odd = chance.random()
        if odd < 0.04:
            lines.append(f"tick {tester.span()}")
        elif odd < 0.1:
            lines.append(stamped(us, chance.choice(others(testers))))
        else:
            lines.append(stamped(us, tester.text()))
    return lines


# ---- runs


def run(words):
    ran = subprocess.run([PROGRAM, "--quiet", *words], capture_output=True, timeout=120)
    return ran.stdout.decode() if ran.returncode == 0 and not ran.stderr else f"status {ran.returncode}: {ran.stderr}"


def put(path, lines):
    with open(path, "w", encoding="ascii") as it:
        it.write("".join(f"{line}\n" for line in lines))
    return path


def plays(room, seed, stamps, fd=False):
    """Eight testers' logs by `serial` and by `play`; some of the testers may talk by CAN FD."""
    chance = random.Random(seed)
    text = setup_text(chance, 8, fd)
    logs = [stamped_lines([it]) if stamps else log_lines(it) for it in testers_of(chance, read_setup(text))]
    out = played(room, text, logs, stamps, f"{'CAN FD, ' if fd else ''}{'stamps' if stamps else 'ticks'}, {seed}")
    if fd:
        count_fd(out)
    else:
        count(out)


def played(room, text, logs, stamps, name):
    """Compares what `serial` and `play` make of the testers' logs; returns the text of the latter."""
    setup, config = read_setup(text), put(f"{room}/setup", [text])
    files = [put(f"{room}/{place}", lines) for place, lines in enumerate(logs)]
    told_events = [events(setup, place, lines, stamps) for place, lines in enumerate(logs)]
    for job in ("serial", "play"):
        out = run([job, *(["--stamps"] if stamps else []), config, *files])
        why = differs(setup, told_events, out, job == "serial", stamps)
        told(why is None, f"{job}, {name}", why)
    return out


def compared(room, text, lines, name):
    """Compares what `bus` makes of a capture; returns the text of its frames."""
    setup, config = read_setup(text), put(f"{room}/setup", [text])
    path = put(f"{room}/capture", lines)
    out, journal = run(["bus", config, path]), run(["bus", "--journal", config, path])
    why = bus_differs(setup, lines, out, journal)
    told(why is None, name, why)
    return out


def captures(room, seed):
    """A capture of four testers by `bus`."""
    chance = random.Random(seed)
    text = setup_text(chance, 4)
    compared(room, text, stamped_lines(testers_of(chance, read_setup(text))), f"bus, {seed}")


def fd_captures(room, seed):
    """The same of testers of which some talk by CAN FD."""
    chance = random.Random(seed)
    text = setup_text(chance, 4, fd=True)
    count_fd(compared(room, text, stamped_lines(testers_of(chance, read_setup(text))), f"bus, CAN FD, {seed}"))


def long_messages(room, seed):
    """A request of up to 65535 bytes in frames of one length, and its reply, of as many, in frames of another one."""
    chance = random.Random(seed)
    size, tx_dl, block = chance.choice(LENGTHS), chance.choice(LENGTHS), chance.choice([0, 0, 7])
    keys = [f"tx_dl = {tx_dl}", "max_request = 65535", f"block_size = {block}", f"pad = {chance.choice(['true', 'false'])}"]
    tables = ['[[tester]]\nname = "T"\nrequest = 1\nresponse = 2\nfd = true\n', f'[[did]]\nid = 1\nvalue = "{"5A" * 255}"\n']
    text = "\n".join([*keys, *tables])
    reads, most = chance.randint(1, 254), min(65535, MANY_FRAMES * (size - 1))
    unknown = chance.randrange(max(1, (most - 2 * reads) // 2))
    message = b"\x22" + b"\0\1" * reads + b"\xff\xff" * unknown
    frames = cut(read_setup(text), message, size) + [bytes([0x30, chance.choice([0, 0, 200]), chance.choice([0, 0, 1])])] * 4
    lines = [stamped(1_000_000 + 400 * at, f"001##1{frame.hex()}") for at, frame in enumerate([*frames, b""])]
    lines += ["tick 1000"] * 9
    compared(room, text, lines, f"bus, long messages, {seed}")
    played(room, text, [lines], True, f"long messages, {seed}")


# ---- what the logs brought about: a comparison of nothing would show nothing

had = dict.fromkeys(["requests", "requests of several frames", "replies", "first frames", "consecutive frames", "grants", "response pending"], 0)
had_fd = dict.fromkeys(["long single frames", "long first frames", "long consecutive frames", "grants"], 0)


def count(out):
    sent, entries = read_output(out)
    asked = [it for _, _, it, _ in entries if it[0] != "T"]
    kinds = [data[0] >> 4 for _, _, _, data in sent]
    many = sum(len(it[1]) > 7 for it in asked)
    replies = sum(reply is not None for *_, reply in entries)
    waits = sum(data[:2] == b"\x03\x7f" and data[3] == 0x78 for *_, data in sent)
    for name, more in zip(had, (len(asked), many, replies, kinds.count(1), kinds.count(2), kinds.count(3), waits)):
        had[name] += more


def count_fd(out):
    sent = [data for _, _, mark, data in read_output(out)[0] if "##" in mark]
    long_kinds = [data[0] >> 4 for data in sent if len(data) > 8]
    for name, more in zip(had_fd, (*map(long_kinds.count, range(3)), sum(data[0] >> 4 == 3 for data in sent))):
        had_fd[name] += more


def main():
    told.needs_program()
    runs, first = (int(it) for it in [*sys.argv[1:], *["60", "1"][len(sys.argv) - 1 :]])
    with tempfile.TemporaryDirectory() as room:
        for seed in range(first, first + runs):
            plays(room, seed, False)
            plays(room, seed, True)
            plays(room, seed, False, fd=True)
            plays(room, seed, True, fd=True)
            captures(room, seed)
            fd_captures(room, seed)
        for seed in range(first, first + runs // 6 + 1):
            long_messages(room, seed)
    for counts in (had, had_fd):
        told(all(it >= runs for it in counts.values()), "the logs bring enough about", counts)
        print(f"twin: {', '.join(f'{it} {name}' for name, it in counts.items())}")
    return told.ended()


if __name__ == "__main__":
    sys.exit(main())
