#!/usr/bin/env python3
"""Holds the plain twin against the proved program over random setups, logs, captures and journals. A check of the twin.

    bench/plain/fuzz.py PROGRAM PLAIN [--rounds N] [--seed N]

Status, output and fault have to be the same. It ends at the first case that differs, and leaves its files.
"""
import argparse
import random
import subprocess
import sys
import tempfile

NAMES = "ABCDEFGH"
# how many bytes a frame of CAN FD can have
LENGTHS = [*range(9), 12, 16, 20, 24, 32, 48, 64]


class Tester:
    """A tester's identifiers, as lines have them, and its table in the setup."""

    def __init__(self, dice, at, fd, mixed):
        wide = dice.random() < 0.35
        request = dice.choice([0x18DA10F1 + 0x100 * at, 0x1FFFFFFF - 2 * at, 0x7E0 + at]) if wide else 0x7E0 + at
        response = dice.choice([0x18DAF110 + at, 0x1FFFFFFE - 2 * at, 0x7E8 + at]) if wide else 0x7E8 + at
        functional = dice.choice([None, None, None, *([0x18DB33F1, 0x18DB3301, 0x7DF, 0] if wide else [0x7DF, 0x700, 1])])
        # testers with CAN FD and without share none
        if fd and mixed and dice.random() < 0.98:
            functional = dice.choice([0x18DB33F2, 0x7DE, 2] if wide else [0x7DE, 0x701])
        # now and then one that isn't allowed
        if dice.random() < 0.01:
            others = [0x7E1, 0x800, 0x18DB33F1, 0x20000000]
            request, response, functional = (dice.choice([it, *others]) for it in (request, response, functional))
        digits = 8 if wide else 3
        self.own, self.response = f"{request:0{digits}X}", f"{response:0{digits}X}"
        self.functional = f"{(0x18DB33F1 if wide else 0x7DF) if functional is None else functional:0{digits}X}"
        keys = [f'name = "{NAMES[at]}{"x" * dice.choice([0, 3, 15])}"', f"request = {request}", f"response = {response:#x}"]
        keys += ["extended = true"] if wide else dice.choice([[], [], ["extended = false"]])
        keys += [f"functional = {functional}"] if functional is not None else []
        self.fd = fd
        keys += ["fd = true"] if fd else dice.choice([[], [], ["fd = false"]])
        dice.shuffle(keys)
        self.table = "\n".join(["[[tester]]", *keys])


def setup(dice, testers):
    keys = [f"delay_ms = {dice.choice([1, 7, 50, 2000])}", f"attempts = {dice.choice([1, 2, 3])}"]
    keys += [f"s3_ms = {dice.choice([1, 20, 300, 5000])}", f"availability = {dice.choice([255, 0x2F, 0])}"]
    keys += [f"n_bs_ms = {dice.choice([1, 30, 1000])}", f"n_cr_ms = {dice.choice([1, 30, 1000])}"]
    keys += [f"block_size = {dice.choice([0, 0, 1, 2, 8])}", f"st_min = {dice.choice([0, 5, 127, 241, 249])}"]
    keys += [f"max_request = {dice.choice([8, 100, 4095, 65535])}", f"pad = {dice.choice(['true', 'false'])}"]
    keys += [f"pad_byte = {dice.choice([0xCC, 0, 0x55])}", f"p2_ms = {dice.randrange(65536)}"]
    if dice.random() < 0.8:
        keys += [f"tx_dl = {dice.choice(LENGTHS[8:]) if dice.random() < 0.98 else dice.choice([0, 7, 9, 13, 63, 65, 128])}"]
    if dice.random() < 0.5:
        keys += [f"fd_flags = {dice.randrange(16 if dice.random() < 0.98 else 18)}"]
    rows = [it.table for it in testers]
    level = lambda: dice.choice([0, 0, 1, 3])
    for did, size in ((0xF190, 17), (0x0100, 1), (0x0101, 255), (0x0102, 4)):
        rows.append(f'[[did]]\nid = {did}\nvalue = "{dice.randbytes(size).hex()}"\nread_level = {level()}\nwrite = {dice.choice(["true", "false"])}\nwrite_level = {level()}')
    for code in (0x012345, 0x000001, 0xC10000):
        rows.append(f"[[code]]\ncode = {code}\nstatus = {dice.randrange(256)}")
    for routine in (0x0203, 0x0204):
        rows.append(f'[[routine]]\nid = {routine}\ntime_ms = {dice.choice([1, 10, 20, 100])}\nresult = "{dice.randbytes(dice.choice([0, 1, 9])).hex()}"\nlevel = {level()}\ncode = {dice.choice([0x012345, 1])}\nstatus = {dice.randrange(256)}')
    for sub, size in ((1, 2), (3, 4)):
        rows.append(f"[[level]]\nsub = {sub}")
        rows += [f'[[level.row]]\nseed = "{dice.randrange(1, 256):02x}{dice.randbytes(size - 1).hex()}"\nkey = "{sub:02x}0{it}"' for it in range(3)]
    return "\n".join(keys + rows) + "\n"


def request(dice):
    if dice.random() < 0.15:
        return "22" + "".join(dice.choice(["F190", "0100", "0102", "FFFF"]) for _ in range(dice.randrange(4, 60)))
    if dice.random() < 0.03:
        # replies and requests of some 4095 bytes, behind which a FirstFrame has the other form
        reads = ["0101" * 15 + "0102" * 40, "0101" * 15 + "F190" * 2 + "0100" * 67, "0101" * 20]
        write = f"2E0101{dice.randbytes(dice.choice([4092, 4093, 5000])).hex().upper()}"
        return "22" + dice.choice(reads) if dice.random() < 0.6 else write
    did = dice.choice(["F190", "0100", "0101", "0102", "FFFF"])
    suppress = dice.choice([0, 0, 0, 0x80])
    sub = lambda *of: f"{dice.choice(of) | suppress:02X}"
    return dice.choice([
        lambda: f"10{sub(1, 3, 3, 3, 3, 2)}", lambda: f"10{sub(3)}", lambda: f"11{sub(1, 2, 3, 4)}", lambda: "11",
        lambda: "14" + dice.choice(["FFFFFF", "012345", "000001", "0000"]),
        lambda: f"19{sub(1, 2)}{dice.randrange(256):02X}", lambda: f"19{sub(0x0A, 3)}",
        lambda: "22" + "".join(dice.choice(["F190", "0100", "0101", "0102", "FFFF"]) for _ in range(dice.choice([1, 1, 2, 3, 20]))),
        lambda: f"27{sub(1, 3, 1, 3, 5)}", lambda: f"27{sub(2)}010{dice.randrange(3)}", lambda: f"27{sub(4)}030{dice.randrange(3)}",
        lambda: f"2E{did}{dice.randbytes({'F190': 17, '0100': 1, '0101': 255, '0102': 4}.get(did, 2)).hex()}", lambda: f"2E{did}00",
        lambda: f"31{sub(1, 1, 2, 3, 3, 4)}{dice.choice(['0203', '0204', '0205'])}", lambda: f"3E{sub(0, 0, 1)}",
        lambda: f"85{sub(1, 2, 3)}{dice.choice(['', '', 'FFFFFF', '000000', '00'])}", lambda: dice.randbytes(dice.randrange(1, 9)).hex(),
    ])().upper()


def frames(dice, own, data):
    """The frames of a request, now and then with one that is wrong."""
    size = len(data) // 2
    if size < 8:
        return [f"{own}#{size:02X}{data}{dice.choice(['', 'AA' * (7 - size)])}"]
    if size > 4095 or dice.random() < 0.2:
        head, rest = f"1000{size:08X}{data[:4]}", data[4:]
    else:
        head, rest = f"1{size:03X}{data[:12]}", data[12:]
    made = [f"{own}#{head}"]
    for number, at in enumerate(range(0, len(rest), 14), 1):
        number += dice.random() < 0.01
        made.append(f"{own}#{0x20 + number % 16:02X}{rest[at : at + 14]}{dice.choice(['', '', '00'])}"[: len(own) + 17])
    return made


def fd_frame(dice, own, data):
    """A frame of CAN FD with these hex digits, filled up to a length that there is."""
    lengths = [it for it in LENGTHS if it >= len(data) // 2]
    length = lengths[0] if dice.random() < 0.9 else dice.choice(lengths)
    return f"{own}##{dice.choice('0123456789ABCDEFabcdef')}{data}{'CC' * (length - len(data) // 2)}"


def fd_frames(dice, own, data):
    """The frames of a request by CAN FD, now and then with one that is wrong."""
    size = len(data) // 2
    rx_dl = dice.choice(LENGTHS[8:])
    if size < 8:
        return [fd_frame(dice, own, f"{size:02X}{data}")]
    if dice.random() < 0.1:
        told = dice.choice([rx_dl - 3, rx_dl - 2, rx_dl - 1, 0, 7, 8])
        return [f"{own}##1{f'1{told:03X}{data}'.ljust(2 * rx_dl, '5')[: 2 * rx_dl]}", fd_frame(dice, own, "2155")]
    if size <= rx_dl - 2 or size <= 62 and dice.random() < 0.05:
        return [fd_frame(dice, own, f"00{max(size + dice.choice([0] * 20 + [-1, 1, 9]), 0):02X}{data}")]
    head = f"1000{size:08X}" if size > 4095 or dice.random() < 0.1 else f"1{size:03X}"
    first = 2 * rx_dl - len(head)
    made = [f"{own}##1{head}{data[:first]}"]
    part = 2 * rx_dl - 2
    for number, at in enumerate(range(first, len(data), part), 1):
        number += dice.random() < 0.01
        rest = data[at : at + part]
        if dice.random() < 0.02:
            rest = dice.choice([rest[:-2], rest[: 2 * dice.choice(LENGTHS[1:]) - 2], (rest + "AA" * 63)[:126]])
        made.append(fd_frame(dice, own, f"{0x20 + number % 16:02X}{rest}"))
    return made


def any_frames(dice, tester, own, data):
    """The frames of a request in one of the ways in which the tester talks."""
    return (fd_frames if tester.fd and dice.random() < 0.8 else frames)(dice, own, data)


def any_frame(dice, tester, own):
    """A frame of any bytes."""
    if dice.random() < (0.6 if tester.fd else 0.1):
        first = dice.choice(["", "", "00", "1", "2", "30", "037F2E78"])
        data = dice.randbytes(dice.choice(LENGTHS)).hex()
        return f"{own}##{dice.randrange(16):x}{(first + data)[: len(data)]}"
    return f"{own}#{dice.randbytes(dice.randrange(9)).hex()}"


def flow(dice, tester):
    data = f"3{dice.choice('0000012345')}{dice.choice([0, 0, 1, 2, 5]):02X}{dice.choice([0, 0, 1, 5, 0x7F, 0xF1, 0xFA]):02X}"
    return fd_frame(dice, tester.own, data) if tester.fd and dice.random() < 0.8 else f"{tester.own}#{data}"


def fd_wrong(dice, own):
    """A line of CAN FD that isn't one."""
    data = dice.randbytes(dice.choice([9, 10, 13, 31, 63, 65, 66, 100])).hex()
    ends = ["", "G00", "_", "10", "100G", "1 ", "1#", "1" + "00" * 8 + "_9", *("1" + "0" * it for it in (127, 129, 130))]
    return f"{own}##{dice.choice([f'1{data}', *ends])}"


FOREIGN = ["123#DEADBEEF", "18DB33F1#0210030000000000", "7E0#R8", "7E0##1021001", "7E8#065003003201F4", "7FF#", "00000000#zz"]
FOREIGN += ["18FEF100#0102030405060708", "000007E0#023E00", "18da10f1#03220100", "18DAF110#065003003201F4"]
FOREIGN += ["20000004#00#", "FFFFFFFF#R", "18DB33F1##1", "123##1" + "AB" * 64]
WRONG = ["7E0#023", "7E0#021003000000000000", "800#00", "FFF#R", "7E0#02G", "07E0#00", "7E0#021003_9", "7E0#023E00AAAAAAAAAA_", "7E0", ""]
WRONG += ["018DA10F1#00", "8DA10F1#00", "18DA10F1", "18FEF1`0#00", "18FEF1@0#00"]
WRONG += ["\x118FEF100#00", "18FEF10G#00", "18FEF100R8", "é8FEF10#00"]
BAD = ["tick 0", "tick 60001", "tick 01", "tick  5", "tickle", "tick 5 ", "can0 7E0#00", "(0.00000) can0 7E0#00", "(1.000000)can0 7E0#00", "(0.000000) 7E0#00", "\r", "x" * 5000, "(1.0000000000) can0 7E0#00"]


def changed(dice, text):
    """The text with another character at one place."""
    at = dice.randrange(len(text) + 1)
    return text[:at] + dice.choice("0123456789ABCDEFabcdef#R_ gG`@/:\x10\x7f") + text[at + 1 :]


def lines(dice, testers, count, faults):
    """The lines of a log or a capture around some testers."""
    now = dice.choice([0, 1_000_000_000, 999_999_999, 99_999_999_999]) * 1_000_000
    made = []
    while len(made) < count:
        tester = dice.choice(testers)
        own = tester.own
        kind = dice.random()
        if kind < 0.35:
            texts = any_frames(dice, tester, own, request(dice))
        elif kind < 0.5:
            texts = [flow(dice, tester)]
        elif kind < 0.6:
            texts = any_frames(dice, tester, tester.functional, request(dice)[: dice.choice([14, 14, 40])])
        elif kind < 0.7:
            texts = [f"tick {dice.choice([1, 2, 5, 10, 30, 999, 1000, 60000])}", "tick"][: dice.randrange(1, 3)]
        elif kind < 0.8:
            texts = [any_frame(dice, tester, dice.choice([own, own.lower(), tester.functional, tester.response]))]
        elif kind < 0.82:
            texts = [""]
        else:
            texts = [dice.choice(FOREIGN)]
        if faults and dice.random() < 0.01:
            texts.append(dice.choice([dice.choice(WRONG), changed(dice, texts[-1]), tester.own + "#023", fd_wrong(dice, tester.own)]))
        for text in texts:
            end = dice.choice(["\n"] * 9 + ["\r\n"])
            if faults and dice.random() < 0.003:
                made.append(dice.choice(BAD) + end)
            if text.startswith("tick") or text == "" and not (faults and dice.random() < 0.1):
                made.append(text + end)
                continue
            now += dice.choice([0, 1, 400, 1000, 5000, 20_000, -3000, 1_000_000, 200_000_000] if dice.random() < 0.2 else [0, 100, 900])
            whole = f"{max(now, 0) // 1_000_000}".zfill(dice.choice([10, 10, 10, 1, 12]))
            part = f"{max(now, 0) % 1_000_000:06d}{dice.choice(['', '', '', '000'])}"
            tail = dice.choice(["", "", "", " R", " T x"]) if "R8" not in text else ""
            if len(text.partition("#")[2]) == 16 and dice.random() < 0.2:
                tail = f"_9{tail}"
            gap = dice.choice([" ", " ", "   "])
            made.append(f"({whole}.{part}){gap}{dice.choice(['can0', 'vcan1'])}{gap}{text}{tail}{end}")
    if dice.random() < 0.3:
        made[-1] = made[-1].rstrip("\n")
    return "".join(made)


def ran(program, words, text=None):
    """The status, the output and the fault; the notes, of which the twin has none, are left out."""
    it = subprocess.run([program, *words], input=text, stdout=subprocess.PIPE, stderr=subprocess.PIPE, check=False)
    told = [line for line in it.stderr.splitlines() if not line.startswith(b"uds_play: note: ")]
    return it.returncode, it.stdout, told


def without_replies(capture, testers):
    """A capture without the frames of the unit that it has already."""
    own = [f" {it.response}#" for it in testers]
    return "".join(line for line in capture.splitlines(keepends=True) if not any(it in line.upper() for it in own))


def pending(dice, reply):
    """A line with the identifier of a reply that says response pending, or seems to."""
    head, mark, rest = reply.partition("#")
    by_fd = rest.startswith("#")
    return f"{head}{mark}{rest[: 2 * by_fd]}037F2278{'CC' * dice.choice([0, 4, 4, 8] if by_fd else [0, 4])}\n"


def with_replies(dice, capture, replies):
    """A capture with the server's replies among its lines or behind them, in order, now and then with one that is wrong or
    missing."""
    wrong = dice.choice([0, 0, 0.01])
    spoiled = lambda it: dice.choice(["", it.strip()[:-2] + "\n", it.strip()[:-2] + "5A\n", pending(dice, it) + it])
    kept = lambda it: spoiled(it) if dice.random() < wrong else it
    mixed, replies = [], replies.splitlines(keepends=True)
    lines = capture.splitlines(keepends=True)
    behind = dice.random() < 0.5
    for number, line in enumerate(lines):
        mixed.append(line)
        due = 0 if behind else max(0, (number - dice.choice([0, 3, 16])) * len(replies) // len(lines))
        mixed += map(kept, replies[:due])
        replies = replies[due:]
    return "".join(mixed) + "".join(["" if mixed[-1].endswith("\n") else "\n", *map(kept, replies)])


def case(dice, room, programs, counts):
    def same(*words, text=None):
        found = [ran(it, words, text) for it in programs]
        if found[0] != found[1]:
            print(f"differs: {' '.join(words)}: {[(it[0], len(it[1]), it[2]) for it in found]}; files in {room.name}")
            room._finalizer.detach()
            sys.exit(1)
        counts[words[0], found[0][0]] = counts.get((words[0], found[0][0]), 0) + 1
        return found[0]

    def put(name, text):
        with open(f"{room.name}/{name}", "wb") as it:
            it.write(text if isinstance(text, bytes) else text.encode())
        return f"{room.name}/{name}"

    kinds = dice.choice([[False], [True], [True, False]])
    testers = [Tester(dice, it, dice.choice(kinds), len(kinds) > 1) for it in range(dice.choice([1, 1, 2, 3, 8]))]
    config = put("setup", setup(dice, testers))
    faults = dice.random() < 0.3
    logs = [put(f"{at}.log", lines(dice, [it], dice.randrange(1, 200), faults)) for at, it in enumerate(testers)]
    stamps = dice.choice([[], ["--stamps"]])
    same("serial", *stamps, config, *logs)
    status, journal, _ = same("serial", *stamps, "--journal", config, *logs)
    if status == 0:
        path = put("journal", journal)
        same("replay", config, path)
        texts = journal.split(b"\n")
        at = dice.randrange(len(texts))
        change = dice.choice(["cut", "byte", "drop", "twice"])
        if change == "byte" and texts[at]:
            place = dice.randrange(len(texts[at]))
            texts[at] = texts[at][:place] + dice.choice([b"0", b"1", b"F", b"a", b" ", b"-"]) + texts[at][place + 1 :]
        elif change == "drop":
            del texts[at]
        elif change == "twice":
            texts.insert(at, texts[at])
        same("replay", config, put("journal", b"\n".join(texts)[: -1 if change == "cut" else None]))
    capture = lines(dice, testers, dice.randrange(1, 600), faults)
    path = put("capture", capture)
    for flags in ([], ["--journal"], ["--end"]):
        same("bus", *flags, config, path)
    same("bus", config, text=capture.encode())
    if dice.random() < 0.5:
        capture = without_replies(capture, testers)
        path = put("capture", capture)
    replies = ran(programs[0], ["bus", config, path])[1].decode()
    recorded = with_replies(dice, capture, replies) if capture and replies else capture
    if recorded.count("\n") > capture.count("\n") + 1:
        same("verify", config, put("recorded", recorded))


def main():
    options = argparse.ArgumentParser(description=__doc__, formatter_class=argparse.RawDescriptionHelpFormatter)
    options.add_argument("programs", nargs=2)
    options.add_argument("--rounds", type=int, default=200)
    options.add_argument("--seed", type=int, default=1)
    given = options.parse_args()
    counts = {}
    room = tempfile.TemporaryDirectory()
    for number in range(given.rounds):
        case(random.Random(f"{given.seed} {number}"), room, given.programs, counts)
    print(f"{given.rounds} rounds, {sum(counts.values())} runs the same: {dict(sorted(counts.items()))}")


if __name__ == "__main__":
    main()
