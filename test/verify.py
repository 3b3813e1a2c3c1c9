#!/usr/bin/env python3
"""Runs `verify` of the built program over recordings that are made here, beside a small model of the verdict: what `bus`
answers put among its capture, and that recording with one frame dropped, doubled, changed or moved, each in turn; late
and early answers, response pending, faults, and a long recording. The last line is 'N passed, M failed'."""
import heapq
import random
import re
import subprocess
import sys

from harness import PROGRAM, Tally
from bus import ANSWERS, LONG, MOST_MEMORY, SETUP, THIRD, WRONG, Live, capture, long_lines, peak_of, pieces, put, run, stamped, text_of

# the testers of the setup, and the identifier of the frames that the unit sends to each
TESTERS = {"A": "7E8", "B": "7E9", "C": "7EA"}
# a line of a recording with a data frame of an 11-bit identifier
FRAME = re.compile(r"\((\d+)\.(\d+)\) \S+ ([0-9A-Fa-f]{3})#([0-9A-Fa-f]*)(_[9A-Fa-f])?( [RT])?\r?$")
told = Tally("verify")


# ---- the model


def is_pending(data):
    """Whether a frame says response pending."""
    return re.match(r"037F..78", data) is not None


def recorded(lines, identifier):
    """The numbers and the bytes of the frames with this identifier, response pending left out."""
    found = []
    for number, line in enumerate(lines, 1):
        frame = FRAME.match(line)
        if frame and frame[3].upper() == identifier and not is_pending(frame[4].upper()):
            found.append((number, frame[4].upper()))
    return found


def expected(text, name):
    """The bytes of the frames that `bus` writes for a tester, response pending left out."""
    found = re.findall(rf"^\(\d+\.\d+\) {name} [0-9A-F]+#([0-9A-F]*)$", text, re.MULTILINE)
    return [it for it in found if not is_pending(it)]


def verdict(lines, text):
    """What the program has to write, to tell and to end with, where `bus` writes this text for the lines."""
    lists = {name: (recorded(lines, own), expected(text, name)) for name, own in TESTERS.items()}
    differs = []
    for name, (has, wants) in lists.items():
        for place, (number, data) in enumerate(has):
            want = wants[place] if place < len(wants) else "nothing"
            if data != want:
                differs.append((number, f"line {number}: {name} sent {data}, expected {want}"))
    lacks = [f"{name} sent {len(has)} frames, expected {wants[len(has)]} next" for name, (has, wants) in lists.items() if len(has) < len(wants)]
    if differs or lacks:
        line = min(differs)[1] if differs else lacks[0]
        return 8, b"", f"uds_play: {line}\n".encode()
    agree = "".join(f"{name} {len(has)} frames agree\n" for name, (has, _) in lists.items())
    if not any(has for has, _ in lists.values()):
        return 9, f"{agree}nothing compared\n".encode(), b""
    return 0, agree.encode(), b""


def both(config, path, lines):
    """What the program says of the lines, and what the model does."""
    put(path, "".join(f"{it}\n" for it in lines).encode())
    _, text, _ = run(["bus", config, path])
    return run(["verify", config, path]), verdict(lines, text.decode())


def checked(config, path, lines, name, status=None, number=None):
    """Compares the program with the model; the status and the number of the line that is told may be wanted, too. Returns
    what the program says."""
    found, want = both(config, path, lines)
    good = found == want and (status is None or found[0] == status)
    if number is not None:
        good = good and found[2].startswith(f"uds_play: line {number}: ".encode())
    told(good, name, f"{found} in place of {want}, {status}, {number}")
    return found


# ---- recordings


def requests(chance, count):
    """Lines of the testers and of others, in the order of their stamps; none of the unit's frames."""
    lines = [it for it in capture(chance, 3, count, falls=False) if it.startswith("(")]
    return [it for it in lines if not re.search(r" 7E[89A]#", it)]


def setup_of(seed):
    """The setup of a seed: each second one has rows of answers."""
    return (SETUP + THIRD + ANSWERS * (seed % 2)).encode()


def order(line):
    return line[1:18]


def recording(config, path, lines):
    """The lines, and among them what `bus` answers, by the stamps."""
    _, text, _ = run(["bus", config, put(path, "".join(f"{it}\n" for it in lines).encode())])
    return list(heapq.merge(lines, text.decode().splitlines(), key=order))


def own_lines(lines, name):
    return [it for it, line in enumerate(lines) if f" {name} {TESTERS[name]}#" in line]


def answers(lines):
    """The places of the unit's frames."""
    return sorted(it for name in TESTERS for it in own_lines(lines, name))


def tester_of(line):
    return line.split(" ")[1]


def other_byte(chance, line):
    """The line with one byte of its frame changed."""
    head, _, data = line.partition("#")
    at = 2 * chance.randrange(len(data) // 2)
    return f"{head}#{data[:at]}{int(data[at:at + 2], 16) ^ (1 << chance.randrange(8)):02X}{data[at + 2:]}"


# ---- what is no difference


def agrees(room):
    for seed in range(12):
        chance = random.Random(seed)
        config, path = put(f"{room}/setup", setup_of(seed)), f"{room}/capture"
        lines = requests(chance, 120)
        whole = recording(config, path, lines)
        checked(config, path, whole, f"what bus answers, {seed}", 0)
        late = lines + [it for it in whole if it not in set(lines)]
        checked(config, path, late, f"late answers, {seed}", 0)
        pending = []
        for line in whole:
            if line in set(lines) or chance.random() < 0.3:
                pending.append(line)
                continue
            head = line.partition("#")[0]
            pending += [f"{head}#037F{chance.choice(['22', '10', '78'])}78{chance.choice(['', 'CC', 'CCCCCCCC'])}"] * chance.randint(1, 3)
            pending.append(line)
        checked(config, path, pending, f"response pending, {seed}", 0)
        again = [it if it in set(lines) or chance.random() < 0.5 else it[:19] + it[19:].partition("#")[0] + "#" + it.partition("#")[2].lower() for it in whole]
        found = checked(config, path, again, f"lower-case digits, {seed}", 0)
        given = run(["verify", config, "-"], input="".join(f"{it}\n" for it in again).encode())
        told(given == found, f"from standard input, {seed}", f"{given} in place of {found}")


def early(room):
    """By rounding to milliseconds a frame may stand before the moment at which the server sends it."""
    config, path = put(f"{room}/setup", (SETUP + THIRD).encode()), f"{room}/capture"
    lines = [
        stamped(100_000, "7E0#0322F190", 900), stamped(100_001, "7E8#101462F190544553"), stamped(100_020, "7E0#30000A", 900),
        stamped(100_020, "7E8#215456494E303132", 950), stamped(100_029, "7E8#2233343536373839", 990),
    ]
    checked(config, path, lines, "early at the end", 8, 5)
    checked(config, path, lines + [stamped(100_029, "123#00", 995)], "early, and no later line settles it", 8, 5)
    checked(config, path, lines + [stamped(100_030, "123#00")], "early, and a later line settles it", 0)


# ---- what is one


def one_frame(room):
    """Each frame of a recording dropped, doubled, changed in one byte, or moved behind the next one of its tester."""
    chance = random.Random(77)
    config, path = put(f"{room}/setup", (SETUP + THIRD).encode()), f"{room}/capture"
    # (a last line of other traffic, so that a frame that is dropped takes no time with it)
    lines = requests(chance, 90)
    lines.append(stamped(int(order(lines[-1]).replace(".", "")[:13]) + 70_000, "123#00"))
    whole = recording(config, path, lines)
    places = answers(whole)
    told(len(places) >= 40, "a recording with answers", f"{len(places)}")
    checked(config, path, whole, "the whole recording", 0)
    for place in places:
        line = whole[place]
        own = own_lines(whole, tester_of(line))
        later = [it for it in own if it > place]
        after = whole[later[0]] if later else None
        differs = after is None or after.partition("#")[2] != line.partition("#")[2]
        checked(config, path, whole[:place] + whole[place + 1:], f"dropped, {place + 1}", 8, later[0] if later and differs else None)
        checked(config, path, whole[:place + 1] + whole[place:], f"doubled, {place + 1}", 8, place + 2 if differs else None)
        checked(config, path, [*whole[:place], other_byte(chance, line), *whole[place + 1:]], f"changed, {place + 1}", 8, place + 1)
        if later:
            swapped = whole[:place] + whole[place + 1:later[0] + 1] + [line] + whole[later[0] + 1:]
            checked(config, path, swapped, f"moved, {place + 1}", 8 if differs else 0, later[0] if differs else None)


def shorter_frames(room):
    """A frame that lacks its padding, has more of it, or says something else than response pending."""
    config, path = put(f"{room}/setup", SETUP.encode()), f"{room}/capture"
    ask = stamped(100_000, "7E0#021003")
    for data in ("065003003201F4", "065003003201F400", "065003003201F4CCCC", "", "037F1079", "027F78", "047F102278", "037E1078", "137F1078", "037F10", "7F1078"):
        found, _ = both(config, path, [ask, stamped(100_001, f"7E8#{data}")])
        if len(data) > 16:
            told(found[0] == 3 or found[0] == 8, f"a frame of {len(data) // 2} bytes", f"{found}")
        else:
            want = (8, b"", f"uds_play: line 2: A sent {data}, expected 065003003201F4CC\n".encode())
            told(found == want, f"a frame {data}", f"{found}")
    found, _ = both(config, path, [ask, stamped(100_001, "7E9#0250")])
    told(found == (8, b"", b"uds_play: line 2: B sent 0250, expected nothing\n"), "a frame to another tester", f"{found}")


def random_frames(room):
    """Frames of the unit that come as they like."""
    for seed in range(40):
        chance = random.Random(500 + seed)
        config, path = put(f"{room}/setup", setup_of(seed)), f"{room}/capture"
        whole = recording(config, path, requests(chance, 60))
        for _ in range(chance.randint(1, 6)):
            at = chance.randrange(len(whole) + 1)
            kind = chance.random()
            if kind < 0.5 and at < len(whole) and at in answers(whole):
                del whole[at]
            elif kind < 0.7 and answers(whole):
                whole.insert(at, whole[chance.choice(answers(whole))])
            else:
                whole.insert(at, stamped(0, f"{chance.choice(list(TESTERS.values()))}#{chance.choice(['037F1078', '0250', '30', ''])}"))
        checked(config, path, whole, f"at random, {seed}")


# ---- faults, pieces, outputs


def faults(room):
    """A fault is that of `bus`, and it goes before any difference."""
    config, path = put(f"{room}/setup", SETUP.encode()), f"{room}/capture"
    differs = stamped(5000, "7E8#00")
    for line in [*WRONG, "x" * 4097]:
        text = f"{stamped(5000, '7E0#021003')}\n{differs}\n{line}\n{stamped(5001, '7E0#021003')}\n".encode()
        status, _, tells = run(["bus", config, put(path, text)])
        found = run(["verify", config, path])
        told(found == (3, b"", tells) == (status, b"", tells), f"a bad line {line[:40]}", f"{found}, {tells}")
    for words in (["verify", config, f"{room}/none"], ["verify", f"{room}/none", path], ["verify", f"{room}/none"]):
        want = run(["bus", *words[1:]], input=b"")
        told(run(words, input=b"") == want and want[0] == 7, f"a file that isn't there: {len(words)}")
    told(run(["verify", config], input=b"") == (9, b"A 0 frames agree\nB 0 frames agree\nnothing compared\n", b""), "an empty capture")
    for words in (["verify"], ["verify", "--journal", config], ["verify", "--end", config], ["verify", config, path, path]):
        told(run(words)[0] == 1 and run(words)[1] == b"", f"usage: {len(words)}")
    put(path, f"{stamped(5000, '7E0#023E80')}\n".encode())
    with open("/dev/full", "wb") as full:
        ran = subprocess.run([PROGRAM, "--quiet", "verify", config, path], stdout=full, stderr=subprocess.PIPE, timeout=120)
    told((ran.returncode, ran.stderr) == (7, b"uds_play: cannot write\n"), "a full device", f"{ran}")


def in_pieces(room):
    """A recording that comes in pieces is judged at its end, and nothing is said before."""
    path = f"{room}/capture"
    for seed in range(8):
        chance, config = random.Random(900 + seed), put(f"{room}/setup", setup_of(seed // 4))
        whole = recording(config, path, requests(chance, 40))
        if seed % 2:
            del whole[chance.choice(answers(whole) or [0])]
        text = text_of(chance, whole)
        if seed % 4 > 1:
            text = text.rstrip()
        want = run(["verify", config, put(path, text)])
        live = Live(["verify", config])
        try:
            for piece in pieces(chance, text):
                live.give(piece)
            quiet = live.wrote(b"")
            found = live.close()
        finally:
            live.stop()
        told(quiet and found == want, f"in pieces, {seed}", f"{found} in place of {want}")


def long_recording(room):
    """The memory doesn't grow with a recording, where it and the server keep together or something differs."""
    config = put(f"{room}/setup", (SETUP + THIRD).encode())
    with open(f"{room}/capture", "w", encoding="ascii") as it:
        it.writelines(line for line in long_lines(LONG) if " 7E8#" not in line)
    with open(f"{room}/out", "wb") as out:
        subprocess.run([PROGRAM, "--quiet", "bus", config, f"{room}/capture"], stdout=out, check=True, timeout=120)
    with open(f"{room}/capture", encoding="ascii") as one, open(f"{room}/out", encoding="ascii") as other, open(f"{room}/whole", "w", encoding="ascii") as it:
        it.writelines(heapq.merge(one, other, key=order))
    with open(f"{room}/differs", "w", encoding="ascii") as it, open(f"{room}/whole", encoding="ascii") as whole:
        for name in TESTERS:
            it.write(f"{stamped(0, f'{TESTERS[name]}#00')}\n")
        it.writelines(line for line in whole if not re.match(r"\S+ [ABC] ", line))
    for name, status in (("whole", 0), ("differs", 8)):
        with open(f"{room}/said", "wb") as out, open(f"{room}/told", "wb") as err:
            ended, peak = peak_of(subprocess.Popen([PROGRAM, "--quiet", "verify", config, f"{room}/{name}"], stdout=out, stderr=err))
        told(ended == status and 0 < peak < MOST_MEMORY, f"a long recording, {peak} KiB: {name}", f"status {ended}")


def main():
    told.needs_program()
    told.in_rooms(agrees, early, one_frame, shorter_frames, random_frames, faults, in_pieces, long_recording)
    return told.ended()


if __name__ == "__main__":
    sys.exit(main())
