#!/usr/bin/env python3
"""Runs the worked examples by the built program, and compares whole outputs and statuses: those of runs/examples.txt and
runs/answers.txt, those of runs/refusals.txt, and those whose logs or journals are built here. Of a play that ends well the
slow twin of test/uds_link.py has to agree, too, and its journal is replayed. Those of runs/answers.txt of tester A alone are
heard by `bus` and `live` as well. The last line is 'N passed, M failed'. With `--files NAME FOLDER` it only
writes the files of that example of runs/examples.txt or runs/answers.txt."""
import subprocess
import sys
import tempfile

from harness import PROGRAM, TOP, Tally
from uds_link import cut, differs, events, read_setup

with open(f"{TOP}/runs/setup.toml") as it:
    SETUP = it.read()
with open(f"{TOP}/runs/answers.toml") as it:
    ANSWERS = it.read()
DEFAULT = "session default\nholder none\ncode 012345 2F\n"
HELD = "session extended\nholder A\ncode 012345 2F\n"
GRANT = "(0000000000.000000) A 7E8#300000CCCCCCCCCC\n"
READ = "1 P 22F190 62F1905445535456494E30313233343536373839\n"
STAMP = "(0000000000.000000) can0 "
told = Tally("examples")


def log(lines):
    """Lines by their frames as lines of a log."""
    return "".join(f"{it if it.startswith('tick') else STAMP + it}\n" for it in lines)


def check(name, words, files, prints="", tells="", status=0):
    """Runs the program with the words, then the files, and compares all that it writes."""
    with tempfile.TemporaryDirectory() as room:
        for index, text in enumerate(files):
            with open(f"{room}/{index}", "wb") as it:
                it.write(text if isinstance(text, bytes) else text.encode())
        line = [PROGRAM, "--quiet", *words, *(str(it) for it in range(len(files)))]
        ran = subprocess.run(line, cwd=room, capture_output=True, timeout=120)
    want = (status, prints.encode(), f"uds_play: {tells}\n".encode() if tells else b"")
    found = (ran.returncode, ran.stdout, ran.stderr)
    told(found == want, f"{name}: {' '.join(words)}", found)
    if status == 0 and words[0] in ("serial", "play") and "--journal" not in words:
        why = twin_differs(words, files, ran.stdout.decode())
        told(why is None, f"{name}: {' '.join(words)}: the slow twin", why)


def twin_differs(words, files, text):
    """What of a play's text the slow twin of the links has otherwise; None where they agree."""
    setup = read_setup(files[0])
    stamps = "--stamps" in words
    logs = [[line.removesuffix("\r") for line in it.split("\n")] for it in files[1:]]
    return differs(setup, [events(setup, place, it, stamps) for place, it in enumerate(logs)], text, words[0] == "serial", stamps)


def plays(name, a, prints="", keys="", tables="", **fault):
    """Tester A's log alone, on one thread and on one for each tester."""
    for job in ("serial", "play"):
        check(name, [job], [keys + SETUP + tables, a, ""], prints, **fault)


def of_file(name, setup):
    """The examples of a file of runs/, each by its parts, among them this setup, but for one with rows of its own."""
    found, part = [], None
    with open(f"{TOP}/runs/{name}") as it:
        for line in it.read().split("\n"):
            if line.startswith("== "):
                found.append({"name": line[3:], "setup": setup})
            elif line.startswith("-- "):
                part = line[3:]
                found[-1][part] = []
            elif line and found:
                found[-1][part].append(line)
    return found


def of_files():
    return [*of_file("examples.txt", SETUP), *of_file("answers.txt", ANSWERS)]


def text(parts, name):
    return "".join(f"{it}\n" for it in parts.get(name, []))


def files_of(parts):
    """An example's setup and its two logs."""
    a = text(parts, "log") or log(parts.get("a", []))
    setup = f"{SETUP}\n{text(parts, 'rows')}" if "rows" in parts else parts["setup"]
    return [text(parts, "keys") + setup, a, log(parts.get("b", []))]


def write_example(name, room):
    """Writes the files of an example into a folder: its setup, its logs, and what it prints."""
    parts = next(it for it in of_files() if it["name"] == name)
    for file, what in zip(("setup", "a", "b", "prints"), [*files_of(parts), text(parts, "prints")]):
        with open(f"{room}/{file}", "w") as it:
            it.write(what)


def run_file():
    for parts in of_files():
        files = files_of(parts)
        for job in ("serial",) if "b" in parts else ("serial", "play"):
            words = [job, *parts.get("flags", [])]
            tells = "".join(parts.get("tells", []))
            check(parts["name"], words, files, text(parts, "prints"), tells, int("".join(parts.get("status", "0"))))
        if not {"flags", "status"} & parts.keys():
            replays_itself(parts["name"], files, text(parts, "prints"))
        if parts["setup"] == ANSWERS and "b" not in parts:
            is_heard(parts["name"], files, text(parts, "prints"))


def frames_of(text):
    """The frames that a text says A was sent. (What a functional request of A draws from B goes to B.)"""
    return [it for it in text.splitlines() if it.startswith("(") and " A " in it]


def replays_itself(name, files, prints):
    """The journal of a play, replayed, leaves the ECU that the play left."""
    journal = f"diag-journal{prints.partition('diag-journal')[2].partition('session')[0]}"
    count = len(journal.splitlines()) - 1
    check(f"{name}: its journal", ["replay"], [files[0], journal], f"entries {count}\nsession{prints.partition('session')[2]}")


def without_stamps(lines):
    return [it.split(maxsplit=1)[1] for it in lines]


def is_heard(name, files, prints):
    """A's log as a recording, by `bus`, and as it is heard, by `live`: the same frames, of `bus` at the same times. As long as
    the end isn't seen, time passes in `live`: what falls due in a second more may come, too."""
    frames = frames_of(prints)
    with tempfile.TemporaryDirectory() as room:
        for file, what in (("setup", files[0]), ("a", files[1]), ("longer", f"{files[1]}tick 1000\n")):
            with open(f"{room}/{file}", "w") as it:
                it.write(what)
        how = {"cwd": room, "capture_output": True, "text": True, "timeout": 120}
        ran = subprocess.run([PROGRAM, "--quiet", "bus", "setup", "a"], **how)
        told(ran.returncode == 0 and frames_of(ran.stdout) == frames, f"{name}: bus", ran)
        # B answers a functional request as A does, and nothing else
        others = [it for it in ran.stdout.splitlines() if it not in frames]
        told(all(it.replace(" B 7E9#", " A 7E8#") in frames for it in others) and (not others or "7DF#" in files[1]), f"{name}: bus, B", others)
        longer = frames_of(subprocess.run([PROGRAM, "--quiet", "bus", "setup", "longer"], **how).stdout)
        with open(f"{room}/a") as it:
            # (a file comes in one piece, so between its lines no time passes but what they say)
            ran = subprocess.run([PROGRAM, "--quiet", "live", "setup"], stdin=it, **how)
        heard = without_stamps(frames_of(ran.stdout))
        fits = heard[: len(frames)] == without_stamps(frames) and heard == without_stamps(longer)[: len(heard)]
        told(ran.returncode == 0 and fits, f"{name}: live", ran)
        journal = subprocess.run([PROGRAM, "--quiet", "bus", "--journal", "setup", "a"], **how).stdout
        end = subprocess.run([PROGRAM, "--quiet", "bus", "--end", "setup", "a"], **how).stdout
    check(f"{name}: the journal of bus", ["replay"], [files[0], journal], f"entries {len(journal.splitlines()) - 1}\n{end}")


def two_on_a_bus():
    """What the rows of A and of B have in common, by `bus` and by `live`: the next template, which a functional request moves
    on twice, and the session that a row enters, though not past its holder."""
    past = f'{SETUP}\n[[answer]]\nrequest = "1002"\nreply = ["5002003201F4"]\nenter = 2\n'
    extended, programming, refused = "A 7E8#065003003201F4CC", "A 7E8#065002003201F4CC", "B 7E9#037F1021CCCCCCCC"
    for name, setup, lines, frames in (
        ("rule-functional-rounds", ANSWERS, ["7DF#0322F40C"], ["A 7E8#0562F40C0B54CCCC", "B 7E9#0562F40C0B70CCCC"]),
        ("rule-enter", ANSWERS, ["7E0#021003", "7E0#021002", "7E1#021003", "7E0#021003"], [extended, programming, refused, extended]),
        ("rule-enter, past the holder", past, ["7E0#021003", "7E1#021002", "7E0#021002"], [extended, refused, programming]),
    ):
        stamp = STAMP.split(maxsplit=1)[0]
        check(f"{name}, on a bus", ["bus"], [setup, log(lines)], "".join(f"{stamp} {it}\n" for it in frames))
        with tempfile.TemporaryDirectory() as room:
            with open(f"{room}/setup", "w") as it:
                it.write(setup)
            ran = subprocess.run([PROGRAM, "--quiet", "live", f"{room}/setup"], input=log(lines), capture_output=True, text=True, timeout=120)
        told(ran.returncode == 0 and without_stamps(ran.stdout.splitlines()) == frames, f"{name}, on a bus: live", ran)


def consecutives(count):
    """So many consecutive frames of seven FF, the first with the number 1."""
    return [f"7E0#2{(it + 1) % 16:X}{'FF' * 7}" for it in range(count)]


def requests(name, first, count, last, length, grants=GRANT, keys=""):
    """A request of unknown identifiers in a first frame, so many consecutive frames and a last one; then without the last."""
    lines = [first, *consecutives(count)]
    refused = "(0000000000.000000) A 7E8#037F2231CCCCCCCC\n"
    entry = f"1 P 22{'FF' * length} 7F2231\n"
    plays(name, log([*lines, last]), f"{grants}{refused}diag-journal 1\n{entry}{DEFAULT}", keys=keys)
    plays(f"{name}, without its end", log(lines), f"{grants}diag-journal 1\n{DEFAULT}", keys=keys)


def long_requests():
    first = "7E0#108122FFFFFFFFFF"
    last = "7E0#22FFFFFFFF"
    requests("long-request", first, 17, last, 128)
    blocks = GRANT.replace("300000", "300800") * 3
    requests("long-request in blocks", first, 17, last, 128, blocks, "block_size = 8\n")
    numbered = [first, *consecutives(15), f"7E0#21{'FF' * 7}", f"7E0#21{'FF' * 7}", last]
    plays("long-request past zero", log(numbered), f"{GRANT}diag-journal 1\n{DEFAULT}")
    requests("largest-base-request", "7E0#1FFF22FFFFFFFFFF", 584, "7E0#29FF", 4094)
    keys = "max_request = 65535\n"
    requests("long-message-request", "7E0#10000000138922FF", 714, "7E0#2BFF", 5000, keys=keys)
    firsts = ["7E0#1000000010000102", "7E0#1000000100000102", "7E0#100000000FFF0102"]
    overlong = GRANT.replace("300000", "320000")
    plays("long-message-request", log(firsts), f"{GRANT}{overlong}diag-journal 1\n{DEFAULT}", keys=keys)
    plays("repeated-first", log(["7E0#1FFF22FFFFFFFFFF"] * 1000), f"{GRANT * 1000}diag-journal 1\n{DEFAULT}")
    firsts = ["7E0#1000FFFFFFFF0102", "7E0#1000000000000102"]
    plays("repeated-first", log(firsts), f"{overlong}diag-journal 1\n{DEFAULT}")


def long_replies():
    waits = ["7E0#0322F190", *["tick 999", "7E0#310000"] * 1000, "7E0#300000"]
    first = "(0000000000.000000) A 7E8#101462F190544553\n"
    rest = "(0000000999.000000) A 7E8#215456494E303132\n(0000000999.000000) A 7E8#2233343536373839\n"
    ticks = "1 T 999\n" * 1000
    plays("long-waiting", log(waits), f"{first}{rest}diag-journal 1\n{READ}{ticks}{DEFAULT}")
    firsts = "".join(first.replace("0.000000", f"{it}.000000") for it in range(4))
    asked = ["7E0#0322F190"] * 1000 + ["tick 1000"] * 3
    ticks = "1 T 1000\n" * 3
    plays("thousand-replies", log(asked), f"{firsts}diag-journal 1\n{READ * 1000}{ticks}{DEFAULT}")
    read_of("long-message-reply", ["0100"] * 16, 4113, "2C0000CCCCCCCCCC")


def framed(reply):
    """The frames of a reply in hex, filled."""
    size = len(reply) // 2
    if size <= 7:
        return [f"{size:02X}{reply}".ljust(16, "C")]
    head = f"1{size:03X}" if size <= 4095 else f"1000{size:08X}"
    room = 16 - len(head)
    parts = [reply[at : at + 14].ljust(14, "C") for at in range(room, len(reply), 14)]
    return [f"{head}{reply[:room]}", *(f"2{(at + 1) % 16:X}{it}" for at, it in enumerate(parts))]


# identifiers, each with as many bytes of value
SIZES = {"0004": 4, "0005": 5, "00ED": 237, "00EE": 238, "0100": 255}


def read_of(name, asked, length, last):
    """A read of these identifiers, whose reply has so many bytes, and whose last frame this is. Those without a size are unknown."""
    tables = "".join(f'\n[[did]]\nid = 0x{it}\nvalue = "{"00" * size}"\n' for it, size in SIZES.items())
    request = "22" + "".join(asked)
    reply = "62" + "".join(it + "00" * SIZES[it] for it in asked if it in SIZES)
    frames = framed(reply)
    told(len(reply) == 2 * length and frames[-1] == last, f"{name}: {len(frames)} frames", frames[-1])
    lines = [*of_requests(read_setup(SETUP), [request]), *["7E0#300000"] * (length > 7)]
    sent = GRANT * (len(request) > 14) + "".join(f"(0000000000.000000) A 7E8#{it}\n" for it in frames)
    plays(name, log(lines), f"{sent}diag-journal 1\n1 P {request} {reply}\n{DEFAULT}", tables=tables)


def many_reads():
    """Replies at the limits of their forms, and the longest."""
    read_of("a reply of 7 bytes", ["0004"], 7, "0762000400000000")
    read_of("a reply of 8 bytes", ["0005"], 8, "210000CCCCCCCCCC")
    read_of("many-identifiers, 15 of them", ["0100"] * 15, 3856, "2600000000000000")
    read_of("a reply of 4095 bytes", ["0100"] * 15 + ["00ED"], 4095, "2900CCCCCCCCCCCC")
    read_of("a reply of 4096 bytes", ["0100"] * 15 + ["00EE"], 4096, "29000000000000CC")
    read_of("many-identifiers", ["0100"] * 254, 65279, "2E0000CCCCCCCCCC")
    read_of("many-identifiers, a long one beside an unknown one", ["0100", "FFFF"], 258, "24" + "00" * 7)


def two_routines():
    """Two routines that end at one tick set their code's status by rising identifier."""
    table = '\n[[routine]]\nid = 0x0204\ntime_ms = 100\nresult = "01"\ncode = 0x012345\nstatus = 0x01\n'
    for one, other in (("0203", "0204"), ("0204", "0203")):
        lines = ["7E0#021003", "7E0#0414FFFFFF", f"7E0#043101{one}", f"7E0#043101{other}", "tick 100"]
        replies = ["065003003201F4CC", "0154CCCCCCCCCCCC", f"047101{one}CCCCCC", f"047101{other}CCCCCC"]
        sent = "".join(f"(0000000000.000000) A 7E8#{it}\n" for it in replies)
        journal = f"1 P 1003 5003003201F4\n1 P 14FFFFFF 54\n1 P 3101{one} 7101{one}\n1 P 3101{other} 7101{other}\n1 T 100\n"
        end = "session extended\nholder A\ncode 012345 01\n"
        plays("routine-and-setting, two", log(lines), f"{sent}diag-journal 1\n{journal}{end}", tables=table)


def of_requests(setup, messages):
    """Requests in hex, or tick lines, as the lines of the first tester's log, without flow control for their replies."""
    lines = []
    for it in messages:
        lines += [it] if it.startswith("tick") else [f"7E0#{frame.hex().upper()}" for frame in cut(setup, bytes.fromhex(it))]
    return lines


# what stands before a refused request of A: requests of A, each with its reply
SEED, WRONG = [("2781", "-")], [("2781", "-"), ("270200000000", "7F2735")]
BEFORE = {
    "nothing": [],
    "another": [],
    "session": [("1083", "-")],
    "routine": [("1083", "-"), ("31810203", "-")],
    "seed": [("1083", "-"), *SEED],
    "two-wrong": [("1083", "-"), *WRONG, *WRONG, *SEED],
    "three-wrong": [("1083", "-"), *WRONG, *WRONG, *SEED, ("270200000000", "7F2736")],
}
CLOSED = f"""
[[did]]
id = 0x0100
value = "{"5A" * 255}"

[[did]]
id = 0x0101
value = "00"
read_level = 1

[[routine]]
id = 0x0204
time_ms = 100
level = 1
"""


def refusals():
    """Each negative response that each service can give, by the rows of runs/refusals.txt."""
    with open(f"{TOP}/runs/refusals.txt") as it:
        rows = [line.split() for line in it if line.strip() and not line.startswith("#")]
    setup = read_setup(SETUP)
    for before, request, reply in rows:
        request = "22" + "0100" * 255 if request == "255-reads" else request
        asked = [*BEFORE[before], (request, reply)]
        first = ["1 T 1"] + (["2 P 1083 -"] if before == "another" else [])
        a = ["tick", *of_requests(setup, [it for it, _ in asked])]
        journal = "\n".join(["diag-journal 1", *(sorted(first)), *(f"1 P {one} {other}" for one, other in asked)])
        b = ["7E1#021083"] if before == "another" else []
        check(f"refusal {before} {request[:8]}", ["serial", "--journal"], [SETUP + CLOSED, log(a), log(b)], f"{journal}\n")


def largest_setup():
    """Each table of the setup as long as it may be; the last tester unlocks a level and looks at them."""
    rows = [f'[[tester]]\nname = "{chr(97 + it) * 16}"\nrequest = {0x700 + 2 * it}\nresponse = {0x701 + 2 * it}\n' for it in range(8)]
    value = 'value = "{}"\nread_level = 65\nwrite = true\nwrite_level = 63\n'
    rows += [f"[[did]]\nid = {0xFFFF - it}\n" + value.format("5A" * (1 if 255 < it < 1023 else 255)) for it in range(1024)]
    rows += [f"[[code]]\ncode = {0xFFFFFE - it}\nstatus = {it % 256}\n" for it in range(4096)]
    routine = 'time_ms = 600000\nresult = "{}"\nlevel = 61\ncode = {}\nstatus = 255\n'
    rows += [f"[[routine]]\nid = {0xFFFF - it}\n" + routine.format("33" * 32, 0xFFFFFE - it) for it in range(256)]
    pair = f'[[level.row]]\nseed = "{"11" * 255}"\nkey = "{"22" * 255}"\n'
    rows += [f"[[level]]\nsub = {65 - 2 * it}\n{pair * 64}" for it in range(4)]
    rows += [f'[[answer]]\nrequest = "BA{it:04X}"\nreply = ["FA$1$2"]\n' for it in range(1024)]
    asked = [
        ("1003", "5003003201F4"), ("22FC00", "7F2233"), ("2741", "6741" + "11" * 255), ("2742" + "22" * 255, "6742"),
        ("22FC00", "62FC00" + "5A" * 255), ("22FFFF", "62FFFF" + "5A" * 255), ("22FBFF", "7F2231"),
        ("190180", "5901FF010800"), ("3101FF00", "7F3133"), ("3101FEFF", "7F3131"),
        ("273B", "673B" + "11" * 255), ("2739", "7F2712"), ("BA03FF", "FA03FF"), ("BA0400", "7FBA11"),
    ]
    setup = read_setup("".join(rows))
    lines = [it.replace("7E0#", "70E#") for it in of_requests(setup, [it for it, _ in asked])]
    journal = "".join(f"8 P {one} {other}\n" for one, other in asked)
    check("the largest setup", ["serial", "--journal"], ["".join(rows), *[""] * 7, log(lines)], f"diag-journal 1\n{journal}")


def any_key():
    """A level whose every key of the right length is right, where a seed is outstanding."""
    setup = SETUP.replace("sub = 1\n", "sub = 1\nany_key = true\n")
    asked = [
        ("1003", "5003003201F4"), ("270200000000", "7F2724"), ("2701", "670111223344"), ("27020000", "7F2713"),
        ("270200000000", "6702"), ("2701", "670100000000"), ("2EF19041", "7F2E13"),
    ]
    lines = of_requests(read_setup(setup), [it for it, _ in asked])
    journal = "".join(f"1 P {one} {other}\n" for one, other in asked)
    for job in ("serial", "play"):
        check("any-key", [job, "--journal"], [setup, log(lines), ""], f"diag-journal 1\n{journal}")
    singles = (f"{len(it) // 2:02X}{it}".ljust(16, "C") for _, it in asked)
    is_heard("any-key", [setup, log(lines)], "".join(f"{STAMP.split(maxsplit=1)[0]} A 7E8#{it}\n" for it in singles))


def a_million_events():
    """Stamps so far apart that the ticks between them and both frames are a million events."""
    apart = "(0.000000) can0 7E0#023E00\n(59999880.000000) can0 7E0#023E00\n"
    ticks = "".join(f"{60000 * it} 1 T 60000\n" for it in range(1, 999_999))
    journal = f"diag-journal 2\n0 1 P 3E00 7E00\n{ticks}{60000 * 999_998} 1 P 3E00 7E00\n"
    check("stamp-limits, a million events", ["serial", "--stamps", "--journal"], [SETUP, apart, ""], journal)


def log_faults():
    # (test/addressing.py has each identifier with each rest)
    for line, fault in [
        ("7E0#023", "bad line"),
        ("7E0#021003000000000000", "too many bytes"),
        ("tick 0", "bad tick"),
        ("tick 60001", "bad tick"),
        ("tick 01", "bad tick"),
        ("tick  5", "bad tick"),
        ("tickle", "bad tick"),
        ("tick 5 ", "bad tick"),
    ]:
        plays(f"a log's line {line}", log(["tick", line]), tells=f"log 1 line 2: {fault}", status=3)
        check(f"a capture's line {line}", ["bus"], [SETUP, log(["tick", line])], tells=f"capture line 2: {fault}", status=3)
    for line in ["(0.00000) can0 7E0#00", "(0000000000000.000000) can0 7E0#00", "(0.000000) 7E0#00", b"\xff"]:
        plays("a log's whole line", line, tells="log 1 line 1: bad line", status=3)
        check("a capture's whole line", ["bus"], [SETUP, line], tells="capture line 1: bad line", status=3)
    for job in ("serial", "play"):
        second = "log 2 line 2: bad line"
        check("a second log at fault", [job], [SETUP, log(["7E0#021003"]), log(["tick", "7E1#023"])], tells=second, status=3)
        both = "log 1 line 2: bad line"
        check("both logs at fault", [job], [SETUP, log(["7E0#02", "7E0#023"]), log(["7E1#023"])], tells=both, status=3)
    apart = "(0.000000) can0 7E0#023E00\n(59999880.001000) can0 7E0#023E00\n"
    for job in ("serial", "play"):
        check("stamps too far apart", [job, "--stamps"], [SETUP, apart, ""], tells="log 1: too many events", status=3)
    plays("no line feed", f"{STAMP}7E0#023E00", f"(0000000000.000000) A 7E8#027E00CCCCCCCCCC\ndiag-journal 1\n1 P 3E00 7E00\n{DEFAULT}")
    plays("a carriage return", "tick\r\n", f"diag-journal 1\n1 T 1\n{DEFAULT}")


def replays():
    end = "session extended\nholder A\ncode 012345 2F\n"
    plain = "diag-journal 1\n1 P 1003 5003003201F4\n" + "1 P 3E00 7E00\n" * 3
    check("replay without stamps", ["replay"], [SETUP, plain], f"entries 4\n{end}")
    for journal in ["diag-journal 1\n3 T 1\n", "diag-journal 1\n8 T 1\n"]:
        check("replay of another tester", ["replay"], [SETUP, journal], tells="entry 1 differs", status=8)
    late = "diag-journal 2\n0 1 P 1003 5003003201F4\n2501 1 T 2500\n"
    check("stamps, another sum", ["replay"], [SETUP, late], tells="journal line 3", status=3)
    for head in ["", "diag-journal 1", "diag-journal 01\n"]:
        check(f"journal-line-forms {head!r}", ["replay"], [SETUP, head], tells="journal line 1", status=3)
    lines = ["1 T 0", "1 T 01", "1 T 60001", "0 T 1", "9 T 1", "1 P 108 -", "1 P - -", "1 F 1083", "1 P 1083 -\r"]
    for line in [*(f"{it}\n" for it in lines), "1 T 1"]:
        check(f"journal-line-forms {line!r}", ["replay"], [SETUP, f"diag-journal 1\n{line}"], tells="journal line 2", status=3)
    spellings = ["", "1 T +1", "1  T 1", "1 t 1", "1 T 1 -", "1 P 1003 5003003201f4"]
    for line in [*(f"diag-journal 1\n{it}\n" for it in spellings), *(f"diag-journal 2\n{it}\n" for it in ["1 T 1", "01 1 T 1", "2 1 T 1"])]:
        check(f"journals have one spelling {line!r}", ["replay"], [SETUP, line], tells="journal line 2", status=3)
    for head in ["diag-journal 3\n", "diag-journal 1\r\n"]:
        check(f"journal-line-forms {head!r}", ["replay"], [SETUP, head], tells="journal line 1", status=3)
    check("replay, the ticks of B", ["replay"], [SETUP, "diag-journal 1\n2 T 60000\n1 F 3E80 -\n"], f"entries 2\n{DEFAULT}")
    for entries, differs_at in [
        ("1 P 1003 -\n", 1),
        ("1 P 1083 5003003201F4\n", 1),
        ("1 P 3E00 7E00\n1 P 3E80 7E00\n2 P 3E00 7E01\n", 2),
    ]:
        check("replay of other replies", ["replay"], [SETUP, f"diag-journal 1\n{entries}"], tells=f"entry {differs_at} differs", status=8)
    entries = "diag-journal 1\n" + "1 T 1\n" * 1_000_001
    check("journal-line-forms, an entry too many", ["replay"], [SETUP, entries], tells="journal line 1000002", status=3)


def config_faults():
    tester = '[[tester]]\nname = "A"\nrequest = 0x7E0\nresponse = 0x7E8\n'
    row = '[[level.row]]\nseed = "01"\nkey = "01"\n'
    for config, fault in [
        ("s3_ms =", "syntax"),
        (b"\xff", "syntax"),
        ("", "empty"),
        ('s3_ms = "x"', "bad value s3_ms"),
        ("s3_ms = 0", "range"),
        ("max_request = 65536", "range"),
        ('[[tester]]\nname = "A"\nrequest = 0x7E0\n', "missing tester.response"),
        (tester + tester.replace('"A"', '"B"').replace("7E8", "7E9"), "duplicate"),
        (tester + "[[code]]\ncode = 0x012345\nstatus = 0\n[[routine]]\nid = 1\ntime_ms = 1\ncode = 1\nstatus = 1\n", "unknown code"),
        (tester + f'[[did]]\nid = 1\nvalue = "00"\nwrite_level = 3\n[[level]]\nsub = 1\n{row}', "unknown level"),
        (tester + "[[level]]\nsub = 1\n", "empty"),
        *((f'{tester}[[did]]\nid = 0xF190\nvalue = "{it}"\n', "bad value did.value") for it in ("5", "5G", "g5")),
        ("\n" * 1_048_577, "too long"),
    ]:
        for job in ("bus", "serial", "play", "replay"):
            check(f"a setup: {fault}", [job], [config, ""], tells=f"config: {fault}", status=2)


def read_while_written():
    """B reads while A writes: it is sent the first frame of the old value or of the new one, and the journal replays."""
    a = ["7E0#021003", "7E0#022701", "7E0#062702AABBCCDD"]
    a += ["7E0#10142EF190414243", "7E0#214445464748494A", "7E0#224B4C4D4E4F5051"]
    with tempfile.TemporaryDirectory() as room:
        for name, lines in (("setup", SETUP), ("a", log(a)), ("b", log(["7E1#0322F190"]))):
            with open(f"{room}/{name}", "w") as it:
                it.write(lines)
        ran = subprocess.run([PROGRAM, "--quiet", "play", "setup", "a", "b"], cwd=room, capture_output=True, text=True, timeout=120)
    sent = [it for it in ran.stdout.split("\n") if it.startswith("(") and " B " in it]
    either = [[f"(0000000000.000000) B 7E9#101462F190{it}"] for it in ("544553", "414243")]
    told(ran.returncode == 0 and sent in either, "a value is read while it is written", sent)
    journal = "diag-journal" + ran.stdout.partition("diag-journal")[2].partition("session")[0]
    check("a value is read while it is written", ["replay"], [SETUP, journal], f"entries 5\n{HELD}")


def main():
    if sys.argv[1:2] == ["--files"]:
        write_example(*sys.argv[2:])
        return 0
    told.needs_program()
    groups = [run_file, two_on_a_bus, refusals, long_requests, long_replies, many_reads, two_routines, largest_setup, any_key, log_faults, a_million_events]
    for group in [*groups, replays, config_faults, read_while_written]:
        group()
    return told.ended()


if __name__ == "__main__":
    sys.exit(main())
