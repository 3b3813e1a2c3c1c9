#!/usr/bin/env python3
"""Tests tools/view.py: its texts of the worked examples beside those stored in test/view_texts.txt, its session beside
the program, its pages in headless Chromium. The last line is 'N passed, M failed'.

    test/view_test.py --store      stores the texts of the worked examples anew
    test/view_test.py --pictures   makes docs/pictures/view.png and docs/pictures/compare.png anew
"""
import contextlib
import hashlib
import io
import os
import random
import re
import subprocess
import sys
import tempfile
import time

from harness import PROGRAM, TOP, Tally, cases, run_without
import browser
import bus
import examples
import uds_compared
import uds_names
import uds_run
import view
import view_exchanges

VIEW = f"{TOP}/tools/view.py"
TEXTS = f"{TOP}/test/view_texts.txt"
PICTURES = f"{TOP}/docs/pictures"
MOST_PICTURE = 200_000
# milliseconds; a quiet machine takes 20
MOST_DRAWING = 500
# the most milliseconds in which a long comparison opens
MOST_OPENING = 1000
# of a long text the first lines are stored, and a digest
MOST_LINES = 30
LONG = 100_000
# a quiet machine takes one
MOST_SECONDS = 4
told = Tally("view")


def run(*words, given=None):
    """Runs the program; returns what it wrote."""
    return subprocess.run([PROGRAM, *words], input=given, capture_output=True, timeout=120).stdout.decode()


def put(path, text):
    with open(path, "wb") as it:
        it.write(text if isinstance(text, bytes) else text.encode())
    return path


def whole(path):
    with open(path, encoding="utf-8") as it:
        return it.read()


# ---- the names


def names(_):
    told(uds_names.table() in whole(f"{TOP}/docs/VIEW.md"), "the names in docs/VIEW.md are those of the tool")
    for sid, sub, want in [
        (0x27, 0x42, "sendKey"), (0x27, 0x43, ""), (0x27, 0x5E, ""), (0x27, 0x5F, "requestSeed"), (0x27, 0x60, "sendKey"), (0x27, 0xFE, "sendKey"), (0x27, 0x7F, ""),
        (0x19, 0x05, "reportDTCStoredDataByRecordNumber"), (0x19, 0x0A, "reportSupportedDTC"), (0x11, 0x06, ""),
        (0x2C, 0x02, "defineByMemoryAddress"), (0x83, 0x04, "setTimingParametersToGivenValues"), (0x86, 0x85, "startResponseOnEvent"),
        (0x86, 0x41, "onDTCStatusChange"), (0x87, 0x03, "transitionMode"), (0x87, 0x43, ""),
    ]:
        told(uds_names.sub_name(sid, sub) == want, f"the name of {sid:02X} {sub:02X}: {want}", uds_names.sub_name(sid, sub))
    for code, want in [
        (0x22, "conditionsNotCorrect"), (0x73, "wrongBlockSequenceCounter"), (0x23, "negative response"), (0x50, "negative response"), (0x8E, "negative response"), (0xFF, "negative response"),
        *[(it, "reservedByExtendedDataLinkSecurityDocument") for it in (0x38, 0x4F)], *[(it, "reservedForSpecificConditionsNotCorrect") for it in (0x94, 0xEF)],
        *[(it, "vehicleManufacturerSpecificConditionsNotCorrect") for it in (0xF0, 0xFE)],
    ]:
        told(uds_names.negative_name(code) == f"{want} (0x{code:02X})", f"the name of an NRC: {want}", uds_names.negative_name(code))
    told(not uds_names.NEGATIVE.keys() & uds_names.OTHER_NEGATIVE.keys(), "an NRC stands once")
    for number, want in [
        (0xF190, "VIN"), (0xF19F, "entityDataIdentifier"), (0xF1A0, ""), (0xF200, "periodicDataIdentifier"), (0xF3FF, "dynamicallyDefinedDataIdentifier"), (0xF40C, "OBDDataIdentifier"),
        (0xF7FF, "OBDMonitorDataIdentifier"), (0xF8FF, "OBDInfoTypeDataIdentifier"), (0xFA12, "EDRDeviceAddressInformation"), (0xFA18, "EDREntries"), (0xFF00, "UDSVersion"), (0x0100, ""),
    ]:
        told(uds_names.identifier_name(number) == want, f"the name of an identifier: {number:04X} {want}", uds_names.identifier_name(number))
    for number, want in [
        (0xFF00, "eraseMemory"), (0xFF01, "checkProgrammingDependencies"), (0xFF02, "eraseMirrorMemoryDTCs"), (0xFF03, ""), (0x0200, "vehicleManufacturerSpecific"),
        (0xDFFF, "vehicleManufacturerSpecific"), (0xE1FF, "OBDTestIds"), (0xE202, "safetySystemRoutineIDs"), (0x00FF, ""), (0xE300, ""), (0xFEFF, "systemSupplierSpecific"),
    ]:
        told(uds_names.routine_name(number) == want, f"the name of a routine: {number:04X} {want}", uds_names.routine_name(number))


# ---- the texts of the worked examples


def built_examples():
    """The examples of test/examples.py: name, setup, and what `serial` prints."""
    found = []

    def check(name, words, files, prints="", tells="", status=0):
        if words[0] == "serial" and status == 0:
            found.append((name, files[0], prints))

    kept = examples.check, examples.told
    examples.check, examples.told = check, lambda *_: None
    for group in (examples.run_file, examples.long_requests, examples.long_replies, examples.two_routines, examples.log_faults):
        group()
    examples.check, examples.told = kept
    return found


def stored_runs():
    """The cases of runs/ that have what a run prints: name, setup, and that."""
    found = []
    for case in cases():
        (command, *words), *_ = case.commands
        files = [it for it in words if not it.startswith("-")]
        if command in ("serial", "play", "bus") and "--end" not in words and os.path.exists(case.file("stdout")) and not case.has_notes:
            found.append((case.name, whole(f"{case.folder}/{files[0]}"), whole(case.file("stdout"))))
    return found


def demo_runs():
    setup = whole(f"{TOP}/demo/setup.toml")
    journal = run("bus", "--journal", f"{TOP}/demo/setup.toml", f"{TOP}/demo/bus.log")
    return [
        ("demo, serial", setup, whole(f"{TOP}/demo/output.txt")),
        ("demo, bus", setup, whole(f"{TOP}/demo/bus_output.txt")),
        ("demo, bus --journal", setup, journal),
    ]


def all_runs():
    """All of them, each with a name of its own."""
    found, times = [], {}
    for name, setup, text in [*built_examples(), *stored_runs(), *demo_runs()]:
        times[name] = times.get(name, 0) + 1
        found.append((name if times[name] == 1 else f"{name} ({times[name]})", setup, text))
    return found


def text_of(setup, text):
    """What `--text` writes."""
    with tempfile.TemporaryDirectory() as room:
        given, out = [put(f"{room}/setup", setup), put(f"{room}/run", text)], io.StringIO()
        with contextlib.redirect_stdout(out):
            view.main(["--text", *given])
    return out.getvalue()


def shortened(text):
    """A text as it is stored."""
    lines = text.split("\n")
    if len(lines) <= MOST_LINES + 1:
        return text
    digest = hashlib.sha256(text.encode()).hexdigest()
    return "\n".join([*lines[:MOST_LINES], f".. {len(lines) - 1} lines, SHA-256 {digest}", ""])


def stored_texts():
    """The stored texts by the examples' names."""
    found = re.split(r"^== (.*)\n", whole(TEXTS), flags=re.M)
    return dict(zip(found[1::2], found[2::2]))


def store():
    with open(TEXTS, "w", encoding="ascii") as it:
        it.write("# What tools/view.py --text writes of each worked example; made by test/view_test.py --store.\n")
        it.writelines(f"== {name}\n{shortened(text_of(setup, text))}" for name, setup, text in all_runs())


def texts(_):
    stored = stored_texts()
    runs = all_runs()
    for name, setup, text in runs:
        found = shortened(text_of(setup, text))
        told(found == stored.get(name), f"the text of {name}", found)
    more = set(stored) - {it[0] for it in runs}
    told(not more, "each stored text is that of an example", more)


def lines_a_step(_):
    """A text has a line for each entry of the journal."""
    for name, setup, text in all_runs():
        entries = len(re.findall(r"^(?:\d+ )?\d [TPF] ", text, flags=re.M))
        if "diag-journal" in text:
            found = text_of(setup, text).count("\n")
            told(found == entries, f"a line a step: {name}", f"{found} in place of {entries}")


# ---- the session, beside the program

SCRIPTS = [
    ["021003", "022701", "062702AABBCCDD", "10142EF190414243", "214445464748494A", "224B4C4D4E4F5051"],
    ["021003", "0431010203", "0431030203", "0431020203", "0431010203", "0431010203"],
    ["021083", "022701", "06278201020304", "022701", "0431810203", "028582", "021081"],
    ["021003", "022701", "062702AABBCCDD", "022701", "021003", "022701", "0431010203", "021101"],
    ["0322F190", "300000"], ["0522F190F190", "30000A"], ["031902FF"], ["0414FFFFFF"], ["023E80"],
    ["021003", "021002", "022701", "0431010203", "021003"], ["021002", "021083"], ["021060"], ["022801", "021003", "021004"],
]
# the service that a row with a template enters a session by, one that it answers with nothing, and answers that are late
ANSWERS = """
[[answer]]
request = "1002"
reply = ["5002003201F4"]
session = 3
enter = 2
after_ms = 700

[[answer]]
request = "1004"
reply = ["5004003201F4"]
enter = 4

[[answer]]
request = "1060"
reply = ["", "5060003201F4"]
session = 3
level = 1
enter = 96

[[answer]]
request = "28*"
reply = [""]

[[answer]]
request = "1081"
reply = ["5001", "7F1022"]
enter = 1

[[answer]]
request = "3E80"
after_ms = 900

[[answer]]
request = "3101...."
after_ms = 6000
"""
NAMES = {1: "default", 2: "programming", 3: "extended", 4: "safety"}
EVERYONE = [
    "023E80", "021083", "021082", "021081", "0227FF", "0227810000", "0431810203", "0431830203", "0431810204", "028582",
    "058582000000", "058582FFFFFF", "0322FFFF", "0239AA", "021181", "02198A", "0431010203",
]


def eight_testers():
    """The setup of the suites with six testers more."""
    more = [f'\n[[tester]]\nname = "{"CDEFGH"[it]}"\nrequest = 0x7E{it + 2}\nresponse = 0x7E{10 + it:X}\n' for it in range(6)]
    return bus.SETUP + "".join(more)


def traffic(chance, testers, count):
    """A capture of so many lines: scripts of the testers, each cut into by others and by functional requests."""
    ms, lines = 1000, []
    while len(lines) < count:
        tester = chance.randrange(testers)
        for frame in chance.choice(SCRIPTS):
            if chance.random() < 0.15:
                lines.append(bus.stamped(ms, f"7DF#{chance.choice(EVERYONE)}"))
            ms += chance.choice([0, 0, 1, 5, 10, 40, 99, 100, 1300, 5000] if chance.random() < 0.5 else [0, 1, 2])
            lines.append(bus.stamped(ms, f"7E{tester}#{frame}"))
    return "".join(f"{it}\n" for it in lines[:count])


def against(entry, before, outcome):
    """What the program's answer says against the session that the tool has, or nothing."""
    sid, reply = entry.request[0], entry.reply
    busy = before.holder not in (None, entry.place)
    if reply and reply[0] == 0x67 and len(reply) > 2:
        return any(reply[2:]) == (before.level == reply[1]) and "another level"
    if reply and reply[:2] == b"\x71\x03":
        return (reply[4] == 1) != (int.from_bytes(reply[2:4], "big") in before.routines) and "another routine"
    if sid == 0x31 and reply and (reply[:2] == b"\x71\x01" or reply[2:] == b"\x22"):
        return (reply[0] == 0x7F) != (int.from_bytes(entry.request[2:4], "big") in before.routines) and "a routine runs"
    if sid == 0x10 and outcome in ("refused", "done") and entry.request[1:] in (b"\x03", b"\x83"):
        return busy != (outcome == "refused") and "another holder"
    if sid in (0x27, 0x2E, 0x31, 0x85) and reply:
        return (reply[2:] == b"\x7f" and outcome == "refused") != (entry.place != before.holder) and "not in the session"
    return ""


def ends(session, setup):
    """What the program's end says of this session, without the DTCs."""
    holder = "none" if session.holder is None else setup.names[session.holder]
    return f"session {NAMES.get(session.session, f'{session.session:02X}')}\nholder {holder}\n"


def session_of(setup, run_):
    """Each entry's outcome, the session at the end, what speaks against it, and how much was seen."""
    session, wrong, outcomes, seen = uds_run.Session(setup), [], [], set()
    for number, entry in enumerate(run_.entries, 1):
        before = session.held()
        outcomes.append(session.take(entry))
        more = against(entry, before, outcomes[-1]) if entry.kind != "T" else ""
        wrong += [(number, more)] if more else []
        there = {"holder": before.holder is not None, "level": before.level is not None, "routine": before.routines}
        seen |= {it for it, is_there in there.items() if is_there}
    return outcomes, session.held(), wrong, seen


def sessions(room):
    """The session that the tool follows is that by which the program answers; at the end it and its holder are the
    program's."""
    seen = set()
    for seed in range(24):
        chance, text = random.Random(seed), eight_testers() + ANSWERS * (seed % 2)
        config, setup = put(f"{room}/setup", text), uds_run.read_setup(text)
        capture = put(f"{room}/capture", traffic(chance, chance.choice([1, 2, 8]), 300))
        text = run("bus", "--journal", config, capture)
        found = uds_run.read_run(setup, [("journal", text)])
        outcomes, held, wrong, more = session_of(setup, found)
        end, want = run("bus", "--end", config, capture), ends(held, setup)
        told(end.startswith(want) and not wrong, f"the session of a capture, {seed}", f"{end}, {want}, {wrong[:5]}")
        refusals(room, config, text, outcomes, seed)
        seen |= more | set(outcomes)
    all_kinds = {"holder", "level", "routine", "done", "refused", "suppressed", "silent", "empty"}
    told(seen >= all_kinds, "the captures have all that is followed", seen)


def refusals(room, config, text, outcomes, seed, most=2):
    """A refusal that isn't sent is one to a functional request alone: the same request to the unit itself is answered.
    One that wants no reply isn't."""
    lines = text.split("\n")
    kinds = dict(zip(range(1, len(lines)), outcomes))
    for at, kind in kinds.items():
        if kind == "suppressed":
            lines[at] = lines[at].replace(" F ", " P ")
    found = run("replay", config, put(f"{room}/journal", "\n".join(lines)))
    told(found.startswith(f"entries {len(outcomes)}\n"), f"no reply was wanted, {seed}", found)
    silent = [at for at, kind in kinds.items() if kind == "silent"]
    for at in silent[:most]:
        changed = [*lines[:at], lines[at].replace(" F ", " P "), *lines[at + 1 :]]
        put(f"{room}/journal", "\n".join(changed))
        ran = subprocess.run([PROGRAM, "--quiet", "replay", config, f"{room}/journal"], capture_output=True, timeout=120)
        told(ran.stderr == f"uds_play: entry {at} differs\n".encode(), f"a refusal that isn't sent, {seed}: {lines[at]}", ran)


# functional requests while A holds the session, and whether A's is done or refused
SILENCE = {
    "058582FFFFFF": "suppressed", "058582000000": "silent", "028581": "suppressed", "0431810203": "suppressed",
    "0431810204": "silent", "0431840203": "silent", "023E80": "suppressed", "023E81": "silent", "0322FFFF": "silent",
    "021082": "silent", "0239AA": "silent", "0227C3": "silent", "022781": "suppressed", "03198201": "suppressed",
}


def silence(room):
    """What no reply means, for the holder and for another: a session is wanted for some services alone."""
    config, setup = f"{TOP}/runs/setup.toml", uds_run.read_setup(bus.SETUP)
    lines = [bus.stamped(1000, "7E0#021003"), *(bus.stamped(1000, f"7DF#{it}") for it in SILENCE)]
    text = run("bus", "--journal", config, put(f"{room}/capture", "".join(f"{it}\n" for it in lines)))
    outcomes = session_of(setup, uds_run.read_run(setup, [("journal", text)]))[0]
    others = ["silent" if it[2:4] in ("85", "31", "27") else kind for it, kind in SILENCE.items()]
    told(outcomes[1::2] == list(SILENCE.values()), "the holder's requests without a reply", outcomes[1::2])
    told(outcomes[2::2] == others, "another tester's requests without a reply", outcomes[2::2])
    refusals(room, config, text, outcomes, "both", len(outcomes))


# ---- answers that take their time


def late(_):
    """Of frames with their journal, each response pending and each reply that goes later than its request stand alone, at
    their time; another reply is that of its entry."""
    folder = f"{TOP}/runs/bus/rule_slow_twice"
    setup = uds_run.read_setup(whole(f"{folder}/setup.toml"))
    found = uds_run.read_run(setup, [(it, whole(it)) for it in (f"{folder}/bus.stdout", f"{folder}/journal.stdout")])
    replies, cut, rest = view.chart(setup, found)
    alone = [(it["kind"], it["time"], it["before"], it["words"][:5], it.get("of"), it.get("after")) for it in rest]
    want = [
        ("pending", 50, 2, "7F 14", None, None), ("pending", 250, 6, "7F 3E", None, None), ("done", 300, 6, "7E 00", 4, 100),
        ("done", 400, 7, "54 Cl", 0, 400), ("pending", 400, 7, "7F 3E", None, None), ("done", 400, 7, "7E 00", 1, 400),
    ]
    told(alone == want and not cut and not replies, "what goes later, beside the journal", f"{alone}, {cut}, {replies}")
    demo = uds_run.read_setup(whole(f"{TOP}/demo/setup.toml"))
    at_once = uds_run.read_run(demo, [("output", whole(f"{TOP}/demo/output.txt"))])
    replies, _, rest = view.chart(demo, at_once)
    told(len(replies) == 14 and all(it["kind"] == "flow" for it in rest), "what goes at once", f"{len(replies)}, {rest}")


# ---- the recorded unit beside the server


def first_bytes(_):
    """Where two answers that differ read alike, the text tells the first byte that does."""
    for sent, want in [("FF", "byte 59: FF, server 38"), ("38FF", "")]:
        found = text_of(bus.SETUP, behind_cut(sent))
        told(f"({want})\n" in found if want else "(byte" not in found, f"the first byte that differs: {want or 'in sight'}", found)
    dtcs = "".join(f"{it:06X}2F" for it in range(20))
    cut = f"1 0000000100.000000 A P 1902FF 5902FF{dtcs}0000 5902FF{dtcs}00 5 0\nA 1 exchanges, 1 differ\n"
    found = text_of(bus.SETUP, cut)
    told("(byte 84: 00, server none)\n" in found, "the first byte that the server doesn't have", found)


def spoilt():
    """The demo's other unit, with a byte of a value and P2* changed, and a message that nobody asked."""
    text = whole(f"{TOP}/demo/other_unit.log")
    text = text.replace("7E8#2130303030303030", "7E8#2130303130303030", 1).replace("5003003201F4CC", "500300320BB8CC")
    return f"{text}(1763800004.000000) can0 7E8#025003\n"


def comparison(room, recording):
    """What `compare` writes of a recording of the demo."""
    return run("compare", f"{TOP}/demo/setup.toml", put(f"{room}/capture", recording))


BESIDE = """\
 9 1763800000.740 workshop     22 F190 ReadDataByIdentifier -> 62 F190 "00000100000000000" after 2 ms  * server: 62 F190 "00000000000000000"
14 1763800000.790 workshop     22 F195 ReadDataByIdentifier -> 62 F195 0203 after 2 ms
34 1763800001.200 end_of_line  31 01 0203 RoutineControl startRoutine -> 71 01 0203 after 3 ms, response pending once before
51 1763800001.600 end_of_line  3E 80 TesterPresent zeroSubFunction -> no answer
87 1763800004.000 workshop     nobody asked -> 50 03  * server: no answer
"""


def behind_cut(sent="FF"):
    """What `compare` writes of two long answers that differ at the last byte alone."""
    value = f"620100{bytes(range(56)).hex().upper()}"
    return f"1 0000000100.000000 A P 220100 {value}{sent} {value}38 5 0\nA 1 exchanges, 1 differ\n"


def beside(room):
    """The text of a comparison, and what isn't one of this setup."""
    found, setup = comparison(room, spoilt()), whole(f"{TOP}/demo/setup.toml")
    lines = text_of(setup, found).splitlines()
    told(len(lines) == 16 and set(BESIDE.splitlines()) <= set(lines), "the text of a comparison", "\n".join(lines))
    for name, text, want in [
        ("another setup", found.replace("workshop", "bench"), "no tester of the setup is bench"),
        ("a stray line", f"{found}x\n", "line 19: no line of a comparison"),
    ]:
        ran = subprocess.run([VIEW, f"{TOP}/demo/setup.toml", put(f"{room}/told", text)], capture_output=True, timeout=60)
        told(ran.returncode == 1 and ran.stdout == b"" and want in ran.stderr.decode(), f"a fault: {name}", ran)


def left_out(_):
    """A page of the differences alone says how many exchanges aren't told, and which these are."""
    for counts, want in [
        ("A 3 exchanges, 0 differ\nB 2 exchanges, 0 differ\n", ["5 that agree or are ignored aren't told"]),
        ("A 3 exchanges, 0 differ\nnothing compared\n", ["3 that agree or are ignored aren't told", "nothing compared"]),
        ("A 0 exchanges, 0 differ\nnothing compared\n", ["nothing compared"]),
        (f"{behind_cut().splitlines()[0]}\nA 1 exchanges, 1 differ\n", []),
    ]:
        found = view_exchanges.notes_of(uds_compared.read_report(counts.splitlines(keepends=True)))
        told(found == want, f"what isn't told: {', '.join(want) or 'nothing'}", found)


def many_rows(_):
    """A run by as many rows as a setup has is shown in seconds."""
    rows = "".join(f'[[answer]]\nrequest = "23{at:04X}"\nreply = ["63{at:04X}"]\n' for at in range(1024))
    journal = "".join(f"1 P 23{at % 1024:04X} 63{at % 1024:04X}\n" for at in range(5000))
    begun = time.process_time()
    found = text_of(f'[[tester]]\nname = "A"\nrequest = 0x7E0\nresponse = 0x7E8\n{rows}', f"diag-journal 1\n{journal}")
    took = time.process_time() - begun
    told(len(found.splitlines()) == 5000 and took < MOST_SECONDS, f"many rows in {took:.1f} seconds of processor time")


# ---- faults


def parted(_):
    """Messages of service 19 are parted by their sub-function, also those that a row of answers brings."""
    for journal, want in [
        ("190405620001 59040562002F0102F40C0B54", "19 04 056200 01 ReadDTCInformation reportDTCSnapshotRecordByDTCNumber -> 59 04 056200 2F 01 02F40C0B54"),
        ("1906056200FF 59060562002F01020304", "19 06 056200 FF ReadDTCInformation reportDTCExtDataRecordByDTCNumber -> 59 06 056200 2F 01 020304"),
        ("1906056200FF 5906056200", "19 06 056200 FF ReadDTCInformation reportDTCExtDataRecordByDTCNumber -> 59 06 056200"),
        ("19022F 5902FF0562002FC1000004", "19 02 2F ReadDTCInformation reportDTCByStatusMask -> 59 02 FF 056200 2F C10000 04"),
        ("19420033FF08 59420033FF", "19 42 0033FF08 ReadDTCInformation reportWWHOBDDTCByMaskRecord -> 59 42 0033FF"),
        ("19 -", "19 ReadDTCInformation -> no reply (by its row)"),
    ]:
        setup = f'tester = [{{ name = "A", request = 0x7E0, response = 0x7E8 }}]\nanswer = [{{ request = "19*", reply = [""] }}]\n'
        told(text_of(setup, f"diag-journal 1\n1 P {journal}\n") == f"0.000 A  {want}\n", f"parts: {want}", text_of(setup, f"diag-journal 1\n1 P {journal}\n"))


def line_ends(room):
    """Texts whose lines end with CRLF are shown as the others: runs, their frames, comparisons."""
    setup, demo = whole(f"{TOP}/demo/setup.toml"), [f"{TOP}/demo/setup.toml", f"{TOP}/demo/bus.log"]
    for name, text in [
        ("frames", run("bus", *demo)),
        ("a journal", run("bus", "--journal", *demo)),
        ("a run", run("serial", "--stamps", demo[0], f"{TOP}/demo/workshop.log", f"{TOP}/demo/end_of_line.log")),
        ("a comparison", comparison(room, spoilt())),
    ]:
        told(text_of(setup, text.replace("\n", "\r\n")) == text_of(setup, text) != "", f"with CRLF: {name}")


def faults(room):
    """What isn't of a run is told, and the place."""
    config, journal = f"{TOP}/runs/setup.toml", "diag-journal 1\n1 P 3E00 7E00\n"
    for name, files, want in [
        ("a capture", ["(0000000001.000000) can0 7E0#021003\n"], "{0} line 1: no tester of the setup"),
        ("no line of a run", [f"{journal}2 X\n"], "{0} line 3: no entry of a journal"),
        ("a number that is too long", [f"{journal}1 T {'9' * 5000}\n"], "{0} line 3: no entry of a journal"),
        ("another version", ["diag-journal 2\n1 P 3E00 7E00\n"], "{0} line 2: an entry of the journal's other version"),
        ("a tester too many", ["diag-journal 1\n3 T 1\n"], "{0} line 2: the setup has no such tester"),
        ("a second journal", [journal, journal], "{1} line 1: a second journal"),
        ("a line that was cut", ["diag-journal 1\n1 P 3E"], "{0}: the last line has no end"),
        ("frames of another run", [journal, "(0000000000.000000) A 7E8#0254CC\n"], "the frames aren't those of the journal"),
        ("a stray frame", ["(0000000000.000000) A 7E8#2154CC\n"], "a Consecutive frame of no message: 2154CC"),
        ("bytes", [b"\xff\x00\n"], "{0} line 1: no line of a run"),
    ]:
        paths = [put(f"{room}/{at}", it) for at, it in enumerate(files)]
        ran = subprocess.run([VIEW, config, *paths], capture_output=True, timeout=60)
        good = ran.returncode == 1 and ran.stdout == b"" and ran.stderr.decode().startswith(f"view: {want.format(*paths)}")
        told(good, f"a fault: {name}", ran)
    for name, setup in [("a setup", 'tester = "x"'), ("lists within lists", "x = " + "[" * 9999)]:
        ran = subprocess.run([VIEW, put(f"{room}/0", setup), paths[0]], capture_output=True, timeout=60)
        told(ran.returncode == 1 and ran.stderr.startswith(b"view: config: "), f"a fault: {name}", ran)
    ran = subprocess.run([VIEW, config, put(f"{room}/nothing", ""), "-"], stdin=subprocess.DEVNULL, capture_output=True, timeout=60)
    note = b"view: note: nothing is shown, for nothing stands in nothing, standard input\n"
    told(ran.returncode == 0 and ran.stderr == note and b"<html" in ran.stdout, "an empty file", ran.stderr)
    ran = subprocess.run([VIEW, config], capture_output=True, timeout=60)
    told(ran.returncode == 1 and b"required: RUN" in ran.stderr, "a word too few", ran)
    newer = 'tester = [{ name = "A", # one\n request = 0x7E0,\n response = 0x7E8,\n}]\n'
    forms = [("standard input", config), ("a byte order mark", put(f"{room}/0", f"\ufeff{bus.SETUP}")), ("TOML 1.1", put(f"{room}/1", newer))]
    for name, setup in forms:
        ran = subprocess.run([VIEW, "--text", setup, "-"], input=journal.encode(), capture_output=True, timeout=60)
        told((ran.returncode, ran.stdout) == (0, b"0.000 A  3E 00 TesterPresent zeroSubFunction -> 7E 00\n"), name, ran)
    streams(room, config, journal)


def streams(room, config, journal):
    """A stream that is closed, or doesn't take what is written, is told in a line; so is a file that isn't there."""
    words, path = [sys.executable, VIEW, "--text", config], put(f"{room}/journal", journal)
    with open("/dev/full", "wb") as full:
        ran = subprocess.run([*words, path], stdout=full, stderr=subprocess.PIPE, timeout=60)
    told((ran.returncode, ran.stderr) == (1, b"view: cannot write: No space left on device\n"), "a full device", ran)
    for number, more, want in ((0, "-", b"standard input is closed"), (1, path, b"cannot write: standard output is closed")):
        ran = run_without(number, [*words, more])
        told((ran.returncode, ran.stderr) == (1, b"view: " + want + b"\n"), f"stream {number} is closed", ran)
    ran = run_without(2, [*words, put(f"{room}/nothing", "")])
    told((ran.returncode, ran.stdout) == (0, b""), "stream 2 is closed", ran)
    ran = subprocess.run([*words, f"{room}/none"], capture_output=True, timeout=60)
    told((ran.returncode, ran.stderr.decode()) == (1, f"view: {room}/none: No such file or directory\n"), "a file that isn't there", ran)
    ran = subprocess.run([*words, "-", "-"], input=journal.encode(), capture_output=True, timeout=60)
    told(ran.returncode == 1 and b"standard input can be read once" in ran.stderr, "standard input twice", ran)


# ---- the pages, in Chromium

HIGH = 24_000
COUNTED = {
    "requests": "path.request", "replies": "path.reply", "refused": "path.reply.refused", "without": "path.none",
    "flow": "path.flow", "lines": ".line",
}
DRAWING_TIMES = """Array.from({ length: 50 }, (_, at) => {
    chart.top = chart.total * at / 50;
    journal.top = journal.total * at / 50;
    const begun = performance.now();
    chart.redraw();
    journal.redraw();
    return performance.now() - begun;
})"""
AFTER_DRAWING = "new Promise((done) => requestAnimationFrame(() => requestAnimationFrame(() => done(%s))))"


def page_of(room, setup, *texts_):
    """Makes a page; returns its path."""
    paths = [put(f"{room}/setup", setup), *(put(f"{room}/run{at}", it) for at, it in enumerate(texts_))]
    ran = subprocess.run([VIEW, *paths], capture_output=True, timeout=120)
    if ran.returncode:
        raise RuntimeError(ran.stderr)
    return put(f"{room}/page.html", ran.stdout)


def drawn(page):
    """How many arrows and lines there are in the page."""
    counted = ",".join(f"{it}: document.querySelectorAll('{what}').length" for it, what in COUNTED.items())
    return page.ask(AFTER_DRAWING % f"({{{counted}}})")


def in_text(journal):
    """The same numbers, of a journal's text."""
    asked = re.findall(r"^(?:\d+ )?\d [PF] [0-9A-F]+ (\S+)$", journal, flags=re.M)
    ticks = len(re.findall(r"^(?:\d+ )?\d T \d+$", journal, flags=re.M))
    return {
        "requests": len(asked),
        "replies": len([it for it in asked if it != "-"]),
        "refused": len([it for it in asked if it.startswith("7F")]),
        "without": asked.count("-"),
        "lines": len(asked) + ticks,
    }


def grants_in(frames):
    return len(re.findall(r"#(?:#1)?3[0-9A-F]", frames))


def is_quiet(page):
    """Whether the console is empty and nothing was asked of the network."""
    return not page.wrongs() and not page.asked()


def whole_pages(room, page):
    """A page has an arrow for each request, reply, response pending and flow control frame, and a line for each entry."""
    demo, config = whole(f"{TOP}/demo/setup.toml"), f"{TOP}/demo/setup.toml"
    serial, frames = whole(f"{TOP}/demo/output.txt"), whole(f"{TOP}/demo/bus_output.txt")
    journal = run("bus", "--journal", config, f"{TOP}/demo/bus.log")
    eight, capture = put(f"{room}/eight", eight_testers()), put(f"{room}/capture", traffic(random.Random(1), 8, 120))
    of_eight, frames_of_eight = run("bus", "--journal", eight, capture), run("bus", eight, capture)
    slow, fd = f"{TOP}/runs/bus/rule_slow_twice", whole(f"{TOP}/runs/fd.toml")
    mixed, limits = ([whole(f"{TOP}/runs/bus/{it}/{part}.stdout") for part in ("bus", "journal")] for it in ("fd_mixed", "fd_limits"))
    for name, setup, given, flow in [
        ("the demo's logs", demo, [serial], grants_in(serial)),
        ("the demo's bus", demo, [journal], 0),
        ("the demo's bus with its frames", demo, [journal, frames], grants_in(frames)),
        ("eight testers", eight_testers(), [of_eight], 0),
        ("eight testers with their frames", eight_testers(), [frames_of_eight, of_eight], grants_in(frames_of_eight)),
        ("answers that take their time", whole(f"{slow}/setup.toml"), [whole(f"{slow}/{it}.stdout") for it in ("bus", "journal")], 0),
        ("a tester of CAN FD and a classic one", fd, mixed, 0),
        ("messages of CAN FD", fd, limits, grants_in(limits[0])),
    ]:
        page.open(page_of(room, setup, *given), 1600, HIGH)
        found, want = drawn(page), {**in_text("".join(given)), "flow": flow}
        want["replies"] += len(re.findall("#037F..78", "".join(given)))
        told(found == want and is_quiet(page), f"the page of {name}: {want}", f"{found}, {page.wrongs()}, {page.asked()}")


def frames_page(room, page):
    """A page of frames alone has an arrow for each message."""
    page.open(page_of(room, whole(f"{TOP}/demo/setup.toml"), whole(f"{TOP}/demo/bus_output.txt")), 1600, HIGH)
    found, want = drawn(page), len(re.findall(r"#[013][0-9A-F]", whole(f"{TOP}/demo/bus_output.txt")))
    good = found["replies"] + found["flow"] == want == found["lines"] and found["requests"] == 0 and is_quiet(page)
    told(good, f"the page of frames alone: {want}", f"{found}, {page.wrongs()}")
    page.open(page_of(room, whole(f"{TOP}/demo/setup.toml"), ""), 1600, 900)
    told(not any(drawn(page).values()) and is_quiet(page), "the page of nothing", f"{drawn(page)}, {page.wrongs()}")


def middle_of(page, what):
    """The middle of an element in the window."""
    script = f"(() => {{ const it = {what}.getBoundingClientRect(); return [it.x + it.width / 2, it.y + it.height / 2]; }})()"
    return page.ask(script)


def by_mouse(room, page):
    """The journal follows the mouse, and a long reply opens to its frames."""
    page.open(page_of(room, whole(f"{TOP}/demo/setup.toml"), whole(f"{TOP}/demo/output.txt")), 1400, 700)
    page.mouse("mouseMoved", *middle_of(page, "document.querySelectorAll('path.request')[7]"))
    lit = page.ask(AFTER_DRAWING % "[...document.querySelectorAll('.line.lit')].map((it) => it.textContent)")
    told(len(lit) == 1 and "2E F190" in lit[0], "the journal follows the mouse", lit)
    where = "[...document.querySelectorAll('g.opens text')].find((it) => it.textContent.includes('3 frames'))"
    page.click(*middle_of(page, where))
    found = page.ask(AFTER_DRAWING % "[...document.querySelectorAll('text.frame')].map((it) => it.textContent)")
    want = ["101462F190303030", "2130303030303030", "2230303030303030"]
    told([it.split()[-1] for it in found] == want and "+15 ms" in found[2], "a long reply opens to its frames", found)
    page.click(*middle_of(page, where))
    told(page.ask(AFTER_DRAWING % "document.querySelectorAll('text.frame').length") == 0, "it closes again")
    page.mouse("mouseMoved", *middle_of(page, "document.querySelectorAll('.line')[3]"))
    lit = page.ask(AFTER_DRAWING % "document.querySelectorAll('g.lit').length")
    told(lit == 1 and is_quiet(page), "the chart follows the journal", lit)


def long_frames(room, page):
    """A frame of more than 32 bytes opens to two lines."""
    text = whole(f"{TOP}/runs/bus/fd_long/bus.stdout")
    page.open(page_of(room, whole(f"{TOP}/runs/fd.toml"), text), 1400, 700)
    page.ask("opened.add(0); show(); 0")
    found = page.ask(AFTER_DRAWING % "[...document.querySelectorAll('text.frame')].map((it) => it.textContent.split(' ').pop())")
    want = [frame[at : at + 64] for frame in re.findall("##1([0-9A-F]+)", text) for at in range(0, len(frame), 64)]
    told(found == want and len(want) == 4 and is_quiet(page), "a frame of more than 32 bytes opens to two lines", found)


def wide(room, page):
    """A chart of a run is as wide as what it says, and scrolls, and no less wide than the window; one of a comparison is as wide as
    the window, and cuts two long answers so that they stand beside each other."""
    page.open(page_of(room, whole(f"{TOP}/runs/fd.toml"), whole(f"{TOP}/runs/bus/fd_long/bus.stdout")), 900, 700)
    page.ask("opened.add(0); show(); 0")
    ends = "[...document.querySelectorAll('#chart text')].map((it) => it.getBoundingClientRect().right)"
    found = page.ask(AFTER_DRAWING % f"[Math.max(...{ends}), chart.scroller.scrollWidth, chart.scroller.clientWidth]")
    told(found[2] < found[0] <= found[1] and is_quiet(page), "a long frame can be scrolled to", found)
    page.open(page_of(room, bus.SETUP, behind_cut()), 900, 700)
    sides = "['sent', 'expected'].map((it) => document.querySelector(`text.differs.${it}`).getBoundingClientRect())"
    found = page.ask(f"(([one, two]) => [one.right, two.left, two.right, chart.scroller.scrollWidth])({sides})")
    told(found == sorted(found) and is_quiet(page), "two long answers beside each other", found)
    words = page.ask("['sent', 'expected'].map((it) => document.querySelector(`text.differs.${it}`).textContent)")
    told("\u2026 \u00b7 after 5 ms" in words[0] and words[1].endswith("\u2026"), "they are cut", words)
    for size in (900, 1400, 2400):
        page.open(page_of(room, bus.SETUP, behind_cut()), size, 700)
        found = page.ask("[chart.scroller.scrollWidth, chart.scroller.clientWidth, Math.round(server) + MARGIN]")
        told(set(found) == {size}, f"a comparison is as wide as a window of {size}", found)
    words = page.ask("['sent', 'expected'].map((it) => document.querySelector(`text.differs.${it}`).textContent)")
    told(not any("\u2026" in it for it in words), "nothing is cut where there is room", words)
    for setup, text in ((whole(f"{TOP}/demo/setup.toml"), whole(f"{TOP}/demo/output.txt")), (bus.SETUP, "diag-journal 2\n0 1 P 3E00 7E00\n")):
        page.open(page_of(room, setup, text), 2400, 700)
        found = page.ask("[testerX(names.length - 1) + MARGIN, chart.scroller.clientWidth, chart.scroller.scrollWidth]")
        told(len(set(found)) == 1 and is_quiet(page), "a run is as wide as the window", found)


def later(room, page):
    """A reply that goes later is an arrow at its time, and is marked with its request's line."""
    slow = f"{TOP}/runs/bus/rule_slow_twice"
    page.open(page_of(room, whole(f"{slow}/setup.toml"), *(whole(f"{slow}/{it}.stdout") for it in ("bus", "journal"))), 1600, 900)
    shown = page.ask("[...document.querySelectorAll('text.later')].map((it) => it.textContent)")
    told(shown == ["answered at 0.400", "answered at 0.400", "answered at 0.300"], "when an answer comes is said at its request", shown)
    page.mouse("mouseMoved", *middle_of(page, "[...document.querySelectorAll('text.done')].find((it) => it.textContent.startsWith('54'))"))
    lit = page.ask(AFTER_DRAWING % "[document.querySelectorAll('g.lit').length, document.querySelector('.line.lit').textContent]")
    told(lit[0] == 2 and "14 FFFFFF" in lit[1] and is_quiet(page), "a later reply is marked with its request", lit)


def not_sent(room, page):
    """A reply that waits, and one that was sent in part, say so."""
    log = put(f"{room}/log", examples.log(["7E0#0322F190", "7E0#300105", "7E0#0322F190", "7E0#023E00"]))
    text = run("serial", f"{TOP}/runs/setup.toml", log, f"{TOP}/runs/empty.log")
    page.open(page_of(room, bus.SETUP, text), 1400, 700)
    shown = page.ask("[...document.querySelectorAll('text.done')].map((it) => it.textContent.split(/[\\u00b7\\u25b8]/).pop().trim())")
    want = ["2 frames in 0 ms, the rest wasn't sent", "not sent", "not sent"]
    told(shown == want and drawn(page)["replies"] == 3 and is_quiet(page), "replies that weren't sent", shown)


def beside_page(room, page):
    """A page of a comparison has an arrow for each request and answer on both sides, and what differs in red."""
    found = comparison(room, spoilt())
    page.open(page_of(room, whole(f"{TOP}/demo/setup.toml"), found), 1500, HIGH)
    counted = {
        "exchanges": "g.exchange", "requests": "path.request", "answers": "path.reply", "red": "path.reply.differs",
        "words": "text.differs.sent", "beside": "text.differs.expected", "none": "path.none.differs",
    }
    ask = AFTER_DRAWING % f"({{{','.join(f'{it}: document.querySelectorAll({what!r}).length' for it, what in counted.items())}}})"
    want = {"exchanges": 16, "requests": 30, "answers": 29, "red": 7, "words": 4, "beside": 4, "none": 1}
    shown = page.ask(ask)
    told(shown == want and is_quiet(page), f"the page of a comparison: {want}", f"{shown}, {page.wrongs()}")
    page.click(*middle_of(page, "[...document.querySelectorAll('text.differs')].find((it) => it.textContent.startsWith('50 03'))"))
    bytes_ = page.ask(AFTER_DRAWING % "[...document.querySelectorAll('text.frame')].map((it) => it.textContent)")
    red = page.ask("[...document.querySelectorAll('tspan.differs')].map((it) => it.textContent.trim())")
    told(bytes_ == ["unit    50 03 00 32 0B B8", "server  50 03 00 32 01 F4"] and red == ["0B B8", "01 F4"], "the bytes of both", f"{bytes_}, {red}")
    page.ask("differences.click(); 0")
    told(page.ask(ask)["exchanges"] == 4, "the differences alone", page.ask(ask))
    page.ask("tester0.click(); 0")
    told(page.ask(ask)["exchanges"] == 1 and is_quiet(page), "those of one tester", page.ask(ask))


def by_keys(room, page):
    """The keys n and p go from one difference to the next, and bring it into sight; in a list they choose there."""
    lines = [f"{at + 1} {at:010d}.000000 A P 3E00 7E00 {'=' if at % 300 else '7F3E12'} 2 0\n" for at in range(1, 1000)]
    page.open(page_of(room, bus.SETUP, f"{''.join(lines)}A 999 exchanges, 3 differ\n"), 1400, 700)
    title = page.ask("[document.title, document.querySelector('h1').textContent, document.getElementById('counts').textContent]")
    want = "run0: the recorded unit beside the server of setup"
    told(title == [want, want, "999 exchanges \u00b7 996 agree \u00b7 3 differ \u00b7 0 negative responses"], "the title of a comparison", title)
    state = AFTER_DRAWING % "[lit, document.querySelectorAll('g.exchange.differs.lit').length, document.getElementById('told').textContent.slice(0, 17)]"
    for keys, item, words in [
        ("n", 299, "line 301  \u00b7  A  \u00b7"), ("n", 599, "line 601  \u00b7  A  \u00b7"), ("p", 299, "line 301  \u00b7  A  \u00b7"), ("p", 299, "No difference abo"),
        ("nn", 899, "line 901  \u00b7  A  \u00b7"), ("n", 899, "No difference bel"), ("x", 899, "No difference bel"),
    ]:
        for letter in keys:
            page.key(letter)
        found = page.ask(state)
        told(found == [item, 1, words], f"the key {keys}: {item}", found)
    page.ask("lit = -1; chart.top = 500 * STEP; 0")
    page.key("p")
    found = page.ask(state)
    told(found[0] == 299, "from what is in sight", found)
    page.ask("document.getElementById('service').focus(); 0")
    page.key("n")
    told(page.ask(state)[0] == 299 and is_quiet(page), "a key in a list", page.ask(state))
    page.ask("document.getElementById('service').blur(); differences.click(); 0")
    page.key("n")
    told(page.ask(state)[0] == 599, "among differences alone", page.ask(state))


def long_comparison(room, page):
    """A comparison of many exchanges is open within a second, and its end can be gone to."""
    lines = (f"{at + 1} {100 + at // 100:010d}.{at % 100:02d}0000 A P 22F40C 62F40C{at * 7919:010X} {'=' if at % 1000 else '7F2231'} {at % 50} 0\n" for at in range(LONG))
    path = page_of(room, bus.SETUP, f"{''.join(lines)}A {LONG} exchanges, {LONG // 1000} differ\n")
    took = []
    while len(took) < 5 and min(took, default=MOST_OPENING) >= MOST_OPENING:
        page.open(path, 1400, 900)
        took.append(page.ask("performance.getEntriesByType('navigation')[0].loadEventEnd"))
    elements = page.ask("document.getElementsByTagName('*').length")
    told(min(took) < MOST_OPENING and elements < 2000 and is_quiet(page), f"{LONG} exchanges are open in {min(took):.0f} ms", [took, elements])
    page.ask("chart.scroller.scrollTop = 1e9; 0")
    found = page.ask(AFTER_DRAWING % "[...document.querySelectorAll('text.time')].map((it) => it.textContent)")
    told(f"line {LONG}" in found, "its end", found)


def by_filter(room, page):
    """The filter leaves one tester, one service, or what isn't time that passes."""
    text = whole(f"{TOP}/demo/output.txt")
    page.open(page_of(room, whole(f"{TOP}/demo/setup.toml"), text), 1600, HIGH)
    choose = "service.value = '22'; service.dispatchEvent(new Event('change', {bubbles: true}))"
    for name, change, pattern in [
        ("a tester", "tester1.click()", r"^\d+ 1 .*$"),
        ("a tester and a service", choose, r"^\d+ 1 (?:T|P 22).*$"),
        ("both testers and a service", "tester1.click()", r"^\d+ [12] (?:T|P 22).*$"),
        ("a service without the time", "waits.click()", r"^\d+ [12] P 22.*$"),
    ]:
        page.ask(f"{change}; 0")
        found, want = drawn(page), in_text("\n".join(re.findall(pattern, text, flags=re.M)))
        told({it: found[it] for it in want} == want, f"the filter by {name}", f"{found} in place of {want}")


def hostile(room, page):
    """Names, titles and bytes that look like a page's own text are shown as they are."""
    evil = "</script><script>document.title=1</script><img src=x onerror=document.title=2>{{data}}{{style}}"
    value = b"</script><!--<script>alert(1)"
    setup = f'[[tester]]\nname = {evil!r}\nrequest = 1\nresponse = 2\n[[did]]\nid = 1\nvalue = "{value.hex()}"\n'
    hexes = (b"\x62\x00\x01" + value).hex().upper()
    every = "".join(f"1 P {it:02X}{it:02X}{it:02X}{it:02X} {it:02X}\n" for it in range(256))
    path = page_of(room, setup, f"diag-journal 1\n1 P 220001 {hexes}\n{every}")
    os.rename(path, f"{room}/evil.html")
    page.open(f"{room}/evil.html", 1600, HIGH)
    shown = page.ask("[document.title, document.querySelector('.tester').textContent, document.querySelector('.answer').textContent]")
    good = shown[0] == "run0" and shown[1] == evil and value.decode() in shown[2]
    told(good and drawn(page)["requests"] == 257 and is_quiet(page), "hostile names and bytes", f"{shown}, {page.wrongs()}")
    name = f"{room}/<img src=x onerror=alert(1)>&"
    put(name, "diag-journal 1\n")
    page.open(put(f"{room}/evil.html", subprocess.run([VIEW, f"{room}/setup", name], capture_output=True).stdout), 900, 600)
    title = page.ask("document.querySelector('h1').textContent")
    told(title == os.path.basename(name) and is_quiet(page), "a hostile file name", title)


def long_page(room, page):
    """A run of many entries is drawn as far as it is in sight, quickly, and can be gone through to its end."""
    parts = ["{0} 1 T 3", "{0} 2 T 3", "{0} 1 P 22F190 62F1905445535456494E30313233343536373839", "{0} 2 P 1003 7F1021"]
    lines = [parts[it % 4].format(it // 4 * 3 + 3) for it in range(LONG)]
    page.open(page_of(room, bus.SETUP, "diag-journal 2\n" + "".join(f"{it}\n" for it in lines)), 1600, 900)
    elements = page.ask("document.getElementsByTagName('*').length")
    times = page.ask(DRAWING_TIMES)
    slow = sorted(times)[len(times) // 2]
    good = elements < 2000 and slow < MOST_DRAWING and is_quiet(page)
    told(good, f"{LONG} entries: {elements} elements, drawn in {slow:.1f} ms", f"{elements}, {times}")
    page.ask("chart.scroller.scrollTop = 1e9; journal.scroller.scrollTop = 1e9; 0")
    line = page.ask(AFTER_DRAWING % "[...document.querySelectorAll('.line')].pop().textContent")
    times = page.ask("[...document.querySelectorAll('text.time')].map((it) => it.textContent)")
    end = f"{LONG // 4 * 3 / 1000:.3f}"
    told(str(LONG) in line and end in line and times[-2] == end, "its end", [line, times])


def picture_of_run(room, page):
    """The picture of docs/VIEW.md: the page of the demo, with a reply opened and a step marked."""
    page.open(page_of(room, whole(f"{TOP}/demo/setup.toml"), whole(f"{TOP}/demo/output.txt")), 1200, 690)
    page.ask("waits.click(); opened.add(7); show(); light(16); document.querySelector('h1').textContent = 'demo/output.txt'; 0")
    page.ask(AFTER_DRAWING % "0")
    return page.picture()


def picture_of_comparison(room, page):
    """The picture of README: the demo's other unit beside the server, with the difference marked."""
    found = comparison(room, whole(f"{TOP}/demo/other_unit.log"))
    page.open(page_of(room, whole(f"{TOP}/demo/setup.toml"), found), 1000, 532)
    page.ask("document.querySelector('h1').textContent = 'demo/other_unit.log: the recorded unit beside the server of demo/setup.toml'; 0")
    page.ask("lit = 10; chart.top = 5 * STEP; 0")
    page.ask("chart.redraw(); document.getElementById('told').textContent = told(lit); 0")
    page.ask(AFTER_DRAWING % "0")
    return page.picture()


DRAWN = {"view.png": picture_of_run, "compare.png": picture_of_comparison}


def pictures(room, page):
    for name, take in DRAWN.items():
        size = os.path.getsize(f"{PICTURES}/{name}")
        told(size < MOST_PICTURE, f"{name} has {size} bytes")
        told(take(room, page).startswith(b"\x89PNG"), f"{name} can be made")


def pages(room):
    command = browser.found()
    if not command:
        print("view: there is no Chromium here, and it can't be installed: the pages aren't opened", flush=True)
        return
    try:
        page = browser.Browser(command)
    except (OSError, RuntimeError) as it:
        print(f"view: Chromium can't be used here ({it}): the pages aren't opened", flush=True)
        return
    try:
        for group in (whole_pages, frames_page, by_mouse, long_frames, wide, later, beside_page, by_keys, not_sent, by_filter, hostile, long_page, long_comparison, pictures):
            group(room, page)
    finally:
        page.close()


def make_pictures():
    with tempfile.TemporaryDirectory() as room:
        page = browser.Browser(browser.found())
        for name, take in DRAWN.items():
            put(f"{PICTURES}/{name}", take(room, page))
        page.close()


def main():
    if sys.argv[1:] == ["--store"]:
        return store()
    if sys.argv[1:] == ["--pictures"]:
        return make_pictures()
    told.needs_program()
    told.in_rooms(names, texts, lines_a_step, sessions, silence, late, beside, first_bytes, left_out, many_rows, parted, line_ends, faults, pages)
    return told.ended()


if __name__ == "__main__":
    sys.exit(main())
