#!/usr/bin/env python3
"""Tests tools/junit.py: what it makes of texts of `compare`, read back as XML by the rules of JUnit's schema, and by
junitparser (Debian's python3-junitparser) where that is there; the statuses; and what the program writes over the captures of runs/.
The last line is 'N passed, M failed'."""
import io
import os
import subprocess
import sys
import xml.etree.ElementTree as ElementTree
from typing import Iterator

from harness import DEBIAN, PROGRAM, TOP, Tally, cases, run_without
import packages

TOOL = f"{TOP}/tools/junit.py"
# JUnit's schema, as build servers read it: of each element the attributes that it has to have, those that it may have,
# and what may stand in it
SCHEMA = {
    "testsuites": ({"name"}, {"tests", "failures", "errors", "time"}, {"testsuite"}),
    "testsuite": ({"name", "tests"}, {"failures", "errors", "skipped", "time", "timestamp"}, {"testcase"}),
    "testcase": ({"name", "classname"}, {"time"}, {"skipped", "error", "failure"}),
    "failure": (set(), {"type", "message"}, set()),
    "error": (set(), {"type", "message"}, set()),
    "skipped": (set(), {"message"}, set()),
}
AGREES = "1 0000000100.000000 A P 1003 5003003201F4 = 12 0\n"
BUSY = "3 0000000100.010000 B P 1003 - 7F1021 - 2\n"
IGNORED = "4 0000000100.020000 A F 22F190 7F2231 ~ 3 0\n"
UNASKED = "7 0000000100.040000 B U - 7E00 - - 0\n"
HIDDEN = "9 0000000100.050000 A P 2301 63AA12 63??11 1 0\n"
LONG = f"12 0000000100.060000 A P 2E{'AB' * 300} 6EABAB 7F2E31 1 0\n"
QUIET = "11 0000000100.055000 A P 3E80 - = - 0\n"
PENDING = "11 0000000100.055000 A P 3E80 - = - 1\n"
SILENT = "13 0000000100.070000 B F 3E80 7E00 - 1 0\n"
told = Tally("junit", most=1500)


def report(text: str) -> tuple[str, int, str]:
    """What the tool makes of a text, and its status."""
    ran = subprocess.run([sys.executable, TOOL], input=text.encode(), capture_output=True, timeout=60)
    return ran.stdout.decode(), ran.returncode, ran.stderr.decode()


def faults_of(element: ElementTree.Element) -> Iterator[str]:
    """What in an element isn't by the schema."""
    must, may, inner = SCHEMA.get(element.tag, (set(), set(), set()))
    if element.tag not in SCHEMA:
        yield f"an element {element.tag}"
    if not must <= set(element.attrib) <= must | may:
        yield f"attributes {sorted(element.attrib)} of {element.tag}"
    for it in element:
        if it.tag not in inner:
            yield f"{it.tag} in {element.tag}"
        yield from faults_of(it)


def numbers(root: ElementTree.Element) -> list[tuple[str, list[int], list[int]]]:
    """Each suite's name with the counts that it tells, and those of what is in it."""
    found = []
    for it in root.iter("testsuite"):
        told_of = [int(it.get(key)) for key in ("tests", "failures", "errors", "skipped")]
        found.append((it.get("name"), told_of, [len(list(it.iter(key))) for key in ("testcase", "failure", "error", "skipped")]))
    return found


# ---- the texts: name, text, status, the counts of each suite

TEXTS = [
    ("all agree", AGREES + "A 1 exchanges, 0 differ\nB 0 exchanges, 0 differ\n", 0, {"A": [1, 0, 0, 0], "B": [0, 0, 0, 0]}),
    ("some differ", AGREES + BUSY + IGNORED + UNASKED + HIDDEN + LONG + SILENT + "A 4 exchanges, 2 differ\nB 3 exchanges, 3 differ\n", 8,
     {"A": [4, 2, 0, 1], "B": [3, 3, 0, 0]}),
    ("the differences alone", BUSY + "A 40 exchanges, 0 differ\nB 50 exchanges, 1 differ\n", 8, {"A": [0, 0, 0, 0], "B": [1, 1, 0, 0]}),
    ("nothing compared", IGNORED + "A 1 exchanges, 0 differ\nB 0 exchanges, 0 differ\nnothing compared\n", 9,
     {"A": [1, 0, 0, 1], "B": [0, 0, 0, 0], "compare": [1, 0, 1, 0]}),
    ("a run that ended by a fault", AGREES + BUSY, 3, {"A": [1, 0, 0, 0], "B": [1, 1, 0, 0], "compare": [1, 0, 1, 0]}),
    ("no text", "", 3, {"compare": [1, 0, 1, 0]}),
    ("a tester's line is missing", AGREES + BUSY + "A 1 exchanges, 0 differ\n", 3, {"A": [1, 0, 0, 0], "B": [1, 1, 0, 0], "compare": [1, 0, 1, 0]}),
    ("it is missing of what agrees", AGREES + BUSY + "B 1 exchanges, 1 differ\n", 3, {"B": [1, 1, 0, 0], "A": [1, 0, 0, 0], "compare": [1, 0, 1, 0]}),
    ("more differ than are counted", HIDDEN + "A 2 exchanges, 0 differ\n", 3, {"A": [1, 1, 0, 0], "compare": [1, 0, 1, 0]}),
    ("fewer differ than are counted", HIDDEN + "A 2 exchanges, 2 differ\n", 3, {"A": [1, 1, 0, 0], "compare": [1, 0, 1, 0]}),
    ("an exchange is missing", AGREES + HIDDEN + "A 3 exchanges, 1 differ\n", 3, {"A": [2, 1, 0, 0], "compare": [1, 0, 1, 0]}),
    ("those of one tester are missing", AGREES + "A 1 exchanges, 0 differ\nB 2 exchanges, 0 differ\n", 3, {"A": [1, 0, 0, 0], "B": [0, 0, 0, 0], "compare": [1, 0, 1, 0]}),
    ("fewer are counted than differ", HIDDEN + "A 0 exchanges, 1 differ\n", 3, {"A": [1, 1, 0, 0], "compare": [1, 0, 1, 0]}),
    ("a line too many", AGREES + HIDDEN + "A 1 exchanges, 1 differ\n", 3, {"A": [2, 1, 0, 0], "compare": [1, 0, 1, 0]}),
    ("nothing compared, without that line", "A 0 exchanges, 0 differ\nB 0 exchanges, 0 differ\n", 3, {"A": [0, 0, 0, 0], "B": [0, 0, 0, 0], "compare": [1, 0, 1, 0]}),
    ("without it behind what the unit didn't answer", QUIET + "A 1 exchanges, 0 differ\nB 0 exchanges, 0 differ\n", 3,
     {"A": [1, 0, 0, 0], "B": [0, 0, 0, 0], "compare": [1, 0, 1, 0]}),
    ("without it behind what is ignored", IGNORED + QUIET + "A 2 exchanges, 0 differ\n", 3, {"A": [2, 0, 0, 1], "compare": [1, 0, 1, 0]}),
    ("response pending alone", PENDING + "A 1 exchanges, 0 differ\n", 0, {"A": [1, 0, 0, 0]}),
    ("the differences alone, of which there are none", "A 1 exchanges, 0 differ\n", 0, {"A": [0, 0, 0, 0]}),
    ("a number that is too long", AGREES.replace(" 12 ", f" {'9' * 400} ") + f"A {'1' * 5000} exchanges, 0 differ\n", 3, {"compare": [1, 0, 1, 0]}),
    ("another text", AGREES + 'uds_play: <"&> \x01\u20ac\nA 1 exchanges, 0 differ\n', 3, {"A": [1, 0, 0, 0], "compare": [1, 0, 1, 0]}),
]


def by_schema() -> None:
    for name, text, status, wanted in TEXTS:
        xml, ended, tells = report(text)
        told(ended == status, f"the status: {name}", f"{ended}, {tells}")
        root = ElementTree.fromstring(xml)
        wrong = list(faults_of(root))
        told(not wrong and root.tag == "testsuites", f"by the schema: {name}", wrong)
        found = numbers(root)
        good = all(said == has for _, said, has in found) and {suite: said for suite, said, _ in found} == wanted
        told(good, f"its numbers: {name}", found)
        sums = [sum(said[at] for _, said, _ in found) for at in range(3)]
        told([int(root.get(key)) for key in ("tests", "failures", "errors")] == sums, f"the sums: {name}", root.attrib)


def line_ends() -> None:
    """A text with CRLF gives the same report; another control character is seen where it is told."""
    for name, text, *_ in TEXTS:
        told(report(text.replace("\n", "\r\n")) == report(text), f"with CRLF: {name}", report(text.replace("\n", "\r\n")))
    _, ended, tells = report(AGREES + "A 1 exchanges, 0 differ\r\r\n")
    told((ended, tells) == (3, "junit: line 2 of standard input is none of compare's: A 1 exchanges, 0 differ?\n"), "a CR too many", tells)


def words() -> None:
    """What a failure says, and when an exchange was."""
    root = ElementTree.fromstring(report(TEXTS[1][1])[0])
    cases = {it.get("name"): it for it in root.iter("testcase")}
    texts = {name: it.find("failure").text for name, it in cases.items() if it.find("failure") is not None}
    for name, text in {
        "1003 DiagnosticSessionControl extendedDiagnosticSession": "line 3: the unit sent to B: nothing, expected 7F1021",
        "unasked 7E00": "line 7: the unit sent to B: 7E00, expected nothing",
        "2301 ReadMemoryByAddress": "line 9: the unit sent to A: 63AA12, expected 63??11",
        "3E80 TesterPresent zeroSubFunction, functional": "line 13: the unit sent to B: 7E00, expected nothing",
    }.items():
        told(texts.get(name) == text, f"the words of {name}", texts)
    seconds = next(it.get("time") for it in root.iter("testcase") if it.get("classname") == "A")
    told(seconds == "0.012", "the time of an exchange", seconds)
    again = "".join(f"{number} {AGREES.split(' ', 1)[1]}" for number in (1, 2, 5)) + UNASKED.replace(" B ", " A ") + AGREES.replace(" A ", " B ")
    root = ElementTree.fromstring(report(again + "A 4 exchanges, 1 differ\nB 1 exchanges, 0 differ\n")[0])
    names = [(it.get("classname"), it.get("name")) for it in root.iter("testcase")]
    first = "1003 DiagnosticSessionControl extendedDiagnosticSession"
    wanted = [("A", first), ("A", f"{first} (2)"), ("A", f"{first} (3)"), ("A", "unasked 7E00"), ("B", first)]
    told(names == wanted, "the names of what comes again", names)


def of_program() -> None:
    """What the program writes is taken as it comes, and the report has the program's status."""
    for case in cases():
        words = next((it for it in case.commands if it[0] == "compare"), None)
        if words is None or case.has_notes or case.name.startswith("cli/"):
            continue
        ran = subprocess.run([PROGRAM, "--quiet", *words], cwd=case.folder, stdin=subprocess.DEVNULL, capture_output=True, timeout=60)
        xml, ended, tells = report(ran.stdout.decode())
        wrong = list(faults_of(ElementTree.fromstring(xml)))
        # where nothing was written, or not all, the report tells of a fault, whichever it was
        told(ended == (3 if ran.stderr else ran.returncode) and not wrong and not tells, f"of the program: {case.name}", f"{ended}, {tells}, {ran}, {wrong}")


def of_the_end() -> None:
    """What can't be written, and words that the tool doesn't take, have a status of their own and no trace of Python."""
    with open("/dev/full", "wb") as full:
        ran = subprocess.run([sys.executable, TOOL], input=TEXTS[0][1].encode(), stdout=full, stderr=subprocess.PIPE, timeout=60)
    told((ran.returncode, ran.stderr) == (7, b"junit: cannot write: No space left on device\n"), "a full device", ran)
    ran = run_without(1, [sys.executable, TOOL], input=TEXTS[0][1].encode())
    told((ran.returncode, ran.stderr) == (7, b"junit: cannot write: standard output is closed\n"), "a closed output", ran)
    ran = run_without(0, [sys.executable, TOOL])
    told((ran.returncode, ran.stderr, b"lines are missing" in ran.stdout) == (3, b"", True), "a closed input", ran)
    ran = run_without(2, [sys.executable, TOOL], input=b"junk\n")
    told((ran.returncode, ran.stdout.splitlines()[-1:]) == (3, [b"</testsuites>"]), "a closed error", ran)
    for coding in ("utf-8:strict", "latin-1:strict", "ascii:strict"):
        words = [sys.executable, TOOL]
        ran = subprocess.run(words, input=b"\xff\xc3\xa4\n", capture_output=True, env={**os.environ, "PYTHONIOENCODING": coding}, timeout=60)
        told((ran.returncode, "none of compare's: \ufffd\u00e4<" in ran.stdout.decode()) == (3, True), f"a locale of {coding}", ran)
    ran = subprocess.run([sys.executable, TOOL, "file"], stdin=subprocess.DEVNULL, capture_output=True, timeout=60)
    told(ran.returncode == 1 and ran.stdout == b"" and b"It reads standard input" in ran.stderr, "a word too many", ran)


def of_help() -> None:
    """The help fits a terminal, and says how a build server takes the report."""
    for word in ("-h", "--help"):
        ran = subprocess.run([sys.executable, TOOL, word], stdin=subprocess.DEVNULL, capture_output=True, text=True, timeout=60)
        told((ran.returncode, ran.stderr) == (0, ""), f"{word} is no fault", ran)
        wide = [line for line in ran.stdout.splitlines() if len(line) > 80]
        told(not wide, f"{word} fits into 80 columns", wide)
        told(all(it in ran.stdout for it in (".gitlab-ci.yml", "junit: report.xml", "Jenkinsfile", "junit 'report.xml'")), f"{word} has both build servers", ran)


def by_parser() -> None:
    """The same by junitparser, as a build server's script would read it."""
    if DEBIAN not in sys.path:
        sys.path.append(DEBIAN)
    try:
        import junitparser
    except ImportError:
        if packages.install("python3-junitparser", "junit: junitparser is installed for the test of reports"):
            return by_parser()
        print("junit: there is no junitparser here, and it can't be installed: reports are read by the schema alone", flush=True)
        return None
    for name, text, _, wanted in TEXTS:
        xml = junitparser.JUnitXml.fromroot(junitparser.junitparser.etree.parse(io.BytesIO(report(text)[0].encode())).getroot())
        found = {it.name: [it.tests, it.failures, it.errors, it.skipped] for it in xml}
        told(found == wanted, f"junitparser reads: {name}", found)
        results = [type(result).__name__ for suite in xml for case in suite for result in case.result]
        kinds = [results.count(kind) for kind in ("Failure", "Error", "Skipped")]
        told(kinds == [sum(it[at] for it in wanted.values()) for at in (1, 2, 3)], f"junitparser counts: {name}", results)
    return None


def main() -> int:
    told.needs_program()
    for group in (by_schema, line_ends, words, of_program, of_the_end, of_help, by_parser):
        group()
    return told.ended()


if __name__ == "__main__":
    sys.exit(main())
