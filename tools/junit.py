#!/usr/bin/env python3
"""Turns what `compare` writes into JUnit XML, which build servers read: a test
suite a tester, a test case an exchange, the difference as the failure's text.
It reads standard input and writes standard output.

    ./uds_play compare SETUP CAPTURE | tools/junit.py > report.xml

The status is the one that the text tells:

    0   nothing differs
    8   something differs
    9   nothing was compared
    3   the testers' lines, or the line `nothing compared`, are missing, since
        the run ended by a fault; or they don't fit the exchanges
    7   the report couldn't be written
    1   a word stands behind the tool's name

With 9 and 3 the report has an error, so it isn't green either.

On GitLab, in .gitlab-ci.yml; the report is kept whatever the status is:

    compare:
      script:
        - ./uds_play compare SETUP CAPTURE | tools/junit.py > report.xml
      artifacts:
        when: always
        reports:
          junit: report.xml

On Jenkins, in a Jenkinsfile:

    stage('compare') {
      steps {
        sh './uds_play compare SETUP CAPTURE | tools/junit.py > report.xml'
      }
      post { always { junit 'report.xml' } }
    }

An exchange that is ignored is a test case that was skipped. A test case is
called as its request, the second of the same ` (2)` behind it, so a build
server follows it from one recording of a sequence to the next: of the whole
text, for with `--differences` these numbers are of what differs alone.
No part of what is proved."""
import os
import signal
import sys
from typing import Iterable, Optional
from xml.sax.saxutils import escape, quoteattr

sys.dont_write_bytecode = True
sys.path.append(os.path.join(os.path.dirname(os.path.abspath(__file__)), "parts"))
import uds_words
from uds_compared import NOT_COMPARED, NOTHING, Compared, Report, read_report
from uds_streams import CannotWrite, input_lines, ready, write_out

CANNOT_WRITE = 7
# the most digits of a message in the name of a test case
MOST_DIGITS = 32
# the lines of an element
Lines = list[str]

# ---- the XML


def element(name: str, attributes: dict, inner: Iterable[str] = (), text: str = "") -> Lines:
    """The lines of an element with a text, or with the lines of what is in it."""
    head = "".join(f" {key}={quoteattr(str(value))}" for key, value in attributes.items())
    if text:
        return [f"<{name}{head}>{escape(text)}</{name}>"]
    if not inner:
        return [f"<{name}{head}/>"]
    return [f"<{name}{head}>", *(f"  {it}" for it in inner), f"</{name}>"]


def shortened(digits: str) -> str:
    return digits if len(digits) <= MOST_DIGITS else f"{digits[:MOST_DIGITS]}.."


def digits(data: Optional[bytes]) -> str:
    return "nothing" if data is None else data.hex().upper()


def case_words(it: Compared) -> str:
    """What an exchange's test case is called: the request, with its service in words."""
    if it.request is None:
        return f"unasked {shortened(digits(it.sent))}"
    words = f"{shortened(digits(it.request))} {uds_words.service_words(it.request)}"
    return f"{words}{', functional' if it.kind == 'F' else ''}"


def named(own: list[Compared]) -> Iterable[tuple[str, Compared]]:
    """A tester's exchanges with the names of their test cases, where a name that came before has its number behind it."""
    count: dict[str, int] = {}
    for it in own:
        words = case_words(it)
        count[words] = count.get(words, 0) + 1
        yield (words if count[words] == 1 else f"{words} ({count[words]})"), it


def message(it: Compared) -> str:
    """What a failure says in short."""
    if it.request is None:
        return "nobody asked"
    return "no answer" if it.sent is None else "an answer to none" if it.expected == "-" else "another answer"


def difference(it: Compared) -> str:
    """What a failure says in full."""
    wanted = "nothing" if it.expected == "-" else it.expected
    return f"line {it.line}: the unit sent to {it.name}: {digits(it.sent)}, expected {wanted}"


def outcome(it: Compared) -> Lines:
    """The lines in the test case of an exchange."""
    if it.is_ignored():
        return element("skipped", {"message": "ignored"})
    return element("failure", {"type": "difference", "message": message(it)}, text=difference(it)) if it.differs() else []


def case_of(name: str, it: Compared) -> Lines:
    attributes = {"classname": it.name, "name": name, "time": f"{(it.wait or 0) / 1000:.3f}"}
    return element("testcase", attributes, outcome(it))


def suite(name: str, cases: list[Lines], counted: dict) -> Lines:
    """A test suite of test cases, each as its lines, with how many of them failed, are in error, or were skipped."""
    attributes = {"name": name, "tests": len(cases), **counted}
    return element("testsuite", attributes, [line for case in cases for line in case])


def suite_of(name: str, report: Report) -> Lines:
    own = [it for it in report.exchanges if it.name == name]
    counted = {"failures": sum(it.differs() for it in own), "errors": 0, "skipped": sum(it.is_ignored() for it in own)}
    return suite(name, [case_of(words, it) for words, it in named(own)], counted)


def errors_of(report: Report) -> list[str]:
    """What is wrong with the run as a whole."""
    if report.stray:
        number, text = report.stray
        return [f"line {number} of standard input is none of compare's: {text[:60]}"]
    if not report.counts:
        return ["the run ended by a fault: the testers' lines are missing"]
    if not report.is_whole():
        return ["the testers' lines don't fit the exchanges: a part of the text is missing"]
    if report.lacks_nothing():
        return [f"the last line is missing: {NOTHING}"]
    return [NOTHING] if report.status() == NOT_COMPARED else []


def error_suite(words: str) -> Lines:
    """A test suite that says what is wrong with the run as a whole."""
    inner = element("error", {"type": "compare", "message": printable(words)}, text=printable(words))
    case = element("testcase", {"classname": "compare", "name": "the run", "time": "0.000"}, inner)
    return suite("compare", [case], {"failures": 0, "errors": 1, "skipped": 0})


def printable(text: str) -> str:
    """A text without what XML can't have."""
    return "".join(it if it.isprintable() else "?" for it in text)


def xml_of(report: Report) -> Lines:
    """The lines of the XML."""
    errors = errors_of(report)
    suites = [suite_of(name, report) for name in report.names()] + [error_suite(it) for it in errors]
    attributes = {
        "name": "uds_play compare",
        "tests": len(report.exchanges) + len(errors),
        "failures": sum(it.differs() for it in report.exchanges),
        "errors": len(errors),
    }
    return ['<?xml version="1.0" encoding="UTF-8"?>', *element("testsuites", attributes, [line for it in suites for line in it])]


def is_written(texts: Iterable[str]) -> bool:
    """Writes texts to standard output; whether it took them, which is told where it didn't."""
    try:
        write_out(texts)
    except CannotWrite as fault:
        print(f"junit: {fault}", file=sys.stderr)
        return False
    return True


def main() -> int:
    ready()
    if sys.argv[1:] in (["-h"], ["--help"]):
        return 0 if is_written([f"{__doc__}\n"]) else CANNOT_WRITE
    if sys.argv[1:]:
        print(__doc__, file=sys.stderr)
        return 1
    report = read_report(input_lines())
    if not is_written(f"{it}\n" for it in xml_of(report)):
        return CANNOT_WRITE
    if report.stray:
        print(f"junit: {printable(errors_of(report)[0])}", file=sys.stderr)
    return report.status()


if __name__ == "__main__":
    signal.signal(signal.SIGPIPE, signal.SIG_DFL)
    sys.exit(main())
