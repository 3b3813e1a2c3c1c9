"""What `compare` wrote, for tools/view.py: each exchange with what the recorded unit sent beside what the server replies.
No part of what is proved."""
from itertools import zip_longest
from typing import Iterator

from uds_compared import NOTHING, Compared, Report
from uds_names import service_name
from uds_run import Setup, Wrong
from uds_words import reply_words, request_words

KINDS = {"P": 0, "F": 1, "U": 2}
AGREES, DIFFERS, IGNORED = range(3)


def state_of(it: Compared) -> int:
    return IGNORED if it.is_ignored() else DIFFERS if it.differs() else AGREES


def ask_words(it: Compared) -> str:
    if it.request is None:
        return "nobody asked"
    return request_words(it.request) + (", functional" if it.kind == "F" else "")


def sent_words(it: Compared, setup: Setup) -> str:
    return "no answer" if it.sent is None else reply_words(it.sent, setup)


def expected_words(it: Compared, setup: Setup) -> str:
    """What the server replies; bytes that are any stand as they are told."""
    known = {"=": "the same", "~": "ignored", "-": "no answer"}
    if it.expected in known:
        return known[it.expected]
    return it.expected if "?" in it.expected else reply_words(bytes.fromhex(it.expected), setup)


def expected_digits(it: Compared) -> str:
    """The digits of the server's reply, as far as they are told."""
    if it.expected == "=":
        return it.sent.hex().upper() if it.sent else ""
    return "" if it.expected in "~-" else it.expected


def is_silent(it: Compared) -> bool:
    """Whether the server is known to reply nothing."""
    return it.expected == "-" or (it.expected == "=" and it.sent is None)


def first_other(it: Compared) -> str:
    """The first byte, from 0, that differs, for answers that read alike: their words leave out what is long."""
    for at, pair in enumerate(zip_longest(it.sent or b"", bytes.fromhex(expected_digits(it)))):
        own, server = ("none" if byte is None else f"{byte:02X}" for byte in pair)
        if own != server:
            return f" (byte {at}: {own}, server {server})"
    return ""


def server_note(it: Compared, setup: Setup) -> str:
    """What a line says of the server's reply; nothing where it agrees."""
    if not it.differs():
        return "  * ignored" if it.is_ignored() else ""
    words = expected_words(it, setup)
    return f"  * server: {words}{first_other(it) if words == sent_words(it, setup) else ''}"


def checked(setup: Setup, report: Report, name: str) -> list[Compared]:
    """The exchanges, by their lines; Wrong where they aren't of this setup, or a line is none of `compare`'s."""
    if report.stray:
        raise Wrong(f"{name} line {report.stray[0]}: no line of a comparison")
    for it in report.names():
        if it not in setup.names:
            raise Wrong(f"{name}: no tester of the setup is {it}")
    return sorted(report.exchanges, key=lambda it: (it.line, setup.names.index(it.name)))


# ---- the text


def exchanges_text(setup: Setup, report: Report, name: str) -> Iterator[str]:
    """A line an exchange: the recording's line, its stamp, the tester, the request, and what the unit sent, beside what the
    server replies where that is another answer."""
    found = checked(setup, report, name)
    wide = max((len(str(it.line)) for it in found), default=0)
    names = max(map(len, setup.names))
    for it in found:
        stamp = f"{it.at // 1000}.{it.at % 1000:03d}"
        wait = f" after {it.wait} ms" if it.wait is not None else ""
        often = "once" if it.pendings == 1 else f"{it.pendings} times"
        pendings = f", response pending {often} before" if it.pendings else ""
        answer = f"{sent_words(it, setup)}{wait}{pendings}{server_note(it, setup)}"
        yield f"{it.line:>{wide}} {stamp} {it.name:<{names}}  {ask_words(it)} -> {answer}\n"


# ---- the page


class Words:
    """Texts of a page with the digits behind them, each once."""

    def __init__(self) -> None:
        self.places: dict[tuple[str, str], int] = {}

    def place(self, words: str, digits: str = "") -> int:
        return self.places.setdefault((words, digits), len(self.places))


def service_of(it: Compared) -> str:
    """The service identifier that an exchange belongs to, in hex."""
    data = it.request or it.sent or b"\0"
    if it.request:
        return f"{data[0]:02X}"
    return f"{data[1] if data[0] == 0x7F and len(data) > 1 else data[0] & 0xBF:02X}"


def columns(setup: Setup, found: list[Compared], words: Words) -> dict[str, list]:
    """The exchanges by columns."""
    return {
        "line": [it.line for it in found],
        "time": [it.at for it in found],
        "place": [setup.names.index(it.name) for it in found],
        "kind": [KINDS[it.kind] for it in found],
        "ask": [words.place(ask_words(it)) for it in found],
        "sent": [words.place(sent_words(it, setup), it.sent.hex().upper() if it.sent else "") for it in found],
        # (of most exchanges it is what the unit sent)
        "expected": [-1 if it.expected == "=" else words.place(expected_words(it, setup), expected_digits(it)) for it in found],
        "silent": [int(is_silent(it)) for it in found],
        "wait": [-1 if it.wait is None else it.wait for it in found],
        "pendings": [it.pendings for it in found],
        "state": [state_of(it) for it in found],
        "service": [service_of(it) for it in found],
    }


def notes_of(report: Report) -> list[str]:
    """What the text says as a whole."""
    if not report.counts:
        return ["the run ended by a fault"]
    left_out = sum(many for many, _ in report.counts.values()) - len(report.exchanges)
    return ([f"{left_out} that agree or are ignored aren't told"] if left_out > 0 else []) + ([NOTHING] if report.is_nothing else [])


def exchanges_data(setup: Setup, report: Report, name: str, title: str) -> dict:
    """All that the page shows."""
    words, found = Words(), checked(setup, report, name)
    exchanges = columns(setup, found, words)
    return {
        "title": title,
        "names": setup.names,
        "exchanges": exchanges,
        "texts": [list(it) for it in words.places],
        "services": {it: service_name(int(it, 16)) for it in sorted(set(exchanges["service"]))},
        "notes": notes_of(report),
    }
