"""Reads what `compare` writes: each exchange of a recording, the testers' counts, and what the text says as a whole. For
tools/junit.py and tools/view.py; no part of what is proved."""
import re
from collections import Counter
from dataclasses import dataclass, field
from typing import Iterable, Optional

# (no number of the program is longer)
EXCHANGE = re.compile(
    r"(\d{1,19}) (\d{10,19})\.(\d{3})\d{3} (\w+) ([PFU]) ((?:[0-9A-F]{2})+|-) "
    r"((?:[0-9A-F]{2})+|-) ((?:[0-9A-F]{2}|\?\?)+|[-=~]) (\d{1,19}|-) (\d{1,19})",
    re.ASCII,
)
COUNT = re.compile(r"(\w+) (\d{1,19}) exchanges, (\d{1,19}) differ", re.ASCII)
NOTHING = "nothing compared"
AGREES, FAULT, DIFFERS, NOT_COMPARED = 0, 3, 8, 9


@dataclass(slots=True)
class Compared:
    """An exchange: the recording's line, its stamp in milliseconds, the tester; `P` or `F`, or `U` for a message that
    nobody asked; the request and what the unit sent, None for nothing; what was expected, as it is told; how many
    milliseconds the answer took, None without one; and how often response pending came before it."""

    line: int
    at: int
    name: str
    kind: str
    request: Optional[bytes]
    sent: Optional[bytes]
    expected: str
    wait: Optional[int]
    pendings: int

    def is_ignored(self) -> bool:
        return self.expected == "~"

    def differs(self) -> bool:
        return self.expected not in ("=", "~")

    def is_seen(self) -> bool:
        """Whether it was compared with anything: it differs, or the unit sent something, response pending included, and it
        isn't ignored."""
        return self.differs() or (not self.is_ignored() and (self.sent is not None or self.pendings > 0))


@dataclass
class Report:
    """What the text tells: the exchanges; each tester's count of them and of those that differ; whether nothing was
    compared; and the first line that is none of `compare`'s, with its number."""

    exchanges: list[Compared] = field(default_factory=list)
    counts: dict[str, tuple[int, int]] = field(default_factory=dict)
    is_nothing: bool = False
    stray: Optional[tuple[int, str]] = None

    def status(self) -> int:
        """The status that the text tells; that of a fault where the testers' lines are missing, or don't fit, or where the
        last line is missing."""
        if not self.counts or self.stray or not self.is_whole() or self.lacks_nothing():
            return FAULT
        if any(differ for _, differ in self.counts.values()):
            return DIFFERS
        return NOT_COMPARED if self.is_nothing else AGREES

    def is_whole(self) -> bool:
        """Whether the exchanges are those that the testers' lines count: all of them, or with `--differences` those that
        differ."""
        differing = Counter(it.name for it in self.exchanges if it.differs())
        good = differing == Counter({name: differ for name, (_, differ) in self.counts.items()})
        return good and (self.tells_all() or self.told() == differing <= self.counted())

    def told(self) -> Counter[str]:
        """How many exchanges of each tester are told."""
        return Counter(it.name for it in self.exchanges)

    def counted(self) -> Counter[str]:
        """How many exchanges each tester's line counts."""
        return Counter({name: many for name, (many, _) in self.counts.items()})

    def tells_all(self) -> bool:
        return self.told() == self.counted()

    def lacks_nothing(self) -> bool:
        """Whether the line `nothing compared` is missing. Where exchanges that don't differ are left out nobody can tell."""
        return not self.is_nothing and self.tells_all() and not any(it.is_seen() for it in self.exchanges)

    def names(self) -> list[str]:
        """The testers in the order of their lines; those without one behind them, as they come."""
        return list(dict.fromkeys([*self.counts, *(it.name for it in self.exchanges)]))


def message(digits: str) -> Optional[bytes]:
    return None if digits == "-" else bytes.fromhex(digits)


def read_exchange(found: re.Match) -> Compared:
    line, seconds, parts, name, kind, request, sent, expected, wait, pendings = found.groups()
    at = int(seconds) * 1000 + int(parts)
    waited = None if wait == "-" else int(wait)
    return Compared(int(line), at, name, kind, message(request), message(sent), expected, waited, int(pendings))


def read_report(lines: Iterable[str]) -> Report:
    """The report of the lines that `compare` wrote; they may end with CRLF."""
    report = Report()
    for number, line in enumerate(lines, 1):
        text = line.removesuffix("\n").removesuffix("\r")
        exchange, count = EXCHANGE.fullmatch(text), COUNT.fullmatch(text)
        if exchange and not report.counts:
            report.exchanges.append(read_exchange(exchange))
        elif count and not report.is_nothing:
            report.counts[count[1]] = int(count[2]), int(count[3])
        elif text == NOTHING and report.counts:
            report.is_nothing = True
        else:
            report.stray = report.stray or (number, text)
    return report


def is_report(text: str) -> bool:
    """Whether a text begins as one of `compare` does."""
    first = text.partition("\n")[0]
    return bool(EXCHANGE.fullmatch(first) or COUNT.fullmatch(first))
