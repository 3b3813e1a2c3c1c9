#!/usr/bin/env python3
"""Shows a run: who asked what, what came back, who held the session when. No part of what is proved.

    tools/view.py SETUP RUN.. > PAGE.html    one page with a chart and the journal, which opens from a file
    tools/view.py --text SETUP RUN..         the journal in words, a line a step

RUN is what `serial`, `play`, `bus` or `bus --journal` wrote. The frames and the journal of one run may stand in two
files, as `bus` writes them; without a journal the messages of the frames are shown. Of what `compare` wrote the page has
the recorded unit and the server side by side. `-` is standard input. The page's title is the names of the files, of a comparison
`RUN: the recorded unit beside the server of SETUP`, or what `--title` says.
"""
import argparse
import html
import json
import os
import signal
import sys
from bisect import bisect_left
from dataclasses import dataclass
from typing import Any, Iterator, NoReturn, Optional

sys.dont_write_bytecode = True
sys.path.append(os.path.join(os.path.dirname(os.path.abspath(__file__)), "parts"))
from uds_compared import is_report, read_report
from uds_names import service_name
from uds_rules import pending
from uds_run import ONE_FRAME, Entry, Held, Message, Run, Session, Setup, Wrong, messages, read_run, read_setup, waits
from uds_streams import fault_words, input_bytes, ready, write_out
from uds_words import answer_words, changes, due_words, held_words, message_words, request_words, seconds
from view_exchanges import exchanges_data, exchanges_text

PAGE = os.path.join(os.path.dirname(os.path.abspath(__file__)), "parts", "view")
KINDS = {"T": 0, "P": 1, "F": 2}
# what the page is told of something, by its names
Shown = dict[str, Any]
OUTCOMES = {"passed": 0, "done": 1, "refused": 2, "suppressed": 3, "silent": 4, "empty": 5}


# ---- the text


def plain(name: str) -> str:
    """A tester's name without what would steer a terminal."""
    return "".join(it if it.isprintable() else "?" for it in name)


def step_words(entry: Entry, outcome: str, setup: Setup) -> str:
    """An entry of the journal in words."""
    if entry.kind == "T":
        return f"{entry.ticks} ms pass"
    functional = ", functional" if entry.kind == "F" else ""
    return f"{request_words(entry.request)}{functional} -> {answer_words(entry, outcome, setup)}"


def journal_text(setup: Setup, run: Run) -> Iterator[str]:
    """The journal, a line a step, with when its answer is due, where that is later, and what it changes about the session
    behind `*`."""
    wide = max((len(seconds(it.time)) for it in run.entries), default=0)
    names = max(map(len, setup.names))
    session, before = Session(setup), Held()
    for entry in run.entries:
        late = [] if entry.reply is None else due_words(session.wait(entry), setup)
        outcome = session.take(entry)
        held = session.held()
        notes = "".join(f"  * {it}" for it in [*late, *changes(before, held, setup)])
        step = step_words(entry, outcome, setup)
        yield f"{seconds(entry.time):>{wide}} {plain(setup.names[entry.place]):<{names}}  {step}{notes}\n"
        before = held


def frames_text(setup: Setup, run: Run) -> Iterator[str]:
    """The messages of the frames, a line a message, of several frames with the time that they took."""
    sent = messages(run.frames)
    wide = max((len(seconds(it.frames[0].time)) for it in sent), default=0)
    names = max(map(len, setup.names))
    for it in sent:
        first, last = it.frames[0].time, it.frames[-1].time
        more = f"  * {len(it.frames)} frames in {last - first} ms" if len(it.frames) > 1 else ""
        yield f"{seconds(first):>{wide}} {plain(setup.names[it.place]):<{names}}  {message_words(it, setup)}{more}\n"


# ---- the page


class Words:
    """Texts of a page, each once."""

    def __init__(self) -> None:
        self.places: dict[tuple[str, str], int] = {}

    def place(self, words: str, data: bytes = b"") -> int:
        """Where the words stand, with the bytes of a message of more than one classic frame."""
        return self.places.setdefault((words, data.hex().upper() if len(data) > ONE_FRAME else ""), len(self.places))


def columns(setup: Setup, run: Run, words: Words) -> tuple[dict[str, list[int]], list[Held]]:
    """The journal by columns, and the states of the session, each once."""
    found = {it: [] for it in ("time", "place", "kind", "ask", "answer", "outcome", "held")}
    session, states = Session(setup), {Held(): 0}
    for entry in run.entries:
        outcome = session.take(entry)
        asked = entry.kind != "T"
        found["time"].append(entry.time)
        found["place"].append(entry.place)
        found["kind"].append(KINDS[entry.kind])
        found["ask"].append(words.place(request_words(entry.request), entry.request) if asked else entry.ticks)
        found["answer"].append(words.place(answer_words(entry, outcome, setup), entry.reply or b"") if asked else -1)
        found["outcome"].append(OUTCOMES[outcome])
        found["held"].append(states.setdefault(session.held(), len(states)))
    return found, list(states)


@dataclass
class Due:
    """A message that the unit sends for the entry at this place: its bytes, the milliseconds after the request at which it
    is due, and whether it is the reply, else it says response pending."""

    at: int
    data: bytes
    after: int
    is_reply: bool


def due(setup: Setup, run: Run) -> dict[int, list[Due]]:
    """What the unit sends to each tester, by its place, in order: for each entry with a reply each response pending, and
    then the reply."""
    found = {}
    for at, (entry, after) in enumerate(zip(run.entries, waits(setup, run.entries))):
        if entry.reply is not None:
            own = found.setdefault(entry.place, [])
            own += [Due(at, pending(entry.request), it, False) for it in setup.times.pendings(after)]
            own.append(Due(at, entry.reply, after, True))
    return found


def pair(setup: Setup, run: Run, sent: list[Message]) -> list[Optional[Due]]:
    """For what each message was sent, None of flow control: a tester's replies are sent in the order of the journal."""
    queues = {place: iter(own) for place, own in due(setup, run).items()}
    found = [None if it.length is None else next(queues.get(it.place, iter(())), None) for it in sent]
    for it, of in zip(sent, found):
        if it.length is not None and (of is None or len(of.data) != it.length or not of.data.startswith(it.carried)):
            raise Wrong("the frames aren't those of the journal")
    return found


def offset(run: Run, sent: list[Message], pairs: list[Optional[Due]]) -> int:
    """What the stamps of the frames are ahead of the journal's times: the first message of a run goes when it is due."""
    ahead = (it.frames[0].time - run.entries[of.at].time - of.after for it, of in zip(sent, pairs) if of is not None)
    return min(ahead, default=0)


class Order:
    """Finds for a flow control frame the request that it let come: the tester's next one of several frames."""

    def __init__(self, run: Run) -> None:
        self.entries = run.entries
        self.long: dict[int, list[int]] = {}
        self.last: dict[int, int] = {}
        for at, entry in enumerate(run.entries):
            # (a functional one is never of several)
            if entry.kind == "P" and len(entry.request) > ONE_FRAME:
                self.long.setdefault(entry.place, []).append(at)

    def before(self, message: Message, ahead: int) -> int:
        """The entry before which the frame is shown; without such a request, the end."""
        found = self.long.get(message.place, [])
        time = message.frames[0].time - ahead
        at = max(
            bisect_left(found, self.last.get(message.place, 0)),
            bisect_left(found, time, key=lambda it: self.entries[it].time),
        )
        return found[at] if at < len(found) else len(self.entries)

    def behind(self, message: Message, at: int, ahead: int) -> int:
        """The entry before which a response pending to the request at this place is shown: the tester's next one later
        than it; without one, the end."""
        time = message.frames[0].time - ahead
        for number in range(at + 1, len(self.entries)):
            entry = self.entries[number]
            if entry.place == message.place and (entry.time > time or entry.time == time and entry.kind != "T"):
                return number
        return len(self.entries)


def shown_frames(message: Message, base: int) -> list[list]:
    """A message's frames for the page: the stamp, the milliseconds since `base`, the bytes."""
    return [[seconds(it.time), it.time - base, it.data.hex().upper()] for it in message.frames]


def service_of(message: Message) -> str:
    """The service identifier to which a message belongs, in hex; empty of flow control."""
    data = message.carried
    if message.length is None:
        return ""
    return f"{data[1] if data[0] == 0x7F and len(data) > 1 else data[0] & 0xBF:02X}"


def lone(message: Message, before: int, ahead: int, setup: Setup) -> Shown:
    """A message without an entry, for the page; its stamp is so much ahead of the journal's times."""
    data = message.carried
    kind = "flow" if message.length is None else "done" if data[0] != 0x7F else "refused"
    if len(data) == 3 and data[0] == 0x7F and data[2] == 0x78:
        kind = "pending"
    return {
        "before": before,
        "time": max(message.frames[0].time - ahead, 0),
        "place": message.place,
        "kind": kind,
        "service": service_of(message),
        "words": message_words(message, setup),
        "frames": shown_frames(message, message.frames[0].time),
        "length": message.length,
    }


def late(message: Message, of: Due, entry: Entry, ahead: int, order: Order, setup: Setup) -> Shown:
    """A reply that goes later than its request, for the page: an arrow of its own, with how long it took."""
    found = lone(message, order.behind(message, of.at, ahead), ahead, setup)
    return found | {"of": of.at, "after": found["time"] - entry.time, "cut": not message.is_whole()}


def chart(setup: Setup, run: Run) -> tuple[dict[int, list[list]], list[int], list[Shown]]:
    """The frames of replies that go with their requests, by entry; the entries of whose replies not all were sent; and the
    messages that stand alone: of no entry, response pending, and replies that go later."""
    sent = messages(run.frames)
    if "journal" not in run.shows:
        return {}, [], [lone(it, 0, 0, setup) for it in sent]
    pairs, order = pair(setup, run, sent), Order(run)
    ahead = offset(run, sent, pairs)
    replies, cut, rest = {}, [], []
    for it, of in zip(sent, pairs):
        if of is None:
            rest.append(lone(it, order.before(it, ahead), ahead, setup))
        elif not of.is_reply:
            rest.append(lone(it, order.behind(it, of.at, ahead), ahead, setup))
        else:
            order.last[it.place] = of.at
            entry = run.entries[of.at]
            if it.frames[0].time - ahead > entry.time:
                rest.append(late(it, of, entry, ahead, order, setup))
                continue
            replies[of.at] = shown_frames(it, entry.time + ahead)
            cut += [] if it.is_whole() else [of.at]
    return replies, cut, sorted(rest, key=lambda it: it["before"])


def services(run: Run, rest: list[Shown]) -> dict[str, str]:
    """The names of the services that were asked for, by their identifiers in hex."""
    asked = {it.request[0] for it in run.entries if it.request}
    asked |= {int(it["service"], 16) for it in rest if it["service"]}
    return {f"{it:02X}": service_name(it) for it in sorted(asked)}


def page_data(setup: Setup, run: Run, title: str) -> Shown:
    """All that the page shows."""
    words = Words()
    entries, states = columns(setup, run, words)
    replies, cut, rest = chart(setup, run)
    return {
        "title": title,
        "names": setup.names,
        "shows": sorted(run.shows),
        "entries": entries,
        "texts": [list(it) for it in words.places],
        "states": [[it.holder, it.level, list(it.routines), held_words(it, setup)] for it in states],
        "replies": replies,
        "cut": cut,
        "lone": rest,
        "services": services(run, rest),
        "end": run.end,
    }


def part(name: str) -> str:
    with open(os.path.join(PAGE, name), encoding="ascii") as it:
        return it.read()


def page(data: Shown, name: str = "page") -> str:
    """The page of this name, which needs nothing beside itself. No text of the run can end the data's element."""
    text = json.dumps(data, separators=(",", ":")).replace("<", "\\u003c")
    title = html.escape(data["title"]).encode("ascii", "xmlcharrefreplace").decode()
    script = part("common.js") + part(f"{name}.js")
    found = part(f"{name}.html").replace("{{style}}", part("page.css")).replace("{{script}}", script)
    before, after = found.split("{{data}}")
    return before.replace("{{title}}", title) + text + after


def read(path: str) -> str:
    with input_bytes() if path == "-" else open(path, "rb") as it:
        return it.read().decode("utf-8", "replace")


def read_lines(path: str) -> str:
    """A text whose lines may end with CRLF, as they do once Windows had it."""
    return read(path).replace("\r\n", "\n")


def show_run(setup: Setup, run: Run, title: str, as_text: bool) -> None:
    """Writes a run, as text or as a page."""
    if as_text:
        write_out((journal_text if "journal" in run.shows else frames_text)(setup, run))
    else:
        write_out([page(page_data(setup, run, title))])


def show_exchanges(setup: Setup, name: str, text: str, title: str, as_text: bool) -> None:
    """Writes what `compare` wrote, as text or as a page."""
    report = read_report(text.splitlines())
    if as_text:
        write_out(exchanges_text(setup, report, name))
    else:
        write_out([page(exchanges_data(setup, report, name, title), "exchanges")])


def file_name(path: str) -> str:
    return "standard input" if path == "-" else os.path.basename(path)


def note_empty(texts: list[tuple[str, str]]) -> None:
    """Says so where there is nothing to show. It is no fault: `bus` writes nothing where the unit sends nothing."""
    if not any(text for _, text in texts):
        names = ", ".join(file_name(it) for it, _ in texts)
        print(f"view: note: nothing is shown, for nothing stands in {names}", file=sys.stderr)


class CommandLine(argparse.ArgumentParser):
    """The words of the command line; where they are at fault the status is 1."""

    def exit(self, status: int = 0, message: Optional[str] = None) -> NoReturn:
        super().exit(min(status, 1), message)


def main(given: Optional[list[str]] = None) -> int:
    """Runs the tool by these words, or by those of the command line; returns its status."""
    ready()
    words = CommandLine(description=__doc__, formatter_class=argparse.RawDescriptionHelpFormatter)
    words.add_argument("--text", action="store_true", help="the journal in words, in place of the page")
    words.add_argument("--title", metavar="TEXT", help="the page's title, where it isn't the names of the files")
    words.add_argument("setup", metavar="SETUP")
    words.add_argument("run", metavar="RUN", nargs="+")
    given = words.parse_args(given)
    if [given.setup, *given.run].count("-") > 1:
        words.error("standard input can be read once: more than one file is -")
    try:
        setup = read_setup(read(given.setup))
        texts = [(it, read_lines(it)) for it in given.run]
        note_empty(texts)
        if len(texts) == 1 and is_report(texts[0][1]):
            name = f"{file_name(given.run[0])}: the recorded unit beside the server of {file_name(given.setup)}"
            show_exchanges(setup, *texts[0], given.title or name, given.text)
        else:
            title = given.title or " ".join(file_name(it) for it in given.run)
            show_run(setup, read_run(setup, texts), title, given.text)
    except (Wrong, OSError) as fault:
        print(f"view: {fault if isinstance(fault, Wrong) else fault_words(fault)}", file=sys.stderr)
        return 1
    return 0


if __name__ == "__main__":
    signal.signal(signal.SIGPIPE, signal.SIG_DFL)
    sys.exit(main())
