#!/usr/bin/env python3
"""Makes the setup by which the server answers as the unit in a recording did, and says of what it can't explain where it
stands.

    tools/learn.py [--pair REQUEST:RESPONSE[:FUNCTIONAL][:fd][=NAME]].. [--functional ID] [--interface NAME] [--varies] CAPTURE > unit.toml

Example:
    tools/learn.py --pair 7E0:7E8=workshop --pair 7A0:7A8=end_of_line demo/other_unit.log > unit.toml

CAPTURE is a recording of `candump -L`, or, where python-can is installed, one of ASC, BLF, TRC, CSV or MF4, or a data base of
python-can (.db). The testers are the pairs that are given, or those that are found. A pair of which a frame is one of CAN FD
talks by that, and so does one that is given as REQUEST:RESPONSE:fd=NAME. A tester has the functional identifier that is found,
that of `--functional`, or its own, given as REQUEST:RESPONSE:FUNCTIONAL=NAME. With `--interface` the frames of one interface
count. With `--varies` an identifier that was read with different values, and seeds that differ, aren't compared, but for
how long they are; where the same request was refused in between, or the length changed, a row has the answers in turn, with
`??` for each byte of the value. Rows of other services have `??` for what changed between equal requests: the whole value where
its place is known (OBD, 23, 2F, results of routines), else the bytes that changed. Without it the answers come one after the
other, round and round.

The judge is `compare` of the program that ./uds_play starts: a setup is made, compared with the recording, and what differs
becomes rows of answers, until nothing differs or nothing gets better. The status is 0 where nothing differs; 8 where
something does, which is told on standard error, exchange by exchange, or where the recording lacks a frame of a message of
several: then nothing is learned of that exchange, which is told by its line; 9 where nothing was compared; else that of the
program's fault: with 2 the setup that it doesn't take is printed. No part of what is proved."""
import argparse
import os
import re
import shutil
import subprocess
import sys
import tempfile
import time
from dataclasses import replace
from typing import Any, Iterable, Iterator, NoReturn, Optional

sys.dont_write_bytecode = True
sys.path.append(os.path.join(os.path.dirname(os.path.abspath(__file__)), "parts"))
from learn_bus import ANSWER_MS, FUNCTIONAL, FUNCTIONAL_29, MOST_TESTERS, Pair, Sending
from learn_bus import end_of, functional_of, look, pair_of, pairs_of, sending_of
from learn_frames import BLOCK
from learn_judge import AGREES, BAD_SETUP, DIFFERS, NOTHING, Exchange, Judge, Program, Refused, Verdict, shortened
from learn_lost import knowing, lines_at, lost_of
from learn_model import is_left_pending, learn_model, session_of
from learn_plan import Plan
from learn_rows import MOST_BYTES
from learn_setup import Row, Unit, is_apart, setup_text, why_apart
from uds_streams import CannotWrite, fault_words, input_bytes, ready, write_out

TOP = os.path.dirname(os.path.dirname(os.path.abspath(__file__)))
PROGRAM = f"{TOP}/crates/uds_play/out/uds_play"
# where Debian's packages stand, for a Python that isn't Debian's
DEBIAN = "/usr/lib/python3/dist-packages"
OTHERS = (".asc", ".blf", ".trc", ".csv", ".mf4", ".db")
# how a line of `candump -L` begins
OF_CANDUMP = re.compile(rb"\(\d+\.\d+\) +\S+ +[0-9A-Fa-f]+#")
# the most rounds, and how many of them may bring nothing
MOST_ROUNDS, MOST_IDLE = 16, 6
# the most differences that are told one by one
MOST_TOLD = 1000
MOST_OF_11_BITS, MOST_OF_29_BITS = 0x7FF, 0x1FFFFFFF
# the status where the user ends it
INTERRUPTED = 130


class Progress:
    """A bar on a terminal, where it takes more than a second; nothing elsewhere."""

    def __init__(self) -> None:
        self.begun, self.is_shown = time.monotonic(), False

    def at(self, part: float, words: str) -> None:
        if sys.stderr.isatty() and time.monotonic() - self.begun > 1:
            self.is_shown = True
            print(f"\r\x1b[K{'#' * round(part * 30):<30} {words}", end="", file=sys.stderr, flush=True)

    def through(self, path: str, begin: float, end: float, words: str) -> Iterator[str]:
        """A recording in blocks of whole lines; reading it is the part from `begin` to `end` of all that is done."""
        size, done = max(os.path.getsize(path), 1), 0
        with open(path, encoding="latin-1", newline="\n") as it:
            while block := it.read(BLOCK):
                whole = block + it.readline()
                done += len(whole)
                yield whole
                self.at(begin + (end - begin) * min(done / size, 1), words)

    def end(self) -> None:
        if self.is_shown:
            print("\r\x1b[K", end="", file=sys.stderr, flush=True)


def plain(text: str) -> str:
    """A text in one line, without what would steer a terminal."""
    return "".join(it if it.isprintable() else "?" for it in text)


def say(text: str) -> None:
    print(f"learn: {plain(text)}", file=sys.stderr)


# ---- the recording


def converted(path: str, room: str) -> str:
    """The path of the recording in the form of `candump -L`."""
    # (what comes by a pipe can be read once)
    if path == "-" or os.path.exists(path) and not os.path.isfile(path) and not os.path.isdir(path):
        with input_bytes() if path == "-" else open(path, "rb") as it, open(f"{room}/capture.log", "wb") as out:
            shutil.copyfileobj(it, out)
        return f"{room}/capture.log"
    if not path.lower().endswith(OTHERS):
        return path
    # (python-can makes a data base that isn't there)
    with open(path, "rb") as it:
        if OF_CANDUMP.match(it.readline(100)):
            raise OSError(f"{path}: by its first line it is a log of candump -L; give it a name that ends in .log")
    read_by_python_can(path, f"{room}/capture.log")
    if not os.path.getsize(f"{room}/capture.log"):
        say(f"{path}: python-can finds no frame in it")
    return f"{room}/capture.log"


def read_by_python_can(path: str, log: str) -> None:
    """Writes a recording of another form as a log. OSError where it can't be read; ImportError where python-can isn't there."""
    if os.path.isdir(f"{DEBIAN}/can") and DEBIAN not in sys.path:
        sys.path.append(DEBIAN)
    import can  # pylint: disable=import-outside-toplevel

    try:
        with can.LogReader(path) as messages, open(log, "w", encoding="ascii") as out:
            out.writelines(line_of(it) for it in messages)
    except OSError:
        raise
    except Exception as fault:  # pylint: disable=broad-except
        # (a file of another form, or a part of one, may raise anything there)
        raise OSError(f"{path}: python-can can't read it: {fault}") from None


def line_of(message: Any) -> str:
    """A message of python-can as a line."""
    identifier = f"{message.arbitration_id:08X}" if message.is_extended_id else f"{message.arbitration_id:03X}"
    data = bytes(message.data).hex().upper()
    flags = message.bitrate_switch | message.error_state_indicator << 1
    # (a form may not keep which frames are of CAN FD: a longer one is)
    is_fd = message.is_fd or len(message.data) > 8
    rest = f"#R{message.dlc}" if message.is_remote_frame else f"##{flags:X}{data}" if is_fd else f"#{data}"
    us = round(message.timestamp * 1_000_000)
    channel = 0 if message.channel is None else message.channel
    name = f"can{channel}" if str(channel).isdigit() else "".join(str(channel).split()) or "can0"
    return "" if message.is_error_frame else f"({us // 1_000_000:010d}.{us % 1_000_000:06d}) {name} {identifier}{rest}\n"


# ---- the testers


def named(pairs: Iterable[Pair]) -> list[Pair]:
    """Each pair with a name."""
    return [it if it.name else replace(it, name=f"tester_{it.request:X}") for it in pairs]


def other_way(pair: Pair) -> tuple[str, str]:
    """A pair's identifiers as lines have them, exchanged."""
    request, response = pair.texts()
    return response, request


def testers_of(given: list[Pair], found: list[Pair]) -> list[Pair]:
    """The pairs that can be learned, of those given or else of those found; tells of the others."""
    own = given or found
    taken = own[:MOST_TESTERS]
    for it in given:
        if other_way(it) in map(Pair.texts, found):
            say(f"--pair {it.shown()}: the recording asks by {it.texts()[1]} and answers by {it.texts()[0]}; are they exchanged?")
    for it in own[MOST_TESTERS:]:
        say(f"the pair {it.shown()} is one too many: a setup has {MOST_TESTERS} testers")
    if len(taken) > 1 and not given:
        say(f"{len(taken)} pairs are taken as testers of one unit: {', '.join(it.shown() for it in taken)}; --pair takes one of them")
    return named(taken)


# ---- rounds


def count_of(verdict: Verdict) -> int:
    """How many exchanges differ."""
    return len(verdict.differing())


def learned(unit: Unit, judge: Judge, source: str, progress: Progress) -> tuple[str, Verdict, int]:
    """The setup by which the fewest exchanges differ, what the judge says of it, and how many rows found no room in it."""
    exchanges = judge(setup_text(unit, source)).exchanges
    unit.unheard = unheard(exchanges)
    if unit.unheard:
        exchanges = judge(setup_text(unit, source)).exchanges
    unit.cut_off = cut_off(exchanges, unit)
    progress.at(0.3, "the model")
    learn_model(unit, exchanges)
    plan, best = Plan(exchanges), None
    unit.rows = plan.rows(unit, exchanges)
    # (of a long recording they are much, and each verdict has its own)
    del exchanges
    idle = 0
    for number in range(MOST_ROUNDS):
        text = setup_text(unit, source)
        verdict = judge(text)
        progress.at(0.4 + 0.6 * number / MOST_ROUNDS, f"{count_of(verdict)} exchanges differ")
        idle = 0 if best is None or count_of(verdict) < count_of(best[1]) else idle + 1
        best = (text, verdict, plan.left_out, unit.rows) if idle == 0 else best
        if verdict.status != DIFFERS or not count_of(verdict) or idle > MOST_IDLE:
            break
        is_wider, before = plan.widen(verdict.exchanges), unit.rows
        unit.rows = plan.rows(unit, verdict.exchanges)
        # (by other rows a message may answer another request)
        if not is_wider and unit.rows == before:
            break
    *found, unit.rows = prompter(unit, judge, source, best)
    return tuple(found)


def prompter(unit: Unit, judge: Judge, source: str, best: tuple[str, Verdict, int, list[Row]]) -> tuple[str, Verdict, int, list[Row]]:
    """The best setup, without the delay of rows whose answers were prompt but for a few, where no more differs by that: a session
    may live on while an answer is late."""
    _, verdict, left_out, rows = best
    rows = [replace(it, after=0) if it.is_prompt else it for it in rows]
    if rows == best[3]:
        return best
    text = setup_text(replace(unit, rows=rows), source)
    found = judge(text)
    return (text, found, left_out, rows) if count_of(found) <= count_of(verdict) else best


def unheard(exchanges: list[Exchange]) -> set[int]:
    """The places of testers to which no functional request was answered, though the same one was to another tester. One that begins
    a session isn't among them, for functional requests may keep that up."""
    heard = {(it.line, it.place) for it in exchanges if it.kind == "F" and (it.sent or it.pendings)}
    lines, others = {line for line, _ in heard}, {place for _, place in heard}
    others |= {it.place for it in exchanges if it.request and session_of(it) > 1}
    return {it.place for it in exchanges if it.kind == "F" and it.line in lines} - others


def cut_off(exchanges: list[Exchange], unit: Unit) -> list[Exchange]:
    """The last requests of testers that have no answer, though the server has one, where the recording ends before it had to
    come."""
    found = {}
    for it in exchanges:
        if it.sent is not None:
            found.pop(it.place, None)
        elif it.differs() and unit.end is not None and 0 <= unit.end - it.at < (unit.p2_star if it.pendings else ANSWER_MS):
            found.setdefault(it.place, it)
    return list(found.values())


def tell_cut_off(unit: Unit) -> None:
    """Tells of the requests at the recording's end that are learned without their answer."""
    for it in unit.cut_off:
        asked, late = shortened(it.request.hex().upper()), unit.end - it.at
        how = "response pending alone" if it.pendings else "unanswered"
        say(f"line {it.line}: the recording ends {late} ms behind {asked} of {it.name}, before an answer: it is learned as {how}")


def tell_left_pending(verdict: Verdict, unit: Unit) -> None:
    """Tells of the requests whose answer never came behind response pending; those that the end cuts off are told already."""
    told = {(it.line, it.place) for it in unit.cut_off}
    left = [it for it in verdict.exchanges if is_left_pending(it) and (it.line, it.place) not in told]
    if len(left) == 1:
        asked = shortened(left[0].request.hex().upper())
        say(f"line {left[0].line}: {left[0].name} was sent response pending to {asked}, and nothing behind it: it is learned so")
    elif left:
        say(f"{len(left)} requests had response pending and nothing behind it, the first at line {left[0].line}: they are learned so")


def is_too_long(it: Exchange) -> bool:
    """Whether a row can't have what the unit sent."""
    return len(it.sent or b"") > MOST_BYTES


def tell_apart(unit: Unit, differing: list[Exchange]) -> None:
    """Tells why a tester that doesn't have the functional identifier sent what nobody asked for."""
    for place in sorted({it.place for it in differing if it.kind == "U"}):
        pair = unit.pairs[place]
        if is_apart(unit, pair):
            say(f"what {pair.name} was sent to functional requests counts as unasked: {why_apart(unit, pair)}")


def tell_sizes(unit: Unit) -> None:
    """Tells of identifiers that vary in how many bytes they have, for `compare` takes no other number."""
    for number, it in sorted(unit.dids.items()):
        if unit.varies and len(it.sizes) > 1:
            *most, last = map(str, sorted(it.sizes))
            say(f"the values of {number:04X} have {', '.join(most)} and {last} bytes: any bytes will do, but as many as were recorded each time")


def tell_not_entered(unit: Unit) -> None:
    """Tells of requests that began a session of the unit, and begin none by their rows."""
    for it in unit.rows:
        if it.request.startswith("10") and not it.enter and any(text.startswith("50") and text[2:4] != "01" for text in it.reply or ()):
            say(f"{it.request} is answered as recorded, but begins no session: what wasn't recorded there is answered as in the default one")


def why_nothing(unit: Unit) -> str:
    """Why nothing was compared, in words."""
    count = sum(it.count for it in unit.asked.values())
    if not count:
        return "no exchange of these testers is in the recording"
    return "the unit didn't answer the only request" if count == 1 else f"the unit answered none of the {count} requests"


def tell(verdict: Verdict, unit: Unit, left_out: int) -> None:
    """Tells what differs, by so many rows that found no room, and what else a reader of the setup should know."""
    differing = verdict.differing()
    if not unit.varies and any(it.request[:1] == b"\x22" and not is_too_long(it) for it in differing):
        say("with --varies the values that change aren't compared")
    for it in differing[:MOST_TOLD]:
        say(f"{it.told()}{f'; no row has an answer of more than {MOST_BYTES} bytes' if is_too_long(it) else ''}")
    if len(differing) > MOST_TOLD:
        say(f"and {len(differing) - MOST_TOLD} more")
    if left_out and differing:
        say(f"the setup is full: of the rows of answers {left_out} found no room (docs/FORMATS.md, Setup file, has the limits)")
    tell_apart(unit, differing)
    for line in verdict.notes.splitlines():
        say(line)
    if verdict.status == NOTHING:
        say(f"nothing was compared: {why_nothing(unit)}")
    tell_sizes(unit)
    tell_not_entered(unit)
    tell_cut_off(unit)
    tell_left_pending(verdict, unit)
    tell_lost(verdict, unit)
    for it in unit.notes:
        say(it)


def tell_lost(verdict: Verdict, unit: Unit) -> None:
    """Tells of the messages that lack a frame."""
    for it, of in verdict.lost[:MOST_TOLD]:
        say(it.told(of, unit.pairs[it.place].name))
    if len(verdict.lost) > MOST_TOLD:
        say(f"and {len(verdict.lost) - MOST_TOLD} more messages lack a frame")


def refused(fault: Refused) -> int:
    """Tells what the program refuses, and prints a setup that it doesn't take; the status."""
    for line in fault.told.splitlines():
        say(line)
    if fault.status == BAD_SETUP:
        say("the program doesn't take the setup learned; it is printed all the same")
        return fault.status if is_printed(fault.setup) else 7
    return fault.status


def is_printed(setup: str) -> bool:
    """Prints a setup; whether it could be written."""
    try:
        write_out([setup])
    except CannotWrite as fault:
        say(str(fault))
        return False
    return True


# ---- the tool


class NoTester(Exception):
    """There is no tester in a recording; with what helps."""


def refuse(program: str, path: str, room: str, interface: Optional[str]) -> NoReturn:
    """Has the program tell what is wrong with a recording in which no tester is found; NoTester where it takes it."""
    pair = Pair(0x7E0, 0x7E8, name="tester")
    verdict = Program(program, path, room, [pair.name], interface)(setup_text(Unit([pair], None, Sending()), ""))
    lacking = (it for it in verdict.notes.splitlines() if "no line of the interface " in it)
    raise NoTester(next(lacking, "no tester was found: --pair REQUEST:RESPONSE names one"))


def unit_of(path: str, given: list[Pair], words: argparse.Namespace, progress: Progress) -> Unit:
    """What the frames tell of the unit, by the words of the command line. NoTester where there is none."""
    functional, interface = words.functional, words.interface
    sight = look(progress.through(path, 0, 0.12, "the testers"), interface)
    pairs = [sight.joined(it) for it in testers_of(given, pairs_of(sight))]
    if not pairs:
        raise NoTester
    for it in pairs:
        if it.is_fd and sight.by_fd.isdisjoint(it.texts()):
            say(f"the pair {it.shown()} is given as one of CAN FD, and no such frame of it is in the recording")
    narrow, wide = functional_of(sight, pairs), functional_of(sight, pairs, True)
    if functional is not None:
        is_wide = functional > MOST_OF_11_BITS
        narrow, wide = (narrow, functional) if is_wide else (functional, wide)
        if all(it.is_extended != is_wide for it in pairs):
            say(f"--functional {functional:X} has no effect: no tester here has identifiers of {29 if is_wide else 11} bits")
        elif all(it.functional is not None for it in pairs if it.is_extended == is_wide):
            say(f"--functional {functional:X} has no effect: --pair gives each tester its own")
    sending = sending_of(progress.through(path, 0.12, 0.2, "how they send"), pairs, interface)
    losses, order = sending.losses, sending.order
    lines = lines_at(path, [*(it.at for it in losses.found), *order.late[:1], *order.twice[:1]])
    lost = lost_of(losses, lines, map(Pair.texts, pairs))
    is_all_fd = f"{narrow or FUNCTIONAL:03X}" in sight.by_fd, f"{wide or FUNCTIONAL_29:08X}" in sight.by_fd
    notes = list(order.notes(lines))
    return Unit(pairs, narrow, sending, varies=words.varies, functional_29=wide, is_all_fd=is_all_fd, end=end_of(path), lost=lost, notes=notes)


def program() -> str:
    """The program that ./uds_play would start now; where it would build one, that one."""
    start = f"{TOP}/uds_play"
    told = subprocess.run([start, "--origin"], stdin=subprocess.DEVNULL, stdout=subprocess.PIPE, stderr=subprocess.DEVNULL, text=True)
    if told.returncode != 0:
        # it is the program itself
        return start
    path = told.stdout.split(":")[0]
    return PROGRAM if path == "none" else f"{TOP}/{path}"


def identifier_of(text: str) -> int:
    """An identifier of the command line."""
    if not re.fullmatch("(0[xX])?[0-9A-Fa-f]{1,8}", text) or int(text, 16) > MOST_OF_29_BITS:
        raise argparse.ArgumentTypeError(f"{text} is no identifier: hex digits, up to {MOST_OF_29_BITS:X}")
    return int(text, 16)


class CommandLine(argparse.ArgumentParser):
    """The words of the command line; where they are at fault the status is 1, as that of the program."""

    def exit(self, status: int = 0, message: Optional[str] = None) -> NoReturn:
        super().exit(min(status, 1), message)


def arguments(given: Optional[list[str]]) -> argparse.Namespace:
    words = CommandLine(description=__doc__, formatter_class=argparse.RawDescriptionHelpFormatter)
    words.add_argument("--pair", action="append", default=[], metavar="REQUEST:RESPONSE[:FUNCTIONAL][:fd][=NAME]", help="a tester; may stand several times")
    words.add_argument("--functional", type=identifier_of, metavar="ID", help="the functional identifier, in hex")
    words.add_argument("--interface", metavar="NAME", help="takes the frames of this interface alone")
    words.add_argument("--varies", action="store_true", help="values and seeds that change aren't compared")
    words.add_argument("--program", help=argparse.SUPPRESS)
    words.add_argument("capture", metavar="CAPTURE")
    return words.parse_args(given)


def learned_unit(words: argparse.Namespace, pairs: list[Pair], room: str, progress: Progress) -> tuple[Unit, str, Verdict, int]:
    """The unit of the command line's recording, its setup, what the judge says of that, and how many rows found no room."""
    path = converted(words.capture, room)
    try:
        unit = unit_of(path, pairs, words, progress)
    except NoTester:
        refuse(words.program, path, room, words.interface)
    progress.at(0.2, "the exchanges")
    judge = Program(words.program, path, room, [it.name for it in unit.pairs], words.interface)
    source = plain(os.path.basename(words.capture))
    return unit, *learned(unit, knowing(judge, unit.lost), source, progress)


def run(words: argparse.Namespace, pairs: list[Pair]) -> int:
    """Makes the setup, prints it, and tells what differs; the status."""
    progress = Progress()
    with tempfile.TemporaryDirectory() as room:
        try:
            unit, text, verdict, left_out = learned_unit(words, pairs, room, progress)
        except NoTester as fault:
            say(str(fault))
            return NOTHING
        except OSError as fault:
            say(fault_words(fault))
            return 7
        except ImportError:
            say("this form of recording wants python-can (Debian's python3-can)")
            return 7
        except Refused as fault:
            return refused(fault)
        finally:
            progress.end()
    if not is_printed(text):
        return 7
    tell(verdict, unit, left_out)
    return DIFFERS if verdict.lost else verdict.status if verdict.status in (DIFFERS, NOTHING) else AGREES


def main(given: Optional[list[str]] = None) -> int:
    """Runs the tool by these words, or by those of the command line; returns its status."""
    ready()
    words = arguments(given)
    words.program = words.program or program()
    if not os.access(words.program, os.X_OK):
        say(f"{words.program} isn't built: ./uds_play builds it")
        return 2
    try:
        pairs = [pair_of(it) for it in words.pair]
    except ValueError as fault:
        say(f"--pair {fault}")
        return 1
    return run(words, pairs)


if __name__ == "__main__":
    try:
        sys.exit(main())
    except KeyboardInterrupt:
        sys.exit(INTERRUPTED)
