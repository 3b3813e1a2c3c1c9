"""Requests, replies and steps in words, for tools/view.py; no part of what is proved."""
from __future__ import annotations

from itertools import chain, cycle, repeat
from typing import TYPE_CHECKING, Iterable, Iterator

from uds_names import SERVICES, negative_name, service_name, sub_name

if TYPE_CHECKING:
    from uds_run import Entry, Held, Message, Setup

# the most digits or letters of a part of a message that are shown
MOST = 64
# the sizes of the parts behind the service identifier; what is left is one part more
REQUEST_PARTS = {
    0x10: (1,), 0x11: (1,), 0x14: (3,), 0x27: (1,), 0x2E: (2,), 0x31: (1, 2), 0x3E: (1,), 0x85: (1, 3),
}
REPLY_PARTS = {0x50: (1, 2, 2), 0x51: (1,), 0x67: (1,), 0x6E: (2,), 0x71: (1, 2, 1), 0x7E: (1,), 0xC5: (1,)}
# of service 19, by the sub-function: the parts behind it in a request, and those in a reply
DTC_MASK, DTC_RECORD = (1,), (3, 1)
DTC_REQUEST_PARTS = {0x01: DTC_MASK, 0x02: DTC_MASK, 0x03: (), 0x04: DTC_RECORD, 0x06: DTC_RECORD, 0x09: (3,), 0x0A: ()}
DTC_REPLY_PARTS = {0x01: (1, 1, 2), 0x04: (3, 1, 1), 0x06: (3, 1, 1)}
# those whose reply is a list of DTCs with their status, behind the availability
DTC_LISTS = (0x02, 0x0A, 0x0B, 0x0C, 0x0D, 0x0E, 0x15)
# what became of a request, where no reply stands
WITHOUT_REPLY = {"suppressed": "no reply (suppressed)", "silent": "no reply (refused)", "empty": "no reply (by its row)"}
# the sessions that have a name besides the default one
SESSIONS = {2: "programming session", 3: "extended session", 4: "safety session"}


def digits(data: bytes) -> str:
    """Bytes in hex, a long run of them cut."""
    text = data.hex().upper()
    return text if len(text) <= MOST else f"{text[: MOST - 16]}.. ({len(data)} bytes)"


def value(data: bytes) -> str:
    """A value: as text where it has four bytes or more that all are letters, digits, spaces or signs, else in hex."""
    is_text = len(data) >= 4 and all(32 <= it < 127 and it not in b'"\\' for it in data)
    if not is_text:
        return digits(data)
    text = data.decode("ascii")
    return f'"{text}"' if len(text) <= MOST else f'"{text[: MOST - 16]}".. ({len(text)} bytes)'


def parts(data: bytes, sizes: Iterable[int]) -> Iterator[bytes]:
    """The bytes cut in parts of these sizes, the last part what is left."""
    at = 0
    for size in sizes:
        if at >= len(data):
            return
        yield data[at : at + size]
        at += size
    if at < len(data):
        yield data[at:]


def join(texts: Iterable[str]) -> str:
    """The texts with spaces between; of many the first and how many more."""
    texts = list(texts)
    return " ".join(texts if len(texts) <= 24 else [*texts[:16], f".. ({len(texts) - 16} more)"])


def request_sizes(data: bytes) -> Iterable[int]:
    if data[0] != 0x19:
        return REQUEST_PARTS.get(data[0], ())
    return 1, *DTC_REQUEST_PARTS.get(data[1] & 0x7F if len(data) > 1 else None, ())


def request_digits(data: bytes) -> str:
    """A request in hex, in the parts of its service."""
    sid = data[0]
    sizes = repeat(2) if sid == 0x22 else request_sizes(data)
    found = [digits(it) for it in parts(data[1:], sizes)]
    if sid == 0x2E and len(data) > 3:
        found[1] = value(data[3:])
    return join([f"{sid:02X}", *found])


def read_values(data: bytes, setup: Setup) -> Iterator[str]:
    """What a reply to 22 has: identifiers, each with its value, whose length the setup tells."""
    at = 0
    while at < len(data):
        identifier = data[at : at + 2]
        end = at + 2 + setup.lengths.get(int.from_bytes(identifier, "big"), len(data))
        yield digits(identifier)
        if data[at + 2 : end]:
            yield value(data[at + 2 : end])
        at = end


def reply_sizes(data: bytes) -> Iterable[int]:
    if data[0] != 0x59:
        return REPLY_PARTS.get(data[0], ())
    sub = data[1] if len(data) > 1 else None
    return chain((1, 1), cycle((3, 1))) if sub in DTC_LISTS else (1, *DTC_REPLY_PARTS.get(sub, ()))


def reply_digits(data: bytes, setup: Setup) -> str:
    """A positive reply in hex, in the parts of its service, values as text."""
    found = read_values(data[1:], setup) if data[0] == 0x62 else map(digits, parts(data[1:], reply_sizes(data)))
    return join([f"{data[0]:02X}", *found])


def service_words(data: bytes) -> str:
    """A request's service, and its sub-function by name."""
    name = sub_name(data[0], data[1]) if len(data) > 1 else ""
    return join(filter(None, [service_name(data[0]), name]))


def request_words(data: bytes) -> str:
    return f"{request_digits(data)} {service_words(data)}"


def reply_words(data: bytes, setup: Setup) -> str:
    """A reply: in hex, a negative one by the name of its code."""
    if data[0] == 0x7F and len(data) == 3:
        return f"7F {data[1]:02X} {negative_name(data[2])}"
    return reply_digits(data, setup)


def answer_words(entry: Entry, outcome: str, setup: Setup) -> str:
    """What came of a request."""
    return WITHOUT_REPLY[outcome] if entry.reply is None else reply_words(entry.reply, setup)


def message_words(message: Message, setup: Setup) -> str:
    """A message of frames alone, without the request that it answers: so far as it was sent."""
    data = message.carried
    if message.length is None:
        return flow_words(message.frames[0].data)
    if data[0] == 0x7F and len(data) == 3:
        return f"{reply_words(data, setup)} {service_name(data[1])}"
    name = service_words(bytes([data[0] & 0xBF]) + data[1:]) if data[0] & 0xBF in SERVICES else ""
    cut = "" if message.is_whole() else f"({len(data)} of {message.length} bytes)"
    return join(filter(None, [reply_digits(data, setup), name, cut]))


def flow_words(data: bytes) -> str:
    """A frame of flow control that the unit sent."""
    if data[:1] == b"\x30":
        return f"{data[:3].hex(' ').upper()} flow control: go on"
    return f"{data[:3].hex(' ').upper()} flow control: too long"


def due_words(after: int, setup: Setup) -> list[str]:
    """When an answer is due that doesn't go at once, and how often response pending is before it."""
    count = len(setup.times.pendings(after))
    often = {0: "", 1: ", response pending once before"}.get(count, f", response pending {count} times before")
    return [f"due after {after} ms{often}"] if after else []


def seconds(time: int) -> str:
    return f"{time // 1000}.{time % 1000:03d}"


def session_words(session: int) -> str:
    """A holder's session by its name; without one by its number."""
    return SESSIONS.get(session, f"session {session:02X}")


def held_words(held: Held, setup: Setup) -> str:
    """Who holds the session, with what is unlocked and runs."""
    if held.holder is None:
        return ""
    found = [f"{'session' if held.session == 3 else session_words(held.session)} {setup.names[held.holder]}"]
    found += [] if held.level is None else [f"level {held.level:02X}"]
    return ", ".join(found + [f"routine {it:04X}" for it in held.routines])


def changes(before: Held, after: Held, setup: Setup) -> list[str]:
    """What a step changes about the session, in words."""
    if after.holder is None:
        return ["the session ends"] if before.holder is not None else []
    found = []
    if (after.holder, after.session) != (before.holder, before.session):
        is_usual = after.session == 3 and after.holder != before.holder
        name = "session" if is_usual else session_words(after.session)
        article = "the " if is_usual or after.session in SESSIONS else ""
        found.append(f"{setup.names[after.holder]} holds {article}{name}")
    if after.level != before.level:
        found.append(f"level {before.level:02X} is locked" if after.level is None else f"level {after.level:02X} is unlocked")
    found += [f"routine {it:04X} runs" for it in after.routines if it not in before.routines]
    return found + [f"routine {it:04X} ends" for it in before.routines if it not in after.routines]
