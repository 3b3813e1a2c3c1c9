"""The frames of a recording, as its lines have them, and where messages begin in them. For tools/learn.py; no part of what is
proved."""
import re
from typing import Iterable, Iterator, Optional

# so much of a recording is read at a time
BLOCK = 1 << 22
# how long the frames of a long message may be
LENGTHS = (8, 12, 16, 20, 24, 32, 48, 64)


def frames_of(
    blocks: Iterable[str], identifiers: str, data: str, interface: Optional[str] = None
) -> Iterator[tuple[int, str, str, Optional[str], int, str]]:
    """The frames in blocks of whole lines whose identifier and data fit these patterns, of one interface or of any: each
    frame's moment in milliseconds, its identifier and its data, as upper-case digits, and of CAN FD the digit of its flags;
    where its line begins, and what its stamp has behind the milliseconds."""
    name = r"\S+" if interface is None else re.escape(interface)
    # (a pattern that begins with letters is looked for more quickly than one that begins with a line's start)
    pattern = re.compile(rf"\n\((\d{{1,12}})\.(\d{{3}})(\d*)\) +{name} +((?i:{identifiers}))#(?:#([0-9A-Fa-f]))?((?i:{data})(?:[0-9A-Fa-f]{{2}})*)")
    begin = 0
    for block in blocks:
        for found in pattern.finditer("\n" + block):
            seconds, parts, rest, identifier, flags, digits = found.groups()
            yield int(seconds + parts), identifier.upper(), digits.upper(), flags, begin + found.start(), rest
        begin += len(block)


def message_at(data: str) -> int:
    """Where the message begins among the digits of a SingleFrame or a FirstFrame; 0 of a SingleFrame that hasn't all of it. The
    length of a message of more than 4095 bytes stands in four bytes behind `10 00`."""
    if data[0] == "1":
        return 12 if data[1:4] == "000" else 4
    at, size = (4, int(data[2:4], 16)) if data[:2] == "00" else (2, int(data[1]))
    return at if len(data) >= at + 2 * size else 0


def length_of(data: str) -> int:
    """The length that a FirstFrame tells."""
    short = int(data[1:4] or "0", 16)
    return short or int(data[4:12] or "0", 16)
