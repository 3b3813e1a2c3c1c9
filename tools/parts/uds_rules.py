"""Rows of answers, as a setup has them: which requests a row is for, what it answers, and when. For the tools that
follow a run; no part of what is proved. Of a setup that the program takes."""
from dataclasses import dataclass
from typing import Any, Optional, Sequence


@dataclass(frozen=True)
class Row:
    """A row: its pattern, as the items before the end (a byte, or None for any) and whether more may follow; its
    templates, or None where the server answers itself; the session and the level that it wants, 0 for any; the session
    that it enters, 0 for none; and after how many milliseconds its answer goes."""

    items: tuple[Optional[int], ...]
    is_open: bool
    reply: Optional[tuple[str, ...]]
    session: int
    level: int
    enter: int
    after: int

    def fits(self, request: bytes) -> bool:
        """Whether the pattern fits the bytes of a request."""
        return fits(self.items, self.is_open, request)

    def filled(self, number: int, request: bytes) -> Optional[bytes]:
        """What the template of this number, from 0, says to a request: a message, or None where nothing is sent."""
        return bytes(template_byte(it, request) for it in self.template(number)) or None

    def template(self, number: int) -> list[str]:
        """The items of the template of this number, from 0, round and round."""
        return items_of(self.reply[number % len(self.reply)])


def fits(items: Sequence[Optional[int]], is_open: bool, request: bytes) -> bool:
    """Whether a pattern fits the bytes of a request."""
    count = len(items)
    return (len(request) == count or is_open and len(request) > count) and all(
        want in (None, it) for want, it in zip(items, request)
    )


def items_of(text: str) -> list[str]:
    """The items of a pattern or of a template, of two characters each."""
    return [text[at : at + 2] for at in range(0, len(text), 2)]


def template_byte(item: str, request: bytes) -> int:
    if item == "??":
        return 0
    return request[int(item[1], 16)] if item[0] == "$" else int(item, 16)


def pattern_of(text: str) -> tuple[tuple[Optional[int], ...], bool]:
    """The items of a pattern, and whether more may follow."""
    plain = text.removesuffix("*")
    return tuple(None if it == ".." else int(it, 16) for it in items_of(plain)), plain != text


def rows_of(tree: dict[str, Any]) -> list[Row]:
    """The rows of answers of a setup's tree, in order."""
    return [
        Row(
            *pattern_of(it["request"]),
            tuple(it["reply"]) if "reply" in it else None,
            it.get("session", 0),
            it.get("level", 0),
            it.get("enter", 0),
            it.get("after_ms", 0),
        )
        for it in tree.get("answer", [])
    ]


@dataclass(frozen=True)
class Times:
    """The times by which response pending is sent, in milliseconds: the first, and between two of them."""

    first: int
    between: int

    def pendings(self, after: int) -> range:
        """How long after its request each response pending goes where the answer goes `after` so many."""
        return range(self.first, after, self.between)


def times_of(tree: dict[str, Any]) -> Times:
    return Times(tree.get("p2_ms", 50), max(1, 10 * tree.get("p2_star_10ms", 500)))


def pending(request: bytes) -> bytes:
    """The message that says response pending."""
    return bytes([0x7F, request[0], 0x78])
