"""Which bytes of the unit's answers change from one request to an equal one: with `--varies` these aren't compared. For
tools/learn.py; no part of what is proved."""
from collections import defaultdict
from typing import Iterator, Optional

from learn_judge import Exchange

# services whose answers say what the session is, or echo what was asked: nothing of them is measured
FIXED = (0x10, 0x11)
SECURITY, CURRENT_DATA = 0x27, 0x01
# services whose answers end with one value: how many bytes stand before it. Where a byte of it changes all of it is any
VALUE_BEHIND = {0x01: 2, 0x02: 3, 0x03: 2, 0x05: 3, 0x07: 2, 0x08: 2, 0x09: 3, 0x0A: 2, 0x23: 1, 0x27: 2, 0x2F: 4, 0x31: 5}
# those of them whose value changes in its length, too: else an answer of another length is another answer
OF_ANY_LENGTH = (*range(1, 11), SECURITY)


class Changes:
    """What positive answers to equal requests have in common: of each request, and each length of its answers, the first
    one, and the bits that differ from it in later ones."""

    def __init__(self) -> None:
        self.first: dict[tuple[bytes, int], bytes] = {}
        self.bits: dict[tuple[bytes, int], int] = defaultdict(int)
        # the requests that have answers of several lengths, or by which any byte changes
        self.lengths: dict[bytes, int] = {}
        self.changing: set[bytes] = set()

    def take(self, it: Exchange) -> None:
        """An exchange, in the order of their lines."""
        request, sent = it.request, it.sent
        # (a seed of zeros says that the level is unlocked)
        if not may_change(request, sent) or request[0] == SECURITY and not any(sent[2:]):
            return
        size = len(sent)
        first = self.first.setdefault((request, size), sent)
        if first is not sent and first != sent:
            self.bits[request, size] |= int.from_bytes(first, "big") ^ int.from_bytes(sent, "big")
            self.changing.add(request)
        if self.lengths.setdefault(request, size) != size:
            self.changing.add(request)

    def template(self, request: bytes, sent: Optional[bytes]) -> str:
        """An answer as a template has it: `??` for each byte that changes, or is of a value that does."""
        if sent is None:
            return ""
        text = sent.hex().upper()
        if request not in self.changing or not may_change(request, sent):
            return text
        open_bytes = self.open_bytes(request, sent)
        return "".join("??" if at in open_bytes else text[2 * at : 2 * at + 2] for at in range(len(sent)))

    def open_bytes(self, request: bytes, sent: bytes) -> set[int]:
        """The places of the bytes that are any, from 0."""
        bits = self.bits.get((request, len(sent)), 0).to_bytes(len(sent), "big")
        found = {at for at, it in enumerate(bits) if it}
        for begin, end in values_of(request, sent, found):
            if request[0] in OF_ANY_LENGTH and not bits.strip(b"\0") or not found.isdisjoint(range(begin, end)):
                found |= set(range(begin, end))
        return found

    def seeds_change(self, sub: int) -> bool:
        """Whether the seeds of an odd sub-function do."""
        return any(it[0] == SECURITY and it[1] & 0x7F == sub for it in self.changing)


def may_change(request: bytes, sent: Optional[bytes]) -> bool:
    """Whether an answer may have what changes: a positive one, of a service that doesn't only echo; of SecurityAccess a seed."""
    if not request or not sent or sent[0] != request[0] + 0x40 or request[0] in FIXED:
        return False
    return request[0] != SECURITY or len(request) > 1 and request[1] % 2 == 1


def values_of(request: bytes, sent: bytes, changing: set[int]) -> Iterator[tuple[int, int]]:
    """The values at the end of an answer, each as its first place and the one behind it; none where they aren't known."""
    if request[0] == CURRENT_DATA and len(request) > 2:
        yield from values_of_several(request[1:], sent, changing)
    elif request[0] in VALUE_BEHIND:
        yield min(VALUE_BEHIND[request[0]], len(sent)), len(sent)


def values_of_several(pids: bytes, sent: bytes, changing: set[int]) -> list[tuple[int, int]]:
    """The values of an answer to several PIDs, each behind its PID; none where a PID may stand in several places."""
    found, at = [], 1
    for place, pid in enumerate(pids):
        if at >= len(sent) or sent[at] != pid or at in changing:
            return []
        behind = range(at + 2, len(sent))
        ends = [it for it in behind if it not in changing and sent[it] == pids[place + 1]] if place + 1 < len(pids) else [len(sent)]
        if len(ends) != 1:
            return []
        found.append((at + 1, ends[0]))
        at = ends[0]
    return found
