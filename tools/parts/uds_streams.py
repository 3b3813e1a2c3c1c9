"""The standard streams of the tools, which any of them may find closed, and whose text is UTF-8 whatever the locale is; and
faults of files in words. No part of what is proved."""
import os
import sys
from typing import BinaryIO, Iterable


class CannotWrite(OSError):
    """Standard output doesn't take what is written."""


def ready() -> None:
    """To be called first: what is told on a standard error that is closed is lost. (It would go to standard output.)"""
    if sys.stderr is None:
        sys.stderr = open(os.devnull, "w", encoding="utf-8")


def input_bytes() -> BinaryIO:
    """Standard input. OSError where it is closed."""
    if sys.stdin is None:
        raise OSError("standard input is closed")
    return sys.stdin.buffer


def input_lines() -> Iterable[str]:
    """The lines of standard input; none where it is closed."""
    if sys.stdin is None:
        return ()
    sys.stdin.reconfigure(encoding="utf-8", errors="replace")
    return sys.stdin


def write_out(texts: Iterable[str]) -> None:
    """Writes texts to standard output. CannotWrite where it doesn't take all of them; they aren't tried again at the exit."""
    out = sys.stdout
    if out is None:
        raise CannotWrite("cannot write: standard output is closed")
    if hasattr(out, "reconfigure"):
        out.reconfigure(encoding="utf-8", errors="replace")
    try:
        out.writelines(texts)
        out.flush()
    except OSError as fault:
        sys.stdout = None
        raise CannotWrite(f"cannot write: {fault.strerror}") from None


def fault_words(fault: OSError) -> str:
    """A fault in words, with the file's name where it has one."""
    words = fault.strerror or str(fault)
    return f"{fault.filename}: {words}" if fault.filename else words
