"""A setup's text by Python's reader of TOML, which knows TOML 1.0, where the program takes TOML 1.1."""
import re
import tomllib
from typing import Any

# strings (of several lines first), comments, what opens and closes, commas, ends of lines, and all else
_PARTS = re.compile(
    r'"""(?:\\.|[^\\])*?"{3,5}|\'\'\'.*?\'{3,5}|"(?:\\.|[^"\\\n])*"|\'[^\'\n]*\'|#[^\n]*|[\[\]{},\n]|[^"\'#\[\]{},\n]+|.',
    re.DOTALL,
)
# \e, and \x with two digits; any other escape stands for itself
_ESCAPES = re.compile(r"\\(?:x([0-9A-Fa-f]{2})|(e)|.)", re.DOTALL)
# a time of day without seconds; behind a sign the same is an offset from UTC
_MINUTES = re.compile(r"(?<![-+:\d])\d\d:\d\d(?!:)")


def loads(text: str) -> dict[str, Any]:
    """The tables of a text. Raises tomllib.TOMLDecodeError where it is none."""
    try:
        return tomllib.loads(text)
    except tomllib.TOMLDecodeError as fault:
        try:
            return tomllib.loads(_as_1_0(text))
        except tomllib.TOMLDecodeError:
            # (of the text as it was given, whose lines count)
            raise fault from None


def _as_1_0(text: str) -> str:
    """A text in which an inline table has one line and no comma at its end, strings have the escapes of TOML 1.0, and times
    have seconds."""
    found: list[str] = []
    within: list[str] = []
    for part in _PARTS.findall(text.replace("\r\n", "\n")):
        if part[0] == '"':
            part = _ESCAPES.sub(_escape, part)
        elif part in ("[", "{"):
            within.append(part)
        elif part in ("]", "}"):
            if part == "}":
                _drop_comma(found)
            if within:
                within.pop()
        elif "{" in within and (part == "\n" or part[0] == "#"):
            part = " "
        elif part[0] not in "'#":
            part = _MINUTES.sub(r"\g<0>:00", part)
        found.append(part)
    return "".join(found)


def _escape(found: re.Match[str]) -> str:
    digits, is_escape = found.groups()
    return f"\\u00{digits}" if digits else "\\u001B" if is_escape else found[0]


def _drop_comma(found: list[str]) -> None:
    """Drops a comma at the end, and the blanks behind it."""
    while found and not found[-1].strip():
        found.pop()
    if found and found[-1] == ",":
        found.pop()
