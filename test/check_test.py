#!/usr/bin/env python3
"""Holds `uds_play check` against the program's runs: setups with one thing wrong, each in turn, and with several, of a
seed. The first line of `check` begins with the fault that a run tells, and names a place; where a run takes the setup
`check` finds no fault, and its status says which. Each line of `check` tells the line of the setup on which the key or the
table was written here, and none where that isn't plain. Of rows of answers it says which never apply, for nothing leads to
their session, or an earlier one takes all of their requests: those, and no others, for which no request of a few bytes says
otherwise; and which are for session 3 where 10 83 alone leads there. Of lists of patterns and templates it tells each item that
is none. Where a list isn't closed it tells the line on which that begins, and none where it is. A byte order mark changes
nothing of what it says.
The last line is 'N passed, M failed'."""
import copy
import functools
import glob
import itertools
import os
import random
import re
import subprocess
import sys
import tempfile

from harness import PROGRAM, TOP, Tally

FAULTS = ("syntax", "missing ", "bad value ", "range", "empty", "duplicate", "unknown code", "unknown level", "too long")
UNIT = (
    "p2_ms", "p2_star_10ms", "s3_ms", "n_bs_ms", "n_cr_ms", "block_size", "st_min", "max_request", "pad", "pad_byte", "tx_dl",
    "fd_flags", "availability", "functional", "attempts", "delay_ms", "ignore",
)
ROWS = ("seed", "key")
LISTS = {
    "tester": ("name", "request", "response", "extended", "functional", "fd"),
    "did": ("id", "value", "read_level", "write", "write_level", "varies"),
    "code": ("code", "status"),
    "routine": ("id", "time_ms", "result", "level", "code", "status"),
    "level": ("sub", "any_key", "varies"),
    "answer": ("request", "reply", "session", "level", "enter", "after_ms"),
}
MOST_ROWS = {"tester": 8, "did": 1024, "code": 4096, "routine": 256, "level": 4, "level.row": 64, "answer": 1024}
# rows of answers, and the requests, sessions and unlocked levels that tell them apart; 0 is none
ITEMS = ("22", "2E", "2e", "..")
REQUESTS = [request for count in (1, 2, 3, 4) for request in itertools.product((0x22, 0x2E, 0x31), repeat=count)]
# those by which a tester asks for session 3, patterns for these, and requests that tell the patterns apart
CONTROLS = ((0x10, 0x03), (0x10, 0x83))
CONTROL_PATTERNS = ("1003", "1083", "10..", "10*", "1003*", "10..*")
REQUESTS += [*CONTROLS, (0x10,), (0x10, 0x31), (0x10, 0x03, 0x31), (0x10, 0x83, 0x31), (0x10, 0x31, 0x31)]
ACCESSES = [(1, 0)] + [(session, level) for session in (2, 3, 4) for level in (0, 1, 3)]
ROW_SETUPS = 300
TAKEN = re.compile(r"(?:line \d+: )?request of \[\[answer\]\] (\d+) is .*: the row never applies, for \[\[answer\]\] (\d+) with ")
UNREACHED = re.compile(r"(?:line \d+: )?session of \[\[answer\]\] (\d+) is \d+: the row never applies, for nothing leads to session ")
QUIET = re.compile(r"(?:line \d+: )?session of \[\[answer\]\] (\d+) is 3: 10 83 alone leads to session 3, ")
# an item of a list of texts that is none, by its key and its number; what an item of each may be, and some that may be none
BAD_ITEM = re.compile(r"(?:line \d+: )?bad value (ignore|answer\.reply): (?:ignore|reply of \[\[answer\]\] 1) has as number (\d+) ")
ITEM_FORMS = {"ignore": re.compile(r"(?:[0-9A-Fa-f]{2}|\.\.)+\*?"), "answer.reply": re.compile(r"(?:[0-9A-Fa-f]{2}|\$[0-9A-Fa-f]|\?\?)*")}
LIST_ITEMS = ("3E80", "22*", "2e..", "62$F", "??", "", "2", "*", "2G", "3E 80", "0x3E", 5, True, 1.5, ["22"], {"a": 1})
LIST_SETUPS = 100
# items of a list that isn't closed, and what may stand behind it; items that are no TOML, or lack a comma, in one that is
OPEN_ITEMS = ('"3E80"', '"22*"', "'[{' # [", '"\\"]" # ]', "[1, 2]", '{ a = "}" }')
BEHIND_OPEN = ("p2_ms = 25", " pad=true # ]", "[[did]]", "  [[level.row]] # x", "did.id = 1", "")
BAD_ITEMS = ("22F4..,", "3E*,", "28..,", "[x],", '"3E80" "22*",', '"22*" = 1', "..,")
OPEN_SETUPS = 200
STILL_OPEN = "; the list or table that begins on line {} is still open\n"
MARK = b"\xef\xbb\xbf"
UNPLACED = "the look at the setup found another first"
SEVERAL = 400
# what a line of `check` tells of: a key or, where one is missing, a table
TOLD = re.compile(
    r"(?:line (?P<line>\d+): )?(?:(?P<missing>missing) \S+: |bad value \S+: |(?:range|empty|duplicate|unknown code|unknown level): )?"
    r"(?P<name>[A-Za-z0-9_-]+)(?: of \[\[(?P<path>[a-z.]+)\]\] (?P<number>\d+))?(?: of \[\[level\]\] (?P<level>\d+))?(?: is | has |: |$)"
)
# an item of a list that is no table
ITEM = re.compile(r"(?:line (?P<line>\d+): )?bad value [a-z.]+: (?P<path>[a-z.]+) \d+(?: of \[\[level\]\] (?P<level>\d+))? is .*: a table, as ")
EMPTY = re.compile(r"(?:line (?P<line>\d+): )?empty: (?:there is no \[\[tester\]\]|\[\[level\]\] (?P<number>\d+) has no )")
# the whole unit, as a row
WHOLE = ("", 0, 0)
# lines that say nothing, and a key whose lines look like other keys
IDLE = ("", "# name = 1", "  # [[tester]]", "\t", "#[level", "# ''")
FAR = 'xx = {\nvalue = 1,\nname = "{[\\"",\nsub = \'}\\\' }'
GOOD = {
    "s3_ms": 4000,
    "pad": True,
    "ignore": ["3E80", "28..*"],
    "tester": [
        {"name": "A", "request": 0x7E0, "response": 0x7E8},
        {"name": "B", "request": 0x7E1, "response": 0x7E9},
        {"name": "C", "extended": True, "request": 0x18DA10F1, "response": 0x18DAF110, "fd": True},
    ],
    "did": [{"id": 0xF190, "value": "4142", "read_level": 1, "write": True, "write_level": 3, "varies": True}, {"id": 1, "value": "00"}],
    "code": [{"code": 0x012345, "status": 0x2F}, {"code": 5, "status": 0}],
    "routine": [{"id": 0x0203, "time_ms": 100, "result": "01", "level": 1, "code": 0x012345, "status": 1}, {"id": 4, "time_ms": 1}],
    "level": [
        {"sub": 1, "any_key": True, "varies": True, "row": [{"seed": "11", "key": "2222"}, {"seed": "33", "key": "4444"}]},
        {"sub": 3, "row": [{"seed": "1100", "key": "22"}]},
    ],
    "answer": [
        {"request": "28..*", "reply": ["68$1", "7F$078", "??", ""], "session": 3, "level": 1, "enter": 2, "after_ms": 3000},
        {"request": "3E00", "after_ms": 1},
        {"request": "22F40C", "reply": ["62F40C0b"]},
    ],
}
# the number of a table in `places`: a level with two rows of seeds and keys, and the rows of answers
LEVEL, ANSWER, PLAIN_ANSWER = 10, 15, 16
# values of a wrong kind, and numbers at the borders of the ranges
ODD = (-1, 4294967296, 1.5, "text", "0", "0 ", True, [], [1], {"a": 1})
BORDERS = (0, 1, 2, 7, 8, 64, 65, 66, 67, 126, 127, 128, 240, 241, 249, 250, 255, 256, 2047, 2048, 60000, 60001, 65535, 65536, 600000, 600001, 16777214, 16777215, 536870911, 536870912, 4294967295)
# spoilt as texts: what stands before the good setup
BEFORE = {
    "a byte order mark": MARK,
    "two byte order marks": MARK * 2,
    "no toml": b"a = \n",
    "no UTF-8": b"# \xff\n",
    "too long": b"#" * (1 << 20) + b"\n",
    "too long, and no toml": b"a = " * (1 << 18) + b"\n",
    "the least number": b"a = -9223372036854775808\n",
    "a number below it": b"a = -9223372036854775809\n",
    "the greatest number": b"a = [{ a = 9223372036854775807 }]\n",
    "a number above it": b"a = [{ a = 9223372036854775808 }]\n",
    "a number above it, in hex": b"a = 0x8000000000000000\n",
    "a number above it, of a known key": b"p2_ms = 9223372036854775808\n",
    "a number of 5,000 digits": b"a = " + b"9" * 5000 + b"\n",
    "a number of 5,000 digits, in hex": b"a = 0x" + b"F" * 5000 + b"\n",
    "a great number under 2,000 keys": b"a" + b".a" * 1999 + b" = 9223372036854775808\n",
    "a great number with an exponent": b"a = 1e400\n",
    "infinity": b"a = -inf\n",
    "80 lists": b"a = " + b"[" * 80 + b"]" * 80 + b"\n",
    "400,000 lists": b"a = " + b"[" * 400_000,
    "a line end in an inline table": b"a = {\na = 1 }\n",
    "a comma at its end": b"a = { a = 1, }\n",
    "an escape": b'a = "\\e"\n',
    "a byte in hex": b'a = "\\x41"\n',
    "a time without seconds": b"a = 07:32\n",
    "a leap second": b"a = 23:59:60\n",
    "81 lists": b"a = " + b"[" * 81 + b"]" * 81 + b"\n",
    "a key of 81 parts": b"a" + b".a" * 80 + b" = 1\n",
}
TEXTS = ("", "A", "a_1", "a b", "é", "abcdefghijklmnop", "abcdefghijklmnopq", "00", "00" * 16, "01" * 16, "01" * 17, "01" * 32, "01" * 33, "01" * 255, "01" * 256, "Ff", "0g")
# patterns and templates, well or not
PATTERNS = (
    "", "*", "2", "2*2", "2G", "$1", "??", ".", "....", "..*", "22.", "22*..", "22**", "22 F1", "2é", "ff", "28.._", "..\\n",
    ".." * 64, ".." * 64 + "*", ".." * 65, "00" * 65 + "*", "00" * 65 + "0",
)
REPLIES = (
    "", "68", [""], ["", ""], ["6"], ["$G"], ["$"], ["?"], ["..", "00"], ["00", "0"], ["*"], ["00", 1], [["00"]], [{"a": 1}], ["$0$1"], ["$2"],
    ["00", "$2"], ["$F"], ["$a"], ["7F$078??"], ["$1é"], ["00\\n"], ["00" * 4095], ["$0" * 4095], ["??" * 4096], ["00"] * 4096, ["00"] * 4097,
)
# lists of patterns, well or not
IGNORED = (
    "", "3E80", [], ["3E80"], ["3E80", "3E80"], [""], ["*"], ["3E80", "3"], ["2G"], ["3E80", 1], [["3E80"]], [{"a": 1}], ["$1"], ["??"],
    [".." * 64], [".." * 65 + "*"], ["3E80", "00" * 65], ["3E*"] * 256, ["3E*"] * 257, ["3E*"] * 257 + ["3"],
)
# the values of a key that isn't a number
VALUES = {
    **dict.fromkeys(("name", "value", "seed", "key", "result"), TEXTS), "request": PATTERNS, "reply": REPLIES, "ignore": IGNORED,
    "tx_dl": (*range(66), 96, 128, 255, 256, 4294967295), "fd_flags": (*range(18), 31, 255, 256, 4294967295),
}
# several keys that are well or not by each other
TOGETHER = {
    "after_ms at its most": [(0, "p2_star_10ms", 0), (ANSWER, "after_ms", 305)],
    "after_ms above it": [(0, "p2_star_10ms", 0), (ANSWER, "after_ms", 306)],
    "after_ms at its most, no p2_ms": [(0, "p2_star_10ms", 1), (0, "p2_ms", 0), (ANSWER, "after_ms", 2550)],
    "after_ms above it, no p2_ms": [(0, "p2_star_10ms", 1), (0, "p2_ms", 0), (PLAIN_ANSWER, "after_ms", 2551)],
    "enter without reply": [(PLAIN_ANSWER, "enter", 2)],
    "enter 0 without reply": [(PLAIN_ANSWER, "enter", 0)],
    "enter beside a bad reply": [(PLAIN_ANSWER, "enter", 2), (PLAIN_ANSWER, "reply", "68")],
    "a session and a level that never meet": [(ANSWER, "session", 1), (ANSWER, "level", 3)],
    "the last byte that a template may name": [(ANSWER, "request", "28" + ".." * 15), (ANSWER, "reply", ["$F"])],
    "one beyond it": [(ANSWER, "request", "28" + ".." * 14 + "*"), (ANSWER, "reply", ["$f"])],
    "level 0 without levels": [(0, "level", []), (0, "answer", [{"request": "00", "level": 0}])],
    "a level of a routine and one of an answer": [(8, "level", 5), (ANSWER, "level", 7)],
    "a bad pattern behind a bad template": [(ANSWER, "reply", ["6"]), (PLAIN_ANSWER, "request", "6")],
    "a bad pattern and a bad template": [(ANSWER, "reply", ["6"]), (ANSWER, "request", "6")],
    "a pattern that isn't there, and a bad one": [(ANSWER, "request", None), (PLAIN_ANSWER, "request", "6")],
    "the functional identifier of 29 bits": [(3, "request", 0x18DB33F1)],
    "the same of a tester's own": [(3, "functional", 0x18DB33F2), (3, "response", 0x18DB33F2)],
    "another where that one is a request": [(3, "functional", 0x18DB33F2), (3, "request", 0x18DB33F1)],
    "a number of both kinds": [(3, "request", 0x7E0), (3, "response", 0x7E8)],
    "the functional number of 11 bits, of 29": [(3, "request", 0x7DF)],
    "a tester's own functional identifier, another's request": [(1, "functional", 0x7E1)],
    "the shared one that nobody has": [(0, "functional", 0x7E0), (1, "functional", 0x700), (2, "functional", 0x700)],
    "a request of 29 bits without saying so": [(1, "request", 0x18DA11F1)],
    "a functional identifier of CAN FD and a classic tester's": [(1, "fd", True)],
    "the same of the second tester": [(2, "fd", True)],
    "of testers of CAN FD alone": [(1, "fd", True), (2, "fd", True)],
    "of their own": [(1, "fd", True), (1, "functional", 0x701), (2, "functional", 0x701)],
    "of one's own": [(1, "fd", True), (1, "functional", 0x701)],
    "of 29 bits": [(2, "extended", True), (2, "request", 0x18DA11F1), (2, "response", 0x18DAF111)],
    "of 29 bits, one's own": [(2, "extended", True), (2, "request", 0x18DA11F1), (2, "response", 0x18DAF111), (2, "functional", 0x7DF)],
    "a bad length beside a range": [(0, "tx_dl", 9), (0, "fd_flags", "1"), (0, "p2_ms", 65536)],
    "a bad pattern to ignore and a key that isn't there": [(0, "ignore", ["2G"]), (1, "name", None)],
    "the most templates": [(0, "answer", [{"request": "00", "reply": [""] * 4096}] * 16)],
    "one more": [(0, "answer", [{"request": "00", "reply": [""] * 4096}] * 16 + [{"request": "00", "reply": [""]}])],
}
told = Tally("setup", most=5000, quiet=True)


def value_text(value):
    if isinstance(value, bool):
        return str(value).lower()
    if isinstance(value, dict):
        return "{ " + ", ".join(f"{key} = {value_text(it)}" for key, it in value.items()) + " }"
    if isinstance(value, list):
        return "[" + ", ".join(map(value_text, value)) + "]"
    return '"' + value + '"' if isinstance(value, str) else str(value)


class Written:
    """The text of a setup, written in one of many ways, and the lines of its tables and keys that are written plainly: for
    each row, which is the list's path, the number and that of its level, those of its keys; None is the row itself."""

    def __init__(self, tree, chance):
        self.chance, self.text, self.next, self.lines = chance, [], 1, {}
        self.is_plain = chance.random() > 0.05
        lists = {key: it for key, it in tree.items() if self.has_heads(it)}
        self.keys(WHOLE, {key: it for key, it in tree.items() if key not in lists})
        if not self.is_plain:
            self.put('far = """\n[[tester]]\n"""')
        for path, rows in lists.items():
            self.tables(path, rows, 0)

    def has_heads(self, value):
        """Whether a value is written as tables with heads."""
        return isinstance(value, list) and value != [] and all(isinstance(it, dict) for it in value) and self.chance.random() > 0.1

    def put(self, text):
        """Writes a text, and answers its first line."""
        at = self.next
        self.text.append(text)
        self.next += text.count("\n") + 1
        return at

    def keys(self, row, table):
        lines = self.lines[row] = {}
        if self.chance.random() < 0.05:
            lines["xx"] = self.put(FAR)
        for key, value in table.items():
            if self.chance.random() < 0.1:
                self.put(self.chance.choice(IDLE))
            text, way = value_text(value), self.chance.random()
            if way < 0.05:
                self.put(f'"{key}" = {text}')
            elif way < 0.1 and isinstance(value, list) and value != []:
                lines[key] = self.put(f"{key} = [ # [\n" + ",\n".join(map(value_text, value)) + "\n]")
            else:
                lines[key] = self.put(f" {key}={text} # {key} = [" if way < 0.15 else f"{key} = {text}")

    def tables(self, path, rows, level):
        """Writes a list as tables with heads. Where one of these is written otherwise none counts."""
        heads, are_plain = {}, True
        for number, table in enumerate(rows, 1):
            form = self.chance.choice(("[[{}]]", "[[{}]] # x", "  [[{}]]")) if self.chance.random() > 0.01 else "[[ {} ]]"
            are_plain = are_plain and form != "[[ {} ]]"
            row = (path, number, level)
            heads[row] = self.put(form.format(path))
            inner = table.get("row") if path == "level" and self.has_heads(table.get("row")) else None
            self.keys(row, {key: it for key, it in table.items() if key != "row" or inner is None})
            if inner is not None:
                self.tables("level.row", inner, number)
        for row, line in heads.items():
            self.lines[row][None] = line
        if not are_plain:
            self.lines = {row: {} if row in heads or (path == "level" and row[0] == "level.row") else it for row, it in self.lines.items()}
        elif level == 0:
            self.lines[WHOLE][path] = heads[path, 1, 0]

    def data(self):
        return ("\n".join(self.text) + "\n").encode()

    def line(self, row, name):
        return self.lines.get(row, {}).get(name) if self.is_plain else None


def places(tree):
    """Each table of a setup, with its keys."""
    yield tree, [*UNIT, *LISTS]
    for path, keys in LISTS.items():
        for table in tree[path]:
            yield table, [*keys, "row"] if path == "level" else list(keys)
            for row in table.get("row", []):
                yield row, list(ROWS)


def changes():
    """Each way to spoil a setup: the number of a table, a key, and its new value; None leaves the key out."""
    for at, (_, keys) in enumerate(places(GOOD)):
        for key in keys:
            for value in (None, *ODD, *(VALUES.get(key, BORDERS) if at >= ANSWER or key != "request" else BORDERS)):
                yield at, key, value
        yield at, "other", 1
    for path in LISTS:
        for count in (0, 1, MOST_ROWS[path], MOST_ROWS[path] + 1):
            yield 0, path, [other_row(path, n) for n in range(count)]
    for count in (0, 1, 64, 65):
        yield LEVEL, "row", [{"seed": "01", "key": "00"}] * count


def other_row(path, n):
    row = {key: value for key, value in GOOD[path][-1].items() if key not in ("read_level", "write_level", "level")}
    row.update({"tester": {"name": f"T{n}", "request": 2 * n, "response": 2 * n + 1}, "did": {"id": n}, "code": {"code": n}, "routine": {"id": n}, "level": {"sub": 2 * n + 1}, "answer": {}}[path])
    return row


def spoilt(changes):
    """The good setup with these changes."""
    tree = copy.deepcopy(GOOD)
    tables = [table for table, _ in places(tree)]
    for at, key, value in changes:
        if value is None:
            tables[at].pop(key, None)
        else:
            tables[at][key] = value
    return tree


def ran(*words):
    return subprocess.run([PROGRAM, *words], capture_output=True, timeout=60, text=True)


def lines_of(text, written):
    """The line that a line of `check` tells, and the one on which that was written."""
    if found := EMPTY.match(text):
        return found["line"], written.line(("level", int(found["number"]), 0), None) if found["number"] else written.line(WHOLE, "tester")
    if found := ITEM.match(text):
        return found["line"], written.line(("level", int(found["level"]), 0), "row") if found["level"] else written.line(WHOLE, found["path"])
    found = TOLD.match(text)
    if not found:
        return None, "no place"
    row = (found["path"], int(found["number"]), int(found["level"] or 0)) if found["path"] else WHOLE
    return found["line"], written.line(row, None if found["missing"] else found["name"])


def misplaced(text, written, above):
    """The first line of `check` that doesn't tell the right line of a setup below so many others; None where each does."""
    for line in text.splitlines():
        if line != "nothing is wrong" and not line.startswith("range: the replies of all "):
            found, want = lines_of(line, written)
            if found != (str(want + above) if isinstance(want, int) else want):
                return line
    return None


def compare(folder, name, written, before=b""):
    """Whether a run and the look at the setup say the same."""
    path = os.path.join(folder, "setup.toml")
    data = before + written.data()
    above = before.count(b"\n")
    if before.startswith(b"a = "):
        written.lines[WHOLE]["a"] = 1 - above
    with open(path, "wb") as file:
        file.write(data)
    run = ran("--quiet", "bus", path, os.devnull).stderr.strip().removeprefix("uds_play: config: ")
    check = ran("check", path)
    lines = [line for line in (re.sub(r"^line \d+: ", "", line) for line in check.stdout.splitlines()) if line.startswith(FAULTS)]
    first, _, place = lines[0].partition(": ") if lines else ("", "", "")
    good = run == first and check.stderr == "" and check.returncode == (2 if run else 0)
    good = good and check.stdout != "" and UNPLACED not in check.stdout and bool(place) == bool(run)
    if run == "syntax":
        good = good and check.stdout.startswith("syntax: " if name == "no UTF-8" else "line 1: syntax: column ")
    wrong = misplaced(check.stdout, written, above) if run not in ("syntax", "too long") else None
    told(good and wrong is None, name, f"a run says {run!r}, the look at it {wrong or check.stdout[:300]!r}\n{data.decode(errors='replace')}")


def compare_marked(folder, name, data):
    """Whether `check` says the same of a setup with a byte order mark before it."""
    path, said = os.path.join(folder, "setup.toml"), []
    for before in (b"", MARK):
        with open(path, "wb") as file:
            file.write(before + data)
        check = ran("check", path)
        said.append((check.returncode, check.stdout, check.stderr))
    told(said[0] == said[1], f"{name} behind a byte order mark", f"{said[0]} without it, {said[1]}")


def unmarked():
    """The setups of runs/words that are UTF-8 without a byte order mark, by their paths."""
    for path in sorted(glob.glob(f"{TOP}/runs/words/**/*.toml", recursive=True)):
        with open(path, "rb") as file:
            data = file.read()
        if data == data.decode(errors="ignore").encode() and not data.startswith(MARK):
            yield path, data


def compare_items(folder, lists):
    """Whether `check` tells of each item of these lists that is no pattern, or no template, by its number, in order."""
    path = os.path.join(folder, "setup.toml")
    tree = {**GOOD, "ignore": lists["ignore"], "answer": [{"request": "22" * 16, "reply": lists["answer.reply"]}]}
    with open(path, "w", encoding="utf-8") as file:
        file.writelines(f"{key} = {value_text(value)}\n" for key, value in tree.items())
    check = ran("check", path)
    found = [(it[1], int(it[2])) for it in map(BAD_ITEM.match, check.stdout.splitlines()) if it]
    want = [(key, number) for key, items in lists.items() for number, it in enumerate(items, 1) if not is_item(key, it)]
    told(found == want, "items", f"{lists}: {want} wanted, {check.stdout!r}")


def is_item(key, item):
    return isinstance(item, str) and ITEM_FORMS[key].fullmatch(item) is not None


def compare_open(folder, chance):
    """Whether `check` tells since which line a list isn't closed, and tells none where it is, and an item is at fault."""
    path, before = os.path.join(folder, "setup.toml"), chance.choices(IDLE, k=chance.randint(0, 3))
    rows = [f" {it}" for it in chance.choices(OPEN_ITEMS, k=chance.randint(0, 4))]
    last = len(rows) - chance.randint(0, 1)
    rows = [row.replace(" #", ", #") if "#" in row else f"{row}," for row in rows[:last]] + rows[last:]
    for is_open in (True, False):
        lines = [*before, "ignore = [", *rows, *chance.choices(IDLE, k=chance.randint(0, 2))]
        lines += [chance.choice(BEHIND_OPEN)] if is_open else [chance.choice(BAD_ITEMS), "]", "p2_ms = 25"]
        with open(path, "w", encoding="utf-8") as file:
            file.write("\n".join(lines) + "\n")
        check = ran("check", path)
        told_open = check.stdout.endswith(STILL_OPEN.format(len(before) + 1)) if is_open else "still open" not in check.stdout
        told(check.returncode == 2 and told_open, "a list that is open" if is_open else "a list that is closed", f"{lines}: {check.stdout!r}")


def random_row(chance):
    pattern = "".join(chance.choice(ITEMS) for _ in range(chance.randint(1, 3))) + chance.choice(("", "*"))
    if chance.random() < 0.4:
        pattern = chance.choice(CONTROL_PATTERNS)
    row = {"request": pattern, "session": chance.choice((0, 0, 1, 2, 3, 4)), "level": chance.choice((0, 0, 1, 3))}
    way = chance.random()
    if way < 0.4:
        return {**row, "reply": [""], "enter": chance.choice((1, 2, 3, 4))}
    return {**row, "reply": [""]} if way < 0.8 else row


@functools.cache
def fitting(pattern):
    """The requests that a row's pattern is for."""
    text = pattern.rstrip("*")
    items = [text[at : at + 2] for at in range(0, len(text), 2)]
    has_length = (lambda n: n >= len(items)) if pattern.endswith("*") else (lambda n: n == len(items))
    return frozenset(it for it in REQUESTS if has_length(len(it)) and all(item == ".." or int(item, 16) == b for item, b in zip(items, it)))


def accesses(row):
    """The sessions and unlocked levels in which a row applies."""
    return [it for it in ACCESSES if row["session"] in (0, it[0]) and row["level"] in (0, it[1])]


def is_served(rows, request, access):
    """Whether the server itself answers a request: the first row that applies has no reply, or there is none."""
    return "reply" not in next((row for row in rows if request in fitting(row["request"]) and access in accesses(row)), {})


def taker(rows, number, sessions):
    """The number of the first row before one, from 1, that takes all to which this one applies in these sessions; 0 where there
    is none, and None where it never applies."""
    own, at = fitting(rows[number - 1]["request"]), places_of(rows[number - 1], sessions)
    takers = (first for first, row in enumerate(rows[: number - 1], 1) if own <= fitting(row["request"]) and at <= places_of(row, sessions))
    return next(takers, 0) if at else None


def places_of(row, sessions):
    """The accesses of these sessions in which a row applies."""
    return {it for it in accesses(row) if it[0] in sessions}


def reached(rows, controls):
    """The sessions that a tester may come to, from the default session on, who asks the server for 3 by these requests: what the
    server enters, and each row that no single one before it takes."""
    found, new = set(), {1}
    while new:
        found |= new
        own = {3} if any(is_served(rows, request, it) for request in controls for it in ACCESSES if it[0] in found) else set()
        new = own | {row["enter"] for number, row in enumerate(rows, 1) if "enter" in row and taker(rows, number, found) == 0}
        new -= found
    return found


def compare_rows(folder, rows):
    """Whether `check` says of each row that never applies, but by its own session and level, which earlier one takes all, or
    that nothing leads to its session; and of those for session 3 that 10 83 alone leads there."""
    path = os.path.join(folder, "setup.toml")
    tree = {**GOOD, "answer": rows}
    with open(path, "w", encoding="utf-8") as file:
        file.writelines(f"{key} = {value_text(value)}\n" for key, value in tree.items())
    check = ran("check", path)
    taken = {int(it[1]): int(it[2]) for it in map(TAKEN.match, check.stdout.splitlines()) if it}
    unreached, quiet = ({int(it[1]) for it in map(form.match, check.stdout.splitlines()) if it} for form in (UNREACHED, QUIET))
    sessions, aloud = reached(rows, CONTROLS), reached(rows, CONTROLS[:1])
    want = {number: first for number in range(1, len(rows) + 1) if (first := taker(rows, number, sessions))}
    far = {number for number, row in enumerate(rows, 1) if row["session"] not in {0, *sessions}}
    by_quiet = {number for number, row in enumerate(rows, 1) if row["session"] == 3 and 3 in sessions - aloud}
    told((taken, unreached, quiet) == (want, far, by_quiet), "rows", f"{rows}: {want}, {far} and {by_quiet} wanted, {check.stdout!r}")


def main():
    told.needs_program()
    every = list(changes())
    chance = random.Random(7)
    with tempfile.TemporaryDirectory() as folder:
        compare(folder, "good", Written(GOOD, chance))
        for name, before in BEFORE.items():
            compare(folder, name, Written(GOOD, chance), before)
        for name, some in TOGETHER.items():
            compare(folder, name, Written(spoilt(some), chance))
        for change in every:
            compare(folder, change, Written(spoilt([change]), chance))
        for _ in range(SEVERAL):
            some = chance.sample(every, 3)
            compare(folder, some, Written(spoilt(some), chance))
        for _ in range(ROW_SETUPS):
            compare_rows(folder, [random_row(chance) for _ in range(4)])
        for _ in range(LIST_SETUPS):
            compare_items(folder, {key: chance.choices(LIST_ITEMS, k=chance.randint(1, 6)) for key in ITEM_FORMS})
        for _ in range(OPEN_SETUPS):
            compare_open(folder, chance)
        for name, before in BEFORE.items():
            if not before.startswith(MARK):
                compare_marked(folder, name, before + Written(GOOD, chance).data())
        for path, data in unmarked():
            compare_marked(folder, os.path.relpath(path, TOP), data)
    return told.ended()


if __name__ == "__main__":
    sys.exit(main())
