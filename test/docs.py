#!/usr/bin/env python3
"""Runs the commands that stand in the documents, as they stand there, each document in a folder of its own with a copy
of what the commands need; and sees that the files and the names that a document tells of are there, and that the
pictures are those of their texts. The last line is 'N passed, M failed'.

    test/docs.py               all documents
    test/docs.py docs/USE.md   this one

In a document a block is what is indented by four spaces, or stands between lines of three backticks. What it is:

- the lines of a command, where the first one begins with one of RUN, OTHERS or STAND_INS; a program of OTHERS that isn't
  there is installed where the environment has INSTALL_PACKAGES, and else the block is passed over, and a line says so;
  those of STAND_INS want a CAN bus, and a script of two lines stands in for each; those of WIRESHARK are run where they
  are there;
- a program, where the word `python` stands behind the backticks;
- what stands in a file, where the text before it ends with the file's name in backticks and a colon; after `Add to`
  it is put behind what the file has;
- what the command before it prints, its faults included, where the text before it ends with `prints:`; where the text
  before says `status N` that is the command's status, else 0 is; `...` for the lines that are left out at the end;
- lines that the command before it prints, where the text before it ends with `in it:`; its status is told as above;
- code, where the text before it ends with the path of a source in backticks and a colon: it stands in that file, word for
  word; in a document of QUOTING each block is code;
- commands that can't be run here, where the first one begins with one of NOT_RUN, which says why; a line tells of each;
- else something that is only shown, with no command of the program in it.
"""
import glob
import os
import re
import shutil
import subprocess
import sys
import tempfile

from harness import TOP, Tally, is_built
import packages
import pictures

PROGRAM = "crates/uds_play/out/uds_play"
LIBRARY = "crates/uds_unit/out/libuds_unit.so"
# those whose commands are run
DOCUMENTS = ["README.md", "docs/USE.md", "docs/VIEW.md", "demo/README.md", "CONTRIBUTING.md"]
# those that show code alone
QUOTING = ["docs/EMBED.md"]
# the one that tells of names which are gone, too
CHANGES = "CHANGELOG.md"
# names in the documents that are no names of the repository's
OF_OTHERS = {"can_logger", "can_logconvert"}
RUN = ("./uds_play", "tools/", "test/", "dev/", "LC_ALL=C sort ", "sed ", "diff ", "grep ", "for ", "rt lemma ")
STAND_INS = {"candump": "sed -n 1,10p demo/bus.log", "canplayer": "cat"}
# programs that a machine may not have, with Debian's packages of them
OTHERS = {"asc2log": "can-utils", "log2asc": "can-utils", "can_logconvert": "python3-can"}
# programs that are much to install: their commands are run where they are there
WIRESHARK = ("editcap", "tshark")
NOT_RUN = {
    "editcap ": "it wants Wireshark, which is much to install",
    "tshark ": "it wants Wireshark, which is much to install",
    "bench/": "it wants the executables of two states of the repository",
}
# files and folders that the commands need
NEEDED = ["uds_play", "crates.txt", "demo", "tools"]
SECONDS = 120
told = Tally("docs", most=2000)


def whole(path):
    with open(path, encoding="utf-8", errors="replace") as it:
        return it.read()


# ---- the blocks of a document


class Block:
    """A block of a document: the number of its first line, its lines, the word behind its backticks, and the text
    between it and the block before."""

    def __init__(self, number, before, language=""):
        self.number = number
        self.before = " ".join(before.split())
        self.language = language
        self.lines = []

    def is_command(self):
        word = first_word(self.lines[0])
        is_there = word in WIRESHARK and shutil.which(word) is not None
        return bool(self.language) or self.lines[0].startswith(RUN) or word in OTHERS or word in STAND_INS or is_there

    def has_command(self):
        return any(line.startswith(("./uds_play", "tools/", "test/", "dev/")) for line in self.lines)

    def why_not(self):
        """Why the commands can't be run here."""
        return next((why for begin, why in NOT_RUN.items() if self.lines[0].startswith(begin)), None)

    def commands(self):
        return ["\n".join(self.lines)] if self.language else self.lines

    def file(self):
        """The name of the file whose lines these are."""
        found = re.search(r"`([a-z_]+\.(?:toml|log|txt))`:$", self.before)
        return found and found[1]

    def source(self):
        """The path of the source in which these lines stand."""
        found = re.search(r"`((?:crates|demo)/[\w/]+\.(?:rt|c))`:$", self.before)
        return found and found[1]

    def is_added(self):
        return bool(re.search(r"Add to `[^`]*`:$", self.before, re.IGNORECASE))

    def is_printed(self):
        return self.before.endswith("prints:")

    def is_part(self):
        return self.before.endswith("in it:")

    def status(self):
        found = re.search(r"status (\d)", self.before)
        return int(found[1]) if found else 0

    def text(self):
        return "".join(f"{line}\n" for line in self.lines)


def first_word(line):
    return line.split(" ", 1)[0]


def blocks_of(text):
    """The blocks of a document, in order."""
    found, before, is_open, fence = [], [], False, None
    for number, line in enumerate(text.splitlines(), 1):
        if line.startswith("```"):
            fence, is_open = line[3:] if fence is None else None, False
        elif fence is not None or line.startswith("    "):
            if not is_open:
                found.append(Block(number, "\n".join(before), fence or ""))
                before, is_open = [], True
            found[-1].lines.append(line if fence is not None else line[4:])
        elif is_open and not line.strip():
            found[-1].lines.append("")
        else:
            is_open = False
            before.append(line)
    for block in found:
        while not block.lines[-1]:
            block.lines.pop()
    return found


# ---- the commands


def make_room(room):
    """Copies what the commands need into the folder."""
    for name in NEEDED:
        copy = shutil.copytree if os.path.isdir(f"{TOP}/{name}") else shutil.copy2
        copy(f"{TOP}/{name}", f"{room}/{name}")
    os.makedirs(os.path.dirname(f"{room}/{PROGRAM}"))
    shutil.copy(f"{TOP}/{PROGRAM}", f"{room}/{PROGRAM}")
    os.mkdir(f"{room}/stand_ins")
    for name, command in STAND_INS.items():
        with open(f"{room}/stand_ins/{name}", "w", encoding="utf-8") as it:
            it.write(f"#!/bin/sh\nexec {command}\n")
        os.chmod(f"{room}/stand_ins/{name}", 0o755)


def lacks(block):
    """The programs of OTHERS that the block wants and that are not there and can't be installed."""
    wanted = {first_word(line) for line in block.lines} & set(OTHERS)
    return sorted(it for it in wanted if not is_there(it))


def is_there(program):
    """Whether a program of OTHERS is there, or could be installed."""
    if not shutil.which(program):
        packages.install(OTHERS[program], f"docs: {OTHERS[program]} is installed for the commands of the documents")
    return shutil.which(program) is not None


def run(room, command, language=""):
    """Runs a line of a block, or a program, in the folder; returns all that it prints, and its status."""
    words = [sys.executable, "-c"] if language else ["bash", "-o", "pipefail", "-c"]
    folder = f"{TOP}/crates/diag_can" if command.startswith("rt ") else room
    paths = {**os.environ, "PATH": f"{room}/stand_ins:{os.environ['PATH']}", "PYTHONPATH": f"{TOP}/python"}
    it = subprocess.run([*words, command], cwd=folder, env=paths, stdin=subprocess.DEVNULL, stdout=subprocess.PIPE,
                        stderr=subprocess.STDOUT, timeout=SECONDS)
    return it.stdout.decode(), it.returncode


def is_as_shown(shown, printed):
    """Whether this was printed; `...` as the last line stands for any more lines."""
    if shown.endswith("\n...\n"):
        return printed.startswith(shown[:-4])
    return shown == printed


def play(name, room):
    """Runs the commands of a document in the folder."""
    blocks = blocks_of(whole(f"{TOP}/{name}"))
    make_room(room)
    printed = ""
    for before, block, after in zip([None, *blocks], blocks, [*blocks[1:], None]):
        place = f"{name}:{block.number}"
        if block.file():
            told(not block.has_command(), f"{place}: {block.file()}", "a command stands in it")
            with open(f"{room}/{block.file()}", "a" if block.is_added() else "w", encoding="utf-8") as it:
                it.write(block.text())
        elif block.is_printed():
            if before is None or not before.is_command():
                told(False, f"{place}: what is printed", "there is no command before it")
        elif block.is_part():
            told(set(block.lines) <= set(printed.splitlines()), f"{place}: what is shown is printed", printed)
        elif block.is_command():
            shown = after if after is not None and (after.is_printed() or after.is_part()) else None
            printed = play_command(place, room, block, shown)
        elif block.why_not():
            print(f"docs: {place}: not run, for {block.why_not()}: {block.lines[0]}", flush=True)
        else:
            told(not block.has_command(), f"{place}: only shown: {block.lines[0]}", "a command stands in it")


def play_command(place, room, block, shown):
    """Runs the commands of a block; the last one has the status and the output that the next block says.
    Returns what the last one prints."""
    missing = lacks(block)
    if "uds_unit import" in block.text() and not os.path.exists(f"{TOP}/{LIBRARY}"):
        missing = [LIBRARY]
    if missing:
        print(f"docs: {place}: not run, for {', '.join(missing)} isn't here", flush=True)
        return ""
    *others, last = block.commands()
    for line in others:
        printed, status = run(room, line)
        told(status == 0, f"{place}: {line}", f"status {status}: {printed}")
    printed, status = run(room, last, block.language)
    wanted = shown.status() if shown else 0
    told(status == wanted, f"{place}: {last.splitlines()[0]}", f"status {status} and not {wanted}: {printed}")
    if shown and shown.is_printed():
        told(is_as_shown(shown.text(), printed), f"{place}: it prints what is shown", printed)
    return printed


# ---- the files and the names


def words_of(text):
    return set(re.findall(r"[A-Za-z_][A-Za-z_0-9]*", text))


def known_names():
    """All words of the sources, the proofs, the edits and the tools, and of the names of their files."""
    found = set()
    for part in (*(f"crates/*/{it}" for it in ("src", "specs", "proofs", "must-fail", "edits")), "tools", "test", "dev", "runs", "bench", "demo", "include", "python"):
        for path in glob.glob(f"{TOP}/{part}/**/*", recursive=True):
            if path.endswith((".rt", ".antt", ".py", ".sh", ".c", ".h", ".toml")):
                found |= words_of(whole(path))
            found |= words_of(path.removeprefix(TOP))
    return found | words_of(whole(f"{TOP}/crates.txt"))


def missing_files(text):
    """The paths that a text tells of and that are not there; CRATE and NAME stand for any word, and what is built isn't looked for."""
    paths = re.findall(r"(?<![\w/.])((?:crates|docs|tools|test|dev|runs|bench|demo|include|python)/[\w./*-]*[\w*/])", text)
    return sorted({it for it in paths if "/out/" not in it and not glob.glob(f"{TOP}/{re.sub('NAME|CRATE', '*', it)}")})


def missing_names(text, known):
    """The names of two words or more in backticks, as `two_words` and `TwoWords`, that stand nowhere."""
    spans = re.findall(r"`([^`\n]+)`", text)
    names = {it for span in spans for it in words_of(span) if re.search(r"[a-z]_[a-z]|[a-z][A-Z]", it)}
    return sorted(names - known - set(OTHERS) - OF_OTHERS)


def unexplained():
    """The words of contracts, as `TwoWords`, that docs/PROMISES.md cites and docs/DEFINITIONS.md doesn't have."""
    defined = set()
    for path in glob.glob(f"{TOP}/crates/*/specs/*.antt"):
        defined |= set(re.findall(r"^(?:\w+ )*pub (?:record |data |abbrev )?([A-Z]\w*)", whole(path), re.MULTILINE))
    cited = set()
    for span in re.findall(r"`([^`\n]+)`", whole(f"{TOP}/docs/PROMISES.md")):
        cited |= words_of(span)
    return sorted(cited & defined - words_of(whole(f"{TOP}/docs/DEFINITIONS.md")))


def compare_code(name, text):
    """Sees that the code of a document stands in the sources that it names."""
    for block in blocks_of(text):
        place, source = f"{name}:{block.number}", block.source()
        if source:
            there = os.path.exists(f"{TOP}/{source}") and "\n" + block.text() in "\n" + whole(f"{TOP}/{source}")
            told(there, f"{place}: it stands in {source}: {block.lines[0]}", "another text stands there")
        elif name in QUOTING:
            told(False, f"{place}: the code stands in a source", "the text before it names none")


def look_at_pictures(known):
    """Sees that each picture is that of its text, and that the names in it are there."""
    for path in sorted(glob.glob(f"{pictures.FOLDER}/*.txt")):
        name = os.path.relpath(path, TOP)
        told(pictures.is_drawn(path), f"{name}: its picture", "it is another; run dev/pictures.py")
        lines = "\n".join(pictures.lines_of(whole(path)))
        missing = sorted({it for it in words_of(lines) if re.search(r"[a-z]_[a-z]|[a-z][A-Z]", it)} - known)
        told(not missing, f"{name}: the names that it tells of are there", ", ".join(missing))


def look():
    """Sees that what the documents tell of is there."""
    known = known_names()
    look_at_pictures(known)
    for path in sorted([*glob.glob(f"{TOP}/*.md"), *glob.glob(f"{TOP}/docs/*.md"), f"{TOP}/demo/README.md", f"{TOP}/bench/plain/README.md"]):
        name, text = os.path.relpath(path, TOP), whole(path)
        compare_code(name, text)
        missing = missing_files(text)
        told(not missing, f"{name}: the files that it tells of are there", ", ".join(missing))
        if name != CHANGES:
            missing = missing_names(text, known)
            told(not missing, f"{name}: the names that it tells of are there", ", ".join(missing))
    missing = unexplained()
    told(not missing, "docs/PROMISES.md: docs/DEFINITIONS.md has the words that it cites", ", ".join(missing))


def play_alone(name):
    """Runs the commands of a document in a folder of its own."""
    with tempfile.TemporaryDirectory() as room:
        before = told.passed + told.failed
        play(name, room)
        told(told.passed + told.failed > before, f"{name} has commands")


def main():
    for name in sys.argv[1:] or DOCUMENTS:
        if name in QUOTING:
            compare_code(name, whole(f"{TOP}/{name}"))
        elif is_built():
            play_alone(name)
        else:
            told(False, f"{name}: {PROGRAM} isn't built")
    if not sys.argv[1:]:
        look()
    return told.ended()


if __name__ == "__main__":
    sys.exit(main())
