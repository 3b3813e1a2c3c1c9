"""What each test of the built program repeats: where it is, a line for what was found good or wrong, and the last line,
'N passed, M failed'. Whoever imports this finds the modules of tools/ and dev/, too. No part of what is proved."""
import glob
import os
import subprocess
import sys
import tempfile
from dataclasses import dataclass

sys.dont_write_bytecode = True
TOP = os.path.dirname(os.path.dirname(os.path.abspath(__file__)))
PROGRAM = f"{TOP}/crates/uds_play/out/uds_play"
# where Debian's packages for Python stand, for a Python that isn't Debian's
DEBIAN = "/usr/lib/python3/dist-packages"
sys.path += [f"{TOP}/tools", f"{TOP}/tools/parts", f"{TOP}/dev"]


def run_without(number, words, **more):
    """Runs a command, with the standard stream of this number closed, and the others as bytes."""
    return subprocess.run(["sh", "-c", f'exec "$@" {number}>&-', "sh", *words], capture_output=True, timeout=120, **more)


def is_built(program=PROGRAM):
    return os.access(program, os.X_OK)


@dataclass(frozen=True)
class Case:
    """A case of runs/, as test/runs.sh runs it: its folder, what its files begin with, and the words of its commands, without
    a file that is standard input."""

    folder: str
    prefix: str
    commands: list

    def file(self, kind):
        """The path of what is expected: of `stdout`, `stderr` and so on."""
        return f"{self.folder}/{self.prefix}{kind}"

    @property
    def name(self):
        return f"{os.path.relpath(self.folder, TOP + '/runs')}/{self.prefix}".rstrip("/.")

    @property
    def has_notes(self):
        """Whether notes are compared, too."""
        return self.name.startswith("words/")


def cases():
    """The cases of runs/, by name."""
    found = []
    for path in glob.glob(f"{TOP}/runs/**/*commands", recursive=True):
        with open(path, encoding="ascii") as it:
            commands = [line.partition(" < ")[0].split() for line in it]
        found.append(Case(os.path.dirname(path), os.path.basename(path).removesuffix("commands"), commands))
    return sorted(found, key=lambda it: it.name)


class Tally:
    """What a test has found: how often something was good and how often wrong, with a line for each; or, of a quiet test,
    for what was wrong alone. A line has so many characters at most."""

    def __init__(self, name, most=900, quiet=False):
        self.name, self.most, self.quiet = name, most, quiet
        self.passed = self.failed = 0

    def __call__(self, good, what, more=""):
        """Counts and tells one thing; where it is wrong with what was found instead. Returns whether it was good."""
        if good:
            self.passed += 1
            if not self.quiet:
                self.note(what)
        else:
            self.failed += 1
            print(f"{self.name.upper()} WRONG: {what}: {more}"[: self.most], flush=True)
        return good

    def note(self, text):
        """Tells something that counts for nothing."""
        print(f"{self.name}: {text}", flush=True)

    def in_rooms(self, *groups):
        """Calls each of the groups with an empty folder of its own."""
        for group in groups:
            with tempfile.TemporaryDirectory() as room:
                group(room)

    def ended(self):
        """Prints the last line; the test's status: 0 where something was good and nothing wrong."""
        print(f"{self.passed} passed, {self.failed} failed")
        return 1 if self.failed or not self.passed else 0

    def needs_program(self, program=PROGRAM):
        """Ends the test where the program isn't built."""
        if not is_built(program):
            self(False, f"{program} isn't built")
            sys.exit(self.ended())
