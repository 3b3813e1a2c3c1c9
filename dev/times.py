#!/usr/bin/env python3
"""Where the time of the gate goes, crate by crate and edit by edit, in processor seconds.

Usage: dev/times.py [--to FILE] COMMAND WORD..    as in dev/times.py rt ci
                                                    or    dev/times.py rt must-fail diag_can

It runs the command in this folder and, twice a second, looks at the processes below it: each run of the prover names its
crate, and works in a folder that tells what it is for. `rt` itself prints no times. Processor seconds are those of a run
and of all that it started; they say nearly the same beside other work, where the time of day doesn't. At the end it prints
a table for the crates, one for the wrong edits, dearest first, and what is left: `rt`, the linker and the tools; with --to they
go into that file. A run's last half second may be missed, so the sum of all is taken from the system. The status is the
command's.
"""
import os
import subprocess
import sys
import threading

ROOT = os.path.dirname(os.path.dirname(os.path.abspath(__file__)))
TICKS = os.sysconf("SC_CLK_TCK")
PARTS = ("proof", "tests", "edits", "runs")


def read(path):
    try:
        with open(path, encoding="utf-8", errors="replace") as it:
            return it.read()
    except OSError:
        return ""


def names_of_crates():
    lines = [line.split(":")[0].split() for line in read(f"{ROOT}/crates.txt").split("\n") if not line.startswith("#")]
    return [words[0] for words in lines if words]


class Edit:
    """A wrong edit: the texts that stand in its crate's files where it is applied, and those that don't."""

    def __init__(self, crate, path):
        self.name = f"{crate}/{os.path.basename(path).removesuffix('.edit')}"
        self.pairs, file, old = [], "", ""
        for line in read(path).split("\n"):
            if line.startswith("file: "):
                file = line[6:].strip()
            elif line.startswith("old: "):
                old = line[5:]
            elif line.startswith("new:"):
                self.pairs.append((file, old, line[5:]))

    def is_applied_in(self, folder, crate):
        """Whether each file that it changes is there as the edit makes it of the crate's own."""
        made = {}
        for file, old, new in self.pairs:
            text = made.get(file) or read(f"{ROOT}/crates/{crate}/{file}")
            made[file] = text.replace(old, new)
        return bool(made) and all(read(f"{folder}/{file}") == text for file, text in made.items())


def edits_of(crate):
    folder = f"{ROOT}/crates/{crate}/must-fail"
    names = sorted(os.listdir(folder)) if os.path.isdir(folder) else []
    return [Edit(crate, f"{folder}/{name}") for name in names if name.endswith(".edit")]


class Watch:
    """The processor seconds of each run that was seen below a process."""

    def __init__(self, crates):
        self.crates = crates
        self.edits = {crate: edits_of(crate) for crate in crates}
        self.kinds = {}
        self.used = {}

    def kind(self, pid):
        """What a process is for: its crate, its part, and the edit's name; None where it is none of these."""
        words = read(f"/proc/{pid}/cmdline").split("\0")
        try:
            folder = os.readlink(f"/proc/{pid}/cwd")
            program = os.path.basename(os.readlink(f"/proc/{pid}/exe"))
        except OSError:
            return None
        if program == "rattle" and "--crate-name" in words:
            crate = words[words.index("--crate-name") + 1]
            if crate not in self.edits:
                return None
            if "/rt-edit-" not in f"{folder}/":
                return crate, "tests" if "--test" in words else "proof", ""
            edit = next((it.name for it in self.edits[crate] if it.is_applied_in(folder, crate)), f"{crate}: no edit")
            return crate, "edits", edit
        crate = program.removesuffix(".by-rattle").removesuffix("_tests")
        crate = next((it for it in (program, crate) if it in self.edits), None)
        return (crate, "runs", "") if crate else None

    def look(self, top):
        """Looks at the processes below this one."""
        table = {}
        for entry in os.listdir("/proc"):
            words = read(f"/proc/{entry}/stat").rpartition(")")[2].split() if entry.isdigit() else ()
            if words:
                table[int(entry)] = int(words[1]), words[19], sum(map(int, words[11:15])) / TICKS
        below, fresh = {top: None}, [top]
        while fresh:
            fresh = [pid for pid, row in table.items() if row[0] in fresh and pid not in below]
            for pid in fresh:
                key = pid, table[pid][1]
                if not self.kinds.get(key):
                    self.kinds[key] = self.kind(pid)
                # (what a run of the prover starts is counted with it)
                below[pid] = below[table[pid][0]] or self.kinds[key] and key
                if below[pid] == key:
                    self.used[key] = max(self.used.get(key, 0.0), table[pid][2])

    def rows(self):
        return [(*self.kinds[key], used) for key, used in self.used.items()]


def table(crates, rows, whole, out):
    print("| Crate | Proof | Tests, proved | Edits | Seconds of edits | Program and tests, run | All |\n|---|---|---|---|---|---|---|", file=out)
    sums = {}
    for crate, part, _, used in rows:
        sums[crate, part] = sums.get((crate, part), 0.0) + used
    for crate in [it for it in crates if any((it, part) in sums for part in PARTS)]:
        proof, tests, edits, runs = (sums.get((crate, part), 0.0) for part in PARTS)
        many = len({edit for name, _, edit, _ in rows if name == crate and "/" in edit})
        print(f"| `{crate}` | {proof:.0f} | {tests:.0f} | {many} | {edits:.0f} | {runs:.0f} | {proof + tests + edits + runs:.0f} |", file=out)
    print(f"\nAll: {whole:.0f} processor seconds, {whole - sum(sums.values()):.0f} of them not in the table.", file=out)


def table_of_edits(rows, out):
    sums = {}
    for _, _, edit, used in rows:
        if edit:
            sums[edit] = sums.get(edit, 0.0) + used
    if sums:
        print("\n| Edit | Seconds |\n|---|---|", file=out)
        for edit, used in sorted(sums.items(), key=lambda it: -it[1]):
            print(f"| `{edit}` | {used:.0f} |", file=out)


def main(words):
    file = "/dev/stdout"
    if words[:1] == ["--to"]:
        file, words = words[1], words[2:]
    if not words or words[0] in ("-h", "--help"):
        sys.exit(__doc__)
    crates = names_of_crates()
    watch, over = Watch(crates), threading.Event()
    made = subprocess.Popen(words, cwd=ROOT)

    def look_on():
        while not over.wait(0.5):
            watch.look(made.pid)

    looking = threading.Thread(target=look_on)
    looking.start()
    _, status, used = os.wait4(made.pid, 0)
    made.returncode = os.waitstatus_to_exitcode(status)
    over.set()
    looking.join()
    rows = watch.rows()
    with open(file, "a", encoding="utf-8") as out:
        table(crates, rows, used.ru_utime + used.ru_stime, out)
        table_of_edits(rows, out)
    return made.returncode


if __name__ == "__main__":
    sys.exit(main(sys.argv[1:]))
