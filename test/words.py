#!/usr/bin/env python3
"""Makes the man page and the completion for bash from what `uds_play --help` and `uds_play COMMAND --help` print, and
compares them with man/uds_play.1 and completion/uds_play.bash; with --write it writes these. The help of each command has
each section, in lines of at most 80 columns. The page is read by man, where that is there, and the completion is tried in
bash; the example of each command runs over demo/, and ends as its help says; a terminal shows how far a long run is; and
notes tell what no run of runs/words/ shows.
Usage: test/words.py [--write]
The last line is 'N passed, M failed'."""
import os
import pty
import re
import shutil
import subprocess
import sys
import tempfile

from harness import PROGRAM, TOP, Tally

PAGE, COMPLETION = "man/uds_play.1", "completion/uds_play.bash"
# the sections of a command's help behind its usage, in their order
SECTIONS = ("Arguments", "Options", "Reads", "Writes", "Status", "Example")
# what a word of the command line may be completed to
TRIED = (
    (["uds_play", "b"], ["bus"]),
    (["uds_play", "--q"], ["--quiet"]),
    (["uds_play", "bus", "--j"], ["--journal"]),
    (["uds_play", "compare", "--d"], ["--differences"]),
    (["uds_play", "verify", "--i"], ["--interface"]),
    (["uds_play", "--quiet", "live", "--r"], ["--record"]),
    (["uds_play", "check", ""], ["folder", "unit.toml"]),
    (["uds_play", "verify", "unit.toml", ""], ["drive.log", "folder"]),
    (["uds_play", "compare", "--differences", "unit.toml", ""], ["drive.log", "folder"]),
    (["uds_play", "replay", "unit.toml", ""], ["drive.log", "folder", "journal", "unit.toml"]),
    (["uds_play", "bus", "--interface", ""], []),
    (["uds_play", "bus", "--interface", "can0", ""], ["folder", "unit.toml"]),
    (["uds_play", "bus", "--interface", "=", "can0", ""], ["folder", "unit.toml"]),
    (["uds_play", "bus", "--interface=can0", ""], ["folder", "unit.toml"]),
    (["uds_play", "bus", "--interface", "can0", "unit.toml", ""], ["drive.log", "folder"]),
    (["uds_play", "live", "--record", "d"], ["drive.log"]),
    (["uds_play", "live", "--record", "="], ["drive.log", "folder", "journal", "unit.toml"]),
    (["uds_play", "live", "--record", "=", "j"], ["journal"]),
    (["uds_play", "live", "--record", "new.log", ""], ["folder", "unit.toml"]),
    (["uds_play", "bus", "-", ""], ["drive.log", "folder"]),
)
told = Tally("words")


def help_of(*words):
    texts = [subprocess.run([PROGRAM, *words, it], capture_output=True, text=True, timeout=60, check=True).stdout for it in ("--help", "-h")]
    told(texts[0] == texts[1], f"help by -h: {' '.join(words)}", texts[1])
    return re.sub(r"Usage: \S+", "Usage: uds_play", texts[0], count=1)


def parts_of(text):
    """The parts of a text of help: what it is about, its usage, its lines of text, and the rows of each table."""
    about, usage, *rest = text.rstrip("\n").split("\n\n")
    parts = {"about": about.replace("\n", " "), "usage": usage.removeprefix("Usage: "), "Commands": [], **{head: [] for head in SECTIONS}}
    for part in rest:
        head, _, rows = part.partition(":\n")
        if head in ("Reads", "Writes", "Example"):
            parts[head] = [row.strip() for row in rows.split("\n")]
        elif rows:
            parts[head] = [tuple(re.split(r"\s{2,}", row.strip(), maxsplit=1)) for row in rows.split("\n")]
    return parts


def example_of(parts):
    """The commands of an example, and what stands behind them."""
    lines = parts["Example"]
    commands = [line for line in lines if line.startswith("uds_play ")]
    return commands, " ".join(line for line in lines if line not in commands)


def try_sections(texts, whole):
    """Each help is narrow, has its sections in their order, and tells no status that the program's help doesn't."""
    statuses = {number for number, _ in whole["Status"]}
    for name, text in texts.items():
        wide = [line for line in text.split("\n") if len(line) > 80]
        told(not wide, f"columns of the help of {name}", wide)
        if name == "uds_play":
            continue
        heads = tuple(re.findall(r"(?m)^([A-Z]\w+):$", text))
        own = [number for number, _ in parts_of(text)["Status"]]
        told(heads == SECTIONS, f"sections of the help of {name}", heads)
        told(own == sorted(set(own) & statuses), f"statuses of the help of {name}", own)


def flags_of(parts):
    """The long flags of a command."""
    return re.findall(r"--[a-z]+", " ".join(row[0] for row in parts["Options"]))


def roff(text):
    return text.replace("\\", "\\e").replace("-", "\\-")


def rows_of(rows):
    return [line for name, what in rows for line in (".TP", f".B {roff(name)}", roff(what))]


def sharers(commands):
    """The rows that several commands have, each with the names of these."""
    found = {}
    for name, parts in commands.items():
        for row in parts["Arguments"] + parts["Options"]:
            found.setdefault(row, []).append(name)
    return {row: names for row, names in found.items() if len(names) > 1}


def sections(parts):
    """The lines of a command's sections in the man page."""
    commands, end = example_of(parts)
    lines = [line for head in ("Reads", "Writes") for line in (".PP", f"{head}:", *map(roff, parts[head]))]
    lines += [".PP", "Status:", ".PP", ".nf", *(roff(f"{number}  {what}") for number, what in parts["Status"]), ".fi"]
    return lines + [".PP", "Example:", ".PP", ".nf", *(f".B {roff(row)}" for row in commands), ".fi", ".PP", roff(end)]


def page(whole, commands):
    """The man page. It tells a row that several commands have once; the usage of a command shows its arguments."""
    shared = sharers(commands)
    arguments = [row for row in shared if not row[0].startswith("-")]
    options = [(row[0], f"{row[1]} ({', '.join(names)})") for row, names in shared.items() if row not in arguments + whole["Options"]]
    lines = ['.TH UDS_PLAY 1 "" "uds_play" "User Commands"', ".SH NAME", f"uds_play \\- {roff(whole['about'][0].lower() + whole['about'][1:])}"]
    lines += [".SH SYNOPSIS", f".B {roff(whole['usage'])}", ".SH ARGUMENTS", *rows_of(arguments)]
    lines += [".SH OPTIONS", *rows_of(whole["Options"] + options), ".SH COMMANDS"]
    for name, parts in commands.items():
        lines += [f".SS {roff(name)}", f".B {roff(parts['usage'])}", ".PP", f"{roff(parts['about'])}."]
        lines += rows_of(row for row in parts["Arguments"] + parts["Options"] if row not in shared)
        lines += sections(parts)
    return "\n".join([*lines, ".SH EXIT STATUS", *rows_of(whole["Status"]), ""])


def values_of(commands):
    """The flags that take a value, each with what its help calls that."""
    rows = " ".join(row[0] for parts in commands.values() for row in parts["Options"])
    return dict(re.findall(r"(--[a-z]+) <([A-Z]+)>", rows))


def completion(whole, commands):
    cases = "".join(f"    {name}) flags=\"{' '.join(flags_of(parts))}\" ;;\n" for name, parts in commands.items())
    values = values_of(commands)
    files = " | ".join(flag for flag, value in values.items() if value == "FILE")
    return f"""# Completion of uds_play for bash: source this file, or put it into the folder of bash-completion.
_uds_play() {{
  local word=${{COMP_WORDS[COMP_CWORD]}} command='' given=0 flags='' pattern='*.log' wants='' it
  for it in "${{COMP_WORDS[@]:1:COMP_CWORD - 1}}"; do
    if [ -n "$wants" ]; then
      # a flag's value, before which = may stand as a word of its own
      [ "$it" = = ] || wants=''
      continue
    fi
    case $it in
      {' | '.join(values)}) wants=$it ;;
      -?*) ;;
      *) if [ -z "$command" ]; then command=$it; else given=$((given + 1)); fi ;;
    esac
  done
  COMPREPLY=()
  case $wants in
    {files}) mapfile -t COMPREPLY < <(compgen -f -- "${{word#=}}") ;;
  esac
  [ -z "$wants" ] || return 0
  case $command in
    '') flags="{' '.join([*commands, *flags_of(whole)])}" ;;
{cases}  esac
  if [ -z "$command" ] || [[ $word == -* ]]; then
    mapfile -t COMPREPLY < <(compgen -W "$flags" -- "$word")
    return
  fi
  [ "$given" -gt 0 ] || pattern='*.toml'
  [ "$command$given" != replay1 ] || pattern='*'
  mapfile -t COMPREPLY < <(compgen -d -- "$word"; compgen -f -X "!$pattern" -- "$word")
}}
complete -o filenames -F _uds_play uds_play
"""


def completed(folder, words):
    """What bash completes the last of these words to."""
    script = f'source "{TOP}/{COMPLETION}"; COMP_WORDS=("$@"); COMP_CWORD=$(($# - 1)); _uds_play; printf "%s\\n" "${{COMPREPLY[@]}}"'
    done = subprocess.run(["bash", "-c", script, "bash", *words], cwd=folder, capture_output=True, text=True, timeout=60)
    return sorted({it for it in done.stdout.split("\n") if it})


def try_completion():
    with tempfile.TemporaryDirectory() as folder:
        os.mkdir(f"{folder}/folder")
        for name in ("unit.toml", "drive.log", "journal"):
            with open(f"{folder}/{name}", "w"):
                pass
        for words, want in TRIED:
            found = completed(folder, words)
            told(found == want, f"completed: {' '.join(words)}", found)


def try_page():
    if not shutil.which("man"):
        print("words: there is no man, so the page isn't read by it")
        return
    done = subprocess.run(["man", "--warnings", "-l", f"{TOP}/{PAGE}"], capture_output=True, text=True, timeout=60, env={**os.environ, "MANWIDTH": "100"})
    told(done.returncode == 0 and not done.stderr and "uds_play verify" in done.stdout, "man reads the page", done.stderr)


def try_examples(commands):
    """The example of each command ends with the status that its help says, which is one of the command's."""
    with tempfile.TemporaryDirectory() as folder:
        os.symlink(f"{TOP}/demo", f"{folder}/demo")
        os.symlink(PROGRAM, f"{folder}/uds_play")
        for name, parts in commands.items():
            lines, end = example_of(parts)
            done = subprocess.run(["bash", "-ec", "\n".join(lines)], cwd=folder, capture_output=True, text=True, timeout=60, env={**os.environ, "PATH": f"{folder}:{os.environ['PATH']}"})
            is_told = end.startswith(f"It ends with {done.returncode}") and str(done.returncode) in dict(parts["Status"])
            told(lines != [] and is_told and "note:" not in done.stderr, f"the example of {name}", done)


def shown(words, is_written=False):
    """What the program writes to a terminal as its standard error, and as its standard output where it is written there; its status."""
    terminal, end = pty.openpty()
    child = subprocess.Popen([PROGRAM, *words], stdin=subprocess.DEVNULL, stdout=end if is_written else subprocess.DEVNULL, stderr=end)
    os.close(end)
    pieces = []
    with os.fdopen(terminal, "rb", buffering=0) as screen:
        try:
            while piece := screen.read(65536):
                pieces.append(piece)
        except OSError:
            # a terminal ends so, once nobody has its other end
            pass
    return b"".join(pieces).decode(), child.wait(60)


def try_terminal():
    """A run of more than a second over a file shows how far it is, and takes that away before it says more."""
    with tempfile.TemporaryDirectory() as folder:
        path = f"{folder}/long.log"
        # each line lets 100 days pass, which the journal tells minute by minute
        with open(path, "w", encoding="ascii") as file:
            file.writelines(f"({at * 8_640_000}.000000) can0 123#\n" for at in range(1, 301))
            file.write("(9999999999.000000) can0 123#0\n")
        size, setup = os.path.getsize(path), f"{TOP}/demo/setup.toml"
        line = rf"\r\d+ of {size} bytes, \d+ lines a second\x1b\[K"
        over = ["--journal", setup, path]
        text, status = shown(["bus", *over])
        told(status == 3 and re.match(rf"({line})+\r\x1b\[Kuds_play: capture line 301: bad line\r\n", text), "a terminal shows how far a run is", (text, status))
        text, status = shown(["bus", "--interface", "can1", *over])
        told(status == 3 and re.match(line, text), "a terminal shows how far a run over one interface is", (text, status))
        text, status = shown(["--quiet", "bus", *over])
        told(status == 3 and "\x1b" not in text, "a terminal shows nothing with --quiet", (text, status))
        text, status = shown(["bus", setup, f"{TOP}/demo/bus.log"])
        told((text, status) == ("", 0), "a terminal shows nothing of a short run", (text, status))
        # one line of some thousand years, which all testers pass minute by minute
        with open(path, "w", encoding="ascii") as file:
            file.write("(0.000000) can0 123#\n(150000000000.000000) can0 123#\n")
        text, status = shown(["verify", setup, path], is_written=True)
        result = "".join(rf"{name} 0 frames agree\r\n" for name in ("workshop", "end_of_line"))
        told(status == 9 and re.match(rf"(\r[^\r\n]*\x1b\[K)+\r\x1b\[K{result}nothing compared\r\n", text), "what is written at the end stands by itself", (text, status))


def try_folder():
    """Standard input that can't be read is told with the system's reason."""
    with tempfile.TemporaryDirectory() as folder:
        folder = os.open(folder, os.O_RDONLY)
        done = subprocess.run([PROGRAM, "bus", f"{TOP}/demo/setup.toml"], stdin=folder, capture_output=True, text=True, timeout=60)
        os.close(folder)
    text = "uds_play: cannot read file 1\nuds_play: note: standard input: Is a directory (os error 21)\n"
    told((done.stderr, done.returncode) == (text, 7), "why standard input can't be read", done)


def noted(name, status, fault, notes, words, **streams):
    """Whether a run ends so, with this line of a fault, and these notes behind it; with --quiet without them."""
    fault = f"uds_play: {fault}\n"
    for flags, text in (([], fault + "".join(f"uds_play: note: {it}\n" for it in notes)), (["--quiet"], fault)):
        done = subprocess.run([PROGRAM, *flags, *words], capture_output=True, text=True, timeout=120, **streams)
        told((done.stderr, done.returncode) == (text, status), " ".join([name, *flags]), done)


def try_unreadable():
    """Standard input that isn't open for reading, as the launcher leaves a closed one."""
    setup = f"{TOP}/demo/setup.toml"
    with open(os.devnull, "wb") as closed:
        for words in (["bus", setup], ["live", setup], ["compare", setup, "-"]):
            note = "standard input: is it closed, or not open for reading?"
            noted(f"standard input that isn't open: {words[0]}", 7, "cannot read file 1", [note], words, stdin=closed)


def try_raw_word():
    """A word that isn't UTF-8."""
    with open(f"{TOP}/runs/cli/usage/stderr") as file:
        usage = file.read().strip().removeprefix("uds_play: ")
    noted("a word that isn't UTF-8", 1, usage, ["a word on the command line isn't UTF-8"], ["check", b"caf\xe9.toml"], stdin=subprocess.DEVNULL)


def try_limits():
    """Files beyond a limit, of which the note tells it."""
    with tempfile.TemporaryDirectory() as folder:
        setup, path, empty = f"{TOP}/runs/setup.toml", f"{folder}/long", f"{TOP}/runs/empty.log"
        with open(path, "wb") as file:
            file.write(b"\n" * 1_000_001)
        note = "a log has at most 1000000 lines; bus takes a recording of any length"
        noted("too many lines", 3, "log 1: too many lines", [note], ["serial", setup, path, empty])
        note = "a log has at most 67108864 bytes and a journal 268435456; bus takes a recording of any length"
        for size, words in ((67_108_865, ["play", setup, empty, path]), (268_435_457, ["replay", setup, path])):
            with open(path, "wb") as file:
                file.truncate(size)
            noted(f"too many bytes: {words[0]}", 3, f"file {len(words) - 2}: too long", [note], words)


def try_journal():
    """The server's answer at the last entry of a journal of more than 64 MiB."""
    with tempfile.TemporaryDirectory() as folder:
        path, line = f"{folder}/journal", b"1 P " + b"BA" * 65535 + b" 7FBA11\n"
        with open(path, "wb") as file:
            file.write(b"diag-journal 1\n")
            file.writelines(line for _ in range(520))
            file.write(b"1 P 3E00 7E01\n")
        told(os.path.getsize(path) > 67_108_864, "a long journal", "it isn't long")
        notes = ["entry 521 is: 1 P 3E00 7E01", "the server answers 7E00"]
        noted("the answer in a long journal", 8, "entry 521 differs", notes, ["replay", f"{TOP}/runs/setup.toml", path])


def main():
    told.needs_program()
    text = help_of()
    whole = parts_of(text)
    texts = {"uds_play": text, **{name: help_of(name) for name, _ in whole["Commands"]}}
    commands = {name: parts_of(texts[name]) for name, _ in whole["Commands"]}
    try_sections(texts, whole)
    for path, text in ((PAGE, page(whole, commands)), (COMPLETION, completion(whole, commands))):
        if "--write" in sys.argv[1:]:
            os.makedirs(os.path.dirname(f"{TOP}/{path}"), exist_ok=True)
            with open(f"{TOP}/{path}", "w") as file:
                file.write(text)
        try:
            with open(f"{TOP}/{path}") as file:
                told(file.read() == text, path, "it isn't what the texts of help make: test/words.py --write")
        except OSError as fault:
            told(False, path, fault)
    try_page()
    try_completion()
    try_examples({"uds_play": whole, **commands})
    try_terminal()
    try_folder()
    try_unreadable()
    try_raw_word()
    try_limits()
    try_journal()
    return told.ended()


if __name__ == "__main__":
    sys.exit(main())
