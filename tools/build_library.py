#!/usr/bin/env python3
"""Builds the library for C and Python: libuds_unit.a of crates/uds_unit, and libuds_unit.so of it, in that crate's out/.

- Where both are there, and no source is newer, nothing is done.
- Where `rt ci` left the crates below, as it had proved them, and no source of theirs is newer, the kit's `rattle` proves
  uds_unit alone over them and builds it: minutes. Else `rt lib` does that, which proves each crate below as well where
  `rt check` didn't. (Both ways should make the same bytes: docs/DECISIONS.md.)
- The kit's linker makes the shared library of the static one and of the kit's C code for memory.
Where another run of it is building, it waits for that."""
import argparse
import fcntl
import os
import signal
import subprocess
import sys

TOP = os.path.dirname(os.path.dirname(os.path.abspath(__file__)))
NAME = "uds_unit"
CRATE = f"{TOP}/crates/{NAME}"
STATIC, SHARED = f"{CRATE}/out/lib{NAME}.a", f"{CRATE}/out/lib{NAME}.so"
MAP = f"{TOP}/include/{NAME}.map"
KEPT, OVER_CI, BY_RT = "they are there, and no source is newer", "over the crates below as rt ci left them", "by rt lib"
# the most seconds that the kit may take: over what `rt ci` left, and with all crates below to be proved
PATIENCE = {OVER_CI: 3_600, BY_RT: 6 * 3_600}
# the memory that a job may want
JOB = 3_000_000_000


def run(words, patience=600, folder=TOP):
    how = {"cwd": folder, "stdin": subprocess.DEVNULL, "stdout": subprocess.PIPE, "stderr": subprocess.STDOUT}
    return subprocess.run(words, text=True, errors="replace", timeout=patience, **how)


def kit():
    """The kit's folder: that of the page to read first."""
    return os.path.dirname(run(["rt", "doc"]).stdout.strip())


def libraries():
    """What crates.txt has for each crate of the repository, in its order: the libraries that it stands on."""
    with open(f"{TOP}/crates.txt", encoding="ascii") as it:
        lines = [line.split(":") for line in it if ":" in line and not line.startswith("#")]
    return {head.split()[0]: below.split() for head, below in lines}


def crates_below(name, known):
    """The repository's crates below this one, each behind those that it stands on."""
    found = []
    for it in (it for it in known[name] if it in known):
        found += [below for below in (*crates_below(it, known), it) if below not in found]
    return found


def newest(crates):
    """When a source of these crates, or their list, was last changed, or put into its folder."""
    at = [f"{TOP}/crates.txt"]
    for name in crates:
        for part in ("src", "specs", "proofs"):
            for folder, _, files in os.walk(f"{TOP}/crates/{name}/{part}"):
                at += [folder, *(f"{folder}/{file}" for file in files)]
    return max(map(os.path.getmtime, at))


def rlib(name):
    return f"{TOP}/crates/{name}/out/rlib/{name}.rlib"


def how():
    """Which way the libraries are to be built."""
    below = crates_below(NAME, libraries())
    made = [os.path.getmtime(it) if os.path.isfile(it) else 0 for it in (STATIC, SHARED)]
    if min(made) > max(newest([*below, NAME]), *map(os.path.getmtime, (MAP, os.path.abspath(__file__)))):
        return KEPT
    # (what `rt ci` leaves has no stamp: it fits these crates alone)
    are_of_ci = all(os.path.isdir(rlib(it)) and not os.path.exists(f"{os.path.dirname(rlib(it))}/stamp") for it in below)
    return OVER_CI if are_of_ci and min(os.path.getmtime(rlib(it)) for it in below) > newest(below) else BY_RT


def jobs():
    """As many as there are processors and memory for, at most two, so that other tests can run beside."""
    with open("/proc/meminfo", encoding="ascii") as it:
        free = next(1024 * int(line.split()[1]) for line in it if line.startswith("MemAvailable:"))
    return max(1, min(len(os.sched_getaffinity(0)), free // JOB, 2))


def over_ci(at_once):
    """The words by which `rt lib` would build the static library, but over what `rt ci` left."""
    known, at = libraries(), kit()
    below = crates_below(NAME, known)
    words = [f"{at}/bin/rattle", "build", "--crate-name", NAME, "src/lib.rt"]
    for it in ("std", *(it for it in known[NAME] if it not in known)):
        words += ["--extern", f"{it}={at}/rlibs/{it}.rlib"]
    words += ["-L", f"dependency={at}/rlibs"]
    for it in (it for it in known[NAME] if it in known):
        words += ["--extern", f"{it}={rlib(it)}"]
    for it in below:
        words += ["-L", f"dependency={os.path.dirname(rlib(it))}"]
    words += ["--antt-project", f"{at}/rattle/logic/antt-project.json", "--logic-built", f"{at}/logic_built"]
    words += ["--jobs", str(at_once), "--links", f"{NAME}=", "--crate-type", "staticlib"]
    return [*words, "--toolchain", f"{at}/toolchain", "--backend", "llvm", "-o", STATIC]


def build_static(way):
    """Builds the static library; what went wrong, if anything."""
    if way == BY_RT:
        made = run(["rt", "lib"], PATIENCE[way], CRATE)
    else:
        made = run(over_ci(jobs()), PATIENCE[way], CRATE)
        if made.returncode == -9:
            # most likely for memory
            made = run(over_ci(1), PATIENCE[way], CRATE)
    return None if made.returncode == 0 and os.path.isfile(STATIC) else made.stdout[-2_000:]


def build_shared():
    """Links the shared library; what went wrong, if anything."""
    at = kit()
    inputs = ["--whole-archive", STATIC, "--no-whole-archive", f"{at}/c/liblibc_c.a", f"{at}/toolchain/lib/libc.so.6"]
    limits = [f"--version-script={MAP}", "--gc-sections", "-z", "defs", "-z", "relro", "-z", "now"]
    name = ["-soname", f"lib{NAME}.so.2", "--build-id=none", "--strip-all"]
    made = run([f"{at}/toolchain/bin/ld.lld", "-shared", "-o", SHARED, *inputs, *limits, *name])
    return None if made.returncode == 0 else made.stdout


def build():
    """Builds both where they are wanted; what went wrong, if anything."""
    os.makedirs(os.path.dirname(STATIC), exist_ok=True)
    with open(f"{os.path.dirname(STATIC)}/lock", "w", encoding="ascii") as lock:
        fcntl.flock(lock, fcntl.LOCK_EX)
        return build_alone()


def build_alone():
    way = how()
    if way == KEPT:
        return None
    for it in (STATIC, SHARED):
        if os.path.exists(it):
            os.remove(it)
    try:
        return build_static(way) or build_shared()
    except subprocess.TimeoutExpired as fault:
        return f"not built in {fault.timeout:.0f} seconds: {' '.join(fault.cmd[:3])}"


def main():
    words = argparse.ArgumentParser(description=__doc__, formatter_class=argparse.RawDescriptionHelpFormatter)
    words.add_argument("--how", action="store_true", help="only tells which of these it would do")
    if words.parse_args().how:
        print(how())
        return 0
    # (then what it runs is ended, too)
    signal.signal(signal.SIGTERM, lambda *_: sys.exit(2))
    fault = build()
    print(fault or f"{STATIC}\n{SHARED}")
    return fault is not None


if __name__ == "__main__":
    sys.exit(main())
