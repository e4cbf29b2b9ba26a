"""How a benchmark is proved, built, kept and started.

A crate of crates.txt is proved and built where it stands, over what `rt` kept there. A library that stands in a benchmark's
script alone is proved in a temporary folder, with a copy of the sources below it. What is built stays in out/ beside the
benchmark, so that it can be timed later, on a machine that does nothing else. A step that fails ends the benchmark with what
it said, and status 1."""
import argparse
import os
import shutil
import signal
import subprocess
import sys
import tempfile
import typing

from recording import recorded

TOP = os.path.dirname(os.path.dirname(os.path.realpath(__file__)))
KIT = os.path.dirname(os.path.dirname(os.path.realpath(shutil.which("rt") or "rt")))
# What a driver is built with that is timed beside proved code: for the same processor level, as one unit.
ALIKE = ("-C", "codegen-units=1", "-C", "target-cpu=x86-64-v2")
# By this the linker lets a driver count what is allocated.
COUNTED = ("-C", "link-args=-Wl,--wrap=malloc,--wrap=calloc,--wrap=realloc,--wrap=free")


class Made(typing.NamedTuple):
    """A static library that stands in a script alone, so that the gate need not prove it: its name, the libraries that it
    uses, and the text of each of its files by its path."""

    name: str
    uses: str
    files: dict[str, str]


def crates_below(name):
    """A crate of the repository and all that it stands on, lowest first, and the line of each in crates.txt."""
    lines, found = {}, {}
    with open(f"{TOP}/crates.txt") as text:
        for line in text:
            before, colon, _ = line.partition("#")[0].partition(":")
            if colon:
                lines[before.split()[0]] = line

    def add(crate):
        if crate in lines and crate not in found:
            for used in lines[crate].partition(":")[2].split():
                add(used)
            found[crate] = lines[crate]

    add(name)
    return found


def lines_below(crate):
    """The same of what a benchmark is built of, be it a crate of the repository or a `Made`."""
    if isinstance(crate, str):
        return crates_below(crate) or sys.exit(f"crates.txt has no {crate}")
    found = {}
    for used in crate.uses.split():
        found |= crates_below(used)
    return found


def must(*words, folder=None):
    """Runs a command. Ends with what it said if it fails."""
    how = {"stdin": subprocess.DEVNULL, "stdout": subprocess.PIPE, "stderr": subprocess.STDOUT}
    try:
        ran = subprocess.run(words, cwd=folder, text=True, errors="replace", **how)
    except OSError as error:
        sys.exit(f"{words[0]}: {error.strerror}")
    if ran.returncode:
        sys.exit(f"{ran.stdout[-4000:]}\n{' '.join(words)}: status {ran.returncode}")


def write(path, text):
    os.makedirs(os.path.dirname(path), exist_ok=True)
    with open(path, "w") as file:
        file.write(text)


def laid(made, work):
    """Writes a library and copies the sources below it to a folder, as a repository of their own. Returns the library's."""
    lines = lines_below(made)
    for crate in lines:
        skipped = shutil.ignore_patterns("must-fail", "out")
        shutil.copytree(f"{TOP}/crates/{crate}", f"{work}/crates/{crate}", ignore=skipped)
    for path, text in made.files.items():
        write(f"{work}/crates/{made.name}/{path}", text)
    write(f"{work}/crates.txt", "".join(lines.values()) + f"{made.name} staticlib: {made.uses}\n")
    shutil.copy(f"{TOP}/HANDLES", work)
    return f"{work}/crates/{made.name}"


def proved(crate, work, *command):
    """Has `rt` prove and build a crate of the repository where it stands, or a `Made` in a folder. Returns its folder."""
    lines_below(crate)
    folder = laid(crate, work) if isinstance(crate, Made) else f"{TOP}/crates/{crate}"
    must("rt", *command, folder=folder)
    return folder


def files_below(folder):
    """The files of a folder and of those in it, but for what was built and what must not be."""
    for path, folders, files in os.walk(folder):
        folders[:] = [name for name in folders if name not in ("must-fail", "out")]
        yield from (f"{path}/{file}" for file in files)


def is_older(built, here, crates):
    """Whether a source of the benchmark was changed since this was built."""
    below = {name for crate in crates for name in lines_below(crate)}
    folders = [here, *(f"{TOP}/crates/{name}" for name in below)]
    shared = [file.path for file in os.scandir(f"{TOP}/bench") if file.name.endswith((".rs", ".py"))]
    changed = (os.stat(file).st_mtime for file in [*shared, *(file for folder in folders for file in files_below(folder))])
    return os.stat(built).st_mtime < max(changed)


def words(text, turns):
    head, _, rest = text.partition("\n")
    parser = argparse.ArgumentParser(
        description=head, epilog=rest, formatter_class=argparse.RawDescriptionHelpFormatter
    )
    which = parser.add_mutually_exclusive_group()
    which.add_argument("--build", action="store_true", help="prove and build, and time nothing")
    which.add_argument("--built", action="store_true", help="time what was built before, and prove nothing")
    if turns:
        parser.add_argument("turns", nargs="?", type=int, default=turns, help=f"how many turns are timed, {turns} where not given")
    return parser.parse_args()


def started(built, *turns):
    """Runs what was built, and returns the status."""
    return subprocess.run([built, *map(str, turns)]).returncode


def main(text, here, crates, build, time=started, turns=None):
    """Runs a benchmark of these crates: `build` proves them, with a folder for what is made, and makes the program; `time`
    runs that, with the turns if there are any, and returns the status. `text` is what `--help` prints. Its rows are kept."""
    said = words(text, turns)
    for number in (signal.SIGHUP, signal.SIGTERM):
        signal.signal(number, lambda *_: sys.exit(1))
    first = crates[0]
    built = f"{here}/out/{first.name if isinstance(first, Made) else first}"
    if not said.built:
        os.makedirs(f"{here}/out", exist_ok=True)
        with tempfile.TemporaryDirectory() as work:
            build(work, built)
    elif not os.path.exists(built):
        sys.exit(f"nothing was built: {os.path.relpath(here, TOP)}/run --build")
    elif is_older(built, here, crates):
        print("sources were changed since this was built", file=sys.stderr)
    if said.build:
        sys.exit(0)
    with recorded(os.path.basename(here)):
        status = time(built, *([said.turns] if turns else []))
    sys.exit(status)


def drive(text, driver, crate, *options, turns=None):
    """Runs a benchmark that is a driver in plain Rust, linked with the static library of a crate."""

    def build(work, built):
        folder = proved(crate, work, "lib")
        name = os.path.basename(folder)
        libraries = ["-L", f"native={folder}/out", "-l", f"static={name}", "-L", f"native={KIT}/c", "-l", "static=libc_c"]
        must("rustc", "-O", "--edition", "2024", *options, driver, *libraries, "-o", built)

    main(text, os.path.dirname(driver), [crate], build, turns=turns)
