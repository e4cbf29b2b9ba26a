"""Keeps the rows of a run of a benchmark: what it prints in lines `= row | value | limit | unit`, be it by itself or by a program that
it starts, goes to bench/results, in place of the run before. tools/results says what such a file has, and makes a table of all."""
import contextlib
import os
import subprocess
import sys
import tempfile

TOP = os.path.dirname(os.path.dirname(os.path.realpath(__file__)))


def commit():
    """The commit that is checked out, and whether something in it was changed."""
    git = ["git", "-C", TOP]
    name = subprocess.run([*git, "rev-parse", "--short=8", "HEAD"], stdout=subprocess.PIPE, text=True).stdout.strip() or "unknown"
    changed = subprocess.run([*git, "status", "--porcelain", "-uno", "--", ".", ":!bench/results"], stdout=subprocess.PIPE, text=True).stdout
    return f"{name}, changed" if changed else name


def machine():
    with open("/proc/cpuinfo") as text:
        names = [line.partition(":")[2].strip() for line in text if line.startswith("model name")]
    return f"{os.cpu_count()} processors, {names[0] if names else 'unknown'}"


@contextlib.contextmanager
def recorded(name):
    """Shows what is printed meanwhile, and writes its rows to bench/results/NAME, unless it is left by an exception."""
    sys.stdout.flush()
    shown = os.dup(1)
    with tempfile.NamedTemporaryFile("r") as kept:
        tee = subprocess.Popen(["tee", "-i", kept.name], stdin=subprocess.PIPE)
        os.dup2(tee.stdin.fileno(), 1)
        tee.stdin.close()
        try:
            yield
        finally:
            sys.stdout.flush()
            os.dup2(shown, 1)
            os.close(shown)
            tee.wait()
        rows = [line[2:] for line in kept if line.startswith("= ")]
    if rows:
        os.makedirs(f"{TOP}/bench/results", exist_ok=True)
        with open(f"{TOP}/bench/results/{name}", "w") as file:
            file.writelines([f"commit: {commit()}\n", f"machine: {machine()}\n", *rows])
