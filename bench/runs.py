"""What the scripts of this folder share: which program they measure, and runs with the seconds and
the memory that they took."""
import os
import pathlib
import subprocess
import sys
import tempfile
import typing

ROOT = pathlib.Path(__file__).resolve().parent.parent


class Run(typing.NamedTuple):
    status: int
    # what stands on the error output
    says: str
    # of a processor
    seconds: float
    # the most bytes at once; not below what this process had when it began the run
    memory: int


def add_program(words):
    words.add_argument("--program", type=pathlib.Path)


def program(words):
    """The program that is given, or the one that ./firc builds where it is not built or its sources
    are newer."""
    if words.program:
        return str(words.program.resolve())
    told = subprocess.run([ROOT / "firc"], stdin=subprocess.DEVNULL, capture_output=True, text=True)
    if told.returncode != 2:
        sys.exit(told.stderr + "bench: the program could not be built")
    return str(ROOT / "crates" / "firc" / "out" / "firc")


def timed(command, work, out=os.devnull):
    """A run in a folder, whose output goes to a file. What it took is with what its own children
    did."""
    with open(work / out, "wb") as target, tempfile.TemporaryFile() as errors:
        process = subprocess.Popen(command, cwd=work, stdin=subprocess.DEVNULL, stdout=target,
                                   stderr=errors)
        _, status, usage = os.wait4(process.pid, 0)
        process.returncode = os.waitstatus_to_exitcode(status)
        errors.seek(0)
        says = errors.read().decode(errors="replace").strip()
    seconds = usage.ru_utime + usage.ru_stime
    return Run(process.returncode, says, seconds, usage.ru_maxrss * 1024)


def sure(command, work, out=os.devnull):
    """A run that has to end with status 0."""
    run = timed(command, work, out)
    if run.status != 0:
        sys.exit(f"bench: {' '.join(map(str, command))} ended with {run.status}: {run.says[:1000]}")
    return run


def least(count, command, work, out=os.devnull):
    """The one of so many runs that took the least seconds; all have to end with status 0."""
    runs = [sure(command, work, out) for _ in range(count)]
    return min(runs, key=lambda run: run.seconds)
