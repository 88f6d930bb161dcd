#!/usr/bin/env python3
"""Runs the rows of checks/rows: texts, with what the program has to write for them.

usage: rows.py [--program PATH] [--seconds N] [FILE ..]

Without files it runs all. Without a program it runs the one that ./firc builds. A row has 120
seconds, or those that are given. The last line is 'rows: N passed, M failed'; the status is 1 where
a row fails or is the run of another, a file is out of form, or there is no row.
checks/rows/README.md says how rows are written.
"""
import argparse
import concurrent.futures
import os
import pathlib
import subprocess
import sys
import tempfile

import row_files

ROOT = pathlib.Path(__file__).resolve().parent.parent
ROWS = ROOT / "checks" / "rows"
SHOWN = 1000


def built():
    """The program that ./firc builds where it is not built or its sources are newer."""
    told = subprocess.run([ROOT / "firc"], stdin=subprocess.DEVNULL, capture_output=True, text=True)
    if told.returncode != 2:
        sys.exit(told.stderr + "rows: the program could not be built")
    return ROOT / "crates" / "firc" / "out" / "firc"


def said(program, seconds, row):
    """Status, output and error output of the row's run, in a folder with its files."""
    with tempfile.TemporaryDirectory() as folder:
        for name, content in (("f.fir", row.text), ("t", row.trace)):
            if content is not None:
                (pathlib.Path(folder) / name).write_bytes(content)
        done = subprocess.run([os.fsencode(program), *row.words], cwd=folder, capture_output=True,
                              stdin=subprocess.DEVNULL, timeout=seconds)
    return done.returncode, done.stdout, done.stderr


def shown(content, at):
    """An output as lines of a row, or a status; of a long output what stands about that byte."""
    if isinstance(content, int):
        return f"    {content}"
    begin = max(0, at - SHOWN // 2) if len(content) > SHOWN else 0
    lines = row_files.written(content[begin:begin + SHOWN]) or ["nothing"]
    if len(content) > SHOWN:
        lines.append(f"(from byte {begin} of {len(content)})")
    return "\n".join("    " + line for line in lines)


def differences(program, seconds, row):
    """What the row wants and what was said in place of it; empty where they are the same."""
    try:
        says = said(program, seconds, row)
    except subprocess.TimeoutExpired:
        return f"  no answer within {seconds} seconds"
    except OSError as error:
        return f"  the program could not be run: {error}"
    told = []
    for name, wants, was in zip(("status", "out", "err"), (row.status, row.out, row.err), says):
        if wants != was:
            at = 0 if name == "status" else len(os.path.commonprefix([wants, was]))
            told.append(f"  {name} wanted:\n{shown(wants, at)}\n  {name} was:\n{shown(was, at)}")
    return "\n".join(told)


def again(rows):
    """Each row whose run is that of an earlier one, with that one."""
    seen = {}
    for row in rows:
        before = seen.setdefault((tuple(row.words), row.text, row.trace), row)
        if before is not row:
            yield row, before


def main():
    words = argparse.ArgumentParser(usage=__doc__)
    words.add_argument("--program", type=pathlib.Path)
    words.add_argument("--seconds", type=int, default=120)
    words.add_argument("files", nargs="*", type=pathlib.Path)
    words = words.parse_args()
    program = words.program.resolve() if words.program else built()
    rows, failed, passed = [], 0, 0
    for path in words.files or sorted(ROWS.rglob("*.rows")):
        try:
            rows += row_files.read(path)
        except row_files.Malformed as error:
            print(error)
            failed += 1
    for row, before in again(rows):
        print(f"{row.place}: {row.name}\n  is the run of {before.place}: {before.name}")
        failed += 1
    with concurrent.futures.ThreadPoolExecutor(os.cpu_count()) as pool:
        told = pool.map(lambda row: differences(program, words.seconds, row), rows)
        for row, differs in zip(rows, told):
            if differs:
                print(f"{row.place}: {row.name}\n{differs}")
                failed += 1
            else:
                passed += 1
    print(f"rows: {passed} passed, {failed} failed")
    return 1 if failed or not passed else 0


if __name__ == "__main__":
    sys.exit(main())
