#!/usr/bin/env python3
"""Takes how many processor minutes each crate's proof, its tests and its edits need from nothing.

It runs `rt ci` over a temporary clone of the last commit, and takes nothing that was kept: some kits
keep what a machine has proved, and have `--anew` for that. Since rt writes no times, it looks five
times a second at what the prover's processes have used, by /proc. Whose a process is and what for
is told by its command line (the crate's name, `--test`) and by its folder: an edit is tried in one
of its own. With the edits goes the check of the crate as it stands that they begin with. Under the
table stand the minutes of the clock of the whole run, and the number of processors.

    crate_times.py            prints the table
    crate_times.py --write    puts it into docs/ARCHITECTURE.md, between the lines of its place
"""
import os
import pathlib
import resource
import subprocess
import sys
import tempfile
import time

ROOT = pathlib.Path(__file__).resolve().parent.parent
PAGE = ROOT / "docs/ARCHITECTURE.md"
BEGIN = "<!-- crate times -->\n"
END = "<!-- end of crate times -->\n"
PARTS = ["proof", "tests", "edits"]
TICKS = os.sysconf("SC_CLK_TCK")


def processes():
    """Of each process its parent, its start, and the clock ticks that it and its ended children
    have used."""
    found = {}
    for entry in os.listdir("/proc"):
        if entry.isdigit():
            try:
                text = pathlib.Path("/proc", entry, "stat").read_text(errors="replace")
            except OSError:
                continue
            fields = text.rpartition(")")[2].split()
            found[int(entry)] = int(fields[1]), fields[19], sum(map(int, fields[11:15]))
    return found


def label_of(pid):
    """The crate and the part that a process of the prover works at; None for another process."""
    try:
        words = pathlib.Path(f"/proc/{pid}/cmdline").read_text(errors="replace").split("\0")
        folder = os.path.basename(os.readlink(f"/proc/{pid}/cwd"))
    except OSError:
        return None
    if os.path.basename(words[0]) != "rattle" or "--crate-name" not in words:
        return None
    part = "edits" if folder.startswith("rt-edit-") else "tests" if "--test" in words else "proof"
    return words[words.index("--crate-name") + 1], part


class Meter:
    """What each process of the prover below a process has used, by its number and start."""

    def __init__(self, top):
        self.top, self.used, self.labels = top, {}, {}

    def look(self):
        found, children = processes(), {}
        for pid, (parent, _, _) in found.items():
            children.setdefault(parent, []).append(pid)
        todo = list(children.get(self.top, []))
        while todo:
            pid = todo.pop()
            label = label_of(pid)
            if not label:
                todo += children.get(pid, [])
                continue
            key = pid, found[pid][1]
            self.labels[key] = label
            self.used[key] = max(self.used.get(key, 0), whole(pid, found, children))

    def minutes(self):
        """The minutes by crate and part."""
        found = {}
        for key, label in self.labels.items():
            found[label] = found.get(label, 0) + self.used[key] / TICKS / 60
        return found


def whole(pid, found, children):
    """The ticks of a process and all below it."""
    return found[pid][2] + sum(whole(it, found, children) for it in children.get(pid, []))


def gate_words():
    """The words of the gate from nothing, as the kit has them."""
    told = subprocess.run(["rt", "help"], capture_output=True, text=True)
    return ["rt", "ci"] + ["--anew"] * ("--anew" in told.stdout + told.stderr)


def measured():
    """The minutes by crate and part, and those of the run: of a processor and of the clock."""
    with tempfile.TemporaryDirectory() as folder:
        work = pathlib.Path(folder)
        subprocess.run(["git", "clone", "-q", ROOT, work / "clone"], check=True)
        before, begun = spent(), time.monotonic()
        with open(work / "log", "w+", encoding="utf-8", errors="replace") as log:
            words = gate_words()
            ran = subprocess.Popen(words, cwd=work / "clone", stdout=log, stderr=subprocess.STDOUT)
            meter = Meter(ran.pid)
            while ran.poll() is None:
                meter.look()
                time.sleep(0.2)
            if ran.returncode:
                log.seek(0)
                sys.exit("".join(log.readlines()[-40:]) + f"crate_times: {' '.join(words)} failed")
        return meter.minutes(), (spent() - before) / 60, (time.monotonic() - begun) / 60


def spent():
    usage = resource.getrusage(resource.RUSAGE_CHILDREN)
    return usage.ru_utime + usage.ru_stime


def table(minutes):
    """The table as Markdown, the crates in the order of crates.txt."""
    lines = ["| Crate | Proof | Tests | Edits | All |", "|---|---|---|---|---|"]
    for name in crates_in_order():
        if any(label[0] == name for label in minutes):
            lines.append(row(f"`{name}`", [minutes.get((name, part)) for part in PARTS]))
    sums = [sum(took for label, took in minutes.items() if label[1] == part) for part in PARTS]
    return "\n".join(lines + [row("all", sums)]) + "\n"


def clock_line(minutes):
    processors = len(os.sched_getaffinity(0))
    return f"In all {minutes:.0f} minutes of the clock on {processors} processors.\n"


def crates_in_order():
    text = (ROOT / "crates.txt").read_text()
    return [line.split(":")[0].split()[0] for line in text.splitlines() if line[:1].isalpha()]


def row(name, took):
    cells = ["" if it is None else f"{it:.1f}" for it in took + [sum(it or 0 for it in took)]]
    return f"| {name} | {' | '.join(cells)} |"


def main():
    write = sys.argv[1:] == ["--write"]
    if sys.argv[1:] and not write:
        sys.exit(__doc__)
    page = PAGE.read_text(encoding="utf-8")
    if write and (page.count(BEGIN), page.count(END)) != (1, 1):
        sys.exit(f"crate_times: {PAGE.relative_to(ROOT)} has not one place for the table")
    minutes, in_all, by_clock = measured()
    text = table(minutes) + "\n" + clock_line(by_clock)
    print(text, end="")
    told = f"crate_times: {sum(minutes.values()):.1f} of {in_all:.1f} processor minutes"
    print(f"{told} are the prover's, and the others rt's, the linker's and the programs'",
          file=sys.stderr)
    if write:
        # (the page may have changed meanwhile)
        page = PAGE.read_text(encoding="utf-8")
        before, after = page.split(BEGIN)[0], page.split(END)[1]
        PAGE.write_text(before + BEGIN + "\n" + text + "\n" + END + after, encoding="utf-8")


if __name__ == "__main__":
    main()
