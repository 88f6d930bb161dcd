#!/usr/bin/env python3
"""Lists the definitions that the statement of the headline reads.

The headline is the clauses of `run` in crates/fir_driver/src/program.rt. From the names that stand
in them the list goes on, name by name, to the definitions of these, to those that each of them
reads (spec_files.py says what that is), and to the types and constants of the code that they name:
to the types of their fields, to what their models read, and to the ghost members of traits. What a
file reads comes before it.

    definitions.py             prints the list
    definitions.py --write     puts it into docs/DEFINITIONS.md, between the two lines that mark its
                               place
    definitions.py --check     fails where the list there is another, where a definition in some
                               specs/ is read by no clause, and where one of a specs/working/ is
    definitions.py --why NAME  prints the shortest way from `run` to each definition of that name
    definitions.py --below NAME..
                               counts what is to be read for these, with all that they read

Counted are, of each file: the lines of the definitions that are reached and of the heads of the
modules round them; the comments above and in these, with the comment at the head of the file; the
imports of which they use a name; and the blank lines above and in all of these. A mutual block is
one definition for each name that it defines, and is reached as a whole. Of an item of the code all
lines count, with its story and its model.
"""
import pathlib
import re
import sys
from collections import Counter

from code_items import line_count, named_by, named_from, place_in_file, read_by_item
from spec_files import CRATES, ROOT, Unknown, is_spec, shown, spec_file, stop_on_sample, text_of

PAGE = ROOT / "docs/DEFINITIONS.md"
BEGIN = "<!-- definitions: made by checks/definitions.py -->\n"
END = "<!-- end of definitions -->\n"
RUN = CRATES / "fir_driver/src/program.rt"

# What each chapter says, by the first crate of its subject in crates.txt.
PURPOSES = {
    "fir_base": "Bytes, lists, digits and ticks; the primitive operations, their types and values.",
    "fir_io": "What was read of a file and put to an output.",
    "ver_words": "Which bytes spell which Verilog tree, which are valid, and what a tree allows.",
    "ver_places": "Where the items of a tree stand in its text.",
    "ver_order": "The steps of processes, and the least number of rounds that settles them.",
    "ver_fault": "The first fault of a Verilog text, and its line.",
    "trace_text": "Which bytes spell which trace, the fault of a line, and the lines that are put.",
    "ver_sim": "Values before the first tick, items that lack a value, and the shape of a tree's traces.",
    "ver_runner": "The order of the processes for a number, and the lines of a tree on a trace.",
    "ver_command": "What `vsim` says of a text.",
    "fir_cli": "What each status says of the files and of both outputs, and of a simulation.",
    "fir_ast": "Which bytes spell which circuit, the first fault of a text, and lines of faults.",
    "fir_pass": "The groups of faults, of which the first that shows one is told; and meanings.",
    "fir_meaning": "Which faults a circuit shows, group by group, and what a circuit allows.",
    "fir_net": "The names of ports and registers in Verilog, and the rows in which these stand.",
    "fir_flatten": "The rows of a circuit, and which of its registers take values.",
    "ver_build": "How the tree that is written is named and arranged.",
    "fir_outcome": "What comes of the text of a circuit, and what is printed of its runs.",
    "fir_words": "What the words ask for, as clap reads them, and what is said of each command.",
}

# What no clause reads in a crate that stands below many others, each of which would be proved anew for
# it alone; it goes, or to specs/working/, with the next change of that crate.
LEFT_OVER = {
    ("fir_meaning/specs/Lack.antt", "Lack"), ("fir_meaning/specs/Lack.antt", "lack"),
    *(("ver_fault/specs/View.antt", name) for name in ("vcode_of", "vfault_place", "vevidence", "vfault_of")),
    # what a clause will read with the command `gen`, which is to come
    *(("fir_gen/specs/GenText.antt", name) for name in (
        "register_name", "head_lines", "register_line", "first_lines", "step_lines", "steps_text", "last_line",
        "gen_text")),
}


def read_by(node):
    file, name = node
    return list(spec_file(file).read_by(name) if is_spec(file) else read_by_item(file, name))


def clauses_of(file, name):
    """The bounds of a public function, and its clauses."""
    form = rf"^( *)pub fn {name}(?:<(.*?)>)?\(.*?^\1\{{$"
    head = re.search(form, text_of(file), re.M | re.S)
    return head[2] or "", "".join(re.findall(r"^ *(?:requires|ensures).*\n", head[0], re.M))


def starts():
    """What the clauses of `run` name."""
    bounds, clauses = clauses_of(RUN, "run")
    found = [
        named_from(RUN, trait)
        for bound, trait in re.findall(r"(\w+): (\w+)", bounds)
        if re.search(rf"\b{bound}\.", clauses)
    ]
    return found + list(named_by(text_of(RUN), clauses))


def reached(begin):
    """What each reached definition or item reads, the nearest first, and by what it was reached."""
    reads, reader = {}, dict.fromkeys(begin)
    todo = list(reader)
    for node in todo:
        reads[node] = read_by(node)
        for below in reads[node]:
            if below not in reader:
                reader[below] = node
                todo.append(below)
    return reads, reader


def names_by_file(reads):
    """The reached names of each file in the order of its text; the files in reading order."""
    below, names = {}, {}
    for (file, name), nodes in reads.items():
        below.setdefault(file, []).extend(it for it, _ in nodes)
        names.setdefault(file, []).append(name)
    return {file: in_text(file, names[file]) for file in in_reading_order(below)}


def in_text(file, names):
    if not is_spec(file):
        return sorted(names, key=lambda name: place_in_file(file, name))
    return [it.names[0] for it in spec_file(file).definitions if it.names[0] in names]


def in_reading_order(below):
    """The files, each behind what it reads."""
    order, begun = [], set()

    def visit(file):
        if file not in begun:
            begun.add(file)
            for it in dict.fromkeys(below[file]):
                visit(it)
            order.append(file)

    for file in below:
        visit(file)
    stop_on_disorder(below, order)
    return order


def stop_on_disorder(below, order):
    """Stops where a file of definitions stands before one that it reads. Types of the code may read
    one another."""
    at = {file: k for k, file in enumerate(order)}
    for file in order:
        late = [it for it in below[file] if at[it] > at[file] and is_spec(file) and is_spec(it)]
        if late:
            raise Unknown(f"{shown(file)} comes before {shown(late[0])}, which it reads")


def subjects():
    """The subjects of crates.txt, as its remarks say them, each with its crates."""
    found, in_remark = [], False
    for line in text_of(ROOT / "crates.txt").splitlines():
        if line.startswith("#"):
            text = line[1:].strip()
            if in_remark:
                found[-1][0] += " " + text
            else:
                found.append([text, []])
        elif line.strip():
            found[-1][1].append(line.split(":")[0].split()[0])
        in_remark = line.startswith("#")
    return [(remark.rstrip("."), crates) for remark, crates in found]


def counts_of(names):
    """How many definitions and items there are in these files, and how many lines to be read."""
    found = Counter()
    for file, those in names.items():
        if is_spec(file):
            found += spec_file(file).counts(those) + Counter(files=1)
        else:
            lines = sum(line_count(file, name) for name in those)
            found += Counter(items=len(those), item_lines=lines)
    return found


def totals(names):
    found = counts_of(names)
    whole = sum(found[kind] for kind in ("code", "comment", "imports", "blank"))
    return [
        f"definitions {found['definitions']} in {found['files']} files: {found['code']} lines of "
        f"definitions, {found['comment']} of comments, {found['imports']} of imports;",
        f"{whole} with comments, imports and blanks. "
        f"Of the code {found['items']} types and tables: {found['item_lines']} lines.",
    ]


def listed(names):
    """The list as Markdown."""
    lines = totals(names) + [""]
    for subject, crates in subjects():
        part = {file: those for file, those in names.items() if crate_of(file) in crates}
        if part:
            lines += chapter(subject, crates[0], part) + [""]
    return "\n".join(lines)


def chapter(subject, crate, names):
    if crate not in PURPOSES:
        raise Unknown(f"PURPOSES has no line for {crate}")
    found = counts_of(names)
    lines = [f"## {subject}", "", PURPOSES[crate]]
    lines += [f"{found['definitions']} definitions, {found['code']} lines.", ""]
    for file, those in names.items():
        lines += wrapped(f"- `{shown(file)}`: ", entries(file, those))
    return lines


def entries(file, names):
    """The names, each with its lines; those of a mutual block with the lines of the block."""
    if not is_spec(file):
        return [f"`{name}` {line_count(file, name)}" for name in names]
    parts = [spec_file(file).definition(name) for name in names]
    return [
        ", ".join(f"`{name}`" for name in part.names) + f" {part.counts()['code']}"
        for part in parts
    ]


def wrapped(begin, pieces):
    """The pieces, in lines of at most 100 characters."""
    lines = [begin]
    for k, piece in enumerate(pieces):
        piece += "," * (k + 1 < len(pieces))
        if len(lines[-1]) + len(piece) > 100:
            lines.append("  ")
        lines[-1] += piece + " "
    return [line.rstrip() for line in lines]


def crate_of(file):
    return file.relative_to(CRATES).parts[0]


def out_of_place(reads):
    """What is wrong with where definitions stand."""
    for file in sorted(CRATES.glob("*/specs/**/*.antt")):
        for it in spec_file(file).definitions if not is_working(file) else ():
            if (file, it.names[0]) not in reads and (shown(file), it.names[0]) not in LEFT_OVER:
                yield f"{shown(file)}: {', '.join(it.names)}: read by no clause of run"
    for file, name in sorted(reads):
        if is_working(file):
            yield f"{shown(file)}: {name}: read by a clause of run"


def is_working(file):
    return "working" in file.relative_to(CRATES).parts


def named(reads, word):
    """The definitions and items of that name that are reached."""
    return [
        (file, name) for file, name in reads
        if word == name or is_spec(file) and spec_file(file).defines(name, word)
    ]


def why(word):
    """The shortest way from `run` to each definition of that name."""
    reads, reader = reached(starts())
    for node in named(reads, word):
        way = [f"{word} ({shown(node[0])})"]
        while reader[node]:
            node = reader[node]
            way.append(f"{node[1]} ({shown(node[0])})")
        yield "run > " + " > ".join(reversed(way))


def below(words):
    """What is to be read for the definitions of these names, with what they read."""
    reads, _ = reached(starts())
    begin = [node for word in words for node in named(reads, word)]
    return totals(names_by_file(reached(begin)[0]))


def on_page(text, write):
    """Whether the page has the list; it is put there first, if it is to be written."""
    page = PAGE.read_text(encoding="utf-8")
    if page.count(BEGIN) != 1 or page.count(END) != 1:
        raise Unknown(f"{PAGE.relative_to(ROOT)} has not one place for the list")
    before, rest = page.split(BEGIN)
    new = before + BEGIN + "\n" + text + "\n" + END + rest.split(END)[1]
    if write:
        PAGE.write_text(new, encoding="utf-8")
    return write or new == page


def check():
    stop_on_sample()
    reads, _ = reached(starts())
    names = names_by_file(reads)
    wrong = list(out_of_place(reads))
    if not on_page(listed(names), write=False):
        wrong.append("the list in docs/DEFINITIONS.md is another: definitions.py --write")
    for it in wrong:
        print(f"definitions: {it}")
    if wrong:
        sys.exit(1)
    found = counts_of(names)
    print(f"definitions: passed, {found['definitions']} definitions in {found['files']} files")


def main():
    option, words = "".join(sys.argv[1:2]), sys.argv[2:]
    asks = {"--why": why, "--below": lambda *words: below(words)}
    if option not in ("", "--write", "--check", *asks) or bool(words) != (option in asks):
        sys.exit(__doc__)
    try:
        if option == "--check":
            check()
        elif option in asks:
            print("\n".join(asks[option](*words)))
        else:
            text = listed(names_by_file(reached(starts())[0]))
            print(text, end="") if not option else on_page(text, write=True)
    except Unknown as error:
        sys.exit(f"definitions: {error}")


if __name__ == "__main__":
    main()
