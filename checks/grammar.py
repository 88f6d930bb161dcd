#!/usr/bin/env python3
"""Compares firc with a second grammar of FIRRTL texts.

It is restated as productions, and finds by Earley's method whether a text is one of the grammar,
and else the first token with which no text of the grammar goes on (grammar_rules.py). It knows how
deep forms are nested (nesting_rules.py). Of a text of the grammar it tells the first fault of its
circuit, or else the first form that firc lacks (readings.py).

    grammar.py table     writes the tables of small texts that tests of fir_parse_tests read
    grammar.py check     sees that those tables say of each text what this grammar says, that they
                         use each production, and that the rows of `emit` say so too; those that
                         do not are listed
    grammar.py cuts      compares `emit` with this grammar on each form with each of its tokens out
                         of form, and on each beginning of a text
    grammar.py random N  compares them on N texts with a few tokens changed

With `--program PATH` before these words it runs that program, and else ./firc.
"""
import argparse
import pathlib
import random
import re
import subprocess
import sys
import tempfile

import row_files
from grammar_rules import RULES, Bad, derived, fault, tokens
from grammar_texts import FORMS_OF_EXPRESSIONS, FORMS_OF_STATEMENTS, HEAD, SPELLED, SPELLINGS
from grammar_trees import Tree
from nesting_rules import nesting_fault
from readings import Reading

ROOT = pathlib.Path(__file__).resolve().parent.parent
TESTS = ROOT / "crates/fir_parse_tests/src/trees"
ROWS = ROOT / "checks/rows"

FORMS = FORMS_OF_STATEMENTS + FORMS_OF_EXPRESSIONS

# Each table by its name, with its texts and what they show.
TABLES = {
    "forms_of_statements":
        (FORMS_OF_STATEMENTS, "Each form of a text, a module, a type and a statement"),
    "forms_of_expressions": (FORMS_OF_EXPRESSIONS, "Each form of an expression"),
    "spellings": (SPELLINGS, "Numbers, blanks, remarks and versions in less usual spellings"),
}


def quoted(s):
    return 'b"%s"' % s.replace("\\", "\\\\").replace('"', '\\"').replace("\n", "\\n")


def table():
    for name, (texts, shown) in TABLES.items():
        lines = [f"//! {shown}, with its tree in a short form. Written by checks/grammar.py.", ""]
        lines += ["pub const ROWS: &[(&[u8], &[u8])] = &["]
        lines += [f"    ({quoted(text)}, {quoted(Tree(text).form)})," for text in texts]
        (TESTS / f"{name}.rt").write_text("\n".join(lines + ["];", ""]))
    print("written; rt fmt in crates/fir_parse_tests sets their lines")


def strings(path):
    """The byte strings of a table."""
    found = re.findall(r'b"((?:[^"\\]|\\.)*)"', path.read_text(), re.S)
    return [re.sub(r"\\(.)", lambda m: {"n": "\n"}.get(m[1], m[1]), s) for s in found]


def check_tables():
    unused = set(range(len(RULES)))
    for name, (texts, _) in TABLES.items():
        rows = strings(TESTS / f"{name}.rt")
        if rows[::2] != texts:
            sys.exit(f"{name}.rt has other texts than grammar_texts.py: write it anew")
        for text, says in zip(rows[::2], rows[1::2]):
            form = fault(text) or Tree(text).form
            if form != says:
                sys.exit(f"{name}.rt: of {text!r} it says {says!r}, the grammar {form!r}")
            unused -= derived(text)
    if unused:
        sys.exit(f"no text of the tables uses {[RULES[rule] for rule in unused]}")
    print("grammar: the tables use each of", len(RULES), "productions, and say what it says")


def check_rows():
    """Sees that each row of `emit` with a text of no great length has the line of this grammar. It
    does not speak of carriage returns and of annotations over lines."""
    count, differ = 0, 0
    for row in [row for path in sorted(ROWS.rglob("*.rows")) for row in row_files.read(path)]:
        if row.words != [b"emit", b"f.fir"] or row.text is None or len(row.text) > 20000:
            continue
        line, err = line_of(row.text.decode("latin-1")), row.err.decode("latin-1")
        if b"\r" in row.text or b"%[" in row.text and line == OF_TOKENS:
            continue
        count += 1
        if not re.fullmatch(line, err.removesuffix("\n")):
            differ += 1
            print(f"{row.place}: the row says {err!r}, the grammar {line!r}")
    if differ:
        sys.exit(f"grammar: {differ} of {count} rows of emit say something else")
    print("grammar:", count, "rows of emit say what it says")


def cuts(text):
    """The text with each of its tokens put out of form, one at a time; a module's head stays."""
    lines = text.split("\n")
    for token in tokens(text)[0]:
        if not token.spelling or text.startswith(HEAD) and token.line < 3:
            continue
        line, at = lines[token.line - 1], token.column - 1
        length = len(token.spelling) + (2 if token.kind == "string" else 0)
        bad = "=>" if token.spelling not in ("=>", "=") else "."
        changed = line[:at] + bad + line[at + length:]
        yield "\n".join(lines[:token.line - 1] + [changed] + lines[token.line:])


def cut_texts():
    """Each form with each of its tokens out of form, and each beginning of a text."""
    out = [cut for text in FORMS for cut in cuts(text)]
    out += [SPELLED[:length] for length in range(len(SPELLED))]
    return list(dict.fromkeys(out))


POOL = """wire reg node inst of mem when else skip is invalid input output module circuit with reset
a b x flip UInt SInt Clock stop printf cmem infer mport extmodule Analog asClock mux validif add not
bits 0 3 -1 "h1" "h-1" <= <- => = < > ( ) [ ] { } , : . data-type read-latency depth reader
FIRRTL version""".split()


def changed(text, chance, pool=POOL):
    """The text with one to three of its tokens left out, doubled, or with one of the pool."""
    for _ in range(chance.randint(1, 3)):
        try:
            ts = [token for token in tokens(text)[0] if token.spelling]
        except Bad:
            return text
        if not ts:
            return text
        token = chance.choice(ts)
        lines, at = text.split("\n"), token.column - 1
        line = lines[token.line - 1]
        end = at + len(token.spelling) + (2 if token.kind == "string" else 0)
        was, other = line[at:end], chance.choice(pool)
        now = chance.choice(["", was + " " + was, other, other + " " + was])
        lines[token.line - 1] = line[:at] + now + line[end:]
        text = "\n".join(lines)
    return text


def random_texts(count):
    chance = random.Random(1)
    return [changed(chance.choice(FORMS), chance) for _ in range(count)]


OF_TOKENS = "E0[123] .*"


def place_of(line):
    code, place = line.split()[:2]
    return [*map(int, place.split(":")), code]


def text_fault(text):
    """The line of the first fault E03 to E07, or None."""
    faults = filter(None, (fault(text), nesting_fault(text)))
    return min(faults, key=place_of, default=None)


def line_of(text):
    """The line that firc is to say as a pattern."""
    try:
        line = text_fault(text)
        return re.escape(line) if line else Reading(text).pattern()
    except Bad:
        return OF_TOKENS


def compare(program, texts):
    """Compares the program with this grammar on each text."""
    said = {}
    with tempfile.TemporaryDirectory() as work:
        path = pathlib.Path(work) / "t.fir"
        for text in texts:
            path.write_text(text)
            done = subprocess.run([program, "emit", path], capture_output=True, text=True)
            says, line = done.stderr.removesuffix("\n"), line_of(text)
            if not re.fullmatch(line, says) or done.returncode != (1 if says else 0):
                sys.exit(f"of {text!r} firc says {says!r}, the grammar {line!r}")
            said[says[:3]] = said.get(says[:3], 0) + 1
    print("grammar: the same on", sum(said.values()), "texts:", dict(sorted(said.items())))


def main():
    words = argparse.ArgumentParser(usage=__doc__)
    words.add_argument("--program", type=pathlib.Path, default=ROOT / "firc")
    words.add_argument("what", choices=["table", "check", "cuts", "random"])
    words.add_argument("count", type=int, nargs="?")
    words = words.parse_args()
    if (words.what == "random") != (words.count is not None):
        sys.exit(__doc__)
    if words.what == "table":
        table()
    elif words.what == "check":
        check_tables()
        check_rows()
    else:
        texts = cut_texts() if words.what == "cuts" else random_texts(words.count)
        compare(words.program.resolve(), texts)


if __name__ == "__main__":
    main()
