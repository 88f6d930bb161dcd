"""The types and constants of the code that definitions name, and what each reads: the types of its
fields, what its model reads, and of a trait the ghost members."""
import functools
import re

from spec_files import CRATES, Unknown, nodes_of, renamed, shown, text_of

GHOST_IMPORT = re.compile(r"^ *ghost use Rattle\.(\w+)\.specs\.([\w.]+?)\.?(?:\{([^}]*)\})?;", re.M)
CODE_IMPORT = re.compile(r"^(?:pub )?use (\w+)::((?:\w+::)*)(\{[^}]*\}|\w+);", re.M)
ITEM = r"^(?:pub(?:\(crate\))? )?(?:struct|enum|trait|const|static|type) {}\b"

# What of a model says which values its type has. The others tell values apart (`coded`) and let
# recursions end (`size`, `size_decreases`); no statement hangs on them.
MEANING = re.compile(r"^ +ghost (?:Value|view|invariant|inverse) = \{.*?\};", re.M | re.S)


def named_by(text, words):
    """What those of the words lead to that a text of the code imports by `ghost use`."""
    imports = {
        new: (crate, path, name)
        for crate, path, braces in GHOST_IMPORT.findall(text)
        for new, name in renamed(braces).items()
    }
    for word in dict.fromkeys(re.findall(r"[\w◌≡]+", words)):
        if word in imports:
            crate, path, name = imports[word]
            yield from nodes_of(crate, path, [name])


@functools.lru_cache(maxsize=None)
def declared(crate, name):
    """The item of the code of that name, in a crate or where that takes it from; None for what is
    the kit's or is not declared."""
    for file in sorted((CRATES / crate / "src").rglob("*.rt")):
        if re.search(ITEM.format(name), text_of(file), re.M):
            return file, name
    return named_from(CRATES / crate / "src/lib.rt", name)


def named_from(file, name):
    """The item that a file of the code imports under that name."""
    crate = file.relative_to(CRATES).parts[0]
    for source, _, braces in CODE_IMPORT.findall(text_of(file)) if file.is_file() else ():
        source = crate if source == "crate" else source
        if name in renamed(braces).values() and (CRATES / source).is_dir():
            found = declared(source, name) if (source, file.name) != (crate, "lib.rt") else None
            if found:
                return found
    return None


def lines_from(lines, start):
    """The lines of an item: those of its attributes and story above, to the one that ends it."""
    first = last = start
    while first and re.match(r"///|#\[", lines[first - 1]):
        first -= 1
    while not re.match(r"[}\]]", lines[last]) and not (last == start and lines[last].endswith(";")):
        last += 1
    return lines[first:last + 1]


@functools.lru_cache(maxsize=None)
def item_text(file, name):
    """The text of an item, and that of its model, if it has one."""
    if not file.is_file():
        raise Unknown(f"there is no {shown(file)}")
    lines, found = text_of(file).split("\n"), ([], [])
    for k, line in enumerate(lines):
        if re.match(ITEM.format(name), line):
            found[0].extend(lines_from(lines, k))
        if re.match(rf"impl(<.*>)? Model for {name}\b", line):
            found[1].extend(lines_from(lines, k))
    if not found[0]:
        raise Unknown(f"{shown(file)} declares no {name}")
    return tuple("\n".join(part) + "\n" * bool(part) for part in found)


def line_count(file, name):
    return sum(part.count("\n") for part in item_text(file, name))


def place_in_file(file, name):
    return re.search(ITEM.format(name), text_of(file), re.M).start()


def ghost_members(trait):
    return re.findall(r"^ +ghost \w+:[^;]*;", trait, re.M)


def read_by_item(file, name):
    item, model = item_text(file, name)
    code = re.sub(r"//.*", "", item)
    if re.search(r"^pub trait ", code, re.M):
        yield from named_by(text_of(file), " ".join(ghost_members(code)))
        return
    yield from named_by(model, " ".join(MEANING.findall(model)))
    for word in dict.fromkeys(re.findall(r"\b[A-Z]\w*", code)):
        here = re.search(ITEM.format(word), text_of(file), re.M)
        found = (file, word) if here else named_from(file, word)
        if found and found != (file, name):
            yield found
