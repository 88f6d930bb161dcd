"""The definitions in a file of specs, and what each reads.

A file is cut into parts: its header comment, its imports, the heads of its modules, and its
definitions. A definition is a signature with its clauses, a kind of data with its constructors, a
record with its fields, or a mutual block as a whole. To a part belong the comments and blank lines
right above it.

A definition reads each word of it that names a definition of its file or one that the file imports.
Some words are not counted: what a clause binds in its patterns, where it is no constructor; what is
bound by `λ`, by `let`, by `(x : A)` and by the head of a module, from there to the end of the
bracket round it; the labels of `record { x = .. }`; a field behind a dot; and, in later fields of a
record, its earlier ones. Nothing else is known of scopes or types, so a word may be counted that
means something else. What stands in a module reads what the module's head does. A word that is
neither bound nor defined, imported or built in is an error here, so that none is passed over.
"""
import functools
import pathlib
import re
from collections import Counter

ROOT = pathlib.Path(__file__).resolve().parent.parent
CRATES = ROOT / "crates"

FORMS = [
    ("import", re.compile(r"(?:pub )?use ")),
    ("index", re.compile(r"pub mod ")),
    ("module", re.compile(r"module ")),
    ("mutual", re.compile(r"(?:abbrev )?mutual$")),
    ("data", re.compile(r"(?:abbrev )?(?:pub )?data (\S+)")),
    ("record", re.compile(r"(?:abbrev )?(?:pub )?record (\S+)")),
    ("function", re.compile(r"(?:(?:abbrev|unfoldable) )?(?:pub )?(\S+) :(?: |$)")),
]
IMPORT = re.compile(r"use (?:Rattle\.(\w+)\.specs\.)?([\w.]+?)(?:\.\{(.*)\}| as (\w+))?$")
TOKEN = re.compile(r"\[\]|[()\[\]{};,]|[^\s()\[\]{};,]+")
STRING = re.compile(r'"(?:[^"\\]|\\.)*"')
# What has a meaning of its own: it is neither defined nor imported.
BUILT_IN = set("→ × ⊥ : = ; , Type Unit tt record where pub data let _".split())


class Unknown(Exception):
    """A name leads to no file, or to none of its definitions."""


@functools.lru_cache(maxsize=None)
def text_of(path):
    return path.read_text(encoding="utf-8")


def shown(path):
    return str(path.relative_to(CRATES))


def renamed(braces):
    """Of a list in braces, which may be none, each name by the one that it is given."""
    pairs = [name.strip().split(" as ") for name in (braces or "").strip("{}").split(",")]
    return {pair[-1]: pair[0] for pair in pairs if pair[0]}


def nodes_of(crate, path, names):
    """What an import leads to: definitions of a file of specs, or items of the code. Empty for what
    is the kit's."""
    if not crate or not (CRATES / crate).is_dir():
        return []
    folder, parts = CRATES / crate, path.split(".")
    if parts[0] == "declared":
        depth = next(k for k, part in enumerate(parts) if part[0].isupper())
        file = folder / "src" / ("/".join(parts[1:depth]) + ".rt")
        items = names if parts[depth] == "TheConstants" else [parts[depth]]
        return [(file, item) for item in items]
    file = folder / "specs" / ("/".join(parts) + ".antt")
    if not file.is_file():
        raise Unknown(f"crates/{crate}/specs has no {path}")
    return [(file, spec_file(file).definition(name).names[0]) for name in names]


def indent_of(line):
    return len(line) - len(line.lstrip())


def is_story(line):
    """Whether the line is blank or a comment."""
    return not line.strip() or line.lstrip().startswith("--")


def tokens_of(lines):
    """The words and brackets of some lines. Of `then` and `else`, which belong to `if`, there are
    those that stand as names."""
    tokens = TOKEN.findall(STRING.sub("", " ".join(line for line in lines if not is_story(line))))
    return [
        token for k, token in enumerate(tokens)
        if token not in ("then", "else") or tokens[k + 1:k + 2] in ([":"], [")"])
    ]


class Part:
    """An import, the head of a module, or a definition, with its lines and those above it."""

    def __init__(self, kind, indent, module):
        self.kind, self.indent, self.module, self.lines = kind, indent, module, []

    def code(self):
        return [line for line in self.lines if not is_story(line) and not line.startswith("infix")]

    @functools.cached_property
    def members(self):
        """The kind, the name and the lines of each: those of a mutual block, or the one."""
        if self.kind != "mutual":
            return [(self.kind, name_in(self.code()[0]), self.code())]
        blocks = grouped(self.code()[1:], self.indent + 2, lambda line: form_of(line) is not None)
        return [(form_of(block[0]), name_in(block[0]), block) for block in blocks]

    @functools.cached_property
    def names(self):
        return [name for _, name, _ in self.members]

    @functools.cached_property
    def constructors(self):
        """The constructors, which lead to the definition as its names do."""
        return [
            token
            for kind, _, lines in self.members if kind == "data"
            for unit in units(lines)[1]
            for token in typed_names(tokens_of(unit))[0]
        ]

    def all_names(self):
        """All words that lead to the definition."""
        return self.names + self.constructors

    def around(self):
        """The heads of the modules round it, the outer first."""
        return [] if self.module is None else self.module.around() + [self.module]

    def counts(self):
        """How many of its lines are code, comments and blank."""
        found = Counter()
        for line in self.lines:
            found["code" if not is_story(line) else "comment" if line.strip() else "blank"] += 1
        return found


def form_of(line):
    return next((kind for kind, form in FORMS if form.match(line.lstrip())), None)


def name_in(line):
    return dict(FORMS)[form_of(line)].match(line.lstrip())[1]


def grouped(lines, indent, begins=lambda line: True):
    """The lines in groups, each begun by a line of that indentation that closes no bracket."""
    groups = []
    for line in lines:
        is_head = indent_of(line) == indent and line.lstrip()[0] not in "})]" and begins(line)
        if is_head or not groups:
            groups.append([])
        groups[-1].append(line)
    return groups


def units(lines):
    """The head of a kind of data or of a record, and its constructors or fields."""
    end = next(k for k, line in enumerate(lines) if line.split()[-1] == "where") + 1
    return lines[:end], grouped(lines[end:], indent_of(lines[0]) + 2)


def typed_names(tokens):
    """The names before the first colon, and what stands behind it."""
    at = tokens.index(":")
    return [token for token in tokens[:at] if token != "pub"], tokens[at + 1:]


def parts_in(text):
    """The header comment of a file, and its parts."""
    lines = text.splitlines()
    first = next((k for k, line in enumerate(lines) if not line.startswith("--")), len(lines))
    parts, modules, above = [], [], []
    for line in lines[first:]:
        above.append(line)
        if is_story(line) or line.startswith("infix"):
            continue
        kind, indent = form_of(line), indent_of(line)
        if kind and indent in [0] + [it.indent + 2 for it in modules]:
            while modules and modules[-1].indent >= indent:
                modules.pop()
            parts.append(Part(kind, indent, modules[-1] if modules else None))
            if kind == "module":
                modules.append(parts[-1])
        if not parts:
            raise Unknown(f"a file of specs begins with no definition: {line}")
        parts[-1].lines += above
        above = []
    return lines[:first], parts


class Import:
    """An import: where it leads, and the words by which a text names what it imports."""

    def __init__(self, part):
        self.part = part
        found = IMPORT.search(" ".join(" ".join(part.code()).split()))
        if not found:
            raise Unknown(f"no import: {part.lines[-1]}")
        self.crate, self.path, braces, alias = found.groups()
        self.names = renamed(braces)
        self.alias = alias or ("" if self.names else self.path.split(".")[-1])

    def nodes(self, name):
        return nodes_of(self.crate, self.path, [name])


def piece_of(name):
    """A name, or of an operator the first piece between its holes, by which it is known."""
    return next(piece for piece in name.split("◌") if piece)


class SpecFile:
    def __init__(self, file, text):
        self.file = file
        self.header, parts = parts_in(text)
        self.imports = [Import(part) for part in parts if part.kind == "import"]
        others = ("import", "module", "index")
        self.definitions = [part for part in parts if part.kind not in others]
        self.here = {piece_of(name): it for it in self.definitions for name in it.all_names()}
        self.constructors = {name for it in self.definitions for name in it.constructors}
        self.aliases = {it.alias: it for it in self.imports if it.alias}
        self.imported = {}
        for it in self.imports:
            for new, name in it.names.items():
                self.imported.setdefault(piece_of(new), []).append((it, name))

    def definition(self, name):
        for it in self.definitions:
            if name in it.all_names():
                return it
        raise Unknown(f"{shown(self.file)} defines no {name}")

    def defines(self, name, word):
        """Whether the definition of that name defines the word too."""
        return word in self.definition(name).all_names()

    def sources_of(self, word):
        """The imports that the word may come from, each with its name there."""
        alias, _, field = word.partition(".")
        if field:
            return [(self.aliases[alias], field.split(".")[0])] if alias in self.aliases else []
        return self.imported.get(word, [])

    def is_constructor(self, word):
        """Whether a word of a pattern is a constructor. What is the kit's or the code's counts as
        one."""
        if word in self.here:
            return self.makes(word)
        for source, name in self.sources_of(word):
            files = [file for file, _ in source.nodes(name)]
            if not files or any(not is_spec(it) or spec_file(it).makes(name) for it in files):
                return True
        return False

    def makes(self, name):
        """Whether it has a constructor of that name."""
        return name in self.constructors

    @functools.lru_cache(maxsize=None)
    def words(self, name):
        """The words that a definition reads, and those that the heads of its modules do."""
        part, found, local = self.definition(name), [], set()
        for head in part.around():
            words, local = free_words(tokens_of(head.code())[2:], local, self.aliases)
            found += words
        for kind, _, lines in part.members:
            read = self.words_of_function if kind == "function" else self.words_of_units
            found += read(lines, local)
        return list(dict.fromkeys(found))

    def words_of_function(self, lines, local):
        """The words of a signature and of its clauses."""
        signature, *clauses = grouped(lines, indent_of(lines[0]))
        found, _ = free_words(typed_names(tokens_of(signature))[1], local, self.aliases)
        for clause in clauses:
            found += self.words_of_clause(clause, local)
        return found

    def words_of_clause(self, lines, local):
        """The words of a clause, with those of the functions that it defines for itself."""
        end = next((k for k, line in enumerate(lines) if line.strip() == "where"), len(lines))
        own, inner = lines[:end], lines[end + 1:]
        left, right = sides(tokens_of(own))
        found = [token for token in left if self.is_constructor(token)]
        local = local | (set(left) - set(found))
        indent = indent_of(inner[0]) if inner else 0
        functions = grouped(inner, indent, lambda line: form_of(line) == "function")
        local |= {name_in(function[0]) for function in functions}
        found += free_words(right, local, self.aliases)[0]
        for function in functions:
            found += self.words_of_function(function, local)
        return found

    def words_of_units(self, lines, local):
        """The words of a kind of data or of a record: of its head and of what stands in it."""
        head, inner = units(lines)
        found, local = free_words(tokens_of(head), local, self.aliases)
        for unit in inner:
            names, typed = typed_names(tokens_of(unit))
            words, _ = free_words(typed, local, self.aliases)
            found += words
            local = local | set(names)
        return found

    @functools.lru_cache(maxsize=None)
    def read_by(self, name):
        """The definitions of specs and items of the code that a definition reads."""
        found = []
        for word in self.words(name):
            sources = self.sources_of(word)
            if word in self.here:
                found.append((self.file, self.here[word].names[0]))
            elif sources:
                found += [node for it, there in sources for node in it.nodes(there)]
            elif word not in BUILT_IN and not word.isdigit():
                raise Unknown(f"{shown(self.file)}: {name}: what is {word}?")
        return list(dict.fromkeys(node for node in found if node != (self.file, name)))

    def imports_for(self, names):
        """The imports that some of these definitions need."""
        words = {word for name in names for word in self.words(name) if word not in self.here}
        needed = {it for word in words for it, _ in self.sources_of(word)}
        return [it for it in self.imports if it in needed]

    def counts(self, names):
        """How many lines there are to be read of these definitions and what belongs to them."""
        parts = [self.definition(name) for name in names]
        heads = dict.fromkeys(head for part in parts for head in part.around())
        count = sum(len(part.names) for part in parts)
        found = Counter(comment=len(self.header), definitions=count)
        for part in [*heads, *parts]:
            found += part.counts()
        for it in self.imports_for(names):
            of_import = it.part.counts()
            found += of_import + Counter(imports=of_import.pop("code"))
        return found


def is_spec(file):
    return file.suffix == ".antt"


@functools.lru_cache(maxsize=None)
def spec_file(file):
    return SpecFile(file, text_of(file))


def sides(tokens):
    """The patterns and the body of a clause."""
    depth = 0
    for k, token in enumerate(tokens):
        depth += (token in "([{") - (token in ")]}")
        if token == "=" and not depth:
            return tokens[:k], tokens[k + 1:]
    raise Unknown(f"no clause: {' '.join(tokens)}")


def bound_in_bracket(tokens):
    """The names before the colon of a bracket such as `(x y : A)`."""
    for k, token in enumerate(tokens):
        if token == ":":
            return tokens[:k]
        if not re.fullmatch(r"\w+", token):
            return []
    return []


def free_words(tokens, local, aliases):
    """The words that are not bound where they stand, and what is bound at the end. A bracket such
    as `(x : A)` binds for what follows it."""
    found, levels, binding, lets, skipped = [], [(set(local), [])], 0, [], 0
    for k, token in enumerate(tokens):
        if skipped:
            skipped -= 1
        elif token in ("(", "[", "{"):
            levels.append((set(), bound_in_bracket(tokens[k + 1:])))
            skipped = len(levels[-1][1])
        elif token in (")", "]", "}"):
            _, names = levels.pop()
            levels[-1][0].update(names)
        elif token == "λ":
            binding = len(levels)
        elif binding == len(levels):
            levels[-1][0].add(token.rstrip("."))
            binding = 0 if token.endswith(".") else binding
        elif k and tokens[k - 1] == "let":
            lets.append(token)
        elif token == "in" and lets:
            levels[-1][0].add(lets.pop())
        elif not is_label(tokens, k):
            first = token.split(".")[0]
            if first in aliases and first != token:
                found.append(token)
            elif first and not any(first in names for names, _ in levels):
                found.append(first)
    return found, levels[0][0]


def is_label(tokens, k):
    return tokens[k + 1:k + 2] == ["="] and k > 0 and tokens[k - 1] in ("{", ";")


SAMPLE = """\
-- Of this file the header has one line.
use Rattle.std.specs.Prelude.{List, map as each}

pub record Held : Type 0 where
  pub last : List Kept
  pub held : last

module _ (k : Kept) where
  abbrev mutual
    -- above a function
    pub turn : (all : Held) → all
    turn (kept last) = each (λ some. some) last

    pub back : Held
    back = record { all = turn k free }

pub data Kept : Type 0 where
  kept : List Held → Kept

abbrev pub all : Kept → Kept
all k = k

abbrev pub some : Held
some = all.kept

abbrev pub free : Held
free = last
  where
    last : Held
    last = some
"""
SAMPLE_READS = {
    "Held": ["Kept"],
    "turn": ["Kept", "Held", "free"],
    "Kept": ["Held"],
    "all": ["Kept"],
    "some": ["Held", "all"],
    "free": ["Held", "some"],
}


def stop_on_sample():
    """Stops where a small file is not read as it is to be."""
    file = SpecFile(CRATES / "sample.antt", SAMPLE)
    names = [it.names[0] for it in file.definitions]
    reads = {name: [below for _, below in file.read_by(name)] for name in names}
    counts = file.counts(["turn"])
    if reads != SAMPLE_READS or (counts["code"], counts["comment"], counts["imports"]) != (6, 2, 1):
        raise Unknown(f"a sample of definitions is read as {reads}, {dict(counts)}")
