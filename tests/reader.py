"""Reads the sources of this repository: what the files of specs/ define, and what those of src/ declare and promise.

`tests/names` and `tests/theorem` look up in it. A source is read when it is first asked for.
"""

import re
from functools import cache, cached_property
from pathlib import Path

TOP = Path(__file__).resolve().parent.parent
CRATES = TOP / "crates"

NAME = r"[^\W\d][\w'-]*"
WORD = re.compile(r"[^\W\d]\w*'?")
COMMENT = re.compile(r'^((?:[^"-]|"[^"]*"|-(?!-))*)--.*')
IMPORT = re.compile(r"^(?:ghost )?use Rattle\.([\w.]+?)(?:\.\{([^}]*)\}| as (\w+));?$", re.M)
MODIFIERS = ["pub", "abbrev", "unfoldable"]
FIELD = re.compile(rf"\s+pub ({NAME})\s*:(.*)")

LINE_COMMENT = re.compile(r"(^|[ \t]+)//.*", re.M)
BRACKET = re.compile(r"[{}]")
CLAUSE = re.compile(r"^\s+(ensures|requires|ghost)\b(?! use\b)(?: (\w+))?[^{;]*\{", re.M)
BLOCK = re.compile(r"(?:pub(?:\([a-z]+\))? )?(impl|trait)\b")
GHOST = re.compile(r" +ghost (?!use\b)")
FUNCTION = re.compile(r'( *)(pub(?:\([a-z]+\))? |)(?:const |unsafe |extern "C" )?fn (\w+)')
TYPE = re.compile(r"pub (?:struct|enum|trait|type|const) (\w+)")
MEMBER = re.compile(r"    (?:pub )?([A-Za-z]\w*)\b")
EXPORT = re.compile(r"^pub use ([^;]+);", re.M)
ALIAS = re.compile(r"\b(\w+) as (\w+)\b")


def read(path):
    """The text of a file of the repository, by its path from the top."""
    return (TOP / path).read_text(encoding="utf-8")


def stands_on():
    """Of each crate those that it stands on, as crates.txt has them."""
    lines = [line for line in read("crates.txt").split("\n") if line.strip() and not line.startswith("#")]
    return {head.split()[0]: low.split() for head, _, low in (line.partition(":") for line in lines)}


def closed(text, start):
    """Where the bracket stands that closes the one before this place."""
    depth = 1
    for bracket in BRACKET.finditer(text, start):
        depth += 1 if bracket[0] == "{" else -1
        if depth == 0:
            return bracket.start()
    return len(text)


class Clause:
    """A clause or a ghost member. One that has no name has that of its kind."""

    def __init__(self, kind, name, text):
        self.kind, self.name, self.text = kind, name or kind, text


def clauses_of(text):
    """The clauses and ghost members in a text without comments, one after another."""
    return (Clause(found[1], found[2], text[found.end():closed(text, found.end())]) for found in CLAUSE.finditer(text))


class Scope:
    """A file, and what it imports: of each name its module and its name there, and of each short name of a module the module. What it
    defines, and of each constructor the type, stands in files of specs/ alone."""

    def __init__(self, name, text):
        self.name, self.stem, self.text = name, Path(name).stem, text
        self.imports, self.modules, self.definitions, self.constructors = {}, {}, {}, {}
        for module, listed, alias in IMPORT.findall(text):
            if alias:
                self.modules[alias] = module
            for word in filter(None, listed.split(",")):
                own, _, other = word.strip().partition(" as ")
                self.imports[other or own] = (module, own)


class Definition:
    """A definition of specs/: its name, its kind if it is a record or data, and its lines without comments."""

    def __init__(self, name, kind, is_public):
        self.name, self.kind, self.is_public, self.lines = name, kind, is_public, []

    @cached_property
    def fields(self):
        """Of a record, of each field what stands behind its name."""
        return {field[1]: field[2] for field in map(FIELD.match, self.lines) if field} if self.kind == "record" else {}

    @cached_property
    def words(self):
        return set(WORD.findall("\n".join(self.lines)))


class SpecFile(Scope):
    """A file of specs/."""

    def __init__(self, name):
        super().__init__(name, "\n".join(COMMENT.sub(r"\1", line).rstrip() for line in read("crates/" + name).split("\n")))
        definition, margin = None, ""
        for line in self.text.split("\n"):
            if not line or line.startswith(("use ", "pub use ", "mod ", "pub mod ")):
                continue
            if line.startswith("module "):
                definition, margin = None, "  "
                continue
            margin = margin if line.startswith(margin) else ""
            line = line[len(margin):]
            started = self.started(line)
            if started:
                definition = self.definitions[started.name] = started
            if definition:
                definition.lines.append(line)
                constructor = re.match(rf"\s+({NAME})\s*:", line)
                if definition.kind == "data" and constructor:
                    self.constructors[constructor[1]] = definition.name

    def started(self, line):
        """The definition that begins with a line."""
        words = line.split()
        modifiers = 0
        while words[modifiers] in MODIFIERS:
            modifiers += 1
        has_kind = words[modifiers] in ("record", "data") and len(words) > modifiers + 1
        kind = words[modifiers] if has_kind else None
        name = words[modifiers + has_kind]
        is_head = line[0] not in " }" and (modifiers or kind or name.endswith(":") or words[1:2] == [":"])
        return Definition(name.rstrip(":"), kind, "pub" in words[:modifiers]) if is_head else None


class Function:
    """A function up to its body, and whether it is public; one of a trait or of an impl of one is."""

    def __init__(self, text, is_public):
        self.text, self.is_public = text, is_public

    @cached_property
    def clauses(self):
        """Of each kind the texts of the clauses by their names."""
        clauses = {"ensures": {}, "requires": {}}
        for clause in clauses_of(self.text):
            clauses[clause.kind][clause.name] = clause.text
        return clauses


class Block:
    """An `impl` or a `trait`, with its functions and its ghost members."""

    def __init__(self, header, aliases):
        header = re.sub(r"<[^<>]*>", "", re.sub(r"<[^<>]*>", "", header))
        found = re.search(r"\b(?:impl|trait)\s+(?:(\w+)\s+for\s+)?(\w+)", header)
        self.is_trait = "trait" in header.split("{")[0].split()[:3]
        self.trait = found[1] and aliases.get(found[1], found[1])
        self.type = found[2]
        self.functions, self.ghosts = {}, {}


class RustFile(Scope):
    """A file of src/: its functions, the blocks of its types and traits, and of each type its members and ghost fields."""

    def __init__(self, name):
        super().__init__(name, LINE_COMMENT.sub("", read("crates/" + name)))
        self.functions, self.blocks, self.types, self.members, self.ghosts = {}, [], set(), {}, {}
        self.exports = {word: listed.split("::")[0] for listed in EXPORT.findall(self.text) for word in WORD.findall(listed)}
        lines, block, within, number = self.text.split("\n"), None, None, 0
        aliases = {new: old for line in lines if line.startswith("use ") for old, new in ALIAS.findall(line)}
        while number < len(lines):
            line = lines[number]
            if line == "}":
                block = within = None
            elif BLOCK.match(line):
                end = next(n for n in range(number, len(lines)) if lines[n].endswith(("{", "{}")))
                block = Block(" ".join(lines[number:end + 1]), aliases)
                self.blocks.append(block)
                number = end
            elif FUNCTION.match(line):
                number = self.read_function(lines, number, block)
            elif GHOST.match(line) and (block or within):
                ghosts = block.ghosts if block else self.ghosts.setdefault(within, {})
                clause = next(clauses_of("\n".join(lines[number:])))
                ghosts[clause.name] = clause.text
                number += clause.text.count("\n")
            elif within and MEMBER.match(line):
                self.members.setdefault(within, set()).add(MEMBER.match(line)[1])
            if TYPE.match(line):
                self.types.add(TYPE.match(line)[1])
                within = TYPE.match(line)[1] if line.endswith("{") and not block else None
            number += 1

    def read_function(self, lines, number, block):
        """Takes a function, and gives the number of the last line of it that was looked at."""
        found, end = FUNCTION.match(lines[number]), number
        while not lines[end].endswith((";", "{", "{}")):
            end += 1
        is_public = found[2] == "pub " or bool(block and (block.trait or block.is_trait))
        functions = block.functions if block else self.functions
        functions[found[3]] = Function("\n".join(lines[number:end + 1]), is_public)
        if lines[end].endswith("{"):
            end = next((n for n in range(end, len(lines)) if lines[n] == found[1] + "}"), end)
        return end

    def clauses(self, kinds):
        """All its clauses of these kinds."""
        return [clause for clause in clauses_of(self.text) if clause.kind in kinds]


@cache
def spec_file(name):
    """A file of specs/, by its path from crates/. None where there is none."""
    return SpecFile(name) if (CRATES / name).exists() else None


@cache
def rust_file(name):
    return RustFile(name)


def files_of(crate, folder, ending):
    """The paths, from crates/, of the files of a crate that lie in a folder of it."""
    return [str(path.relative_to(CRATES)) for path in sorted((CRATES / crate / folder).rglob("*" + ending))]
