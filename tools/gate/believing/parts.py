"""Files of crates, and the parts of them that have a name: definitions, items of Rust, and calls with their contracts."""
import re
from pathlib import Path

TOP = Path(__file__).resolve().parents[3]
NAME = re.compile(r"(?<![\w.'])([A-Za-z_][\w']*(?:-[A-Za-z_][\w']*)*)(?:\.([A-Za-z_][\w']*))?")
OPERATOR = re.compile(r"(?<=\s)[^\s\w(){}\[\],.;:◌]+(?=\s)")
USE = re.compile(r"use Rattle\.([\w.]+?)(?:\.\{([^}]*)\}| as (\w+))", re.S)
BEGINS = re.compile(r"(?:(?:abbrev|unfoldable|record|data|pub) )+(?!use )(?:record |data )?([^\s:({]+)")
# in a block `module _`, where a field of a record has `pub` too
BEGINS_INSIDE = re.compile(r"  (?:(?:abbrev|unfoldable) pub|pub record|pub data) ([^\s:({]+)")
# The items of a file of Rust, and the types, traits and implementations whose functions are calls.
ITEM = re.compile(r"^(?:pub (?:\(crate\) )?)?(struct|enum|trait|const|fn) (\w+)", re.M)
OWNER = re.compile(r"(?:pub )?(?:trait (\w+)|impl(?:<.*?>)? (?:\w+(?:<.*?>)? for )?(\w+))")
METHOD = re.compile(r"    (?:pub )?fn (\w+)")


class Part:
    """A piece of a file that has a name: a definition, an item of Rust, or a call with its contract."""

    def __init__(self, file, name, comment, text):
        self.file, self.name, self.comment, self.text = file, name, comment, text
        self.in_block = text.startswith(" ")

    def words(self):
        """Its words in the order of its text, each once, with the word behind the dot where there is one; then its operators."""
        text = re.sub(r"--(?!\w).*|//.*", "", self.text)
        signs = OPERATOR.findall(text) + [">>="] * bool(re.search(r"\bdo$", text, re.M))
        return dict.fromkeys(NAME.findall(text) + [(f"◌{sign}◌", "") for sign in signs])

    def lines(self):
        return len(self.text.strip().splitlines())

    def is_definition(self):
        return self.file.path.suffix == ".antt"


class SourceFile:
    """A file with its head, its parts by name, and what its `use` lines bring in: a name to a path and the name there."""

    def __init__(self, path):
        self.path = path
        self.text = path.read_text()
        self.imports = dict(imports_of(self.text))
        self.parts = {}
        for part in rust_parts(self) if path.suffix == ".rt" else definitions(self):
            self.parts.setdefault(part.name, part)

    def crate(self):
        return self.path.relative_to(TOP).parts[1]

    def shown(self):
        return self.path.relative_to(TOP / "crates")

    def head(self):
        lines = []
        for line in self.text.splitlines():
            if not line.startswith(("-- ", "//! ")):
                break
            lines.append(line.split(" ", 1)[1])
        return first_sentence(" ".join(lines))


def first_sentence(text):
    text = text.strip()
    sentence = re.split(r"(?<=[.:]) (?=[A-Z])", text)[0].rstrip(".:")
    return sentence if not sentence or sentence.endswith(")") else sentence + "."


def imports_of(text):
    for path, names, alias in USE.findall(text):
        if alias:
            yield alias, (path, "")
        for name in filter(None, (n.strip() for n in names.split(","))):
            there, _, here = name.partition(" as ")
            yield here or there, (path, there)


def definitions(file):
    """The definitions of an .antt file: each begins at the left edge, or in a block `module _`, after its comment."""
    comment, begun = [], None
    for line in file.text.splitlines():
        begins = BEGINS.match(line) or BEGINS_INSIDE.match(line)
        if line.lstrip().startswith("--"):
            comment = comment + [line.lstrip()[2:].strip()]
        elif begins:
            begun = Part(file, begins.group(1), first_sentence(" ".join(comment)), line + "\n")
            comment = []
            yield begun
        elif not line.strip():
            comment = []
        elif begun and not line.startswith("use "):
            begun.text += line + "\n"


def rust_parts(file):
    """Types, traits, constants and functions up to their bodies, and under a type's name also what stands for it in contracts."""
    text = file.text
    for found in ITEM.finditer(text):
        kind, name = found.groups()
        ends = re.compile(r"\n\{\}?\n" if kind == "fn" else r"\n\}\n").search(text, found.start())
        end = ends.start() if ends else len(text)
        line_end = text.find("\n", found.start())
        if kind == "const" or text[line_end - 1] in ";}":
            end = line_end
        model = re.search(r"^impl(?:<[^>]*>)? Model for %s\b.*?^}" % name, text, re.M | re.S)
        shown = text[found.start():end] + ("\n" + model.group() if model else "") + "\n"
        yield Part(file, name, comment_before(text[:found.start()].splitlines()), shown)
    yield from methods(file)


def comment_before(lines):
    """The first sentence of the comment with which these lines end."""
    comment = []
    while lines and lines[-1].startswith(("///", "#[")):
        line = lines.pop()
        if line.startswith("///"):
            comment.insert(0, line[3:].strip())
    return first_sentence(" ".join(comment))


def methods(file):
    """The functions of types and traits up to their bodies, each by the name `Type::function`."""
    owner, begun = "", None
    for line in file.text.splitlines():
        opens, begins = OWNER.match(line), METHOD.match(line)
        if opens:
            owner = opens.group(1) or opens.group(2)
        elif begins and owner:
            begun = Part(file, f"{owner}::{begins.group(1)}", "", "")
        if begun:
            begun.text += line + "\n"
            if line in ("    {", "    {}") or line.endswith((";", "{}")) or begins and line.endswith("{"):
                yield begun
                begun = None
