"""The public calls of the crates, with their results and the names of their clauses."""
import re
from dataclasses import dataclass
from functools import cache
from pathlib import Path

TOP = Path(__file__).resolve().parents[3]

FUNCTION = re.compile(r"( *)(pub )?fn (\w+)")
IMPL = re.compile(r"impl(?:<.*?>)? (?:(\w+)(?:<.*?>)? for )?(\w+)")
TRAIT = re.compile(r"pub trait (\w+)")
MODULE = re.compile(r"^((?:#\[.*\]\n)*)(pub )?mod (\w+);", re.M)
EXPORT = re.compile(r"^pub use [\w:]*?(\w+)(?:::\{([^}]*)\})?;", re.M)
TYPE = re.compile(r"^pub (?:struct|enum|trait) (\w+)", re.M)
CLAUSE = re.compile(r"\bensures(?: (\w+))? \{")

# What a result is where it says how a call ended. Every other result is what was computed.
ENDS = re.compile(
    r"\b(Option|Result|ExitCode|Ended|Performed|Reply|Stepped|Taken|Touched|Verdict)\b"
)
NO_MEMORY = re.compile(r"Result<(.*), NoMemory>")


@dataclass(frozen=True)
class Call:
    crate: str
    owner: str
    name: str
    result: str
    clauses: tuple

    def path(self):
        return "::".join(filter(None, (self.crate, self.owner, self.name)))

    def only_lacks_memory(self):
        """Whether it has no answer but its result, and that memory ran out."""
        found = NO_MEMORY.fullmatch(self.result)
        return bool(found) and not ENDS.search(found.group(1))

    def has_answers(self):
        return bool(ENDS.search(self.result)) and not self.only_lacks_memory()


@cache
def crates():
    lines = (TOP / "crates.txt").read_text().splitlines()
    return [line.split(":")[0] for line in lines if ":" in line and not line.startswith("#")]


def modules(path, folder, is_public=True):
    """The text of a file and of all its modules but tests, each with whether its path is public."""
    text = path.read_text()
    yield text, is_public
    for attributes, public, name in MODULE.findall(text):
        if "cfg(test)" not in attributes:
            yield from modules(folder / f"{name}.rt", folder / name, is_public and bool(public))


def signature(lines, at):
    """The lines of a function up to its body."""
    indent, kept, has_clause = FUNCTION.match(lines[at]).group(1), [], False
    for line in lines[at:]:
        has_clause = has_clause or line.lstrip().startswith(("ensures", "requires"))
        if line == indent + "{":
            break
        kept.append(line.strip())
        if line.endswith((";", "{}")) or line.endswith("{") and not has_clause:
            break
    return " ".join(kept)


def functions(text):
    """Each function of a file with the type or trait that it stands in, and whether it is public there."""
    lines, owner, is_of_trait = text.split("\n"), "", False
    for at, line in enumerate(lines):
        if line == "}":
            owner, is_of_trait = "", False
        elif found := TRAIT.match(line):
            owner, is_of_trait = found.group(1), True
        elif found := IMPL.match(line):
            owner, is_of_trait = found.group(2), bool(found.group(1))
        elif found := FUNCTION.match(line):
            yield owner, found.group(3), bool(found.group(2)) or is_of_trait, signature(lines, at)


def sources(crate):
    """The text of each module of a library, each with whether its path is public."""
    source = TOP / "crates" / crate / "src"
    return list(modules(source / "lib.rt", source)) if (source / "lib.rt").is_file() else []


def exports(files):
    """The names that modules export from others, and the types of public modules."""
    exported, types = set(), set()
    for text, is_public in files:
        for name, names in EXPORT.findall(text):
            exported |= {each.split(" as ")[0].strip() for each in names.split(",")} if names else {name}
        types |= set(TYPE.findall(text)) if is_public else set()
    return exported, types


def public_types(crate):
    return set().union(*exports(sources(crate)))


def public_calls(crate):
    """The public functions and methods of a crate."""
    files = sources(crate)
    exported, types = exports(files)
    for text, is_public in files:
        for owner, name, is_public_there, shown in functions(text):
            is_reached = owner in exported | types if owner else is_public or name in exported
            if is_public_there and is_reached:
                head = re.split(r" (?:requires|ensures)\b", shown)[0]
                result = re.search(r"-> (.*?)(?: where .*)?[ {;]*$", head)
                yield Call(crate, owner, name, result.group(1) if result else "", tuple(CLAUSE.findall(shown)))
