"""What the parts of crates name, and what all of it comes to."""
import re
from collections import defaultdict, deque

from believing.parts import TOP, SourceFile

LISTS = ("Lib.antt", "commands.antt")
# Crates of laws on which no program stands and no list of policies: their definitions need no mark.
UNUSED = ("shared_parts", "schedule_law")


class Missing(Exception):
    """A name that no crate has."""


class Sources:
    """The files of all crates, read when they are first asked for."""

    def __init__(self):
        self.files, self.next = {}, {}
        self.rust = defaultdict(dict)
        self.calls = defaultdict(dict)
        for path in sorted(TOP.glob("crates/*/src/**/*.rt")):
            crate, text = path.relative_to(TOP).parts[1], path.read_text()
            for name in re.findall(r"^pub (?:\(crate\) )?(?:struct|enum|trait|const) (\w+)", text, re.M):
                self.rust[crate].setdefault(name, path)
            for name in re.findall(r"^ *(?:pub )?fn (\w+)", text, re.M):
                self.calls[crate].setdefault(name, []).append(path)

    def file(self, path):
        if path not in self.files:
            self.files[path] = SourceFile(path)
        return self.files[path]

    def item(self, crate, name):
        path = self.rust[crate].get(name)
        return path and self.file(path).parts.get(name)

    def call(self, crate, name):
        """A call of a crate, as `call` or `Type::call`, and its type."""
        owner, _, last = name.rpartition("::")
        found = [self.file(path).parts[name] for path in self.calls[crate].get(last, []) if name in self.file(path).parts]
        if not found:
            raise Missing(f"{crate} has no call {name}")
        return found[:1] + [item for item in [owner and self.item(crate, owner)] if item]

    def specs(self, crate, name):
        """The definitions of a file of a crate's folder `specs`."""
        path = TOP / "crates" / crate / "specs" / f"{name}.antt"
        if not path.is_file():
            raise Missing(f"{crate} has no file specs/{name}.antt")
        return list(self.file(path).parts.values())

    def named(self, module, name):
        """The part that a path of a `use` line and a name there stand for. None where it is a library's."""
        crate, _, rest = module.partition(".")
        if not (TOP / "crates" / crate).is_dir():
            return None
        if rest.startswith("specs.declared."):
            steps = rest.split(".")[2:]
            if steps[-1] == "TheVariants":
                return self.item(crate, steps[-2])
            return self.item(crate, name or steps[-1])
        path = TOP / "crates" / crate / (rest.replace(".", "/") + ".antt")
        return self.file(path).parts.get(name) if path.is_file() else None

    def reached_from(self, part):
        """The parts that the words of a part name, in the order of its text, and the words of libraries."""
        own = part.file
        uses = dict(re.findall(r"^use (\w+)::(?:\w+::)*\{?([^;]*?)\}?;", own.text, re.M)) if not part.is_definition() else {}
        for word, after in part.words():
            if word == part.name:
                continue
            if word in own.imports:
                path, there = own.imports[word]
                yield self.named(path, there or after) or (path, there or after)
            elif word in own.parts:
                yield own.parts[word]
            elif not part.is_definition() and word[0].isupper():
                yield from self.items_named(own.crate(), word, uses)

    def items_named(self, crate, word, uses):
        """The first item of this name of a crate, or of one that the file uses."""
        for other in [crate] + [c for c in uses if word in re.split(r"[\s,{}]+", uses[c])]:
            found = self.item(crate if other == "crate" else other, word)
            if found and not found.text.startswith(("fn", "pub fn")):
                yield found
                return

    def closure(self, starts):
        """All that these parts stand on, nearest first, and the words of libraries."""
        seen, library, waiting = dict.fromkeys(starts), set(), deque(starts)
        while waiting:
            part = waiting.popleft()
            if part not in self.next:
                self.next[part] = list(self.reached_from(part))
            for found in self.next[part]:
                if isinstance(found, tuple):
                    library.add(found)
                elif found not in seen:
                    seen[found] = None
                    waiting.append(found)
        return list(seen), library

    def spec_files(self):
        """The files of definitions, but for those of tests and of laws that are not on the page."""
        every = [path for path in sorted(TOP.glob("crates/*/specs/**/*.antt")) if path.name not in LISTS]
        files = [self.file(path) for path in every]
        return [file for file in files if not file.crate().endswith("_tests") and file.crate() not in UNUSED]
