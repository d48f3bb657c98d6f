"""The page of one play as one file that needs no server."""
import json
import re

from .files import INDEX, PAGE

POLICY = "default-src 'none'; img-src data:; style-src 'unsafe-inline'; script-src 'unsafe-inline'; base-uri 'none'; form-action 'none'"
IMPORT = re.compile(r"^import (\{ [^}]* \}) from \"\./([a-z]+)\.js\";$", re.M)
EXPORT = re.compile(r"^export (?:(?:async )?function (\w+)|class (\w+)|const (.*))", re.M)
STYLE = '<link rel="stylesheet" href="style.css">'
MODULE = '<script type="module" src="main.js"></script>'


def exported(text):
    """The names that a module exports."""
    for function, kind, constants in EXPORT.findall(text):
        yield from filter(None, [function, kind, *re.findall(r"(\w+) = ", constants)])


def enclosed(name, text):
    """A module as a constant: what it exports. It takes what it imports from the constants of other modules."""
    body = IMPORT.sub(r"const \1 = module_\2;", re.sub("^export ", "", text, flags=re.M))
    return f"const module_{name} = (() => {{\n{body}return {{ {', '.join(exported(text))} }};\n}})();\n"


def modules(name, seen):
    """A module and all that it imports, each once and after those that it needs."""
    if name in seen:
        return
    seen.add(name)
    text = (PAGE / f"{name}.js").read_text(encoding="utf-8")
    for _, needed in IMPORT.findall(text):
        yield from modules(needed, seen)
    yield enclosed(name, text)


def inside_html(text):
    """JSON that may stand in a script element: no string in it can end the element."""
    return text.replace("<", "\\u003c")


def held(identifier, text):
    """An element that holds JSON."""
    return f'<script type="application/json" id="{identifier}">{inside_html(text)}</script>'


def replaced(text, old, new):
    """A text in which something that stands there once is replaced."""
    before, found, after = text.partition(old)
    if not found:
        raise ValueError(f"the page has no {old}")
    return before + new + after


def single_file(data, play):
    """The HTML of a play: the page, its style and its modules, the script, the facts and the report."""
    page = (PAGE / INDEX).read_text(encoding="utf-8")
    start = json.dumps({"script": data.decode("utf-8", "replace"), "how": play.facts["how"]})
    parts = [held("start", start), held("facts", json.dumps(play.facts)), held("report", play.report.decode("ascii").rstrip("\n"))]
    program = "\n".join(modules("main", set()))
    page = replaced(page, "<head>", f'<head>\n<meta http-equiv="Content-Security-Policy" content="{POLICY}">')
    page = replaced(page, STYLE, f"<style>\n{(PAGE / 'style.css').read_text(encoding='utf-8')}</style>")
    return replaced(page, MODULE, "\n".join([*parts, f'<script type="module">\n{program}</script>']))
