"""The page as one text: a file that runs from a folder with nothing installed, or what a server serves."""
import base64
import hashlib
import html
import json
import re
from pathlib import Path
from typing import Any, Optional

from ..pictures import palette
from ..protocol.commands import COMMANDS

STATIC = Path(__file__).parent / "static"
_IMPORT = re.compile(r'^import (?:(\w+|\{ [^}]+ \}) from )?"\./(\w+\.(?:js|json))";\n', re.M)
_EXPORT = re.compile(r"^export (?:async function|function|class|const|let) (\w+|\{[^}]+\})", re.M)
_RULES = ("default-src 'none'; script-src {scripts}; style-src 'unsafe-inline'; img-src data: blob:; "
          "base-uri 'none'; form-action 'none'; {more}")
_STRICT = '"use strict";\n'
_TEXTS = re.compile(r'"\./(texts_\w+\.json)"')  # in texts.js
_SAME = re.compile(r"(?<=\d )([0-9a-f])\1{7,}$")  # the digits of a row that are all one


def read(name: str) -> str:
    """A file of the page."""
    return (STATIC / name).read_text("utf-8")


def one_file(name: str = "", contents: Optional[bytes] = None) -> str:
    """The page with an engine of its own, and with a script or a snapshot that it opens first."""
    page, worker = _modules("page"), _modules("worker")
    both = [it for it in worker if it in page]  # with all that they import
    data = {"worker": ("text/plain", "".join(text for it, text in worker.items() if it not in page))}
    if contents is not None:
        opened = {"name": name, "contents": base64.b64encode(contents).decode("ascii")}
        data["opened"] = "application/json", json.dumps(opened)
    scripts = {"engine": _STRICT + "".join(worker[it] for it in both),
               "page": _STRICT + "".join(text for it, text in page.items() if it not in both)}
    return _text(data, scripts, "worker-src blob:", "blob: ")


def served_file(address: str) -> str:
    """The page of a server, which may connect to this address alone."""
    return _text({}, {"page": bundle("page")}, f"connect-src {address}")


def _text(own: dict[str, tuple[str, str]], bundles: dict[str, str], more: str, scripts_of: str = "") -> str:
    license_of = read("dygraph-LICENSE.txt").replace("*/", "* /")
    plots = f"/*! dygraphs\n{license_of}*/\n{read('dygraph.min.js')}"
    scripts = {"plotting": plots, **bundles}
    hashes = " ".join(f"'sha256-{_hash(script)}'" for script in scripts.values())
    rules = _RULES.format(scripts=scripts_of + hashes, more=more)
    sheets = read("dygraph.min.css"), _properties(), read("page.css"), read("print.css")
    styles = f'<meta http-equiv="Content-Security-Policy" content="{rules}">\n' + "".join(
        f"<style>\n{bare_style(sheet)}</style>\n" for sheet in sheets)
    parts = [f'<script type="{kind}" id="{key}">{_safe(text, kind)}</script>\n'
             for key, (kind, text) in own.items()]
    parts += [f'<script id="{key}">{_closed(script)}</script>\n' for key, script in scripts.items()]
    return _worded(read("index.html")).replace("<!-- styles -->\n", styles).replace(
        "<!-- scripts -->\n", "".join(parts))


def _worded(markup: str) -> str:
    """Markup with the page's texts in place of their {{names}}."""
    name, = _TEXTS.findall(read("texts.js"))
    texts: dict[str, str] = json.loads(read(name))["index"]
    return re.sub(r"\{\{(\w+)\}\}", lambda it: html.escape(texts[it[1]]), markup)


def bundle(entry: str) -> str:
    """A module and all that it imports as one script: each module is a function that returns its exports."""
    return _STRICT + "".join(_modules(entry).values())


def _modules(entry: str) -> dict[str, str]:
    """A module and all that it imports, by their names: each comes after what it imports."""
    found: dict[str, str] = {}
    _collect(f"{entry}.js", found, ())
    return found


def _collect(name: str, found: dict[str, str], above: tuple[str, ...]) -> None:
    if name in found:
        return
    if name in above:
        raise ValueError(f"modules import each other: {' '.join((*above, name))}")
    if name.endswith(".json"):
        known = _MADE[name]() if name in _MADE else json.loads(read(name))
        packed = json.dumps(known, ensure_ascii=False, separators=(",", ":"))
        found[name] = f"const {_variable(name)} = {packed};\n"
        return
    text = bare_script(read(name))
    for _, other in _IMPORT.findall(text):
        _collect(other, found, (*above, name))
    exports = ", ".join(re.findall(r"(\w+)(?=,| *}|$)", "\n".join(_EXPORT.findall(text)), re.M))
    text = re.sub("^export ", "", _IMPORT.sub(_taken, text), flags=re.M)
    if re.search(r"^(import|export)\b", text, re.M):
        raise ValueError(f"{name} has an import or export of another form")
    found[name] = f"const {_variable(name)} = (() => {{\n{text}return {{ {exports} }};\n}})();\n"


def _variable(name: str) -> str:
    """What a module's exports are in."""
    stem, _, kind = name.partition(".")
    return f"{'data' if kind == 'json' else 'module'}_{stem}"


def _taken(found: "re.Match[str]") -> str:
    """An import as a line of a function, if it takes names."""
    return f"const {found[1].replace(' as ', ': ')} = {_variable(found[2])};\n" if found[1] else ""


def facts() -> dict[str, Any]:
    """What the page knows: its own facts, with the commands and the colours that the client has too.

    A colour of its tools and icons is a name in `palette.COLOURS`, after an @.
    """
    text = re.sub('"@([a-zA-Z]+)"', lambda it: json.dumps(palette.COLOURS[it[1]]), read("facts.json"))
    known: dict[str, Any] = json.loads(text)
    known["commands"] = {word: [f"{word} {it.words}".rstrip(), it.what] for word, it in COMMANDS.items()
                         if word != "quit"}
    return {**known, "colours": palette.COLOURS, "darkMat": palette.DARK["mat"],
            "curves": palette.CURVES, "ramp": palette.SHADES}


def _lessons() -> dict[str, Any]:
    """The lessons and scenes. Rows of one digit are short, as `row 3 c*64`: lessons.js writes them out."""
    known: dict[str, Any] = json.loads(read("lessons.json"))
    for it in (it for kind in known.values() for it in kind):
        it["setup"] = [_SAME.sub(lambda row: f"{row[1]}*{len(row[0])}", line) for line in it["setup"]]
    return known


_MADE = {"facts.json": facts, "lessons.json": _lessons}


def _properties() -> str:
    """The colours as properties of the style, which names them as the page's scripts do.

    What is shown as on paper has those of the light theme in the dark one too.
    """
    def block(colours: dict[str, str]) -> str:
        return "{ " + " ".join(f"--{name}: {colour};" for name, colour in colours.items()) + " }\n"

    light = {**palette.COLOURS, "ramp": ", ".join(palette.SHADES)}
    dark = {name: colour for name, colour in palette.DARK.items() if palette.COLOURS[name] != colour}
    return (f":root, .plot, #tools svg, #key i {block(light)}"
            f"@media screen {{ [data-theme=dark] {block(dark)}}}\n")


def _bare(text: str) -> str:
    """A script or a style without indentation and without comments that fill lines."""
    return re.sub(r"^ *(?://.*|/\*\*[\s\S]*?\*/)\n|^ +", "", text, flags=re.M)


def bare_script(text: str) -> str:
    """A script without the comments behind its lines too. A test compares what is left, sign by sign."""
    return re.sub(r"(?<=[;,{}()\[\]+?]) +// .*$", "", _bare(text), flags=re.M)


def bare_style(text: str) -> str:
    """A style without the spaces behind its punctuation too. A test compares what a browser reads."""
    return re.sub(r"(?<=[;{},])\s+", "", _bare(text))


def _hash(script: str) -> str:
    return base64.b64encode(hashlib.sha256(script.encode()).digest()).decode("ascii")


def _closed(script: str) -> str:
    """A script that can't end its element early."""
    if re.search("</script|<!--", script, re.I):
        raise ValueError("a script has </script or <!-- in it")
    return script


def _safe(text: str, kind: str) -> str:
    return text.replace("<", "\\u003c") if kind == "application/json" else _closed(text)
