"""Joins modules of JavaScript into one script, which a page may have inside it: pages from `file://` can't import modules.

Each module is a function that returns what it exports. Imports and exports have the forms of this repository's modules, each in a line.
"""
import re
from collections.abc import Mapping

from ..cli import ToolError

IMPORT = re.compile(r'^import \{ ([\w, ]+) \} from "\./([\w.]+)";$', re.MULTILINE)
EXPORT = re.compile(r"^export (?=(?:async )?(?:function|class|const) (\w+))", re.MULTILINE)
EXPORT_LIST = re.compile(r"^export \{ ([\w, ]+) \};$", re.MULTILINE)
LEFT = re.compile(r"^(?:import|export)\b.*|import\.meta|\bimport\(", re.MULTILINE)


def bundled(modules: Mapping[str, str], main: str) -> str:
    """The script of a module and all that it imports, by their names. The main one may wait at its top level."""
    order: list[str] = []

    def visit(name: str) -> None:
        for names, other in IMPORT.findall(modules[name]):
            if missing := set(names.split(", ")) - set(exports(modules[other])):
                raise ToolError(f"exports no {min(missing)}, which {name} imports", other)
            if other not in order:
                visit(other)
        order.append(name)

    visit(main)
    return '"use strict";\n' + "\n".join(function_of(name, modules[name], name == main) for name in order)


def exports(text: str) -> list[str]:
    """The names that a module exports."""
    return EXPORT.findall(text) + [each for found in EXPORT_LIST.findall(text) for each in found.split(", ")]


def function_of(name: str, text: str, is_main: bool) -> str:
    """A module as a function that is called at once. Raises ToolError for one of another form."""
    exported = exports(text)
    text = IMPORT.sub(lambda found: f"const {{ {found[1]} }} = {variable(found[2])};", text)
    # (a page has no address of its own beside which a module might lie)
    text = EXPORT_LIST.sub("", EXPORT.sub("", text)).replace("import.meta.url", "location.href")
    if found := LEFT.search(text):
        raise ToolError(f"has a form that can't be joined: {found[0]}", name)
    return f"const {variable(name)} = ({'async ' if is_main else ''}() => {{\n{text.strip()}\nreturn {{ {', '.join(exported)} }};\n}})();"


def variable(name: str) -> str:
    return name.replace(".", "_")
