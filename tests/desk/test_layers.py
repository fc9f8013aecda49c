"""The folders of src/: each is one layer, whose modules import from those below it alone."""

import ast
import builtins
from collections.abc import Iterable, Iterator
from pathlib import Path

import pytest

from tool import ROOT

SRC = ROOT / "src"
#: What is looked at of a module.
Statement = ast.Import | ast.ImportFrom | ast.ClassDef
#: The folders of the package braildesk, the lowest one first: each may import from those before it.
BRAILDESK = (
    "braildesk.text",
    "braildesk.protocol",
    "braildesk",
    "braildesk.tables",
    "braildesk.tables.convert",
    "braildesk.desk",
)
#: The folders from which each folder imports, beside itself.
BELOW = {
    **{layer: BRAILDESK[:place] for place, layer in enumerate(BRAILDESK)},
    "scribe.words": BRAILDESK,
    "scribe.screen": (*BRAILDESK, "scribe.words"),
    "scribe.prompt": (*BRAILDESK, "scribe.words"),
    "scribe.window": (*BRAILDESK, "scribe.words"),
    "scribe.cli": (
        *BRAILDESK,
        "scribe.words",
        "scribe.screen",
        "scribe.prompt",
        "scribe.window",
    ),
    "scribe": ("scribe.cli",),
}
#: Modules of the command line and of terminals, and the one folder that may import each.
OF_ONE_FOLDER = {
    "argparse": "scribe.cli",
    "PyQt6": "scribe.window",
    "prompt_toolkit": "scribe.screen",
    "readline": "scribe.prompt",
}


def layer_of(module: str) -> str:
    """The folder in which a module stands, or which it is, as a package."""
    return max(
        (layer for layer in BELOW if f"{module}.".startswith(f"{layer}.")), key=len
    )


def statements(source: str) -> Iterator[Statement]:
    """The imports and the classes of a module, anywhere in it."""
    for node in ast.walk(ast.parse(source)):
        if isinstance(node, ast.Import | ast.ImportFrom | ast.ClassDef):
            yield node


def imported(its: Iterable[Statement]) -> Iterator[str]:
    """The modules that a module imports, and names that may be modules."""
    for node in its:
        if isinstance(node, ast.Import):
            yield from (alias.name for alias in node.names)
        elif isinstance(node, ast.ImportFrom):
            assert node.module is not None and not node.level, "imports are absolute"
            names = [f"{node.module}.{alias.name}" for alias in node.names]
            modules = [name for name in names if is_module(name)]
            yield from modules
            if len(modules) < len(names):
                yield node.module


def is_module(name: str) -> bool:
    """Whether a name of the packages is a module, and not one of the names in it."""
    path = SRC / name.replace(".", "/")
    return path.is_dir() or path.with_suffix(".py").is_file()


def reaching(module: str, its: Iterable[Statement]) -> set[str]:
    """What a module imports that its folder may not import."""
    layer = layer_of(module)
    found = set()
    for name in imported(its):
        top = name.split(".")[0]
        if top in ("braildesk", "scribe"):
            if layer_of(name) not in (layer, *BELOW[layer]):
                found.add(name)
        elif OF_ONE_FOLDER.get(top, layer) != layer:
            found.add(top)
    return found


def modules() -> dict[str, Path]:
    """The modules of both packages by their names."""
    found = {}
    for path in SRC.rglob("*.py"):
        parts = path.relative_to(SRC).with_suffix("").parts
        found[".".join(parts).removesuffix(".__init__")] = path
    return found


@pytest.fixture(scope="module")
def all_statements() -> dict[str, list[Statement]]:
    """The imports and the classes of each module, by its name."""
    return {
        module: list(statements(path.read_text(encoding="utf-8")))
        for module, path in sorted(modules().items())
    }


def test_no_module_imports_from_a_folder_that_is_not_below_its_own(
    all_statements: dict[str, list[Statement]],
) -> None:
    found = {
        module: reach
        for module, its in all_statements.items()
        if (reach := reaching(module, its))
    }
    assert found == {}


@pytest.mark.parametrize(
    "module, source, found",
    [
        ("braildesk.text.cells", "from braildesk import Session", {"braildesk"}),
        (
            "braildesk.text.cells",
            "def f():\n    import braildesk.session as s",
            {"braildesk.session"},
        ),
        (
            "braildesk.protocol.values",
            "from braildesk.program import find",
            {"braildesk.program"},
        ),
        ("braildesk.protocol.values", "from braildesk.text import limits", set()),
        (
            "braildesk.session",
            "from braildesk.tables import read",
            {"braildesk.tables"},
        ),
        (
            "braildesk.desk.drafts",
            "from scribe.words import status",
            {"scribe.words.status"},
        ),
        ("braildesk.desk.drafts", "import argparse", {"argparse"}),
        (
            "scribe.screen.keys",
            "from scribe.prompt.help import x",
            {"scribe.prompt.help"},
        ),
        ("scribe.screen.terminal", "import prompt_toolkit.output", set()),
        ("scribe.words.view", "import prompt_toolkit.output", {"prompt_toolkit"}),
        ("scribe.window.fields", "from PyQt6.QtGui import QFont", set()),
        ("scribe.words.view", "from PyQt6.QtGui import QFont", {"PyQt6"}),
        ("scribe.cli.commands.edit", "from scribe.screen.desk import Desk", set()),
    ],
)
def test_an_import_of_what_is_not_below_is_found(
    module: str, source: str, found: set[str]
) -> None:
    assert reaching(module, statements(source)) == found


def test_no_method_has_the_name_of_a_function_that_python_has(
    all_statements: dict[str, list[Statement]],
) -> None:
    found = [
        f"{module}.{each.name}.{method.name}"
        for module, its in all_statements.items()
        for each in its
        if isinstance(each, ast.ClassDef)
        for method in each.body
        if isinstance(method, ast.FunctionDef) and method.name in vars(builtins)
    ]
    assert found == []


#: The named tuples, which are rows of books and texts: many thousands of each are made at once.
ROWS = {"MarkOfBook", "Position", "Reply", "Span", "TextLine"}


def test_only_rows_of_which_many_are_made_are_named_tuples(
    all_statements: dict[str, list[Statement]],
) -> None:
    found = {
        node.name
        for its in all_statements.values()
        for node in its
        if isinstance(node, ast.ClassDef)
        and any(isinstance(b, ast.Name) and b.id == "NamedTuple" for b in node.bases)
    }
    assert found == ROWS


def test_each_module_is_named_on_the_front_page_of_its_package() -> None:
    fronts = {
        package: (SRC / package.replace(".", "/") / "__init__.py").read_text("utf-8")
        for package in (
            "braildesk",
            "braildesk.tables",
            "braildesk.tables.convert",
            "braildesk.desk",
        )
    }
    missing = {
        module
        for module, path in modules().items()
        if module.startswith("braildesk.") and path.name != "__init__.py"
        if f"`{path.stem}`" not in front_of(module, fronts)
    }
    assert missing == set()


def front_of(module: str, fronts: dict[str, str]) -> str:
    """The page on which a module is named: that of the lowest package that has one."""
    return fronts[
        max((name for name in fronts if f"{module}.".startswith(f"{name}.")), key=len)
    ]
