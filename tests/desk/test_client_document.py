"""The examples of docs/CLIENT.md, run as they stand there, and the front page of the package."""

import ast
import doctest
import re
from pathlib import Path

import pytest

import braildesk
from braildesk import Code

ROOT = Path(__file__).parents[2]
#: The folders of the client, beside the modules that stand in none.
FOLDERS = ("text", "protocol")
DOCUMENT = ROOT / "docs" / "CLIENT.md"


def test_the_examples_answer_what_is_shown(
    tmp_path: Path, monkeypatch: pytest.MonkeyPatch
) -> None:
    monkeypatch.chdir(tmp_path)
    shown = re.findall(
        r"^```pycon\n(.*?)^```$", DOCUMENT.read_text(), re.DOTALL | re.MULTILINE
    )
    assert len(shown) == 8
    parser = doctest.DocTestParser()
    examples = parser.get_doctest("".join(shown), {}, DOCUMENT.name, str(DOCUMENT), 0)
    written: list[str] = []
    results = doctest.DocTestRunner().run(examples, out=written.append)
    assert results.failed == 0, "".join(written)
    assert results.attempted > 25


def test_each_name_of_the_package_stands_in_it() -> None:
    code = " ".join(
        re.findall(r"```pycon\n.*?```|`[^`]+`", DOCUMENT.read_text(), re.DOTALL)
    )
    words = set(re.findall(r"\w+", code))
    assert [name for name in braildesk.__all__ if name not in words] == []


def test_each_code_stands_in_it() -> None:
    text = DOCUMENT.read_text()
    assert [code for code in Code if f"`{code.name}` ({code})" not in text] == []


def used_by(module: Path) -> set[str]:
    """The modules of the package that one of them imports."""
    names = set()
    for node in ast.walk(ast.parse(module.read_text())):
        if isinstance(node, ast.ImportFrom) and node.module is not None:
            package, *inside = node.module.split(".")
            if package == "braildesk":
                name = [each for each in inside if each not in FOLDERS]
                names |= {*name} or {alias.name for alias in node.names}
    return names


def test_no_module_uses_one_that_is_named_after_it() -> None:
    layout = (braildesk.__doc__ or "").split("\nNo module uses one ", 1)[1]
    named = re.findall(r"`(\w+)`", layout)
    modules = {
        path.stem: path
        for folder in ("", *FOLDERS)
        for path in (ROOT / "src" / "braildesk" / folder).glob("*.py")
        if path.stem != "__init__"
    }
    assert sorted(named) == sorted(modules)
    for number, name in enumerate(named):
        assert used_by(modules[name]) <= set(named[:number]), name
