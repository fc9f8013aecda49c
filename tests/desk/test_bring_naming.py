"""How a table of liblouis is named: by a file, an installed name, its title, or its language."""

import os
from pathlib import Path

import pytest

from braildesk.tables.convert.naming import named_table, of_language
from braildesk.tables.convert.shipped import shipped_tables
from braildesk.tables.convert.source import NoTable

TABLES = {
    "da-g1.utb": ("da", "Danish, uncontracted", "Danish uncontracted braille"),
    "de-g0.utb": ("de", "German, uncontracted", "German uncontracted braille"),
    "de-g2.ctb": ("de", "German, contracted", "German contracted braille"),
    "Fi-g1.utb": ("fi", "Finnish", "Finnish braille"),
    "sk-g1.ctb": ("sk", "Slovak", "Slovak braille"),
    "sk-sk.utb": ("sk", "", ""),
}


@pytest.fixture
def folder(tmp_path: Path, monkeypatch: pytest.MonkeyPatch) -> Path:
    for name, (language, index, title) in TABLES.items():
        head = (
            f"#-index-name: {index}\n#-display-name: {title}\n#+language: {language}\n"
        )
        (tmp_path / name).write_text(f"{head}\nletter a 1\n")
    (tmp_path / "de-chess.ctb").write_text("letter a 1\n")
    monkeypatch.setattr("braildesk.tables.convert.source.INSTALLED", tmp_path)
    return tmp_path


@pytest.mark.parametrize(
    ("name", "file"),
    [
        ("de-g0.utb", "de-g0.utb"),
        ("de-g0", "de-g0.utb"),
        ("DE-G2", "de-g2.ctb"),
        ("fi-g1.utb", "Fi-g1.utb"),
        ("German contracted braille", "de-g2.ctb"),
        ("german, uncontracted", "de-g0.utb"),
        ("Finnish", "Fi-g1.utb"),
        ("da", "da-g1.utb"),
        ("Slovak braille", "sk-g1.ctb"),
    ],
)
def test_a_table_is_found_by_what_people_call_it(
    folder: Path, name: str, file: str
) -> None:
    assert named_table(name) == folder / file


def test_a_file_is_found_by_its_path(folder: Path) -> None:
    assert named_table(str(folder / "de-g2.ctb")) == folder / "de-g2.ctb"


@pytest.mark.parametrize("name", ["Slovak", "sk"])
def test_no_table_of_several_is_meant_by_their_language(
    folder: Path, name: str
) -> None:
    with pytest.raises(NoTable) as found:
        named_table(name)
    assert str(found.value).splitlines() == [
        f"2 tables are called {name}. Name one of these:",
        "  sk-g1.ctb                Slovak braille",
        "  sk-sk.utb",
    ]


def test_a_language_of_several_tables_names_them(folder: Path) -> None:
    with pytest.raises(NoTable) as found:
        named_table("German")
    assert str(found.value).splitlines() == [
        "3 tables are called German. Name one of these:",
        "  de-chess.ctb",
        "  de-g0.utb                German uncontracted braille",
        "  de-g2.ctb                German contracted braille",
    ]


def test_a_name_that_is_none_shows_those_that_are_like_it(folder: Path) -> None:
    with pytest.raises(NoTable) as found:
        named_table("Finish")
    assert str(found.value).splitlines() == [
        f"There is no table Finish, neither as a file nor in {folder}. Tables with a name"
        " like it:",
        "  Fi-g1.utb                Finnish braille",
        "`scribe bring --list` shows all that are installed.",
    ]


def test_a_name_like_no_other_shows_none(folder: Path) -> None:
    with pytest.raises(NoTable) as found:
        named_table("qqqq")
    assert str(found.value).splitlines() == [
        f"There is no table qqqq, neither as a file nor in {folder}.",
        "`scribe bring --list` shows all that are installed.",
    ]


@pytest.mark.parametrize(
    ("kind", "what"),
    [
        ("a pipe", "it is a pipe and no file"),
        ("a device", "it is a device and no file"),
        ("a folder", "Is a directory"),
        ("a loop", "Too many levels of symbolic links"),
    ],
)
def test_what_is_there_and_no_file_is_not_said_to_be_missing(
    folder: Path, kind: str, what: str
) -> None:
    path = folder / "qqqq"
    match kind:
        case "a pipe":
            os.mkfifo(path)
        case "a device":
            path.symlink_to("/dev/null")
        case "a folder":
            path.mkdir()
        case "a loop":
            path.symlink_to(path)
    with pytest.raises(NoTable) as found:
        named_table(str(path))
    assert str(found.value).splitlines() == [
        f"The table {path} cannot be read: {what}.",
        "`scribe bring --list` shows all that are installed.",
    ]


def test_tables_without_a_head_are_of_the_language_of_their_names(folder: Path) -> None:
    found = of_language("German", shipped_tables(folder))
    assert [table.name for table in found] == ["de-chess.ctb", "de-g0.utb", "de-g2.ctb"]
