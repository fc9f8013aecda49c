"""scribe bring: tables of the installed liblouis, and small ones, brought over by the real program."""

import os
import re
import resource
import signal
import tempfile
from collections.abc import Mapping
from concurrent.futures import ThreadPoolExecutor
from pathlib import Path

import pytest

import braildesk
from braildesk.tables.convert import report
from braildesk.tables.convert.conversion import Converted, Options, convert
from braildesk.tables.convert.draft import comment_lines
from braildesk.tables.convert.oracle import Liblouis
from braildesk.tables.convert.source import find_table, read_source
from braildesk.tables.convert.subject import read_subject
from scribe.words.status import of_system
from tool import scribe

EACH = 4
NAMES = (
    "Es-Es-G0.utb",
    "Pl-Pl-g1.utb",
    "bg.ctb",
    "ca-g1.ctb",
    "cs-g1.ctb",
    "es-g1.ctb",
    "fi.utb",
    "is.ctb",
    "nl-NL-g0.utb",
    "pt-pt-g1.utb",
    "ro.ctb",
    "sv-g0.utb",
)
BY_HAND = {
    "es-g1.ctb": {
        "El niño bebe 25 vasos.": "⠨⠑⠇⠀⠝⠊⠻⠕⠀⠃⠑⠃⠑⠀⠼⠃⠑⠀⠧⠁⠎⠕⠎⠄",
        "¿Qué?": "⠢⠨⠟⠥⠮⠢",
    },
    "sv-g0.utb": {
        "Åsa är 7 år.": "⠠⠡⠎⠁⠀⠜⠗⠀⠼⠛⠀⠡⠗⠄",
        "NATO": "⠠⠠⠝⠁⠞⠕",
        "e-post": "⠑⠤⠏⠕⠎⠞",
    },
    "Pl-Pl-g1.utb": {
        "Żółw ma 3 lata.": "⠨⠯⠬⠣⠺⠀⠍⠁⠀⠼⠉⠀⠇⠁⠞⠁⠄",
    },
}
"""Lines with the cells that the braille codes of the languages give them."""


@pytest.fixture(scope="session")
def brought(program: str) -> Mapping[str, Converted]:
    """The twelve tables, two at a time."""

    def one(name: str) -> Converted:
        return convert(find_table(name), Options(each=EACH))

    with ThreadPoolExecutor(2) as pool:
        return dict(zip(NAMES, pool.map(one, NAMES), strict=True))


@pytest.mark.parametrize("name", NAMES)
def test_a_table_agrees_with_liblouis_on_lines_that_it_was_not_made_from(
    name: str, brought: Mapping[str, Converted]
) -> None:
    found = brought[name]
    assert found.unseen.lines >= 60
    assert found.asked.share >= 0.999
    assert found.unseen.share >= 0.995
    assert found.unseen.share_of_all >= 0.9
    assert found.is_good


@pytest.mark.parametrize("name", NAMES)
def test_a_text_says_where_it_is_from(
    name: str, brought: Mapping[str, Converted]
) -> None:
    comments = [line for line in brought[name].text.splitlines() if line[:1] == "#"]
    top = " ".join(line.lstrip("# ") for line in comments[:12])
    assert f"{name} of liblouis" in top
    assert "is under the licence that they state" in top


@pytest.mark.parametrize("name", BY_HAND)
def test_the_cells_are_those_of_the_braille_code(
    name: str, brought: Mapping[str, Converted], tmp_path: Path
) -> None:
    (tmp_path / "table.utb").write_text(brought[name].text, encoding="utf-8")
    lines = list(BY_HAND[name])
    found = braildesk.translate(tmp_path / "table.utb", lines)
    assert dict(zip(lines, found, strict=True)) == BY_HAND[name]


SMALL = """\
space \\s 0
lowercase a 1
lowercase x 1346
lowercase q 12345
lowercase z 1356
base uppercase A a
base uppercase X x
base uppercase Q q
base uppercase Z z
capsletter 6
punctuation . 256
punctuation , 2
punctuation - 36
"""


def small(folder: Path, more: str = "") -> Path:
    path = folder / "small.utb"
    path.write_text(SMALL + more)
    return path


def test_a_table_is_written_to_a_file(tmp_path: Path) -> None:
    ran = scribe("bring", small(tmp_path), "out.utb", folder=tmp_path)
    assert (ran.status, ran.shown) == (0, "")
    assert "the cells are those of liblouis on 100%." in ran.said
    assert ran.said.splitlines()[-1].startswith("out.utb was written, ")
    lines = (tmp_path / "out.utb").read_text().splitlines()
    assert [line for line in lines if not line.startswith("#")] == [
        "capsletter 6",
        "uplow Aa 1",
        "uplow Xx 1346",
        "uplow Qq 12345",
        "uplow Zz 1356",
        "space \\s 0",
        "punctuation . 256",
        "punctuation , 2",
        "punctuation - 36",
    ]


def test_a_table_is_shown_without_a_file(tmp_path: Path) -> None:
    ran = scribe("bring", small(tmp_path), folder=tmp_path)
    assert ran.status == 0
    assert "punctuation - 36\n# The sum of these lines" in ran.shown


def test_a_table_on_which_too_few_lines_agree_is_not_written(tmp_path: Path) -> None:
    table = small(tmp_path, "match - x %a 16\n")
    ran = scribe("bring", table, "out.utb", folder=tmp_path)
    assert (ran.status, ran.shown) == (2, "")
    assert "Not carried over: match, 1 line (small.utb 14)." in ran.said
    assert "Lines that differ:\n  print     " in ran.said
    assert ran.said.splitlines()[-1] == (
        "Nothing was written, since fewer than 99 of 100 lines agree. With --anyway the"
        " text is written as it is."
    )
    assert not (tmp_path / "out.utb").exists()


def test_such_a_table_is_written_where_that_is_asked_for(tmp_path: Path) -> None:
    table = small(tmp_path, "match - x %a 16\n")
    ran = scribe("bring", table, "out.utb", "--anyway", folder=tmp_path)
    assert ran.status == 0
    assert "always" not in (tmp_path / "out.utb").read_text()


def test_a_file_that_cannot_be_written_is_said(tmp_path: Path) -> None:
    ran = scribe("bring", small(tmp_path), "none/out.utb", folder=tmp_path)
    assert ran.status == 3
    assert ran.said.splitlines()[-1] == (
        "none/out.utb could not be written: No such file or directory."
    )


@pytest.mark.parametrize(
    ("name", "said"),
    [
        ("Small braille", ["Small braille is the table small.utb."]),
        ("Smallish", ["Smallish is the table small.utb."]),
        ("small.utb", []),
        ("SMALL", []),
    ],
)
def test_which_table_was_meant_is_said_if_it_was_not_named_by_its_file(
    tmp_path: Path, name: str, said: list[str]
) -> None:
    (tmp_path / "tables").mkdir()
    path = small(tmp_path / "tables")
    head = "#-index-name: Smallish\n#-display-name: Small braille\n#+language: qaa\n\n"
    path.write_text(head + path.read_text())
    tables = str(tmp_path / "tables")
    ran = scribe("bring", name, "out.utb", folder=tmp_path, LOUIS_TABLEPATH=tables)
    assert ran.status == 0
    assert ran.said.splitlines()[: len(said)] == said
    assert ran.said.count("is the table") == len(said)


def test_what_is_not_replaced_is_said_and_refused(tmp_path: Path) -> None:
    (tmp_path / "out.utb").symlink_to("/dev/null")
    words = ("bring", small(tmp_path), "out.utb", "--overwrite")
    ran = scribe(*words, folder=tmp_path)
    assert ran.status == 2
    assert ran.said.splitlines()[-1] == (
        "out.utb could not be written: a device, a terminal or a pipe is there."
    )


@pytest.mark.parametrize(
    "words",
    [
        ("small.utb", "small.utb"),
        ("small.utb", "text", "--for", "text"),
        ("small.utb", "text", "--words", "./text"),
        ("small.utb", "link", "--add", "text"),
    ],
)
def test_a_table_takes_the_place_of_no_file_that_it_is_made_from(
    tmp_path: Path, words: tuple[str, ...]
) -> None:
    small(tmp_path)
    (tmp_path / "text").write_text("Ax.\n")
    (tmp_path / "link").symlink_to("text")
    assert refused(tmp_path, *words) == (
        f"The table would take the place of {words[1]}, from which it is made. Nothing was written."
    )
    assert (tmp_path / "small.utb").read_text() == SMALL
    assert (tmp_path / "text").read_text() == "Ax.\n"


def test_a_table_replaces_one_that_was_brought_and_no_other_file_unless_that_is_asked(
    tmp_path: Path,
) -> None:
    small(tmp_path)
    (tmp_path / "out.utb").write_text("# My own table.\nletter a 1\n")
    assert refused(tmp_path, "small.utb", "out.utb") == (
        "out.utb is there already and is no table as scribe bring wrote it, so it was left as it is;"
        " --overwrite replaces it."
    )
    assert (tmp_path / "out.utb").read_text() == "# My own table.\nletter a 1\n"
    os.mkfifo(tmp_path / "pipe.utb")
    assert refused(tmp_path, "small.utb", "pipe.utb") == (
        "pipe.utb is a pipe, so it was left as it is; --overwrite replaces it."
    )
    (tmp_path / "empty.utb").touch()
    assert scribe("bring", "small.utb", "empty.utb", folder=tmp_path).status == 0
    for words in ("small.utb out.utb --overwrite", "small.utb out.utb"):
        ran = scribe("bring", *words.split(), folder=tmp_path)
        assert (ran.status, ran.shown) == (0, "")
        assert "out.utb was written, " in ran.said
    # a line that somebody added by hand is in no other file
    its = (tmp_path / "out.utb").read_text() + "always moon 134\n"
    (tmp_path / "out.utb").write_text(its)
    assert "no table as scribe bring wrote it" in refused(
        tmp_path, "small.utb", "out.utb"
    )
    assert (tmp_path / "out.utb").read_text() == its


def test_a_temporary_folder_that_takes_no_table_is_named(tmp_path: Path) -> None:
    def limit() -> None:
        # as a disk that is nearly full
        resource.setrlimit(resource.RLIMIT_FSIZE, (100, 100))

    words = ("bring", small(tmp_path), "out.utb")
    ran = scribe(*words, folder=tmp_path, before=limit, TMPDIR=str(tmp_path))
    assert (ran.status, ran.shown) == (3, "")
    said = "“{}/.braildesk-[^/]*/draft.tried” could not be read or written: File too large.\n"
    assert re.fullmatch(said.format(tmp_path), ran.said)
    assert {each.name for each in tmp_path.iterdir()} == {"small.utb"}


def test_what_a_killed_bring_left_is_cleared_away_by_the_next_one(
    tmp_path: Path,
) -> None:
    temporary = tmp_path / "temporary"
    temporary.mkdir()
    killer = tmp_path / "killer"
    killer.write_text("#!/bin/sh\nkill -9 $PPID\n")
    killer.chmod(0o755)
    words, where = ("bring", small(tmp_path), "out.utb"), str(temporary)
    ran = scribe(*words, folder=tmp_path, TMPDIR=where, BRAILDESK=str(killer))
    assert ran.status == -signal.SIGKILL
    # of one's own, and not made by a program
    mine = temporary / ".braildesk-mine"
    mine.mkdir()
    (mine / "german.utb").write_text(SMALL)
    assert len(list(temporary.iterdir())) == 2
    assert scribe(*words, folder=tmp_path, TMPDIR=where).status == 0
    assert list(temporary.iterdir()) == [mine]
    assert (mine / "german.utb").read_text() == SMALL


@pytest.mark.parametrize("name", ["a.utb", "a-table-with-a-long-name.utb"])
@pytest.mark.parametrize("title", ["", "Title of a table"])
def test_a_table_that_was_brought_is_known_by_its_first_comment(
    tmp_path: Path, name: str, title: str
) -> None:
    path = tmp_path / name
    path.write_text(f"#-display-name: {title}\n{SMALL}" if title else SMALL)
    with Liblouis(path) as liblouis:
        said = report.origin(read_subject(read_source(path), liblouis))
    lines = [line for one in said for line in comment_lines(one)]
    text = report.with_sum("\n".join([*lines, "letter a 1\n"])).encode()
    assert report.is_brought(text)
    assert not report.is_brought(text.replace(b"brought", b"taken"))
    assert not report.is_brought(text.replace(b"a 1", b"a 2"))
    assert not report.is_brought(b"# Mine.\n" + text)


def refused(folder: Path, *words: str | Path) -> str:
    ran = scribe("bring", *words, folder=folder)
    assert (ran.status, ran.shown) == (2, "")
    return ran.said.removesuffix("\n")


def test_a_table_that_is_not_there_is_refused(tmp_path: Path) -> None:
    assert refused(tmp_path, "none.utb").startswith("There is no table none.utb, ")


def test_a_table_that_liblouis_refuses_is_refused(tmp_path: Path) -> None:
    (tmp_path / "bad.utb").write_text("no such opcode\n")
    assert refused(tmp_path, "bad.utb") == "liblouis refuses the table bad.utb."


@pytest.mark.parametrize("name", ["a,b.utb", "de,fr/small.utb"])
def test_a_table_whose_path_liblouis_takes_for_two_is_not_said_to_be_refused(
    tmp_path: Path, name: str
) -> None:
    (tmp_path / name).parent.mkdir(exist_ok=True)
    (tmp_path / name).write_text(SMALL)
    assert refused(tmp_path, name) == (
        f"liblouis can't be asked about {name}: it takes a comma for the end of a name. Give the file,"
        " or its folder, a name without a comma."
    )


def test_too_few_words_are_refused(tmp_path: Path) -> None:
    (tmp_path / "words").write_text("ax\nqz\nbook\n")
    said = refused(tmp_path, small(tmp_path), "--words", "words")
    assert said.startswith("Of the words in words the table can write 2, and 200 are")


def test_without_a_table_the_list_is_named(tmp_path: Path) -> None:
    ran = scribe("bring", folder=tmp_path)
    assert (ran.status, ran.shown) == (1, "")
    assert ran.said.startswith("Which table is to be brought over?")


def test_a_list_is_written_to_no_file(tmp_path: Path) -> None:
    ran = scribe("bring", "--list", "Finnish", "finnish.utb", folder=tmp_path)
    assert (ran.status, ran.shown) == (1, "")
    assert ran.said.startswith("Argument FILE: --list shows tables, and writes none.\n")


def test_characters_that_texts_often_have_and_a_table_lacks_are_named(
    brought: Mapping[str, Converted]
) -> None:
    found = brought["sv-g0.utb"]
    (said,) = [one for one in found.losses if one.startswith("A text can't have")]
    assert said == (
        "A text can't have these characters by this table, though texts often do:"
        " “‚” (U+201A SINGLE LOW-9 QUOTATION MARK),"
        " “‹” (U+2039 SINGLE LEFT-POINTING ANGLE QUOTATION MARK),"
        " “›” (U+203A SINGLE RIGHT-POINTING ANGLE QUOTATION MARK)."
    )
    assert "A text can't have these characters by this table" in found.text


def test_the_list_shows_the_share_of_real_lines_first(tmp_path: Path) -> None:
    ran = scribe("bring", "--list", "Swedish", folder=tmp_path)
    (line,) = [one for one in ran.shown.splitlines() if " sv-g0.utb " in one]
    assert re.search(r" sv-g0\.utb +9[5-9](\.\d+)?% +9\d(\.\d+)?% +100%  Swedish", line)
    ran = scribe("bring", "--list", "Bulgarian", folder=tmp_path)
    (line,) = [one for one in ran.shown.splitlines() if " bg.utb " in one]
    assert re.search(r" bg\.utb {20,}- +9\d(\.\d+)?% +\d", line)


def test_a_share_that_was_not_measured_has_its_place_in_a_narrow_row_too(
    tmp_path: Path,
) -> None:
    ran = scribe("bring", "--list", "Bulgarian", folder=tmp_path, COLUMNS="40")
    words = ran.shown.split()
    place = words.index("bg.utb")
    assert words[place + 1] == "-" and words[place + 2].endswith("%")


def test_the_installed_tables_are_listed_by_language(tmp_path: Path) -> None:
    ran = scribe("bring", "--list", folder=tmp_path)
    assert ran.status == 0
    head, *lines = ran.shown.splitlines()
    words = [
        "language",
        "table",
        "real",
        "lines",
        "made-up",
        "lines",
        "others",
        "title",
    ]
    assert head.split() == words
    (spanish,) = [line for line in lines if " es-g1.ctb " in line]
    assert spanish.startswith("es ")
    assert ran.said.startswith("real lines: of lines of running text that nobody made")
    assert [line[:8] for line in lines] == sorted(line[:8] for line in lines)


def test_that_no_folder_takes_files_for_a_while_is_said_in_words_for_people(
    tmp_path: Path, monkeypatch: pytest.MonkeyPatch
) -> None:
    monkeypatch.setattr(tempfile, "tempdir", None)
    nowhere = [str(tmp_path / "nowhere")]
    monkeypatch.setattr(tempfile, "_candidate_tempdir_list", lambda: nowhere)
    with pytest.raises(FileNotFoundError) as failed:
        convert(find_table("es-g1.ctb"), Options())
    assert of_system(failed.value, "") == (
        "The system failed: no folder for temporary files can be written to, such as /tmp. Set TMPDIR"
        " to one that can be."
    )
