"""The lines on which a table is compared, and what is said of it."""

from pathlib import Path

from braildesk.tables.convert.comparison import Comparison, Difference
from braildesk.tables.convert.draft import TableDraft
from braildesk.tables.convert.report import agreement, examples, percent
from braildesk.tables.convert.shapes import ASKED, Material, Shape, UNSEEN, lines_of
from braildesk.tables.convert.shipped import (
    measured_tables,
    shipped_table,
    shipped_tables,
)
from braildesk.tables.convert.words import usable, words_in

MATERIAL = Material(["ab"], ["c"], {"a": "A", "b": "B", "c": "C"})
LETTERS = "abcABC0123456789 "


def test_a_shape_is_filled_with_words_in_their_case() -> None:
    shape = Shape("all", "{w} {W} {A} {l} {L}")
    (sample,) = lines_of([shape], MATERIAL, LETTERS, each=3, seed=1)
    assert (sample.line, sample.shape) == ("ab Ab AB c C", "all")


def test_a_shape_with_characters_that_are_not_defined_gives_no_line() -> None:
    shapes = [Shape("words", "{w}"), Shape("marks", "{w}!")]
    assert [one.line for one in lines_of(shapes, MATERIAL, LETTERS, 2, 1)] == ["ab"]


def test_numbers_have_the_digits_that_are_asked_for() -> None:
    for pattern, longest in (("{n}", 4), ("{d}", 2), ("{t}", 3)):
        for one in lines_of([Shape("", pattern)], MATERIAL, LETTERS, 50, 1):
            assert one.line.isdigit() and len(one.line) <= longest
            assert pattern != "{t}" or len(one.line) == 3


def test_the_shapes_that_were_not_used_are_others_than_those_that_were() -> None:
    assert not {one.pattern for one in ASKED} & {one.pattern for one in UNSEEN}


def test_the_words_of_a_spelling_list_are_its_words_alone(tmp_path: Path) -> None:
    path = tmp_path / "words.dic"
    path.write_bytes("3\nhaus/S\nÄrger\nx-y\nhaus\n".encode("latin-1"))
    assert words_in(path) == ["haus", "Ärger"]


def test_words_with_other_letters_are_left_out() -> None:
    draft = TableDraft()
    for one in "abA":
        draft.define(one, "letter", (1,))
    draft.pair("A", "a")
    assert usable(["ab", "Ab", "abc", "b" * 25], draft) == ["ab"]


def difference(line: str, need: str | None = None) -> Difference:
    return Difference(line, "words", (1,), (3,), need)


COMPARED = Comparison(
    1000,
    (
        difference("a"),
        difference("b", "several passes"),
        difference("c", "several passes"),
    ),
    {"words": 1000},
)


def test_lines_that_need_what_is_left_out_are_counted_apart() -> None:
    assert COMPARED.share_of_all == 0.997
    assert COMPARED.share == 997 / 998
    assert agreement(COMPARED) == [
        "On 1,000 lines of shapes that were not used for the making, the cells are those of"
        " liblouis on 99.7%.",
        "2 lines that differ need what a table of braildesk can't have (several passes 2)."
        " Of the others 99.89% agree.",
    ]


def test_one_line_is_said_to_be_one() -> None:
    assert agreement(Comparison(1, (difference("a", "several passes"),), {})) == [
        "On 1 line of shapes that were not used for the making, the cells are those of liblouis on"
        " 0%.",
        "1 line that differs needs what a table of braildesk can't have (several passes 1). Of the"
        " others 0% agree.",
    ]


def test_a_share_is_rounded_down() -> None:
    assert [percent(share) for share in (1.0, 0.99999, 0.5)] == [
        "100%",
        "99.99%",
        "50%",
    ]


def test_a_line_that_differs_is_shown_with_both_answers() -> None:
    assert examples(COMPARED.differences[:1]) == [
        "  print     a",
        "  liblouis  ⠁",
        "  braildesk ⠃",
    ]


def test_the_head_of_a_table_says_its_language_and_title(tmp_path: Path) -> None:
    path = tmp_path / "xx-g1.ctb"
    path.write_text(
        "# Words\n#-display-name: Great Braille\n#+language: de\n\nletter a 1\n#+grade:2\n"
    )
    found = shipped_table(path)
    assert (found.language, found.title, found.contraction) == (
        "de",
        "Great Braille",
        "",
    )


def test_a_table_without_a_head_has_that_of_the_table_that_includes_it(
    tmp_path: Path,
) -> None:
    (tmp_path / "ka-in-g1.utb").write_text("# Kannada\nletter a 1\n")
    head = "#-display-name: Kannada braille\n#+language: kn\n\n"
    (tmp_path / "kn.tbl").write_text(f"{head}include ka-in-g1.utb\n")
    (tmp_path / "en-g1.ctb").write_text("include ka-in-g1.utb\n")
    found = {table.name: table for table in shipped_tables(tmp_path)}
    assert found["ka-in-g1.utb"].language == found["kn.tbl"].language == "kn"
    assert found["ka-in-g1.utb"].title == "Kannada braille"
    assert found["en-g1.ctb"].language == "en"
    assert shipped_table(tmp_path / "ka-in-g1.utb") == found["ka-in-g1.utb"]


def test_what_was_measured_is_read_by_the_names_of_tables(tmp_path: Path) -> None:
    path = tmp_path / "measured.tsv"
    path.write_text(
        "table\tasked\tunseen\tothers\tdiffers\treal\n"
        "es-g1.ctb\t1.0\t0.5\t0.75\tsums 1 of 4\t0.25\nka.utb\t1.0\t1.0\t1.0\t\t\n"
    )
    found = measured_tables(path)["es-g1.ctb"]
    assert (found.asked, found.unseen, found.others) == (1.0, 0.5, 0.75)
    assert found.differs == "sums 1 of 4"
    assert found.real == 0.25
    assert measured_tables(path)["ka.utb"].real is None
