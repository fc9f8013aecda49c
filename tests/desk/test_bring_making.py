"""What is made of small tables of liblouis: each expected line is written by hand."""

from collections.abc import Sequence
from pathlib import Path
from tempfile import TemporaryDirectory

import pytest

from braildesk.tables.convert.comparison import compare, what_differs
from braildesk.tables.convert.draft import (
    Origin,
    ProgramTrial,
    TableDraft,
    comment_lines,
)
from braildesk.tables.convert.making import Made, make
from braildesk.tables.convert.oracle import Liblouis, NoLiblouis
from braildesk.tables.convert.reduced import needs, text_without
from braildesk.tables.convert.report import losses
from braildesk.tables.convert.shapes import Sample
from braildesk.tables.convert.source import find_table, read_source
from braildesk.tables.convert.subject import read_subject

LETTERS = """\
space \\s 0
lowercase a 1
lowercase x 1346
lowercase q 12345
lowercase z 1356
"""
CAPITALS = """\
base uppercase A a
base uppercase X x
base uppercase Q q
base uppercase Z z
capsletter 6
begcapsword 6-6
"""
DIGITS = """\
digit 1 16
digit 2 126
digit 3 146
litdigit 1 1
litdigit 2 12
litdigit 3 14
numsign 3456
"""


def made(folder: Path, text: str) -> Made:
    """What a table's text is made into."""
    (folder / "table.utb").write_text(text)
    with Liblouis(folder / "table.utb") as liblouis, TemporaryDirectory() as scratch:
        return make(
            read_subject(read_source(folder / "table.utb"), liblouis),
            ProgramTrial(Path(scratch)),
        )


def lines_of(folder: Path, text: str) -> list[str]:
    """The lines of that, comments aside."""
    lines = made(folder, text).draft.text().splitlines()
    return [line for line in lines if not line.startswith("#")]


def test_a_hyphen_that_nothing_else_defines_is_a_mark(tmp_path: Path) -> None:
    assert "punctuation - 36" in lines_of(tmp_path, LETTERS + "hyphen - 36\n")


def test_definitions_that_cannot_be_read_are_named_with_their_lines(
    tmp_path: Path,
) -> None:
    (tmp_path / "sound.utb").write_text(LETTERS)
    broken = tmp_path / "broken.utb"
    broken.write_text(
        "letter a 1\ngrouping row <\nbase uppercase A\nattribute\nmath x\n"
    )
    with Liblouis(tmp_path / "sound.utb") as liblouis:
        subject = read_subject(read_source(broken), liblouis)
        said = losses(Made(TableDraft(), (), (), ()), subject)
    assert said[-4:] == [
        "Not carried over: grouping, 1 line (broken.utb 2).",
        "Not carried over: base, 1 line (broken.utb 3).",
        "Not carried over: attribute, 1 line (broken.utb 4).",
        "Not carried over: math, 1 line (broken.utb 5).",
    ]


def test_capitals_become_pairs_with_their_signs(tmp_path: Path) -> None:
    assert lines_of(tmp_path, LETTERS + CAPITALS) == [
        "capsletter 6",
        "begcapsword 6-6",
        "uplow Aa 1",
        "uplow Xx 1346",
        "uplow Qq 12345",
        "uplow Zz 1356",
        "space \\s 0",
    ]


LONE_CAPITALS = """\
base uppercase A a
base uppercase X x
base uppercase Q q
base uppercase Z z
attribute capital AXQ
noback context _$s[]%capital$s @46
"""


def test_a_sign_that_capitals_have_where_they_stand_alone_is_part_of_them(
    tmp_path: Path,
) -> None:
    lines = lines_of(tmp_path, LETTERS + LONE_CAPITALS + DIGITS)
    assert not any(line.startswith("capsletter") for line in lines)
    assert "uplow Aa 46-1,1" in lines
    for kind in ("begword", "midword", "endword"):
        assert f"{kind} a 1" in lines
    # no kind of rule is for the last letter before a digit
    assert "always xa 1346-1" in lines
    # a capital without that sign stays as it is
    assert "uplow Zz 1356" in lines
    assert "begword z 1356" not in lines


def test_contractions_are_not_in_the_way_of_a_sign_of_lone_capitals(
    tmp_path: Path,
) -> None:
    lines = lines_of(tmp_path, LETTERS + LONE_CAPITALS + "always xa 5\n")
    assert "uplow Aa 46-1,1" in lines
    assert "always xa 5" in lines
    assert "always qa 12345-1" not in lines


def test_a_mark_before_a_sign_of_equality_gets_rules(tmp_path: Path) -> None:
    marks = "punctuation + 235\npunctuation = 2356\npunctuation , 2\n"
    sums = "noback pass2 @235-2356 @236-2356\nnoback pass2 @2356-2 @256-2\n"
    lines = lines_of(tmp_path, LETTERS + marks + sums)
    assert "word += 236-2356" in lines
    assert "endword =, 256-2" in lines


def test_digits_get_their_sign(tmp_path: Path) -> None:
    assert lines_of(tmp_path, LETTERS + DIGITS)[:1] == ["numsign 3456"]
    assert lines_of(tmp_path, LETTERS + DIGITS)[-3:] == [
        "digit 1 1",
        "digit 2 12",
        "digit 3 14",
    ]


def test_a_mark_within_numbers_goes_on_with_them(tmp_path: Path) -> None:
    text = LETTERS + DIGITS + "punctuation , 2\nmidnum , 2\n"
    assert "numericmodechars ," in lines_of(tmp_path, text)


def test_usual_marks_have_their_places_where_there_are_thousands_of_characters(
    tmp_path: Path, monkeypatch: pytest.MonkeyPatch
) -> None:
    monkeypatch.setattr("braildesk.tables.convert.subject.MANY", 1)
    text = LETTERS + DIGITS + "punctuation , 2\nmidnum , 2\npunctuation _ 456\n"
    lines = lines_of(tmp_path, text + 'punctuation " 4\npostpunc " 356\n')
    assert "numericmodechars ," in lines
    assert 'endword " 356' in lines


GREEK = """\
lowercase \u03b1 1
lowercase \u03b5 15
lowercase \u03b9 24
lowercase \u03be 1346
lowercase \u03b6 1356
lowercase \u03c8 12346
"""
LATIN_IN_GREEK = """\
lowercase a 1
lowercase b 12
lowercase c 14
lowercase d 145
lowercase e 15
lowercase t 2345
base uppercase T t
attribute latin abcdetT
attribute capital T
noback context _%latin[]%capital @6
noback context _%capital[]%latin ?
noback context _%latin[]%latin ?
noback context []%capital @56-6
noback context []%latin @56
"""

RUNS_OF_CAPITALS = """\
base uppercase A a
attribute latin A
attribute capital AT
noback context _%capital[]%capital ?
noback context []%capital%capital @456
"""


def made_for_greek(
    folder: Path, monkeypatch: pytest.MonkeyPatch, text: str
) -> list[str]:
    """The lines made of a table whose name says that it is for Greek."""
    monkeypatch.setattr("braildesk.tables.convert.scripts.FEWEST_LETTERS", 6)
    (folder / "el.ctb").write_text("space \\s 0\n" + text, encoding="utf-8")
    with Liblouis(folder / "el.ctb") as liblouis, TemporaryDirectory() as scratch:
        subject = read_subject(read_source(folder / "el.ctb"), liblouis)
        return make(subject, ProgramTrial(Path(scratch))).draft.text().splitlines()


def test_letters_of_another_script_have_their_sign_at_the_beginning_of_a_word(
    tmp_path: Path, monkeypatch: pytest.MonkeyPatch
) -> None:
    lines = made_for_greek(tmp_path, monkeypatch, GREEK + LATIN_IN_GREEK)
    assert "letter t 2345" in lines
    assert "begword t 56-2345" in lines
    assert "word t 56-2345" in lines
    assert "letter T 6-2345" in lines
    assert "begword T 56-6-2345" in lines


def test_capitals_of_another_script_have_the_sign_of_their_run(
    tmp_path: Path, monkeypatch: pytest.MonkeyPatch
) -> None:
    text = LATIN_IN_GREEK.replace("attribute capital T\n", RUNS_OF_CAPITALS)
    lines = made_for_greek(tmp_path, monkeypatch, GREEK + text)
    assert "letter T 2345" in lines
    assert "begword T 56-6-2345" in lines
    assert "word TA 456-2345-1" in lines
    assert "begword TA 456-2345-1" in lines
    assert "midword aT 1-6-2345" in lines
    assert "endword aT 1-6-2345" in lines


def test_pairs_of_letters_of_which_a_later_pass_makes_one_have_their_rule(
    tmp_path: Path, monkeypatch: pytest.MonkeyPatch
) -> None:
    text = GREEK + "lowercase \u03af 5-24\nnoback pass2 @15-5-24 @5-146\n"
    lines = made_for_greek(tmp_path, monkeypatch, text)
    assert "midword \u03b5\u03af 5-146" in lines


def test_the_normal_form_of_a_character_is_defined_like_it(
    tmp_path: Path,
) -> None:
    lines = lines_of(tmp_path, LETTERS + "punctuation \u037e 26\npostpunc \u037e 236\n")
    assert "punctuation ; 26" in lines
    assert "endword ; 236" in lines


def test_a_letter_that_stands_alone_gets_a_rule(tmp_path: Path) -> None:
    text = LETTERS + "word x 56-1346\n"
    assert lines_of(tmp_path, text)[-1:] == ["word x 56-1346"]


def test_a_letter_that_stands_alone_may_be_without_its_sign_before_a_mark(
    tmp_path: Path,
) -> None:
    point = 'punctuation . 256\nnoback correct "x" "x"\nalways x. 1346-256\n'
    lines = lines_of(tmp_path, LETTERS + "word x 56-1346\n" + point)
    assert "word x. 1346-256" in lines or "always x. 1346-256" in lines


def test_a_digit_alone_may_have_a_sign_where_numbers_have_none(tmp_path: Path) -> None:
    digits = "digit 1 2\ndigit 2 23\npunctuation . 256\nword 1 456-2\n"
    lines = lines_of(tmp_path, LETTERS + digits)
    assert "digit 1 2" in lines
    assert "midword \\s1\\s 0-456-2-0" in lines


def test_a_mark_after_some_letters_gets_rules_with_these(tmp_path: Path) -> None:
    text = "attribute joining z\npunctuation ) 356\nafter joining always ) 6-356\n"
    lines = lines_of(tmp_path, LETTERS + text)
    assert [line for line in lines if line.split()[1].endswith(")")] == [
        "punctuation ) 356",
        "word z) 1356-6-356",
        "endword z) 1356-6-356",
    ]


def test_a_letter_before_others_gets_rules_with_these(tmp_path: Path) -> None:
    text = "attribute vowel a\nbefore vowel always z 1356-3\n"
    lines = lines_of(tmp_path, LETTERS + text)
    assert [line for line in lines if " za " in line] == [
        "midword za 1356-3-1",
        "word za 1356-3-1",
        "begword za 1356-3-1",
        "endword za 1356-3-1",
    ]


def test_a_cell_that_is_left_for_a_later_pass_is_none_of_a_page(tmp_path: Path) -> None:
    text = LETTERS + "punctuation ( 23678\nnoback pass2 @0-23678 @0-236\n"
    lines = lines_of(tmp_path, text)
    assert "punctuation ( 236" in lines
    assert not [line for line in lines if "23678" in line]


def test_a_mark_has_eight_dots_where_letters_have_them(tmp_path: Path) -> None:
    text = "space \\s 0\nlowercase x 13467\nlowercase q 12345\npunctuation ( 23678\n"
    assert "punctuation ( 23678" in lines_of(tmp_path, text)


def test_a_mark_after_a_blank_has_its_cells_at_the_end_of_a_line_too(
    tmp_path: Path,
) -> None:
    text = LETTERS + "punctuation ) 356\npunctuation ! 235\n"
    text += "word ! 56-235\npostpunc )! 356-235\n"
    lines = lines_of(tmp_path, text)
    assert "endword \\s! 0-56-235" in lines


def test_a_mark_after_a_blank_may_begin_a_word_with_another_mark(
    tmp_path: Path,
) -> None:
    text = LETTERS + "punctuation ) 356\npunctuation ! 235\npunctuation : 25\n"
    text += "word ! 56-235\npostpunc )! 356-235\nalways !: 235-25\n"
    lines = lines_of(tmp_path, text)
    assert "endword \\s! 0-56-235" in lines
    assert "midword \\s!: 0-235-25" in lines


def test_a_mark_three_times_gets_a_rule(tmp_path: Path) -> None:
    text = "punctuation . 256\nalways ... 3-3-3\n"
    assert "always ... 3-3-3" in lines_of(tmp_path, LETTERS + text)


def test_an_opening_mark_after_a_number_has_its_cells_before_words(
    tmp_path: Path,
) -> None:
    text = "punctuation ( 236\nmatch - ( %_ 56-236\ndecpoint ( 236\n"
    lines = lines_of(tmp_path, LETTERS + DIGITS + text)
    assert "always 1\\s( 1-0-236" in lines
    assert "always 1\\s(\\s 1-0-56-236-0" in lines


def test_a_quotation_mark_gets_a_rule_for_each_place(tmp_path: Path) -> None:
    text = LETTERS + 'punctuation " 4\nprepunc " 236\npostpunc " 356\n'
    lines = lines_of(tmp_path, text)
    assert 'begword " 236' in lines
    assert 'endword " 356' in lines
    assert made(tmp_path, text).uncarried == ()


def test_a_blank_that_goes_after_a_sign_goes_by_a_rule(tmp_path: Path) -> None:
    text = LETTERS + DIGITS + 'sign + 235\nnoback correct "+\\s" "+"\n'
    lines = lines_of(tmp_path, text)
    assert "always +\\s 235" in lines


def test_a_mark_that_goes_between_digits_goes_by_rules(tmp_path: Path) -> None:
    two = "digit 1 16\ndigit 2 126\nlitdigit 1 1\nlitdigit 2 12\nnumsign 3456\n"
    drop = 'sign + 235\nnoback correct $d["+"]$d ?\n'
    lines = lines_of(tmp_path, LETTERS + two + drop)
    assert "numericmodechars +" in lines
    assert [line for line in lines if line.startswith("always")] == [
        "always +1 1",
        "always +2 12",
    ]


def test_a_mark_within_a_number_may_differ_from_that_at_its_end(tmp_path: Path) -> None:
    ends = "punctuation . 256\nmidnum . 46\nendnum . 6-256\n"
    lines = lines_of(tmp_path, LETTERS + DIGITS + ends)
    assert [line for line in lines if line.split()[1] in (".", ".1", ".2", ".3")] == [
        "punctuation . 6-256",
        "numericmodechars .",
        "word . 256",
        "begword . 256",
        "midword . 256",
        "endword . 256",
        "always .1 46-1",
        "always .2 46-12",
        "always .3 46-14",
    ]


def test_a_number_of_a_list_is_not_taken_for_one_in_a_sentence(tmp_path: Path) -> None:
    ends = "punctuation . 256\nendnum . 6-256\n"
    at_front = 'noback correct `$D["."] "\\x2832"\nsign \\x2832 256\n'
    lines = lines_of(tmp_path, LETTERS + DIGITS + ends + at_front)
    assert "always 1. 1-6-256" in lines


def test_rules_of_contractions_are_read(tmp_path: Path) -> None:
    text = LETTERS + "always xq 16\nsufword qz 34\nbegword zz 9-1\n"
    result = made(tmp_path, text)
    lines = result.draft.text().splitlines()
    assert [line for line in lines if line.split()[0].endswith(("word", "always"))] == [
        "word qz 34",
        "begword qz 34",
        "begword zz 0-1",
        "always xq 16",
    ]
    assert result.uncarried == ()


def test_a_rule_with_characters_that_have_no_cells_is_reported(tmp_path: Path) -> None:
    (found,) = made(tmp_path, LETTERS + "always xy 16\n").uncarried
    assert found[0] == "always with characters that have no cells"
    assert found[1].number == 6


def test_rules_bound_to_a_place_stand_before_always() -> None:
    draft = TableDraft()
    for letter, cell in (("a", 1), ("b", 3)):
        draft.define(letter, "letter", (cell,))
    draft.add_rule("always", "ab", (7,), Origin("Read."))
    draft.add_rule("word", "ab", (15,), Origin("Guessed.", mark="guessed"))
    assert draft.text(["# top"]).splitlines() == [
        "# top",
        "letter a 1",
        "letter b 12",
        "# Guessed.",
        "word ab 1234 guessed",
        "# Read.",
        "always ab 123",
    ]


def test_a_draft_refuses_what_the_profile_cannot_have() -> None:
    draft = TableDraft()
    assert not draft.define("a", "letter", ())
    assert not draft.define("a", "letter", (1,) * 21)
    assert draft.define("a", "letter", (1,) * 20)
    assert not draft.add_rule("always", "a" * 61, (1,), Origin("Read."))
    assert draft.add_rule("always", "a" * 60, (1,), Origin("Read."))
    assert not draft.add_rule("always", "ab", (1,), Origin("Read."))
    assert not draft.add_rule("always", "aa", (), Origin("Read."))


def test_a_draft_has_no_more_lines_than_a_table_may_have() -> None:
    draft = TableDraft()
    defined = [draft.define(chr(0x4E00 + n), "letter", (1,)) for n in range(20_000)]
    assert defined == [True] * 19_000 + [False] * 1_000
    assert not draft.add_rule("always", chr(0x4E00), (1,), Origin("Read."))
    assert len(draft.text().splitlines()) == 19_000


def test_comments_are_cut_between_words() -> None:
    assert comment_lines("word " * 25) == [
        "# " + " ".join(["word"] * 19),
        "#   " + " ".join(["word"] * 6),
    ]


def test_liblouis_answers_what_the_manual_says() -> None:
    with Liblouis(find_table("es-g1.ctb")) as liblouis:
        assert liblouis.version
        assert liblouis.cells("") == ()
        assert liblouis.ask(["ab", "a b"]) == [(1, 3), (1, 0, 3)]


def test_a_text_on_which_liblouis_loops_is_lost_and_no_other(tmp_path: Path) -> None:
    loop = LETTERS + 'sign ? 26\nnoback correct "?" "x?"\n'
    (tmp_path / "loop.utb").write_text(loop)
    with Liblouis(find_table("de-g0.utb")) as liblouis:
        assert liblouis.ask(["ab", "xx ?@xx", "ba"]) == [(1, 3), None, (3, 1)]
        assert liblouis.lost == ["xx ?@xx"]


def test_many_texts_are_answered_in_their_order() -> None:
    texts = [f"a{number:04}" for number in range(2_500)]
    with Liblouis(find_table("es-g1.ctb")) as liblouis:
        found = liblouis.ask(texts)
        assert found == [liblouis.cells(text) for text in texts]
        assert found[0] == (1, 60, 26, 26, 26, 26)
        assert found[2_345] == (1, 60, 3, 9, 25, 17)


def test_a_second_table_is_read_beside_the_first(tmp_path: Path) -> None:
    (tmp_path / "second.utb").write_text(LETTERS)
    with Liblouis(find_table("de-g0.utb")) as first:
        second = first.beside(tmp_path / "second.utb")
        assert (first.cells("x"), second.cells("q")) == ((45,), (31,))
        assert first.ask(["xx ?@xx"]) == [None]
        assert (first.cells("q"), second.cells("z")) == ((31,), (53,))


def test_a_table_that_liblouis_refuses_is_refused(tmp_path: Path) -> None:
    (tmp_path / "bad.utb").write_text("no such opcode\n")
    with pytest.raises(NoLiblouis, match="refuses the table"):
        Liblouis(tmp_path / "bad.utb")


PASSAGES = """\
begcapsphrase 6-6-6
endcapsphrase after 6-3
lencapsphrase 3
"""


def test_lines_of_passages_of_capitals_need_what_the_profile_leaves_out(
    tmp_path: Path,
) -> None:
    table = tmp_path / "table.utb"
    table.write_text(LETTERS + CAPITALS + PASSAGES)
    lines = ["AX QZ", "AX QZ ZZ AA", "ax qz zz aa"]
    with Liblouis(table) as liblouis:
        found = needs(read_source(table), lines, liblouis, tmp_path)
    assert found == {"AX QZ ZZ AA": "passages of capitals"}


def test_a_reduced_table_lacks_the_lines_of_the_opcodes(tmp_path: Path) -> None:
    (tmp_path / "a.utb").write_text("letter a 1\nendcapsword 6-3\ncapsletter 6\n")
    text = text_without(read_source(tmp_path / "a.utb"), ("endcapsword",))
    assert text == "letter a 1\ncapsletter 6\n"


def compared(
    folder: Path, draft: TableDraft, lines: Sequence[str]
) -> tuple[float, str]:
    with Liblouis(folder / "table.utb") as liblouis:
        subject = read_subject(read_source(folder / "table.utb"), liblouis)
        samples = [Sample(line, "words") for line in lines]
        result = compare(subject, draft, ProgramTrial(folder), samples, folder)
    return result.share, what_differs(result)


def test_a_line_with_other_cells_is_a_difference(tmp_path: Path) -> None:
    draft = made(tmp_path, LETTERS).draft
    assert compared(tmp_path, draft, ["ax", "qz", "xq", "zz"]) == (1.0, "")
    draft.cells["z"] = (1,)
    assert compared(tmp_path, draft, ["ax", "qz", "xq", "zz"]) == (0.5, "words 2 of 4")
