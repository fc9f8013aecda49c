"""A table made for a manuscript, by words and by its own text, and a book's table that is tuned."""

import re
import shutil
import signal
import stat
import subprocess
import sys
from argparse import Namespace
from collections import Counter
from collections.abc import Iterable, Mapping, Sequence
from contextlib import ExitStack
from io import BytesIO, StringIO
from itertools import product
from pathlib import Path
from typing import Any, cast

import pytest

from braildesk import Session
import braildesk
from braildesk.desk import manuscripts
from braildesk.desk.documents.kinds import ManuscriptKind, kind_of
from braildesk.desk.own_folder import OwnFolder
from braildesk.tables import Table, read
from braildesk.tables.convert import making, tailoring
from braildesk.tables.convert.causes import Difference, Judge
from braildesk.tables.convert.chooser import Choice, Chooser, Print
from braildesk.tables.convert.draft import Origin, TableDraft
from braildesk.tables.convert.examples import Example, examples
from braildesk.tables.convert.learning import Learned, Learner
from braildesk.tables.convert.manuscript_report import share_line
from braildesk.tables.convert.oracle import Liblouis
from braildesk.tables.convert.proposals import chains
from braildesk.tables.convert.running_text import (
    Agreement,
    Word,
    agreement,
    spoilers,
)
from braildesk.tables.convert.tailoring import (
    APOSTROPHES,
    Manuscript,
    Means,
    Tailored,
    tailor,
    weights_of,
)
from braildesk.tables.convert.word_list import (
    BESIDE,
    LONE,
    WordList,
    keep,
    kept,
    learned_from_list,
    list_examples,
    name_of,
)
from braildesk.tables.tiling import braille, pieces

from scribe.cli.commands import bring as bring_command
from scribe.cli.commands import tune as tune_command
from scribe.words.console import Console
from scribe.words.status import Status
from strangers import NEEDS_ROOT, as_stranger, lead_to
from tool import environment, scribe

SMALL = """\
space \\s 0
lowercase a 1
lowercase b 12
lowercase e 15
lowercase h 125
lowercase t 2345
lowercase x 1346
lowercase q 12345
base uppercase A a
base uppercase B b
base uppercase E e
base uppercase H h
base uppercase T t
base uppercase X x
base uppercase Q q
capsletter 6
begcapsword 6-6
endcapsword 6-3
punctuation . 256
"""
LEARNED = SMALL + "match - th %a 1456\nword be 23\n"
"""A table with a contraction that no rule of it says plainly: th is one cell before a letter."""

STANDING = (
    SMALL
    + """\
punctuation - 36
punctuation % 46-356
punctuation + 346
punctuation / 456-34
nocontractsign 56
seqdelimiter -
seqafterchars .
contraction b
contraction q
contraction x
match %[^_~]%<* hab %>*%[^_~] 125-1
"""
)
"""A table with letters that have a sign where they stand alone, and a word that has a contraction there."""

SMALL_LETTERS = b"space \\s 0\nletter a 1\nletter b 12\n"

TEXT = "That bat hath bathe the hat.\n\nBath the eth. The tab be that.\n"
WORDS = "that\nthe\nbath\nbathe\neth\nhath\nbe\nhat\ntab\n"


def small(folder: Path, text: str = LEARNED) -> Path:
    path = folder / "small.utb"
    path.write_text(text)
    return path


def inputs(folder: Path, text: str = TEXT, words: str = WORDS) -> Path:
    """The table, a manuscript and a list of words, in a folder."""
    (folder / "text.txt").write_text(text)
    (folder / "words").write_text(words)
    return small(folder)


def made(folder: Path, paragraphs: Sequence[str], words: str | None = None) -> Tailored:
    """A table made for some paragraphs."""
    found = None
    if words is not None:
        (folder / "words").write_text(words)
        found = WordList.of(folder / "words")
    means = Means(found, None, lambda what: lambda done, total: None)
    return tailor(small(folder), Manuscript("text.txt", paragraphs), means)


def rules(tailored: Tailored) -> list[str]:
    """The lines of learned rules."""
    lines = tailored.made.draft.text().splitlines()
    return [line for line in lines if "of the manuscript" in line and line[0] != "#"]


def test_rules_for_syllables_leave_their_room_to_those_that_are_learned(
    tmp_path: Path, monkeypatch: pytest.MonkeyPatch
) -> None:
    # those of German would be 18,000 of the 20,000 lines that a table has
    def fails(*_: object) -> None:
        raise AssertionError("syllables are asked for")

    monkeypatch.setattr(making, "settle_syllables", fails)
    assert made(tmp_path, TEXT.split("\n\n")).made.draft.cells


def test_rules_are_learned_from_a_manuscript_and_marked_with_its_words(
    tmp_path: Path,
) -> None:
    found = made(tmp_path, ["that bath bathe", "the hath that."])
    assert rules(found) == [
        "begword th 1456 for 3 words of the manuscript",
        "midword th 1456 for 1 word of the manuscript",
    ]
    assert (found.from_list, found.from_manuscript) == (0, 2)
    assert found.own.agreement.share_of_words == 1
    assert found.held_back is None


def spelt(chooser: Chooser, word: str, weight: float, *, doubled: bool) -> Example:
    """A word as an example, of which each letter has its cell, or has it twice."""
    cells = [cell for one in word for cell in chooser.cells(chooser.printed(one))]
    wanted = tuple(cell for cell in cells for _ in range(1 + doubled))
    starts = range(0, len(wanted) + 1, 1 + doubled)
    seen = chooser.printed(word)
    example = Example(seen, wanted, starts, 0, len(word), weight)
    example.choose(chooser)
    return example


def test_a_token_with_more_cells_than_a_rule_gets_several_that_are_tried_together() -> (
    None
):
    chooser = Chooser(read(SMALL_LETTERS).table)
    long = spelt(chooser, "abababababab", 1, doubled=True)
    learned = Learner(chooser, [long], 100).learn_chains([long])
    assert [*learned] == [("begword", "ababababab"), ("endword", "ab")]
    assert long.is_right
    assert not Learner(chooser, [long], len(chooser)).learn_chains([long])


def test_several_rules_for_a_token_are_of_one_length_where_a_short_one_spoils_more() -> (
    None
):
    chooser = Chooser(read(SMALL_LETTERS).table)
    long = spelt(chooser, "abababababab", 1, doubled=True)
    short = spelt(chooser, "bab", 2, doubled=False)
    learned = Learner(chooser, [long, short], 100).learn_chains([long])
    assert [*learned] == [("begword", "ababab"), ("endword", "ababab")]
    assert long.is_right and short.is_right


def test_several_rules_begin_with_the_blank_where_one_goes_on_from_it() -> None:
    text = SMALL_LETTERS + b"punctuation . 256\nmidword \\s. 0-256\n"
    chooser = Chooser(read(text).table)
    seen = chooser.printed("b .ababababab b")
    plain = chooser.cells(seen)
    wanted = *plain[:3], *(one for one in plain[3:-2] for _ in "12"), *plain[-2:]
    starts = [0, 1, 2, *range(3, 25, 2), 24, 25]
    long = Example(seen, wanted, starts, 1, len(seen.text) - 1, 1)
    long.choose(chooser)
    learned = Learner(chooser, [long], 100).learn_chains([long])
    assert [*learned] == [("midword", " .abababab"), ("endword", "ab")]
    assert long.is_right


def test_no_rule_of_several_covers_a_blank_beside_a_word() -> None:
    text = SMALL_LETTERS + b"punctuation . 256\n"
    chooser = Chooser(read(text).table)
    seen = chooser.printed("b ababababab ababababab. b")
    plain = chooser.cells(seen)
    wanted = *plain[:2], *(one for one in plain[2:-2] for _ in "12"), *plain[-2:]
    starts = [0, 1, *range(2, len(wanted) - 1, 2), len(wanted) - 1, len(wanted)]
    example = Example(seen, wanted, starts, 1, len(seen.text) - 1, 1)
    example.choose(chooser)
    assert not [*chains(example)]


NUMBERS = SMALL_LETTERS + b"digit 1 1\nnumsign 3456\n"


class Answers:
    """Stands in for liblouis, with the pieces of a few texts."""

    def __init__(self, its: Mapping[str, Sequence[tuple[str, str]]]) -> None:
        self._pieces = {
            text: [(piece, cells_of(braille)) for piece, braille in pieces]
            for text, pieces in its.items()
        }

    def pieces(self, texts: Sequence[str]) -> list[list[tuple[str, tuple[int, ...]]]]:
        return [self._pieces[text] for text in texts]

    def ask(self, texts: Iterable[str]) -> list[tuple[int, ...]]:
        return [
            tuple(cell for _, cells in self._pieces[text] for cell in cells)
            for text in texts
        ]

    def cells(self, text: str) -> tuple[int, ...] | None:
        return self.ask([text])[0] if text in self._pieces else None


def cells_of(braille: str) -> tuple[int, ...]:
    return tuple(ord(cell) - 0x2800 for cell in braille)


def test_cells_before_the_sign_of_a_number_are_those_of_what_stands_before() -> None:
    chooser = Chooser(read(NUMBERS).table)
    pieces = [("b", "⠃"), ("a", "⠁"), ("b", "⠃"), ("1", "⠠⠼⠁")]
    text = "b bab1 b"
    around = [("b", "⠃"), (" ", "⠀")], [(" ", "⠀"), ("b", "⠃")]
    liblouis = Answers({text: [*around[0], *pieces, *around[1]]})
    found = examples(cast(Liblouis, liblouis), chooser, {"bab1": 1}, "b", nothing)
    found[0].choose(chooser)
    learned = Learner(chooser, found, 100).learn([1, 1], nothing)
    assert learned == {("always", "ab"): cells_of("⠁⠃⠠")}
    assert found[0].is_right


def nothing(done: int, of: int) -> None:
    """Takes how many are done."""


def test_a_word_that_comes_often_counts_as_often() -> None:
    assert weights_of({"a": 24, "b-a": 1}) == {"a": 25, "b-a": 2}


def test_tokens_with_marks_within_are_made_of_a_list_of_many_words(
    tmp_path: Path,
) -> None:
    words = ["".join(part) for part in product("abcdefg", repeat=3)]
    (tmp_path / "words").write_text("\n".join(words))
    found = WordList.of(tmp_path / "words")
    assert [*found.weights] == words
    lone = {token for token, weight in found.joined.items() if weight == LONE}
    assert lone == {*"abcdefg"}
    joined = found.joined.keys() - lone
    parts = {part for token in joined for part in re.findall("[a-z]+", token.lower())}
    others = {"st", "nd", "rd", "th", "s", "er", "http", "https", "www"}
    assert {one for one in parts if len(one) == 3} <= {*words, *others}
    for form in (
        "[a-z]+[.][a-z]+",
        "/[a-z]+",
        "[A-Z][.][0-9]+",
        "[a-z]{3}[0-9]+",
        "[a-z]\u2019[a-z]+",
        '"[^"]?[a-z]{3}[^"]*"',
        '"[^ a-z0-9]"',
    ):
        assert any(re.fullmatch(form, token) for token in joined), form
    assert WordList.of(tmp_path / "words") == found


def test_letters_alone_beside_marks_count_as_much_as_the_many_words_of_other_tokens(
    tmp_path: Path,
) -> None:
    words = ["".join(part) for part in product("abc", repeat=6)]
    (tmp_path / "words").write_text("\n".join(words))
    found = WordList.of(tmp_path / "words").joined
    of_letters = sum(found[f"({one})"] for one in "abc")
    of_words = sum(its for one, its in found.items() if re.fullmatch("~[a-c]{6}", one))
    assert of_letters == pytest.approx(of_words)


def test_a_list_binds_rules_with_a_mark_to_their_places_and_a_book_does_not() -> None:
    chooser = Chooser(read(SMALL_LETTERS + b"punctuation . 256\n").table)
    answers = {"a.b": [("a", "⠁"), (".", "⠒"), ("b", "⠃")]}
    answers["b b. b"] = [*map(spelled, "b b"), (".", "⠒"), *map(spelled, " b")]
    words = WordList(Path("words"), {}, {"a.b": 1, "b.": 1})
    found = list_examples(
        words, cast(Liblouis, Answers(answers)), chooser, "b", nothing
    )
    own = {("midword", "."): cells_of("⠒"), ("endword", "."): cells_of("⠒")}
    assert learned_from_list(words, chooser, found, 100, nothing) == own
    for kind, characters in own:
        chooser.remove(kind, characters)
    for example in found:
        example.choose(chooser)
    assert Learner(chooser, found, 100).learn([1], nothing) == {
        ("always", "."): cells_of("⠒")
    }


def test_rules_of_a_list_cover_no_blank_since_its_tokens_stand_in_no_text() -> None:
    chooser = Chooser(read(SMALL_LETTERS + b"punctuation . 256\n").table)
    pieces = [spelled("b"), (" .", "⠀⠒"), *map(spelled, "a b")]
    words = WordList(Path("words"), {}, {".a": 1})
    answers = cast(Liblouis, Answers({"b .a b": pieces}))
    found = list_examples(words, answers, chooser, "b", nothing)
    assert not learned_from_list(words, chooser, found, 100, nothing)
    assert Learner(chooser, found, 100).learn([1], nothing) == {
        ("midword", " ."): cells_of("⠀⠒")
    }


def spelled(character: str) -> tuple[str, str]:
    return character, {"a": "⠁", "b": "⠃", " ": "⠀"}[character]


def test_a_mark_beside_which_no_letter_stands_alone_is_a_letter_to_its_neighbours(
    tmp_path: Path,
) -> None:
    means = Means(None, None, lambda what: lambda done, total: None)
    text = Manuscript("text", ["b"])
    draft = tailor(small(tmp_path, STANDING), text, means).made.draft
    assert [draft.classes[one] for one in "%+/"] == ["letter"] * 2 + ["punctuation"]
    chooser = Chooser(read(draft.text().encode()).table)
    for line, wanted in (
        ("b", "⠰⠃"),
        ("%b", "⠨⠴⠃"),
        ("%B", "⠨⠴⠠⠃"),
        ("%b.", "⠨⠴⠃⠲"),
        ("B+", "⠠⠃⠬"),
        ("BB/a", "⠠⠠⠃⠃⠸⠌⠁"),
    ):
        assert chooser.cells(chooser.printed(line)) == cells_of(wanted), line


def test_a_word_that_a_table_names_is_learned_with_those_of_a_list(
    tmp_path: Path,
) -> None:
    (tmp_path / "words").write_text("abb\nbaa\n")
    words = WordList.of(tmp_path / "words")
    means = Means(words, None, lambda what: lambda done, total: None)
    text = Manuscript("text", ["abb"])
    draft = tailor(small(tmp_path, STANDING), text, means).made.draft
    assert draft.rules["word", "hab"][0] == cells_of("⠓⠁")


def test_letters_that_have_a_sign_alone_are_learned_with_longer_ones_that_have_none(
    tmp_path: Path,
) -> None:
    words = "\n".join("".join(part) for part in product("abet", repeat=4))
    (tmp_path / "words").write_text(words)
    table = small(tmp_path, STANDING + "contraction ta\ncontraction tax\n")
    means = Means(
        WordList.of(tmp_path / "words"), None, lambda what: lambda done, total: None
    )
    draft = tailor(table, Manuscript("text", ["abba"]), means).made.draft
    chooser = Chooser(read(draft.text().encode()).table)
    for line, wanted in (
        ("ta", "⠰⠞⠁"),
        ("ta.", "⠰⠞⠁⠲"),
        ("tax", "⠰⠞⠁⠭"),
        ("tat", "⠞⠁⠞"),
        ("taxa", "⠞⠁⠭⠁"),
        ("ta/be", "⠞⠁⠸⠌⠃⠑"),
    ):
        assert chooser.cells(chooser.printed(line)) == cells_of(wanted), line


def test_letters_and_contracted_words_are_learned_beside_the_marks_of_names() -> None:
    marks = "".join(f"punctuation {one} 256\n" for one in "_/.=")
    table = read(SMALL_LETTERS + f"{marks}letter B 12\n".encode()).table
    chooser = Chooser(table)
    words = WordList(Path("words"), {"ab": 1, "abb": 1, "abba": 1}, {"b": LONE})
    contracted = {"ab": "⠆", "abba": "⠆⠂", "abbaabba": "⠆⠂⠆⠂"}
    pieces = {word: cells_of(its) for word, its in contracted.items()}
    liblouis = cast(Liblouis, Spelling(table, pieces))
    found = list_examples(words, liblouis, chooser, "b", nothing)
    tokens = "".join(f" {one.token.strip(' ')} " for one in found)
    for one, mark in product(("ab", "abba", "b", "B"), "_/."):
        for form in (f"{one}[{mark}]abb?a?", f"abb?a?[{mark}]{one}", f"[{mark}]{one}"):
            assert re.search(f" {form} ", tokens), form
    learned_from_list(words, chooser, found, 100, nothing)
    for token, wanted in (
        ("ab", "⠆"),
        ("ab_abb", "⠁⠃⠲⠁⠃⠃"),
        ("abb/ab", "⠁⠃⠃⠲⠁⠃"),
    ):
        assert chooser.cells(chooser.printed(token)) == cells_of(wanted), token


def test_a_letter_with_a_mark_is_learned_but_before_a_full_stop_as_initials_are() -> (
    None
):
    table = read(SMALL_LETTERS + b"punctuation . 256\npunctuation , 2\n").table
    words = WordList(Path("words"), {"ab": 1}, {"b": LONE})
    liblouis = cast(Liblouis, Spelling(table, {}))
    found = list_examples(words, liblouis, Chooser(table), "b", nothing)
    tokens = {one.token.strip(" ") for one in found}
    assert tokens >= {"b,", "b.b."} and "b." not in tokens


def test_a_word_with_a_mark_within_is_learned_where_no_other_needs_its_rule() -> None:
    table = read(SMALL_LETTERS + b"punctuation ' 3\n").table
    chooser = Chooser(table)
    words = WordList(Path("words"), {"ab": 1, "a'b": 0.3}, {})
    liblouis = cast(Liblouis, Spelling(table, {"a'b": cells_of("⠆")}))
    found = list_examples(words, liblouis, chooser, "b", nothing)
    assert learned_from_list(words, chooser, found, 100, nothing) == {
        ("word", "a'b"): cells_of("⠆")
    }


def test_words_of_one_cell_are_learned_from_with_marks_and_keep_it_alone() -> None:
    marks = ".,;:!?"
    defined = "".join(f"punctuation {one} 256\n" for one in marks)
    table = read(SMALL_LETTERS + defined.encode() + b"word ab 23\n").table
    chooser = Chooser(table)
    words = WordList(Path("words"), {"ab": 1}, {"b": LONE})
    liblouis = cast(Liblouis, Spelling(table, {"ab": cells_of("⠆")}))
    found = list_examples(words, liblouis, chooser, "b", nothing)
    tokens = {one.token.strip(" ") for one in found}
    beside_one = {"ab", *(f"ab{one}" for one in marks)}
    assert tokens >= {*beside_one, "ab.ab"}
    learned_from_list(words, chooser, found, 100, nothing)
    wrong = {one.token.strip(" ") for one in found if not one.is_right}
    assert wrong.isdisjoint(beside_one)


def test_words_that_have_one_cell_without_a_rule_are_learned_from_with_marks_too() -> (
    None
):
    table = read(SMALL_LETTERS + b"punctuation . 256\npunctuation , 2\n").table
    chooser = Chooser(table)
    words = WordList(Path("words"), {"ab": 1}, {"b": LONE})
    liblouis = cast(Liblouis, Spelling(table, {"ab": cells_of("⠆")}))
    found = list_examples(words, liblouis, chooser, "b", nothing)
    learned_from_list(words, chooser, found, 100, nothing)
    for token, wanted in (("ab", "⠆"), ("ab.", "⠁⠃⠲"), ("ab,", "⠁⠃⠂")):
        assert chooser.cells(chooser.printed(token)) == cells_of(wanted), token


def test_tokens_are_learned_from_by_what_the_words_of_the_list_taught() -> None:
    table = read(SMALL_LETTERS + b"punctuation . 256\n").table
    chooser = Chooser(table)
    words = WordList(Path("words"), {"ab": 1}, {"ab.": 1})
    liblouis = cast(Liblouis, Spelling(table, {"ab": cells_of("⠆⠆")}))
    found = list_examples(words, liblouis, chooser, "b", nothing)
    assert learned_from_list(words, chooser, found, 100, nothing) == {
        ("word", "ab"): cells_of("⠆⠆"),
        ("word", "ab."): cells_of("⠁⠃⠲"),
    }


def test_tokens_that_are_made_of_a_list_count_less_beside_a_manuscript(
    tmp_path: Path, monkeypatch: pytest.MonkeyPatch
) -> None:
    weights: dict[str, float] = {}

    class Weighing(Learner):
        def __init__(
            self, chooser: Chooser, found: Sequence[Example], most: int
        ) -> None:
            weights.update({one.token.strip(" "): one.weight for one in found})
            super().__init__(chooser, found, most)

    monkeypatch.setattr(tailoring, "Learner", Weighing)
    words = "\n".join("".join(part) for part in product("abet", repeat=4))
    made(tmp_path, ["hat b.a"], words)
    assert (weights["aabb"], weights["hat"], weights["b.a"]) == (1, 2, 2)
    assert weights["a"] == LONE
    joined = [one for one in weights if "." in one and one != "b.a"]
    assert joined and {weights[one] for one in joined} == {BESIDE}


class Spelling:
    """Stands in for a liblouis that takes each character alone, but for a few words."""

    def __init__(self, table: Table, words: Mapping[str, tuple[int, ...]]) -> None:
        self._table = table
        self._words = words

    def ask(self, texts: Sequence[str]) -> list[tuple[int, ...]]:
        return [
            tuple(cell for _, cells in self._pieces(text) for cell in cells)
            for text in texts
        ]

    def pieces(self, texts: Sequence[str]) -> list[list[tuple[str, tuple[int, ...]]]]:
        return [[*self._pieces(text)] for text in texts]

    def _pieces(self, text: str) -> Iterable[tuple[str, tuple[int, ...]]]:
        if text in self._words:
            return [(text, self._words[text])]
        return [(one, tuple(self._table.definitions[one].cells)) for one in text]


def test_tokens_of_a_list_leave_no_word_of_it_wrong() -> None:
    text = SMALL_LETTERS + b"punctuation . 256\n"
    chooser = Chooser(read(text).table)
    words = WordList(Path("words"), {"ab": 1}, {"b.ab": 1, "a.ab": 1, "ab.b": 1})
    pieces = {
        "ab": [("ab", "⠆⠆")],
        **{
            token: [(one, {"a": "⠁", "b": "⠃", ".": "⠲"}[one]) for one in token]
            for token in words.joined
        },
    }
    answers = cast(Liblouis, Answers(pieces))
    found = list_examples(words, answers, chooser, "b", nothing)
    learned = learned_from_list(words, chooser, found, 100, nothing)
    assert learned["word", "ab"] == cells_of("⠆⠆")
    assert all(example.is_right for example in found)


def test_a_word_after_a_rule_that_begins_at_the_blank_has_its_cells() -> None:
    line = "b .a a"
    chooser = Chooser(
        read(SMALL_LETTERS + b"punctuation . 256\nalways \\s. 0-256\n").table
    )
    single = [("b", "⠃"), (" ", "⠀"), (".", "⠲"), ("a", "⠁")]
    liblouis = Answers({line: [*single, (" ", "⠐"), ("a", "⠁")]})
    ours = [chooser.cells(chooser.printed(line))]
    found = agreement(cast(Liblouis, liblouis), chooser, [line], ours).differences
    assert found == (Word(0, 5, "a", cells_of("⠁"), cells_of("⠐⠁")),)


def test_rules_over_blanks_are_taken_back_where_whole_lines_show_that_they_spoil() -> (
    None
):
    text = SMALL_LETTERS + b"punctuation . 256\nendword \\s. 0-56-256\n"
    chooser = Chooser(read(text).table)
    blank = (" ", "⠀")
    at_end = [("a", "⠁"), blank, (".", "⠰⠲")]
    within = [("b", "⠃"), (" .", "⠀⠢"), blank, ("a", "⠁")]
    liblouis = Answers({"a .": at_end, "b . a": within})
    rules = {("endword", " ."): (0, 50), ("midword", " . "): (0, 34, 0)}
    older = {key: chooser.cells_of(*key) for key in rules}
    for (kind, characters), cells in rules.items():
        chooser.add((kind, characters, cells))
    found = spoilers(cast(Liblouis, liblouis), chooser, older, ["a .", "b . a", "a c"])
    assert found == {("endword", " .")}
    assert chooser.cells_of("endword", " .") == older["endword", " ."]
    assert chooser.cells_of("midword", " . ") == (0, 34, 0)


def test_several_rules_for_a_token_are_taken_back_where_they_spoil_more() -> None:
    chooser = Chooser(read(SMALL_LETTERS).table)
    long = spelt(chooser, "abababababab", 1, doubled=True)
    others = [spelt(chooser, "ababababababa", 1, doubled=False)]
    learner = Learner(chooser, [long, *others], 100)
    assert not learner.learn_chains([long])
    assert len(chooser) == 0
    assert others[0].is_right


class Counting(Chooser):
    """A chooser that counts the prints it chooses for."""

    prints = 0

    def choices(self, seen: Print, start: int = 0) -> list[Choice]:
        self.prints += 1
        return super().choices(seen, start)


def test_several_rules_are_tried_no_further_than_the_words_that_show_they_spoil() -> (
    None
):
    chooser = Counting(read(SMALL_LETTERS).table)
    long = spelt(chooser, "abababababab", 1, doubled=True)
    others = [
        spelt(chooser, "ababababab" + "a" * n, 1, doubled=False) for n in range(9)
    ]
    learner = Learner(chooser, [*others, long], 100)
    chooser.prints = 0
    assert not learner.learn_chains([long])
    # of each of two trials the token and one word, by the rules and then without them
    assert chooser.prints == 8


def test_rules_of_a_word_list_are_for_as_many_words_as_the_manuscript_has(
    tmp_path: Path,
) -> None:
    found = made(tmp_path, ["that bath"], words=WORDS)
    assert rules(found) == [
        "begword th 1456 for 1 word of the manuscript",
        "midword th 1456 for 0 words of the manuscript",
    ]
    assert (found.from_list, found.from_manuscript) == (2, 0)


def test_an_elided_word_is_learned_with_both_forms_of_the_apostrophe(
    tmp_path: Path,
) -> None:
    lines = "".join(
        f"punctuation {one} 3\nmatch - ht{one} %a 6-3\n" for one in APOSTROPHES
    )
    (tmp_path / "apostrophes.utb").write_text(SMALL + lines)
    paragraphs = ["ht\u2019hab ht\u2019eth"]
    means = Means(None, None, lambda what: lambda done, total: None)
    found = tailor(
        tmp_path / "apostrophes.utb", Manuscript("text.txt", paragraphs), means
    )
    assert [line.split(" for ")[0] for line in rules(found)] == [
        "begword ht\u2019 6-3",
        "begword ht' 6-3",
    ]


def test_a_tenth_of_many_paragraphs_shows_what_the_table_is_worth(
    tmp_path: Path,
) -> None:
    paragraphs = ["that bath"] * 9 + ["bathe bat"] + ["hath the"] * 9 + ["hat tab"]
    found = made(tmp_path, paragraphs)
    assert found.held_back is not None
    assert found.held_back.agreement.words == 4
    assert found.held_back.agreement.share_of_words == 0.75
    assert found.own.agreement.words == 40
    assert found.own.agreement.share_of_words == 1


def test_one_word_and_one_paragraph_are_said_to_be_one() -> None:
    found = Agreement(1, 1, 1, (), Counter(), 0)
    assert share_line(found, " of it") == (
        "Of 1 word of it 100% has the cells of liblouis, and of 1 paragraph 100%."
    )
    assert share_line(Agreement(2, 2, 1, (), Counter(), 0)) == (
        "Of 2 words 100% have the cells of liblouis, and of 2 paragraphs 50%."
    )


def test_a_table_is_made_for_a_text_by_the_command(tmp_path: Path) -> None:
    inputs(tmp_path)
    ran = scribe(
        *("bring", "small.utb", "out.utb", "--for", "text.txt", "--words", "words"),
        folder=tmp_path,
        XDG_CACHE_HOME=str(tmp_path / "cache"),
    )
    assert (ran.status, ran.shown) == (0, "")
    assert ran.said.splitlines() == [
        "This is the table of liblouis taken over by rules, of which many were learned by asking"
        " liblouis. It is to be proofread, and it is not certified contracted braille.",
        "2 rules were learned from words and the table's own words, and 0 rules were learned from the"
        " manuscript.",
        "Of 13 words of the manuscript text.txt 100% have the cells of liblouis, and of 2"
        " paragraphs 100%.",
        f"out.utb was written, {len((tmp_path / 'out.utb').read_text().splitlines())} lines.",
    ]
    top = (tmp_path / "out.utb").read_text().splitlines()[:12]
    said = " ".join(line.lstrip("# ") for line in top)
    assert "is under the licence that they state" in said
    assert "it is not certified contracted braille" in said


def test_a_table_for_a_text_is_replaced_as_it_was_written_and_not_once_it_was_changed(
    tmp_path: Path,
) -> None:
    inputs(tmp_path)
    words = ("bring", "small.utb", "out.utb", "--for", "text.txt", "--words", "words")
    cache = str(tmp_path / "cache")
    assert scribe(*words, folder=tmp_path, XDG_CACHE_HOME=cache).status == 0
    table = tmp_path / "out.utb"
    first = table.read_text()
    assert scribe(*words, folder=tmp_path, XDG_CACHE_HOME=cache).status == 0
    assert table.read_text() == first
    changed = first.replace("\nword be 23\n", "\nword be 12\n")
    assert changed != first
    table.write_text(changed)
    ran = scribe(*words, folder=tmp_path, XDG_CACHE_HOME=cache)
    said = "out.utb is there already and is no table as scribe bring wrote it, so it was left"
    assert ran.status == 2 and said in " ".join(ran.said.split())
    assert table.read_text() == changed


@pytest.mark.parametrize("mode", [0o600, 0o640, 0o644])
def test_a_table_for_a_text_is_for_those_who_may_read_the_text(
    tmp_path: Path, mode: int
) -> None:
    inputs(tmp_path)
    (tmp_path / "text.txt").chmod(mode)
    words = ("bring", "small.utb", "out.utb", "--for", "text.txt", "--words", "words")
    cache = str(tmp_path / "cache")
    assert scribe(*words, folder=tmp_path, XDG_CACHE_HOME=cache).status == 0
    assert stat.S_IMODE((tmp_path / "out.utb").stat().st_mode) == mode


def test_a_table_for_a_text_that_is_gone_by_then_is_written_for_those_who_might_read_it(
    tmp_path: Path, monkeypatch: pytest.MonkeyPatch
) -> None:
    made = inputs(tmp_path)
    text, table = tmp_path / "text.txt", tmp_path / "out.utb"
    text.chmod(0o600)

    def tailored(*words: Any) -> Tailored:
        # a disk that is carried about was taken away, or the text was put elsewhere
        text.unlink()
        return tailor(*words)

    monkeypatch.setattr(bring_command, "tailor", tailored)
    monkeypatch.setenv("XDG_CACHE_HOME", str(tmp_path / "cache"))
    its = Namespace(
        file=table,
        manuscript=text,
        words=tmp_path / "words",
        add=None,
        anyway=False,
        overwrite=False,
    )
    console = Console(BytesIO(), StringIO(), errors := StringIO())
    assert bring_command._for_manuscript(made, its, console) is Status.DONE
    assert errors.getvalue().splitlines()[-1].startswith(f"{table} was written, ")
    assert stat.S_IMODE(table.stat().st_mode) == 0o600


@NEEDS_ROOT
def test_a_table_for_a_text_is_for_those_of_the_text_that_was_read_where_a_stranger_swaps_it(
    tmp_path: Path, monkeypatch: pytest.MonkeyPatch
) -> None:
    shared = tmp_path / "shared"
    shared.mkdir()
    shared.chmod(0o777)
    lead_to(shared)
    text, public = shared / "text.txt", shared / "public.txt"
    for file, words, mode in ((text, "that bath", 0o600), (public, "the", 0o644)):
        file.write_text(words)
        file.chmod(mode)

    def swap() -> None:
        text.rename(shared / "kept.txt")
        public.rename(text)

    def swapped(*words: Any) -> ManuscriptKind:
        assert as_stranger(swap) == ""
        return kind_of(*words)

    monkeypatch.setattr(manuscripts, "kind_of", swapped)
    console = Console(BytesIO(), StringIO(), StringIO())
    found, access = bring_command._manuscript(text, console)
    assert (list(found.paragraphs), access.mode) == (["that bath"], 0o600)


@pytest.mark.parametrize("is_open", [False, True])
@pytest.mark.parametrize("mode", [0o600, 0o640, 0o644])
def test_a_table_for_a_book_is_for_those_who_may_read_the_book(
    book: Path, mode: int, is_open: bool
) -> None:
    with Session(book) as session:
        session.add_paragraph("end", "en", "that bath")
    book.chmod(mode)
    console = Console(BytesIO(), StringIO(), StringIO())
    with ExitStack() as stack:
        if is_open:
            stack.enter_context(Session(book))
        found, access = bring_command._manuscript(book, console)
    assert (list(found.paragraphs), access.mode) == (["that bath"], mode)


def test_a_table_is_made_for_the_paragraphs_of_a_book_that_stand(
    book: Path, tmp_path: Path
) -> None:
    inputs(tmp_path)
    with Session(book) as session:
        session.add_paragraph("end", "en", "that bath")
        session.add_paragraph("end", "en", "the")
        session.strike(2)
    ran = scribe(
        *("bring", "small.utb", "out.utb", "--for", book, "--words", "words"),
        folder=tmp_path,
        XDG_CACHE_HOME=str(tmp_path / "cache"),
    )
    assert "Of 2 words of the manuscript book.braildesk 100% have" in ran.said


def test_paragraphs_without_braille_are_named_with_what_they_lack(
    tmp_path: Path,
) -> None:
    inputs(tmp_path, "that bath\n\nthat 7\n")
    ran = scribe(
        *("bring", "small.utb", "out.utb", "--for", "text.txt", "--words", "words"),
        folder=tmp_path,
        XDG_CACHE_HOME=str(tmp_path / "cache"),
    )
    assert (
        "1 paragraph wasn't compared, since it has characters that this table lacks: “7” (U+0037"
        " DIGIT SEVEN)."
    ) in ran.said.splitlines()


@pytest.mark.parametrize(
    ("more", "said"),
    [
        ("", "1 paragraph wasn't compared, since liblouis lacks characters that"),
        (
            "\nthat 8\n",
            "2 paragraphs weren't compared, since they have characters that liblouis lacks and that were"
            " added, or that this table lacks: “8” (U+0038 DIGIT EIGHT).",
        ),
    ],
)
def test_lines_of_ones_own_come_after_a_table_for_a_manuscript(
    tmp_path: Path, more: str, said: str
) -> None:
    inputs(tmp_path, f"that bath\n\nthat 7\n{more}")
    (tmp_path / "added").write_text("digit 7 1245\n")
    ran = scribe(
        *("bring", "small.utb", "out.utb", "--for", "text.txt", "--words", "words"),
        *("--add", "added"),
        folder=tmp_path,
        XDG_CACHE_HOME=str(tmp_path / "cache"),
    )
    assert said in ran.said
    assert (
        "\ndigit 7 1245\n# The sum of these lines" in (tmp_path / "out.utb").read_text()
    )


def test_a_text_that_is_none_is_refused(tmp_path: Path) -> None:
    inputs(tmp_path)
    (tmp_path / "text.txt").write_bytes(b"that \xff")
    ran = scribe("bring", "small.utb", "--for", "text.txt", folder=tmp_path)
    assert ran.status == 2
    assert ran.said == (
        "text.txt isn't UTF-8: line 1, column 6 has the byte 0xff. Save it as UTF-8.\n"
    )


@pytest.fixture
def shelf(tmp_path: Path) -> OwnFolder:
    return OwnFolder(tmp_path / "kept")


@pytest.fixture(scope="module")
def draft(tmp_path_factory: pytest.TempPathFactory) -> TableDraft:
    """The small table without what is learned."""
    return made(tmp_path_factory.mktemp("draft"), ["bat"]).made.draft


RULES: Learned = {("begword", "th"): (1 + 8 + 16 + 32,)}


def test_rules_that_were_kept_are_read_again(
    shelf: OwnFolder, draft: TableDraft
) -> None:
    keep(shelf, "one", RULES)
    assert kept(shelf, "one", draft) == RULES


@pytest.mark.parametrize(
    "data",
    [
        b"",
        b"\xff" * 40,
        b"begword th 1456\n",
        b"# braildesk: rules learned from a word list, other\nbegword th 1456\n",
        b"# braildesk: rules learned from a word list, one\nbegword th 1456-\n",
        b"# braildesk: rules learned from a word list, one\nbegword td 1456\n",
        b"# braildesk: rules learned from a word list, one\nletter d 145\n",
        b"# braildesk: rules learned from a word list, one\n" + b"# \n" * 2_000_000,
    ],
    ids=lambda data: repr(data[-20:]),
)
def test_what_was_kept_otherwise_is_not_read(
    shelf: OwnFolder, draft: TableDraft, data: bytes
) -> None:
    keep(shelf, "one", RULES)
    (shelf.path / "one").write_bytes(data)
    assert kept(shelf, "one", draft) is None


def test_another_liblouis_or_list_or_table_has_rules_of_its_own(
    draft: TableDraft, tmp_path: Path
) -> None:
    (tmp_path / "words").write_text(WORDS)
    (tmp_path / "others").write_text(WORDS + "bat\n")
    words, others = (WordList.of(tmp_path / name) for name in ("words", "others"))
    other = draft.copy()
    other.add_rule("word", "be", (1,), Origin("Other."))
    names = {
        name_of(words, draft, "3.24.0"),
        name_of(words, draft, "3.25.0"),
        name_of(others, draft, "3.24.0"),
        name_of(words, other, "3.24.0"),
    }
    assert len(names) == 4


def test_a_kept_rule_that_no_word_bears_out_is_left_out(tmp_path: Path) -> None:
    inputs(tmp_path)
    words = ("bring", "small.utb", "out.utb", "--for", "text.txt", "--words", "words")
    cache = str(tmp_path / "cache")
    scribe(*words, folder=tmp_path, XDG_CACHE_HOME=cache)
    first = (tmp_path / "out.utb").read_text()
    folder = tmp_path / "cache" / "braildesk" / "contractions"
    (path,) = folder.iterdir()
    with path.open("a") as file:
        file.write("word tab 1-1-1\nmidword qa 1\n")
    again = scribe(*words, folder=tmp_path, XDG_CACHE_HOME=cache)
    assert again.said.splitlines()[-1].startswith("out.utb was written, ")
    assert (tmp_path / "out.utb").read_text() == first
    assert "word tab 1-1-1" in path.read_text()


STOPS = """\
#!/bin/sh
echo >> "$CALLS"
if [ "$(wc -l < "$CALLS")" = "$STOP" ]; then kill -INT $PPID; exec sleep 120; fi
exec "$REAL" "$@"
"""


@pytest.mark.parametrize("call", ["1", "last"])
def test_an_interrupt_leaves_nothing_half_made(
    call: str, program: str, tmp_path: Path
) -> None:
    inputs(tmp_path)
    stops = tmp_path / "stops"
    stops.write_text(STOPS)
    stops.chmod(0o755)
    calls = tmp_path / "calls"
    command = [sys.executable, "-m", "scribe", "bring", "small.utb", "out.utb"]
    command += ["--for", "text.txt", "--words", "words", "--overwrite"]
    settings = {
        "CALLS": str(calls),
        "REAL": program,
        "BRAILDESK": str(stops),
        "TMPDIR": str(tmp_path / "tmp"),
        "XDG_CACHE_HOME": str(tmp_path / "cache"),
    }
    (tmp_path / "tmp").mkdir()
    if call == "last":
        subprocess.run(command, cwd=tmp_path, env=environment(STOP="0", **settings))
        call = str(len(calls.read_text().splitlines()))
        calls.unlink()
    (tmp_path / "out.utb").write_text("as it was\n")
    done = subprocess.run(
        command,
        cwd=tmp_path,
        env=environment(STOP=call, **settings),
        capture_output=True,
    )
    assert done.returncode == -signal.SIGINT
    assert (tmp_path / "out.utb").read_text() == "as it was\n"
    assert not list((tmp_path / "tmp").iterdir())
    assert not [path for path in tmp_path.rglob(".scribe-*")]


CAPITALS = SMALL.replace(
    "begcapsword",
    "begcapsphrase 6-6-6\nendcapsphrase after 6-3\nlencapsphrase 3\nbegcapsword",
)


def causes(folder: Path, line: str, text: str) -> list[tuple[str, Difference]]:
    """The words of a line that differ by a table, with their causes."""
    small(folder, CAPITALS)
    table = read(text.encode()).table
    with Liblouis(folder / "small.utb") as liblouis:
        cells = [tuple(ord(one) - 0x2800 for one in braille(pieces(table, line)))]
        found = agreement(liblouis, Chooser(table), [line], cells).differences
        its = Judge(liblouis, table).causes([line], found)
    return [(word.text, cause) for word, cause in zip(found, its, strict=True)]


def test_each_word_that_differs_has_its_cause(
    tmp_path: Path, draft: TableDraft
) -> None:
    text = draft.text()
    assert causes(tmp_path, "bat BATh", text) == [("BATh", Difference.CAPITALS)]
    assert causes(tmp_path, "HAT BATH THE bat", text) == [
        ("HAT", Difference.PASSAGE),
        ("BATH", Difference.PASSAGE),
        ("THE", Difference.PASSAGE),
    ]


CAUSES = b"""\
numsign 3456
capsletter 6
begcapsword 6-6
uplow Aa 1
uplow Bb 12
uplow Xx 1346
uplow Ee 15
digit 1 1
digit 2 12
space \\s 0
punctuation . 256
punctuation " 2356
word x 56-1346
"""


@pytest.mark.parametrize(
    "line, word, ours, theirs, cause",
    [
        ("ab X", "X", "⠠⠰⠭", "⠰⠠⠭", Difference.LETTER_SIGN),
        ("ab AX", "AX", "⠠⠠⠁⠭", "⠰⠠⠠⠁⠭", Difference.LETTER_SIGN),
        ("ab ABa", "ABa", "⠠⠁⠠⠃⠁", "⠠⠠⠁⠃⠠⠄⠁", Difference.CAPITALS),
        ("ab AB.Ab", "AB.Ab", "⠠⠠⠁⠃⠲⠠⠁⠃", "⠠⠠⠁⠃⠲⠁⠠⠄⠃", Difference.CAPITALS),
        ("ab AB BX", "BX", "⠠⠠⠃⠭", "⠃⠭", Difference.PASSAGE),
        ("1 11", "11", "⠼⠁⠁", "⠁⠁", Difference.NUMBER),
        ("ab .1", ".1", "⠲⠼⠁", "⠼⠲⠁", Difference.FIRST_MARK),
        ('"b ab', "ab", "⠁⠃", "⠃⠃", Difference.QUOTES),
        ("b ab", "ab", "⠁⠃", "⠃⠃", Difference.NEIGHBOURS),
        ("ab be", "be", "⠃⠑", "⠆", Difference.RULES),
    ],
)
def test_a_cause_is_known_by_the_print_and_the_cells(
    line: str, word: str, ours: str, theirs: str, cause: Difference, tmp_path: Path
) -> None:
    found = Word(0, line.rindex(word), word, cells_of(ours), cells_of(theirs))
    with Liblouis(small(tmp_path)) as liblouis:
        judge = Judge(liblouis, read(CAUSES).table)
        assert judge.causes([line], [found]) == [cause]


@pytest.mark.parametrize(
    "pieces, ours, cause",
    [
        # liblouis has the sign where the table has it, and other letters
        ([("a", "⠂"), ("B", "⠠⠃")], "⠁⠠⠃", Difference.RULES),
        ([("a", "⠂"), ("1", "⠼⠁")], "⠁⠼⠁", Difference.RULES),
        # what is before a number's sign is in reach of a rule for the letter
        ([("a", "⠁"), ("1", "⠐⠼⠁")], "⠁⠼⠁", Difference.RULES),
        # no rule leaves a sign out, covers it or has it elsewhere
        ([("a", "⠁"), ("1", "⠁")], "⠁⠼⠁", Difference.SIGN),
        ([("aB", "⠂")], "⠁⠠⠃", Difference.SIGN),
        ([("a", "⠁⠠"), ("1", "⠁⠼")], "⠁⠼⠁", Difference.SIGN),
        ([(".", "⠼⠲"), ("1", "⠁")], "⠲⠼⠁", Difference.FIRST_MARK),
        # nor is there anything of the word before its first sign
        ([("1", "⠐⠼⠁")], "⠼⠁", Difference.SIGN),
        ([("X", "⠰⠠⠭")], "⠠⠰⠭", Difference.LETTER_SIGN),
        # a rule for the mark doesn't see what follows the capital
        ([(".", "⠲"), ("X", "⠰⠠⠭")], "⠲⠠⠰⠭", Difference.LETTER_SIGN),
    ],
)
def test_what_no_rule_can_say_is_known_by_the_signs(
    pieces: list[tuple[str, str]], ours: str, cause: Difference
) -> None:
    text = "".join(piece for piece, _ in pieces)
    theirs = cells_of("".join(braille for _, braille in pieces))
    twins = {
        ".Aaa": [(".", "⠲"), ("A", "⠠⠁"), ("a", "⠁"), ("a", "⠁")],
        "a2": [("a", "⠁"), ("2", "⠐⠼⠃")],
    }
    liblouis = Answers({text: pieces, **twins})
    judge = Judge(cast(Liblouis, liblouis), read(CAUSES).table)
    found = Word(0, 0, text, cells_of(ours), theirs)
    assert judge.causes([text], [found]) == [cause]


def test_what_is_before_the_sign_of_every_capital_is_within_reach() -> None:
    pieces = {
        ".X": [(".", "⠲"), ("X", "⠰⠠⠭")],
        ".Aaa": [(".", "⠲"), ("A", "⠰⠠⠁"), ("a", "⠁"), ("a", "⠁")],
    }
    judge = Judge(cast(Liblouis, Answers(pieces)), read(CAUSES).table)
    found = Word(0, 0, ".X", cells_of("⠲⠠⠰⠭"), cells_of("⠲⠰⠠⠭"))
    assert judge.causes([".X"], [found]) == [Difference.RULES]


@pytest.fixture
def tuned_book(tmp_path: Path) -> Path:
    """A book by the small table without its contractions."""
    path = tmp_path / "own.braildesk"
    braildesk.new_book(path)
    (tmp_path / "plain.utb").write_text(SMALL)
    scribe("bring", "plain.utb", "own.utb", folder=tmp_path)
    small(tmp_path)
    with Session(path) as session:
        session.put_table("own", (tmp_path / "own.utb").read_bytes())
        session.add_paragraph("end", "own", "that bath. The bathe be hat.")
        session.add_paragraph("end", "own", "That BATh")
    return path


def tune(folder: Path, *words: str) -> list[str]:
    ran = scribe(
        "tune", "own.braildesk", "small.utb", "--width", "300", *words, folder=folder
    )
    assert ran.status == 0, ran.said
    return [*ran.shown.splitlines(), *ran.said.splitlines()]


def test_a_book_is_compared_and_nothing_is_changed(tuned_book: Path) -> None:
    before = tuned_book.read_bytes()
    lines = tune(tuned_book.parent)
    assert lines[0].startswith(
        "The table own of own.braildesk is compared with small.utb of liblouis "
    )
    assert lines[1:] == [
        "Of 8 words 25% have the cells of liblouis, and of 2 paragraphs 0%.",
        "5 words differ by rules that the table lacks:",
        "  that: ⠞⠓⠁⠞, in liblouis ⠹⠁⠞",
        "  The: ⠠⠞⠓⠑, in liblouis ⠠⠹⠑",
        "  bathe: ⠃⠁⠞⠓⠑, in liblouis ⠃⠁⠹⠑",
        "  be: ⠃⠑, in liblouis ⠆",
        "  That: ⠠⠞⠓⠁⠞, in liblouis ⠠⠹⠁⠞",
        "1 word differs by signs of capitals within a word:",
        "  BATh: ⠠⠃⠠⠁⠠⠞⠓, in liblouis ⠠⠠⠃⠁⠞⠠⠄⠓",
        "3 rules mend words:",
        "  begword th 1456: mends 3 words (that, The, That) and changes nothing else.",
        "  midword th 1456: mends 1 word (bathe) and changes nothing else.",
        "  word be 23: mends 1 word (be) and changes nothing else.",
        "A rule writes words as liblouis does. That is to be proofread, and is not certified"
        " braille.",
        "With them: Of 8 words 87.5% have the cells of liblouis, and of 2 paragraphs 50%.",
        "To be proofread, since no rule mends these words:",
        "  paragraph 2: BATh (signs of capitals within a word)",
        "Nothing was changed. With --apply the rules are put into the book.",
    ]
    assert tuned_book.read_bytes() == before


def test_rules_are_put_into_the_table_where_that_is_asked_for(tuned_book: Path) -> None:
    lines = tune(tuned_book.parent, "--apply")
    assert lines[:2] == [
        "The rules are in the table own.",
        "The book is at version 4.",
    ]
    assert lines[2].startswith("The table own of own.braildesk is compared with")
    with Session(tuned_book) as session:
        assert session.braille_of(1) == "⠹⠁⠞⠀⠃⠁⠞⠓⠲⠀⠠⠹⠑⠀⠃⠁⠹⠑⠀⠆⠀⠓⠁⠞⠲"
    again = tune(tuned_book.parent, "--apply")
    assert again[1] == (
        "Of 8 words 87.5% have the cells of liblouis, and of 2 paragraphs 50%."
    )
    assert "No rule was found that mends a word." in again
    with Session(tuned_book) as session:
        assert session.version() == 4


def test_which_table_is_tuned_has_to_be_clear(book: Path) -> None:
    folder = book.parent
    small(folder)
    words = ("tune", "book.braildesk", "small.utb")
    none = (
        "The book has no paragraph that isn't struck, so there is nothing to compare.\n"
    )
    assert scribe(*words, folder=folder).said == none
    with Session(book) as session:
        session.put_table("own", SMALL_TABLE)
        session.add_paragraph("end", "en", "The moon.")
        session.strike(1)
    assert scribe(*words, folder=folder).said == none
    assert scribe(*words, "--table", "en", folder=folder).said == (
        "No paragraph that isn't struck has the table en.\n"
    )
    with Session(book) as session:
        session.restore(1)
        session.add_paragraph("end", "own", "a")
    assert scribe(*words, folder=folder).said == (
        "Paragraphs of the book have the tables en, own. Say which by --table.\n"
    )
    assert scribe(*words, "--table", "none", folder=folder).said == (
        "No paragraph that isn't struck has the table none.\n"
    )


SMALL_TABLE = b"letter a 1\n"


def test_a_capital_that_is_contracted_with_one_letter_is_asked_for_with_another(
    tmp_path: Path,
) -> None:
    small(tmp_path, SMALL + "always exx 12346\n")
    means = Means(None, None, lambda what: lambda done, total: None)
    found = tailor(tmp_path / "small.utb", Manuscript("text", ["E"]), means)
    assert found.made.draft.lower["E"] == "e"


def test_a_table_that_is_tuned_is_that_of_the_paragraphs_also_where_the_book_is_replaced(
    moon: Path, made_once: Path, monkeypatch: pytest.MonkeyPatch
) -> None:
    close = Session.close
    with Session(moon) as session:
        wanted = {each.name: each.text for each in session.tables()}

    def closed(session: Session) -> None:
        close(session)
        shutil.copyfile(made_once / "empty.braildesk", moon)

    monkeypatch.setattr(Session, "close", closed)
    console = Console(BytesIO(), StringIO(), StringIO())
    found = tune_command._book(Namespace(file=moon, wait=0.0, table=None), console)
    assert (found.version, len(found.texts)) == (7, 3)
    assert found.table.text == wanted["en"]
