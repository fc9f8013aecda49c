"""`scribe volumes`: where volumes begin so that none has too many pages."""

import random
from io import BytesIO, StringIO
from itertools import combinations
from pathlib import Path

import pytest
from hypothesis import given, settings
from hypothesis import strategies as st
from tool import Ran, scribe

from braildesk import Done, Session
from braildesk.desk.layout import PageSize, Section, lay_out
from braildesk.desk.volume_plan import Lines, TooManyPages, lines_of, planned

from scribe.cli import run_words
from scribe.words.console import Console
from scribe.words.status import Interrupted

SMALL = PageSize(10, 5)


def volumes(book: Path, *words: str) -> Ran:
    return scribe("volumes", book, *words, folder=book.parent)


@pytest.fixture
def chapters(book: Path) -> Path:
    """A book of three chapters, which have 2, 1 and 3 lines after their headings."""
    with Session(book) as session:
        for heading, count in (("One", 2), ("Two", 1), ("Three", 3)):
            number = session.add_paragraph("end", "en", heading).id
            session.set_style(number, "heading")
            for _ in range(count):
                session.add_paragraph("end", "en", "a")
        session.set_begins_volume(3, True)
    return book


SIZE = ("--width", "12", "--lines", "5")


def test_the_volumes_are_shown_as_they_are(chapters: Path) -> None:
    assert volumes(chapters, *SIZE) == Ran(
        0,
        "Volume 1: 1 page, from paragraph 1, heading: One\n"
        "Volume 2: 2 pages, from paragraph 3, body: a\n",
        "2 volumes, 3 pages of 5 lines of 12 cells.\n",
    )


def test_volumes_are_proposed_at_headings_and_nothing_is_set(chapters: Path) -> None:
    # a page has four lines: One a a, Two a, Three a a a
    before = chapters.read_bytes()
    assert volumes(chapters, "--pages", "1", *SIZE) == Ran(
        0,
        "Volume 1: 1 page, from paragraph 1, heading: One\n"
        "Volume 2: 1 page, from paragraph 4, heading: Two\n"
        "Volume 3: 1 page, from paragraph 6, heading: Three\n",
        "3 volumes, 3 pages of 5 lines of 12 cells.\n"
        "Paragraphs 4 and 6 would begin a volume; --set does it.\n"
        "Paragraph 3 would begin no volume; --set does it.\n",
    )
    assert chapters.read_bytes() == before
    assert volumes(chapters, "--pages", "3", *SIZE).shown == (
        "Volume 1: 3 pages, from paragraph 1, heading: One\n"
    )


def test_what_is_proposed_is_set(chapters: Path) -> None:
    ran = volumes(chapters, "--pages", "1", "--set", *SIZE)
    assert (ran.status, ran.shown.count("\n")) == (0, 3)
    assert ran.said == (
        "Paragraphs 4 and 6 begin a volume now.\n"
        "Paragraph 3 begins no volume now.\n"
        "The book is at version 17.\n"
        "3 volumes, 3 pages of 5 lines of 12 cells.\n"
    )
    with Session(chapters) as session:
        starts = [each.id for each in session.paragraphs() if each.begins_volume]
    assert starts == [4, 6]
    already = "The volumes begin there already.\nThe book is at version 17.\n"
    ran = volumes(chapters, "--pages", "1", "--set", *SIZE)
    assert ran.said.startswith(already)
    assert volumes(chapters, "--pages", "1", *SIZE).said.endswith(
        "The volumes begin there already.\n"
    )
    ran = scribe("export", chapters, "out", *SIZE, folder=chapters.parent)
    assert [line.split(", ")[1] for line in ran.shown.splitlines()] == ["1 page"] * 3


def test_what_was_set_is_said_before_the_volumes_are_shown(chapters: Path) -> None:
    both = StringIO()
    words = ["volumes", str(chapters), "--pages", "1", "--set", *SIZE]
    run_words(words, Console(BytesIO(), both, both))
    assert [line.partition(":")[0] for line in both.getvalue().splitlines()] == [
        "Paragraphs 4 and 6 begin a volume now.",
        "Paragraph 3 begins no volume now.",
        "The book is at version 17.",
        *("Volume 1", "Volume 2", "Volume 3"),
        "3 volumes, 3 pages of 5 lines of 12 cells.",
    ]


@pytest.mark.parametrize(
    "words, status, sentence",
    [
        (
            ("--pages", "0"),
            1,
            "Argument --pages: a volume has at least 1 page.",
        ),
        (
            ("--set",),
            1,
            "Argument --set: say by --pages how many pages a volume has at most.",
        ),
        (("--pages", "x"), 1, "Argument --pages: “x” is not a number."),
    ],
)
def test_what_can_not_be_done_is_said(
    chapters: Path, words: tuple[str, ...], status: int, sentence: str
) -> None:
    ran = volumes(chapters, *words)
    assert (ran.status, ran.shown) == (status, "")
    assert ran.said.startswith(sentence + "\n")


def test_a_paragraph_that_no_volume_can_have_is_named(chapters: Path) -> None:
    with Session(chapters) as session:
        session.correct(5, 0, 1, "abcdefgh " * 6)
    ran = volumes(chapters, "--pages", "1", "--set", *SIZE)
    assert ran == Ran(
        2,
        "",
        "Paragraph 5 has 2 pages by itself, so that no volume of at most 1 page can have it."
        " Nothing was changed.\n",
    )


def test_a_book_without_paragraphs_has_no_volume(book: Path) -> None:
    none = Ran(2, "", "The book has no volume, since it has no paragraph to show.\n")
    assert volumes(book) == none
    assert volumes(book, "--pages", "1", "--set") == none


@pytest.mark.parametrize(
    "last, said_of_it",
    [
        # of paragraphs 3, 4 and 6 the last is left
        (
            4,
            "Of 3 changes 2 are in the book, which is at version 16. The same command makes the"
            " others.",
        ),
        (6, "Of 3 changes 3 are in the book, which is at version 17."),
    ],
)
def test_where_it_is_stopped_it_is_said_what_is_in_the_book(
    chapters: Path, monkeypatch: pytest.MonkeyPatch, last: int, said_of_it: str
) -> None:
    set_begins_volume = Session.set_begins_volume

    def stopped(session: Session, number: int, begins: bool) -> Done:
        done = set_begins_volume(session, number, begins)
        if number == last:
            raise KeyboardInterrupt
        return done

    monkeypatch.setattr(Session, "set_begins_volume", stopped)
    shown, said = StringIO(), StringIO()
    with pytest.raises(Interrupted):
        run_words(
            ["volumes", str(chapters), "--pages", "1", "--set", *SIZE],
            Console(BytesIO(), shown, said),
        )
    assert said.getvalue() == f"Stopped. {said_of_it}\n"
    monkeypatch.undo()
    ran = volumes(chapters, "--pages", "1", "--set", *SIZE)
    rest = "Paragraph 6 begins a volume now."
    if last == 6:
        rest = "The volumes begin there already."
    assert ran.said.startswith(f"{rest}\nThe book is at version 17.\n")


def test_where_the_book_refuses_one_it_is_said_what_is_in_the_book(
    chapters: Path, monkeypatch: pytest.MonkeyPatch
) -> None:
    set_begins_volume = Session.set_begins_volume

    def refusing(session: Session, number: int, begins: bool) -> Done:
        return set_begins_volume(session, 99 if number == 6 else number, begins)

    monkeypatch.setattr(Session, "set_begins_volume", refusing)
    said = StringIO()
    words = ["volumes", str(chapters), "--pages", "1", "--set", *SIZE]
    assert run_words(words, Console(BytesIO(), StringIO(), said)) == 2
    assert said.getvalue() == (
        "The book has no paragraph 99: it has the paragraphs 1 to 9. Of 3 changes 2 are in the book,"
        " which is at version 16. The same command makes the others.\n"
    )


def test_a_talk_shows_volumes_and_sets_them(chapters: Path) -> None:
    # a page of 25 lines has all of it
    given = "volumes\nvolumes --pages 1\nvolumes --pages 1 --set\nvolumes --set\n"
    ran = scribe("talk", chapters, "--width", "80", folder=chapters.parent, given=given)
    assert ran.shown.splitlines()[1:-1] == [
        "Volume 1: 1 page, from paragraph 1, heading: One",
        "Volume 2: 1 page, from paragraph 3, body: a",
        "Volume 1: 1 page, from paragraph 1, heading: One",
        "Volume 1: 1 page, from paragraph 1, heading: One",
    ]
    assert ran.said.splitlines()[:-1] == [
        "2 volumes, 2 pages of 25 lines of 40 cells.",
        "1 volume, 1 page of 25 lines of 40 cells.",
        "Paragraph 3 would begin no volume; --set does it.",
        "Paragraph 3 begins no volume now.",
        "The book is at version 15.",
        "1 volume, 1 page of 25 lines of 40 cells.",
        "Argument --set: say by --pages how many pages a volume has at most.",
    ]


def a_book(seed: int) -> list[Section]:
    """Chapters of one to forty paragraphs, each of up to thirty words."""
    chance = random.Random(seed)
    found: list[Section] = []
    for _ in range(30):
        found.append(Section(len(found), True, "⠁⠀⠃⠃⠃"))
        if chance.random() < 0.3:
            found.append(Section(len(found), True, "⠉"))
        for _ in range(chance.randint(1, 40)):
            words = "⠀".join("⠃" * 8 for _ in range(chance.randint(0, 30)))
            found.append(Section(len(found), False, words))
    return found


def test_no_volume_has_too_many_pages_for_any_number_of_pages() -> None:
    sections, size = a_book(7), PageSize(20, 9)
    lines = lines_of(sections, size)
    fronts = [
        n
        for n, each in enumerate(sections)
        if n and each.is_heading and not sections[n - 1].is_heading
    ]
    stops = [*fronts, len(sections)]
    chapter = dict(zip([0, *fronts], stops))
    for most in range(1, 201):
        try:
            found = planned(lines, size, most)
        except TooManyPages as fault:
            its = lay_out([sections[fault.paragraph]], size)
            assert its.pages == fault.pages > most
            continue
        places = [place for each in found for place in each.paragraphs]
        assert places == list(range(len(sections)))
        for before, each in zip([None, *found], found):
            its = lay_out(sections[each.paragraphs.start : each.paragraphs.stop], size)
            assert its.pages == each.pages <= most
            start = each.paragraphs.start
            if start not in chapter:
                # what is cut has too many pages by itself
                front = max(place for place in chapter if place < start)
                assert lay_out(sections[front : chapter[front]], size).pages > most
                assert before is not None
                last = [sections[place].is_heading for place in before.paragraphs]
                assert not last[-1] or all(last)
    assert most == 200 and len(found) < len(planned(lines, size, 60))


def cheapest(lines: list[Lines], most: int) -> tuple[int, int] | None:
    """The fewest cut chapters, and of these the fewest volumes, among all ways to cut."""
    best: tuple[int, int] | None = None
    sections = [
        Section(each.paragraph, each.is_heading, "⠀".join(["⠃" * 6] * each.count))
        for each in lines
    ]
    for count in range(len(lines)):
        for cuts in combinations(range(1, len(lines)), count):
            ends = [0, *cuts, len(lines)]
            parts = [sections[a:b] for a, b in zip(ends, ends[1:])]
            if all(lay_out(part, SMALL).pages <= most for part in parts):
                cut = sum(
                    not lines[place].is_heading or lines[place - 1].is_heading
                    for place in cuts
                )
                cost = (cut, count + 1)
                best = cost if best is None else min(best, cost)
    return best


LINES = st.lists(st.tuples(st.integers(0, 7), st.booleans()), min_size=1, max_size=8)


@settings(max_examples=200, deadline=None)
@given(LINES, st.integers(1, 3))
def test_as_few_chapters_are_cut_and_as_few_volumes_made_as_can_be(
    given_lines: list[tuple[int, bool]], most: int
) -> None:
    lines = [Lines(n, *each) for n, each in enumerate(given_lines)]
    best = cheapest(lines, most)
    try:
        found = planned(lines, SMALL, most)
    except TooManyPages:
        assert best is None
        return
    starts = [each.paragraphs.start for each in found[1:]]
    cut = sum(
        not lines[place].is_heading or lines[place - 1].is_heading for place in starts
    )
    assert best is not None and cut == best[0]


def test_a_volume_with_cells_of_eight_dots_is_said_not_to_be_exported(
    empty_book: Path,
) -> None:
    with Session(empty_book) as session:
        session.put_table("own", b"letter a 1\nletter b 17\n")
        session.add_paragraph("end", "own", "a")
        session.add_paragraph("end", "own", "aba")
        session.set_begins_volume(2, True)
    ran = volumes(empty_book, *SIZE)
    assert (ran.status, ran.shown.count("\n")) == (0, 2)
    said = (
        "Cell 2 of paragraph 2 has dot 7 or 8, which pages for embossers can't have, so volume 2"
        " can't be exported. Correct the table of that paragraph.\n"
    )
    assert ran.said == f"2 volumes, 2 pages of 5 lines of 12 cells.\n{said}"
    proof = scribe("proof", empty_book, "a.html", folder=empty_book.parent)
    assert (proof.status, proof.shown, proof.said) == (0, "a.html: 2 pages.\n", said)
