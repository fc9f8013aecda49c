"""The session of a window, and what is taken back there, without a window."""

import shutil
from collections.abc import Callable, Iterator, Sequence
from dataclasses import replace
from pathlib import Path
from typing import Any

import pytest

from braildesk import Displaced, Lost, Refused, Session, Style, new_book, requests
from braildesk.desk.draft import Aim, Draft
from braildesk.desk.search import Spot
from braildesk.protocol.requests import Command, Correct, Mark, Table, Type
from braildesk.text.spans import Span

from scribe.window.book import Done, NotAll, NothingToTakeBack, OpenBook, PartKept

from conftest import prints

_ANEW = "correction {} of paragraph 2 was taken back. It was made anew."


@pytest.fixture
def book(moon: Path) -> Iterator[OpenBook]:
    """The book, open."""
    found = OpenBook(moon, None, 0.0)
    found.opened()
    yield found
    found.close()


def _types(lines: Sequence[str]) -> list[Callable[[int | None], Command[Any]]]:
    def of(line: str) -> Callable[[int | None], Command[Any]]:
        return lambda newest: requests.Type(newest or 1, "en", line)

    return [of(line) for line in lines]


def test_each_deed_is_taken_back_the_last_first(book: OpenBook) -> None:
    book.done(requests.Style(1, Style.HEADING))
    book.done(requests.Move(1, "end"))
    assert [each.id for each in book.contents().paragraphs] == [2, 3, 1]
    done = book.taken_back(lambda *_: None)
    assert done.said == "Taken back: paragraph 1 was moved."
    assert [each.id for each in done.contents.paragraphs] == [1, 2, 3]
    done = book.taken_back(lambda *_: None)
    assert done.said == "Taken back: paragraph 1 was made a heading."
    with pytest.raises(NothingToTakeBack):
        book.taken_back(lambda *_: None)


def test_paragraphs_that_were_typed_together_are_taken_back_together(
    book: OpenBook,
) -> None:
    book.typed_all(_types(["One.", "Two."]), lambda *_: None, ())
    done = book.taken_back(lambda *_: None)
    whole = "Taken back: 2 paragraphs were typed, 4 to 5. The book keeps them, struck."
    assert done.said == whole
    assert [each.id for each in done.contents.paragraphs if each.struck] == [4, 5]


def test_of_paragraphs_one_of_which_is_refused_those_before_it_are_typed(
    book: OpenBook,
) -> None:
    with pytest.raises(NotAll) as part:
        book.typed_all(_types(["One.", "#", "Two."]), lambda *_: None, ())
    assert part.value.done == 1
    assert [each.id for each in book.contents().paragraphs] == [1, 4, 2, 3]


def test_a_correction_that_was_taken_back_by_itself_is_made_anew_and_then_taken_back(
    book: OpenBook,
) -> None:
    book.session.correct(2, 6, 0, "o")
    book.done(requests.Style(1, Style.HEADING))
    book.done(requests.Correct(2, 0, 3, "A"))
    for _ in range(2):
        book.done(requests.Undo(2))
    assert book.session.print_of(2) == "The mon is far away."
    for said, text in (
        (_ANEW.format(1), "The moon is far away."),
        (_ANEW.format(2), "A moon is far away."),
        ("paragraph 2 was corrected.", "The moon is far away."),
        ("paragraph 1 was made a heading.", "The moon is far away."),
    ):
        done = book.taken_back(lambda *_: None)
        assert done.said == f"Taken back: {said}"
        assert book.session.print_of(2) == text


def test_a_correction_is_made_anew_with_its_name_and_its_marks_are_where_they_were(
    book: OpenBook,
) -> None:
    book.session.correct(2, 4, 3, "moon", by="anna")
    book.done(requests.Mark(2, 1, 2, "so?"))
    marks = book.session.marks_of(2)
    book.done(requests.Undo(2))
    book.taken_back(lambda *_: None)
    assert book.session.history_of(2)[-1].who == "anna"
    assert book.session.marks_of(2) == marks


def test_a_correction_whose_taking_back_was_not_answered_is_made_anew(
    moon: Path, monkeypatch: pytest.MonkeyPatch
) -> None:
    book = OpenBook(moon, None, 0.0)
    begun = book.opened().version
    book.done(requests.Correct(2, 6, 0, "o"))
    ask = book._ask

    def unanswered(command: Command[Any]) -> Any:
        ask(command)
        version = book.session.last_version - 1
        raise Lost("The program ended.", "", None, 9, version, (command,))

    monkeypatch.setattr(book, "_ask", unanswered)
    with pytest.raises(Lost) as lost:
        book.done(requests.Undo(2))
    monkeypatch.undo()
    book.close()
    book.open_after(lost.value, begun)
    assert book.session.print_of(2) == "The mon is far away."
    book.taken_back(lambda *_: None)
    assert book.session.print_of(2) == "The moon is far away."
    book.close()


def test_a_mark_that_was_resolved_is_put_again(book: OpenBook) -> None:
    reading = book.reading(book.contents().paragraphs[1])
    assert reading.marked_cells == (Span(5, 8),)
    book.resolved(reading, 1)
    done = book.taken_back(lambda *_: None)
    assert done.said.startswith("Taken back: mark 1 was resolved.")
    marks = book.session.marks_of(2)
    assert [(mark.id, mark.resolved, mark.note) for mark in marks] == [
        (1, True, "spelled so?"),
        (2, False, "spelled so?"),
    ]


def test_a_mark_that_was_resolved_in_a_struck_paragraph_bars_nothing_before_it(
    book: OpenBook,
) -> None:
    book.done(requests.Strike(2))
    book.resolved(book.reading(book.contents().paragraphs[1]), 1)
    done = book.taken_back(lambda *_: None)
    assert done.said == "Mark 1 was resolved, which stays."
    done = book.taken_back(lambda *_: None)
    assert done.said == "Taken back: paragraph 2 was struck."
    with pytest.raises(NothingToTakeBack):
        book.taken_back(lambda *_: None)


def test_a_mark_is_put_again_on_its_words_where_these_are_by_then(
    book: OpenBook,
) -> None:
    book.done(requests.Correct(2, 0, 0, "And so, "))
    book.resolved(book.reading(book.contents().paragraphs[1]), 1)
    book.session.undo(2)
    book.taken_back(lambda *_: None)
    marks = book.session.marks_of(2)
    assert [(mark.start, mark.stop, mark.resolved) for mark in marks] == [
        (4, 7, True),
        (4, 7, False),
    ]


def test_a_mark_whose_words_are_gone_is_put_again_on_a_character(
    book: OpenBook,
) -> None:
    book.done(requests.Correct(2, 4, 4, ""))
    book.resolved(book.reading(book.contents().paragraphs[1]), 1)
    done = book.taken_back(lambda *_: None)
    assert done.said == (
        "Taken back: mark 1 was resolved. It stays resolved, and a new mark is on “i”."
    )
    mark = book.session.marks_of(2)[-1]
    assert (mark.start, mark.stop, mark.resolved) == (4, 5, False)


def test_a_correction_is_the_smallest_one(book: OpenBook) -> None:
    reading = book.reading(book.contents().paragraphs[1])
    assert book.corrected(reading, "The mon is far away.") is None
    done = book.corrected(reading, "The moon is far away.")
    assert done is not None and done.said == "kept: correction 1 of paragraph 2"
    (entry,) = book.session.history_of(2)
    assert (entry.start, entry.count, entry.text) == (6, 0, "o")


def test_a_correction_leaves_what_stands_elsewhere_in_no_normal_form(
    tmp_path: Path,
) -> None:
    table = "space \\s 0\nletter a 1\nletter e 15\nletter é 123456\nletter \u0301 4\n"
    path = tmp_path / "own.braildesk"
    # a request puts the accent in, which is no part of its letter then
    typed = [Type("end", "own", "e aa"), Correct(1, 1, 0, "\u0301"), Mark(1, 0, 1, "")]
    new_book(path, holding=[Table("own", table.encode()), *typed])
    its = OpenBook(path, None, 0.0)
    (paragraph,) = its.opened().paragraphs
    its.corrected(its.reading(paragraph), "e\u0301 a")
    assert not its.session.marks_of(1)[0].touched
    its.corrected(its.reading(paragraph), "e\u0301 ae\u0301")
    its.close()
    assert prints(path) == ["e\u0301 aé"]


def test_what_stands_next_is_found(book: OpenBook) -> None:
    contents = book.contents()
    mark = book.next_mark(contents, Spot(0, 0), False)
    assert mark is not None and mark.spot == Spot(1, 4, 1)
    words = book.next_words(contents, Spot(0, 0), "far", False)
    assert words is not None and words.spot == Spot(1, 11)
    cells = book.next_cells(contents, Spot(0, 0), "SEA")
    assert cells is not None and cells.spot == Spot(2, 17)


MON = "The mon is far away."


@pytest.mark.parametrize(
    "draft, where",
    [
        (Draft(Aim.AFTER, 1, "en", "", "One.\nTwo.", None, 5), "as paragraph 4"),
        (Draft(Aim.AFTER, 1, "en", "", "Else.", None, 5), ""),
        (Draft(Aim.AFTER, 1, "en", "", "One.", None, 6), ""),
        (
            Draft(Aim.EDIT, 2, "en", "x", "The mon is far away.", None, 5),
            "in paragraph 2",
        ),
        (Draft(Aim.EDIT, 9, "en", "x", "The mon is far away.", None, 5), ""),
        (Draft(Aim.NOTE, 2, "en", MON, "spelled so?", Span(5, 8), 5), "as mark 1"),
        (Draft(Aim.NOTE, 2, "en", MON, "spelled so?", Span(9, 11), 5), ""),
        (Draft(Aim.NOTE, 2, "en", MON, "spelled?", Span(5, 8), 5), ""),
        (Draft(Aim.NOTE, 2, "en", "x", "spelled so?", Span(5, 8), 5), ""),
    ],
)
def test_a_text_that_waits_is_known_again_in_the_book(
    book: OpenBook, draft: Draft, where: str
) -> None:
    book.done(requests.Type(1, "en", "One."))
    assert book.where_kept(book.contents(), draft) == where


@pytest.mark.parametrize(
    "draft, struck, where",
    [
        (Draft(Aim.AFTER, 1, "en", "", "One."), [4], "as paragraph 4, which is struck"),
        (Draft(Aim.AFTER, 1, "en", "", "One."), [1], "as paragraph 4"),
        (Draft(Aim.EDIT, 2, "en", "x", MON), [2], "in paragraph 2, which is struck"),
        (
            Draft(
                Aim.AFTER, 1, "en", "", f"{MON}\nTwice a day the sea comes up.\nOne."
            ),
            [3],
            "as the paragraphs 2 to 4, some of which are struck",
        ),
    ],
)
def test_that_a_paragraph_is_struck_is_said_where_a_text_that_waits_is_known_again(
    book: OpenBook, draft: Draft, struck: Sequence[int], where: str
) -> None:
    book.done(requests.Type(1, "en", "One."))
    for number in struck:
        book.done(requests.Strike(number))
    waits = replace(draft, version=3)
    assert book.where_kept(book.contents(), waits) == where


def test_nothing_is_taken_back_after_another_program_changed_the_book(
    book: OpenBook, moon: Path
) -> None:
    book.done(requests.Style(1, Style.HEADING))
    before = book.contents()
    book.close()
    with Session(moon) as session:
        session.strike(2)
    book.imported(before, 0)
    with pytest.raises(NothingToTakeBack):
        book.taken_back(lambda *_: None)


def test_what_another_program_typed_is_not_taken_back_as_an_import(
    book: OpenBook, moon: Path
) -> None:
    before = book.contents()
    book.close()
    with Session(moon) as session:
        session.add_paragraph("end", "en", "The stars")
    book.imported(before, 0)
    with pytest.raises(NothingToTakeBack):
        book.taken_back(lambda *_: None)


def test_what_another_program_set_is_not_of_an_import(
    book: OpenBook, moon: Path
) -> None:
    before = book.contents()
    book.close()
    with Session(moon) as session:
        session.set_style(2, "heading")
        session.add_paragraph("end", "en", "The stars")
    book.imported(before, 1)
    with pytest.raises(NothingToTakeBack):
        book.taken_back(lambda *_: None)


def test_what_an_import_lacked_is_taken_back_with_it(
    book: OpenBook, moon: Path
) -> None:
    before = book.contents()
    book.close()
    with Session(moon) as session:
        session.set_style(2, "heading")
        session.add_paragraph("end", "en", "The stars")
    book.imported(before, 1, [requests.Style(2, Style.HEADING)])
    done = book.taken_back(lambda *_: None)
    assert done.said == (
        "Taken back: paragraph 2 was made a heading, and paragraph 4 was imported. The book keeps"
        " it, struck."
    )
    assert done.contents.paragraphs[1] == before.paragraphs[1]
    assert done.contents.paragraphs[3].struck


@pytest.mark.parametrize(
    "command",
    [
        requests.Correct(2, 6, 0, "o"),
        requests.CorrectBy(2, 0, 3, "A", who="anna"),
        requests.Strike(2),
        requests.Style(2, Style.HEADING),
        requests.Volume(2, True),
        requests.Mark(2, 1, 2, "why?"),
        requests.Move(2, "end"),
        requests.Type(1, "en", "One."),
    ],
)
def test_what_is_known_of_the_book_is_what_it_has(
    book: OpenBook, command: Command[Any]
) -> None:
    done = book.done(command)
    session = book.session
    assert done.contents.paragraphs == session.paragraphs()
    assert done.contents.version == session.last_version == 6
    # and once that was taken back
    done = book.taken_back(lambda *_: None)
    assert done.contents.paragraphs == session.paragraphs()


def test_what_is_known_after_a_table_a_restoring_and_an_undo_is_what_the_book_has(
    book: OpenBook,
) -> None:
    book.done(requests.Correct(2, 6, 0, "o"))
    acts: list[Callable[[], Done]] = [
        lambda: book.done(requests.Undo(2)),
        lambda: book.with_table(2, "ueb", None, lambda step: True),
        lambda: book.done(requests.Strike(2)),
        lambda: book.done(requests.Restore(2)),
        lambda: book.done(requests.Resolve(1)),
    ]
    for act in acts:
        assert act().contents.paragraphs == book.session.paragraphs()


def _another(moon: Path) -> Path:
    """A book that had the same done to it, by another."""
    other = moon.with_name("other.braildesk")
    shutil.copyfile(moon, other)
    with Session(other) as session:
        session.set_style(1, Style.HEADING)
    return other


def test_what_was_done_is_not_taken_back_in_another_book(
    book: OpenBook, moon: Path
) -> None:
    other = _another(moon)
    book.done(requests.Style(1, Style.HEADING))
    other.rename(moon)
    with pytest.raises(Displaced) as caught:
        book.done(requests.Move(1, "end"))
    found, said = book.open_after(caught.value, 6)
    assert found is None and said == [caught.value.sentence]
    book.opened_again()
    with pytest.raises(NothingToTakeBack):
        book.taken_back(lambda *_: None)
    assert book.contents().paragraphs[0].style is Style.HEADING


def test_what_was_done_is_not_taken_back_in_another_book_after_an_import(
    book: OpenBook, moon: Path
) -> None:
    other = _another(moon)
    book.done(requests.Style(1, Style.HEADING))
    other.rename(moon)
    with pytest.raises(Displaced):
        book.close()
    book.opened_again()
    assert book.last_deed is None


def test_what_was_kept_before_an_import_is_saved_from_the_session_after_it(
    moon: Path,
) -> None:
    book = OpenBook(moon, None, 0.0)
    before = book.opened()
    book.done(requests.Style(1, Style.HEADING))
    book.close()
    book.imported(before, 0)
    moon.unlink()
    with pytest.raises(Displaced):
        book.close()
    with Session(moon.with_name("moon.braildesk-saved-1")) as session:
        assert session.paragraphs()[0].style is Style.HEADING


def _edited(book: OpenBook) -> Done | None:
    """Changes the front and the end of a paragraph that has a mark between."""
    (its, *_) = book.contents().paragraphs
    reading = book.reading(its)
    return book.corrected(reading, f"X{reading.its.text} Yes.")


def _mark(book: OpenBook) -> tuple[str, bool]:
    """The words of the newest mark of paragraph 1, and whether these were touched."""
    text, mark = book.session.print_of(1), book.session.marks_of(1)[-1]
    return text[mark.start : mark.stop], mark.touched


@pytest.fixture
def marked(book: OpenBook) -> OpenBook:
    """The book, with a mark on the second word."""
    (its, *_) = book.contents().paragraphs
    start = book.reading(its).its.text.index(" ") + 1
    cells = book.cells_of(1, Span(start, start + 4))
    book.done(Mark(1, cells.start, cells.stop - cells.start, "so?"))
    return book


@pytest.mark.parametrize(
    "front, back", [("The monk ", " is far away."), ("A mon, a monk, a ", " far.")]
)
def test_a_word_that_comes_before_a_marked_one_and_begins_as_it_does_is_put_beside_it(
    book: OpenBook, front: str, back: str
) -> None:
    reading = book.reading(book.contents().paragraphs[1])
    words = reading.its.text[4:7]
    assert book.corrected(reading, f"{front}{words}{back}") is not None
    assert book.session.print_of(2) == f"{front}{words}{back}"
    (mark,) = book.session.marks_of(2)
    place = len(front)
    assert (mark.start, mark.stop, mark.touched) == (place, place + 3, False)


def test_an_edit_leaves_a_mark_between_on_its_words_and_is_taken_back_as_one(
    marked: OpenBook,
) -> None:
    before, mark = marked.session.print_of(1), _mark(marked)
    seq = len(marked.session.history_of(1))
    done = _edited(marked)
    assert done is not None and done.paragraph == 1
    assert done.said == f"kept: corrections {seq + 1} and {seq + 2} of paragraph 1"
    assert done.contents.paragraphs[0].length == len(before) + 6
    assert marked.session.print_of(1) == f"X{before} Yes."
    assert _mark(marked) == mark and not mark[1]
    assert marked.last_deed is not None and marked.last_deed.is_edit
    done = marked.taken_back(lambda *_: None)
    assert done.said == "Taken back: paragraph 1 was corrected."
    assert marked.session.print_of(1) == before
    assert _mark(marked) == mark


def test_of_an_edit_the_rest_of_which_is_refused_it_is_said_what_is_kept(
    marked: OpenBook, monkeypatch: pytest.MonkeyPatch
) -> None:
    before, ask = marked.session.print_of(1), marked.session.ask
    refused = _refused_at(marked)
    count = 0

    def second_is_refused(request: Any) -> Any:
        nonlocal count
        count += isinstance(request, Correct)
        if count == 2 and isinstance(request, Correct):
            raise refused
        return ask(request)

    with monkeypatch.context() as patched:
        patched.setattr(marked.session, "ask", second_is_refused)
        with pytest.raises(PartKept) as part:
            _edited(marked)
    said = "1 correction of this edit is kept, and the rest isn't. "
    assert part.value.sentence == said + refused.reason
    assert marked.session.print_of(1) == f"{before} Yes."
    marked.taken_back(lambda *_: None)
    assert marked.session.print_of(1) == before


def _refused_at(book: OpenBook) -> Refused:
    """A refusal."""
    with pytest.raises(Refused) as refused:
        book.session.strike(99)
    return refused.value
