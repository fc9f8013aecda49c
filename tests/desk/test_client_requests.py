"""Each request of a book: its bytes, and what it answers."""

import builtins
import inspect
import re
from collections.abc import Callable
from dataclasses import fields, replace
from pathlib import Path
from typing import Any, cast

import pytest

from braildesk import (
    Corrected,
    Done,
    Entry,
    Kind,
    Mark,
    Marked,
    Paragraph,
    Session,
    Style,
    Typed,
    requests,
)
from braildesk.asking import Asking
from braildesk.protocol.answers import Answer
from braildesk.protocol.fields import Choice, Unwritable
from braildesk.protocol.requests import (
    BY_NAME,
    REQUESTS,
    Command,
    Request,
    TableHead,
    fields_of,
)
from scribe.prompt.grammar import read_head
from tool import ROOT

#: Each request, with the bytes that docs/FORMATS.md gives it.
WRITTEN: list[tuple[Request[Any], str]] = [
    (requests.Table("t-1", b"space \\s 0\n"), "table t-1 1\nspace \\s 0\n"),
    (requests.Table("t", b"# a\r\n\n# b"), "table t 3\n# a\r\n\n# b\n"),
    (requests.Table("t", b""), "table t 0\n"),
    (requests.Supply("en"), "supply en\n"),
    (requests.Type("end", "en", "a b"), "type end en a b\n"),
    (requests.Type("front", "en", " a "), "type front en  a \n"),
    (requests.Type(12, "en", ""), "type 12 en \n"),
    (requests.Correct(1, 4, 3, "moon"), "correct 1 4 3 moon\n"),
    (
        requests.CorrectBy(1, 4, 3, "moon", who="anna"),
        "correct-by anna 1 4 3 moon\n",
    ),
    (requests.Undo(7), "undo 7\n"),
    (requests.Mark(1, 5, 4, "spelled so?"), "mark 1 5 4 spelled so?\n"),
    (requests.Mark(1, 5, 4), "mark 1 5 4 \n"),
    (requests.Resolve(3), "resolve 3\n"),
    (requests.Strike(3), "strike 3\n"),
    (requests.Restore(3), "restore 3\n"),
    (requests.Style(3, Style.HEADING), "style 3 heading\n"),
    (requests.Style(3, Style.BODY), "style 3 body\n"),
    (requests.Volume(3, True), "volume 3 on\n"),
    (requests.Volume(3, False), "volume 3 off\n"),
    (requests.Retable(3, "de"), "retable 3 de\n"),
    (requests.Move(3, "front"), "move 3 front\n"),
    (requests.Move(3, 2**53), "move 3 9007199254740992\n"),
    (requests.Print(3), "print 3\n"),
    (requests.Braille(3), "braille 3\n"),
    (requests.History(3), "history 3\n"),
    (requests.Marks(3), "marks 3\n"),
    (requests.Where(3, 20), "where 3 20\n"),
    (requests.Whence(3, 24), "whence 3 24\n"),
    (requests.List(), "list\n"),
    (requests.Version(), "version\n"),
    (requests.Undo(7, expect=0), "@0 undo 7\n"),
    (requests.Table("t", b"# a\n", expect=4), "@4 table t 1\n# a\n"),
    (
        requests.CorrectBy(1, 0, 0, "é", who="z\tk", expect=9),
        "@9 correct-by z\tk 1 0 0 é\n",
    ),
]


@pytest.mark.parametrize(("request_", "written"), WRITTEN, ids=lambda v: repr(v)[:40])
def test_a_request_is_written_as_its_form_says(
    request_: Request[Any], written: str
) -> None:
    assert request_.encoded() == written.encode()


@pytest.mark.parametrize(("request_", "written"), WRITTEN, ids=lambda v: repr(v)[:40])
def test_a_request_that_was_written_is_read_as_it_was(
    request_: Request[Any], written: str
) -> None:
    head, _, text = written.partition("\n")
    read = read_head(head.encode())
    if isinstance(read, TableHead):
        read = read.request(text.encode())
        request_ = replace(request_, text=text.encode())
    assert read == request_


def test_each_kind_of_request_is_among_those_that_are_tried() -> None:
    assert len(REQUESTS) == len(BY_NAME) == 22
    assert set(REQUESTS) == {type(request) for request, _ in WRITTEN}


def test_each_request_has_its_help_and_commands_what_they_keep() -> None:
    for kind in REQUESTS:
        assert re.fullmatch(r"[A-Z].*\.", kind.__doc__ or ""), kind
        read = BY_NAME[kind.name].read(kind.example.partition(" ")[2] or None)
        if isinstance(read, TableHead):
            assert kind.example == f"table {read.table} {read.lines}"
            read = read.request(b"")
        else:
            assert " ".join(read.head()) == kind.example
        assert type(read) is kind
        if isinstance(read, Command):
            assert not re.search("[{}]", read.in_words())


def test_the_document_has_the_form_of_each_request() -> None:
    document = (ROOT / "docs" / "FORMATS.md").read_text()
    rows = document.split("| head line | request |\n", 1)[1].split("\n\n", 1)[0]
    columns = [line.split("|")[1] for line in rows.splitlines()[1:]]
    forms = [form for text in columns for form in re.findall(r"`([^`]+)`", text)]
    assert forms == [line for kind in REQUESTS for line in lines_of_form(kind)]


def lines_of_form(kind: type[Request[Any]]) -> list[str]:
    """The form of a request, once for each word of a field that is one of a few."""
    for field in fields_of(kind).values():
        if isinstance(field, Choice):
            return [kind.form().replace(field.word, word) for word in field.words]
    return [kind.form()]


class Unsent(Session):
    """A session that sends nothing, and remembers what it was asked for."""

    def __init__(self) -> None:
        self.asked: list[Request[Any]] = []

    def ask(self, request: Request[Answer]) -> Answer:
        self.asked.append(request)
        return cast(Answer, None)


#: A value for each argument of a request.
VALUES: dict[str, object] = {
    "table": "en",
    "text": "moon",
    "after": 11,
    "paragraph": 12,
    "start": 13,
    "count": 14,
    "cell": 15,
    "place": 16,
    "mark": 17,
    "expect": 18,
    "note": "so?",
    "who": "anna",
    "style": Style.HEADING,
    "begins": True,
}
OTHER_METHODS = {
    *("ask", "reply", "each", "close", "fileno", "tables", "take_over", "guard"),
    "hasten",
}


def test_a_session_has_a_method_for_each_request() -> None:
    session = Unsent()
    methods = {
        name: method
        for name, method in {**vars(Asking), **vars(Session)}.items()
        if callable(method) and name[0] != "_" and name not in OTHER_METHODS
    }
    for name, method in methods.items():
        assert not hasattr(builtins, name)
        names = list(inspect.signature(method).parameters)[1:]
        given = {each: VALUES["who" if each == "by" else each] for each in names}
        method(session, **given)
        if given.pop("by", None):
            method(session, **given)
    assert {type(each) for each in session.asked} == set(REQUESTS)
    assert len(session.asked) == len(REQUESTS) == len(methods) + 1
    for request in session.asked:
        for each in fields(request):
            assert getattr(request, each.name) == VALUES[each.name], request


#: What can't be written: the code by which it is refused, and the place of what is wrong.
UNWRITABLE: list[tuple[Request[Any], int, int | None]] = [
    (requests.Type("end", "en", "a\nundo 1"), 6, 1),
    (requests.Type("end", "en", "ab\r"), 6, 2),
    (requests.Correct(1, 0, 0, "\0"), 6, 0),
    (requests.Mark(1, 0, 1, "so\nno"), 6, 2),
    (requests.Type("end", "en", "abc\ud83d"), 1, 3),
    (requests.Mark(1, 0, 1, "\udcff"), 1, 0),
    (requests.Type("end", "en", "x" * 65_525), 14, None),
    (requests.Correct(1, 0, 0, "€" * 21_845), 14, None),
    (requests.Mark(1, 0, 1, "x" * 65_536), 14, None),
    (requests.Supply(""), 17, None),
    (requests.Supply("en\nundo 1"), 17, None),
    (requests.Supply("e n"), 17, None),
    (requests.Supply("x" * 65_536), 17, None),
    (requests.Table("en\r", b""), 17, None),
    (requests.Type("end", "e n", "a"), 3, None),
    (requests.Type("end", "x" * 65_536, "a"), 3, None),
    (requests.Retable(1, "en\n"), 3, None),
    (requests.Retable(1, "x" * 65_536), 3, None),
    (requests.CorrectBy(1, 0, 0, "a", who=""), 18, None),
    (requests.CorrectBy(1, 0, 0, "a", who="a b"), 18, None),
    (requests.CorrectBy(1, 0, 0, "a", who="a\n"), 18, None),
    (requests.CorrectBy(1, 0, 0, "a", who="x" * 65_536), 18, None),
    (requests.Print(-1), 1, None),
    (requests.Print(2**53 + 1), 1, None),
    (requests.Type("end\nundo 1", "en", "a"), 1, None),  # type: ignore[arg-type]
    (requests.Undo(1, expect=-1), 1, None),
]


@pytest.mark.parametrize(
    ("request_", "code", "place"), UNWRITABLE, ids=lambda v: repr(v)[:40]
)
def test_what_would_break_the_form_of_a_request_is_not_written(
    request_: Request[Any], code: int, place: int | None
) -> None:
    with pytest.raises(Unwritable) as caught:
        request_.encoded()
    assert (caught.value.code, caught.value.place) == (code, place)


def test_a_line_of_just_as_many_bytes_as_fit_is_written() -> None:
    assert len(requests.Type("end", "en", "x" * 65_524).encoded()) == 65_537


@pytest.mark.parametrize(
    ("text", "line", "cause"),
    [
        (b"# a\n" * 20_001, 20_001, 8),
        (b"# a\n#" + b"x" * 65_536, 2, 8),
        (b"# a\n# \xff\n#" + b"x" * 65_536, 2, 9),
        (b"#" + b"x" * 65_536 + b"\n# \xe2\x82", 2, 9),
    ],
)
def test_a_table_that_is_too_long_to_be_sent_is_refused_as_the_program_would(
    text: bytes, line: int, cause: int
) -> None:
    with pytest.raises(Unwritable) as caught:
        requests.Table("t", text).encoded()
    fault = caught.value
    assert (fault.code, fault.line, fault.cause) == (8, line, cause)


def test_every_request_is_answered_by_its_values(session: Session) -> None:
    assert session.last_version == 1
    assert session.add_paragraph("end", "en", "The mon is far.") == Typed(2, 1)
    assert session.print_of(1) == "The mon is far."
    assert session.braille_of(1) == "⠠⠞⠓⠑⠀⠍⠕⠝⠀⠊⠎⠀⠋⠁⠗⠲"
    assert session.correct(1, 4, 3, "moon") == Corrected(3, 1)
    assert session.correct(1, 12, 2, "ne", by="anna") == Corrected(4, 2)
    assert session.undo(1) == Corrected(5, 3)
    assert session.print_of(1) == "The moon is far."
    assert session.history_of(1) == (
        Entry(1, Kind.CORRECT, 4, 3, "moon", None, None),
        Entry(2, Kind.CORRECT, 12, 2, "ne", "anna", None),
        Entry(3, Kind.UNDO, 0, 0, "", None, 2),
    )
    assert session.add_mark(1, 5, 4, "spelled  so? ") == Marked(6, 1)
    assert session.add_mark(1, 0, 1) == Marked(7, 2)
    assert session.resolve_mark(2) == Done(8)
    assert session.correct(1, 4, 0, "full ") == Corrected(9, 4)
    assert session.correct(1, 10, 1, "o") == Corrected(10, 5)
    assert session.marks_of(1) == (
        Mark(1, 9, 13, False, True, "spelled  so? "),
        Mark(2, 0, 1, True, False, ""),
    )
    assert (session.output_position(1, 4), session.input_position(1, 5)) == (5, 4)
    assert session.put_table("de", b"space \\s 0\nletter a 1\n") == Done(11)
    assert session.add_paragraph("front", "de", "a a") == Typed(12, 2)
    assert session.set_table(2, "en") == Done(13)
    assert session.set_style(2, "heading") == Done(14)
    assert session.set_begins_volume(1, True) == Done(15)
    assert session.strike(1) == Done(16)
    assert session.paragraphs() == (
        Paragraph(2, "en", Style.HEADING, False, False, 3),
        Paragraph(1, "en", Style.BODY, True, True, 21),
    )
    assert session.restore(1) == Done(17)
    assert session.set_style(2, Style.BODY) == Done(18)
    assert session.set_begins_volume(1, False) == Done(19)
    assert session.move(2, 1) == Done(20)
    assert session.supply_table("x") == Done(21)
    assert [paragraph.id for paragraph in session.paragraphs()] == [1, 2]
    assert session.version() == session.last_version == 21


def test_a_command_that_expects_the_version_is_kept(session: Session) -> None:
    assert session.add_paragraph(
        "end", "en", "a", expect=session.last_version
    ) == Typed(2, 1)
    assert session.correct(1, 0, 0, "b", by="z", expect=2) == Corrected(3, 1)


def test_empty_texts_come_back_empty(session: Session) -> None:
    session.add_paragraph("end", "en", "")
    assert (session.print_of(1), session.braille_of(1)) == ("", "")
    assert (session.history_of(1), session.marks_of(1)) == ((), ())


def test_a_new_book_lists_nothing(empty_book: Path) -> None:
    with Session(empty_book) as session:
        assert (session.paragraphs(), session.version()) == ((), 0)


def test_texts_come_back_as_they_are_kept(session: Session) -> None:
    text = "line\u0085of\u2028an\u2029odd\x0bone\x0c\x1c\x1d\x1e\t\xa0"
    lines = (f"letter \\x{ord(character):04x} 1\n" for character in sorted(set(text)))
    session.put_table("odd", "".join(lines).encode())
    session.add_paragraph("end", "odd", text)
    assert session.print_of(1) == text
    session.correct(1, 0, 4, "\t\x0b", by="a\u0085b\tc")
    session.add_mark(1, 0, 1, text + " ")
    assert session.history_of(1) == (
        Entry(1, Kind.CORRECT, 0, 4, "\t\x0b", "a\u0085b\tc", None),
    )
    assert session.marks_of(1)[0].note == text + " "


#: What is asked with a value of another type, and the sentence of the exception.
WRONG: list[tuple[Callable[[Any], Any], str]] = [
    (
        lambda session: session.add_paragraph("end", "en", 3),
        "In a request type, text has to be a string, and is 3.",
    ),
    (
        lambda session: session.add_paragraph("end", "en", b"The moon"),
        "In a request type, text has to be a string, and is b'The moon'.",
    ),
    (
        lambda session: session.add_paragraph("end", None, "The moon"),
        "In a request type, table has to be a string, and is None.",
    ),
    (
        lambda session: session.add_paragraph(1.0, "en", "The moon"),
        'In a request type, after has to be a whole number, "front" or "end", and is 1.0.',
    ),
    (
        lambda session: session.correct(1, 0.0, 3, "a"),
        "In a request correct, start has to be a whole number, and is 0.0.",
    ),
    (
        lambda session: session.correct(1, 0, 3, "a", by=3),
        "In a request correct-by, who has to be a string, and is 3.",
    ),
    (
        lambda session: session.undo(1, expect="2"),
        "In a request undo, expect has to be a whole number, and is '2'.",
    ),
    (
        lambda session: session.print_of("1"),
        "In a request print, paragraph has to be a whole number, and is '1'.",
    ),
    (
        lambda session: session.put_table("own", "space \\s 0"),
        "In a request table, text has to be bytes, and is 'space \\\\s 0'.",
    ),
    (
        lambda session: session.set_style(1, 3),
        "In a request style, style has to be a string, and is 3.",
    ),
    (
        lambda session: session.set_begins_volume(1, "on"),
        "In a request volume, begins has to be True or False, and is 'on'.",
    ),
    (
        lambda session: list(session.each([requests.Where(1, None)])),
        "In a request where, place has to be a whole number, and is None.",
    ),
]


@pytest.mark.parametrize(("asked", "sentence"), WRONG)
def test_a_value_of_another_type_is_an_error_before_anything_is_sent(
    session: Session, asked: Callable[[Any], Any], sentence: str
) -> None:
    version = session.last_version
    with pytest.raises(TypeError) as found:
        asked(session)
    assert str(found.value) == f"{sentence} Nothing was sent."
    assert session.version() == version


def test_bytes_that_may_change_are_bytes_of_a_table(session: Session) -> None:
    session.put_table("own", bytearray(b"space \\s 0\nletter a 1\n"))
    session.add_paragraph("end", "own", "a a")
    assert session.braille_of(1) == "\u2801\u2800\u2801"


def test_a_word_that_is_no_style_is_an_error(session: Session) -> None:
    with pytest.raises(ValueError, match="'title' is not a valid Style"):
        session.set_style(1, cast(Style, "title"))
