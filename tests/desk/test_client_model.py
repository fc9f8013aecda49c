"""Random commands through the client, beside a small model of prints and marks.

The model is written from docs/FORMATS.md and, of marks that move, from what
crates/desk_model/specs/Marks.antt says of them, for two tables without signs.
"""

import os
import shutil
import unicodedata
from dataclasses import dataclass, field
from pathlib import Path
from typing import Any

import pytest
from hypothesis import HealthCheck, given, settings
from hypothesis import strategies as st

from braildesk import Entry, Kind, Mark, Paragraph, Refused, Session, Style, requests
from braildesk.protocol.requests import Request

RUNS = int(os.environ.get("DESK_RUNS", "200"))

#: The cells of each character, by the two tables of the books that are tried. By ``many`` the
#: letters ab have one cell together, and b has two where it stands alone.
MANY = {" ": "⠀", "a": "⠁", "b": "⠃⠄", "e": "⠑", "é": "⠿", "\u0301": "⠈"}
FEW = {" ": "⠀", "a": "⠁", "e": "⠑"}
TABLES = {"many": MANY, "few": FEW}
TEXTS = {
    "many": b"space \\s 0\nletter a 1\nletter b 12-3\nletter e 15\nletter \\x00e9 123456\n"
    b"letter \\x0301 4\nalways ab 1246\n",
    "few": b"space \\s 0\nletter a 1\nletter e 15\n",
}


@dataclass
class ModelMark:
    """A mark and its paragraph."""

    paragraph: int
    start: int
    stop: int
    note: str
    is_resolved: bool = False
    is_touched: bool = False

    def move(self, start: int, gone: int, come: int) -> None:
        """Goes with the print where characters give way to others."""
        if self.stop <= start:
            return
        if self.start >= start + gone:
            self.start += come - gone
            self.stop += come - gone
            return
        self.start = min(self.start, start)
        self.stop = max(self.stop, start + gone) + come - gone
        self.is_touched = True


@dataclass
class ModelParagraph:
    """A paragraph with the corrections in force, each with what it replaced."""

    id: int
    table: str
    text: str
    entries: list[Entry] = field(default_factory=list)
    in_force: list[tuple[Entry, str]] = field(default_factory=list)
    style: Style = Style.BODY
    begins_volume: bool = False
    is_struck: bool = False

    def choices(self) -> list[tuple[int, str]]:
        """The choices along the print: how many characters each covers, and its cells."""
        found = []
        place = 0
        while place < len(self.text):
            if self.table == "many" and self.text.startswith("ab", place):
                found.append((2, "⠫"))
            else:
                found.append((1, TABLES[self.table][self.text[place]]))
            place += found[-1][0]
        return found

    def braille(self) -> str:
        return "".join(cells for _, cells in self.choices())

    def spans(self) -> list[tuple[int, int]]:
        """The places that each cell was made from, up to but not including the second."""
        spans = []
        place = 0
        for covered, cells in self.choices():
            spans += [(place, place + covered)] * len(cells)
            place += covered
        return spans

    def lacks(self, text: str, table: str) -> bool:
        return any(character not in TABLES[table] for character in text)


class ModelRefusal(Exception):
    """A refusal by a code."""


@dataclass
class ModelBook:
    """A book whose tables never change."""

    version: int
    paragraphs: list[ModelParagraph] = field(default_factory=list)
    marks: list[ModelMark] = field(default_factory=list)

    def paragraph(self, id: int) -> ModelParagraph:
        for paragraph in self.paragraphs:
            if paragraph.id == id:
                return paragraph
        raise ModelRefusal(2)

    def live(self, id: int) -> ModelParagraph:
        paragraph = self.paragraph(id)
        judge(paragraph.is_struck, 11)
        return paragraph

    def put(self, paragraph: ModelParagraph, after: Any) -> None:
        if after == "front":
            self.paragraphs.insert(0, paragraph)
        elif after == "end":
            self.paragraphs.append(paragraph)
        else:
            self.paragraphs.insert(
                self.paragraphs.index(self.paragraph(after)) + 1, paragraph
            )

    def replace(
        self, paragraph: ModelParagraph, start: int, count: int, text: str
    ) -> str:
        """Puts a text in place of characters, and gives what stood there."""
        gone = paragraph.text[start : start + count]
        paragraph.text = paragraph.text[:start] + text + paragraph.text[start + count :]
        for mark in self.marks:
            if mark.paragraph == paragraph.id:
                mark.move(start, count, len(text))
        return gone

    def apply(self, request: Request[Any]) -> None:
        """Carries a command out, or raises the code by which it is refused."""
        # what can't be sent is refused before the book sees it
        judge(any(c in "\n\r\0" for c in getattr(request, "text", "")), 6)
        expect = getattr(request, "expect")
        judge(expect is not None and expect != self.version, 16)
        match request:
            case requests.Type():
                self.type(request)
            case requests.Correct():
                self.correct(request)
            case requests.Undo(paragraph=id):
                self.undo(self.live(id))
            case requests.Mark():
                self.mark(request)
            case requests.Resolve(mark=id):
                judge(not 1 <= id <= len(self.marks), 4)
                judge(self.marks[id - 1].is_resolved, 13)
                self.marks[id - 1].is_resolved = True
            case requests.Strike(paragraph=id):
                self.live(id).is_struck = True
            case requests.Restore(paragraph=id):
                judge(not self.paragraph(id).is_struck, 12)
                self.paragraph(id).is_struck = False
            case requests.Style(paragraph=id, style=style):
                self.paragraph(id).style = style
            case requests.Volume(paragraph=id, begins=begins):
                self.paragraph(id).begins_volume = begins
            case requests.Retable():
                self.retable(request)
            case requests.Move():
                self.move(request)
        self.version += 1

    def type(self, request: requests.Type) -> None:
        if isinstance(request.after, int):
            self.paragraph(request.after)
        judge(request.table not in TABLES, 3)
        text = unicodedata.normalize("NFC", request.text)
        new = ModelParagraph(len(self.paragraphs) + 1, request.table, text)
        judge(new.lacks(text, new.table), 7)
        self.put(new, request.after)

    def correct(self, request: requests.Correct) -> None:
        paragraph = self.live(request.paragraph)
        judge(request.start + request.count > len(paragraph.text), 5)
        text = unicodedata.normalize("NFC", request.text)
        judge(paragraph.lacks(text, paragraph.table), 7)
        who = request.who if isinstance(request, requests.CorrectBy) else None
        entry = Entry(
            len(paragraph.entries) + 1,
            Kind.CORRECT,
            request.start,
            request.count,
            text,
            who,
            None,
        )
        gone = self.replace(paragraph, request.start, request.count, text)
        paragraph.entries.append(entry)
        paragraph.in_force.append((entry, gone))

    def undo(self, paragraph: ModelParagraph) -> None:
        judge(not paragraph.in_force, 10)
        entry, gone = paragraph.in_force[-1]
        judge(paragraph.lacks(gone, paragraph.table), 7)
        paragraph.in_force.pop()
        self.replace(paragraph, entry.start, len(entry.text), gone)
        seq = len(paragraph.entries) + 1
        paragraph.entries.append(Entry(seq, Kind.UNDO, 0, 0, "", None, entry.seq))

    def mark(self, request: requests.Mark) -> None:
        paragraph = self.live(request.paragraph)
        spans = paragraph.spans()
        last = request.cell + request.count - 1
        judge(request.count == 0 or last >= len(spans), 5)
        start, stop = spans[request.cell][0], spans[last][1]
        self.marks.append(ModelMark(paragraph.id, start, stop, request.note))

    def retable(self, request: requests.Retable) -> None:
        paragraph = self.paragraph(request.paragraph)
        judge(request.table not in TABLES, 3)
        judge(paragraph.is_struck, 11)
        judge(paragraph.lacks(paragraph.text, request.table), 7)
        paragraph.table = request.table

    def move(self, request: requests.Move) -> None:
        paragraph = self.paragraph(request.paragraph)
        if isinstance(request.after, int):
            self.paragraph(request.after)
        if request.after != paragraph.id:
            self.paragraphs.remove(paragraph)
            self.put(paragraph, request.after)


def judge(is_refused: bool, code: int) -> None:
    if is_refused:
        raise ModelRefusal(code)


NUMBERS = st.integers(0, 4)
PLACES = st.integers(0, 6)
AFTER = st.one_of(st.sampled_from(["front", "end"]), NUMBERS)
NAMES = st.sampled_from(["many", "many", "few", "none"])
SHORT = st.text("aabbe \u0301é", max_size=6)
ANY = st.one_of(SHORT, SHORT, SHORT, st.text("ab…\n\0", max_size=3))
EXPECT = st.one_of(st.none(), st.none(), st.none(), st.integers(2, 8))

COMMANDS: st.SearchStrategy[Request[Any]] = st.one_of(
    st.builds(requests.Type, AFTER, NAMES, ANY, expect=EXPECT),
    st.builds(requests.Correct, NUMBERS, PLACES, PLACES, ANY, expect=EXPECT),
    st.builds(
        requests.CorrectBy,
        NUMBERS,
        PLACES,
        PLACES,
        SHORT,
        who=st.sampled_from(["anna", "z\tk"]),
    ),
    st.builds(requests.Undo, NUMBERS, expect=EXPECT),
    st.builds(requests.Mark, NUMBERS, PLACES, PLACES, st.text("a ?…", max_size=4)),
    st.builds(requests.Mark, NUMBERS, PLACES, st.integers(1, 2)),
    st.builds(requests.Resolve, NUMBERS),
    st.builds(requests.Strike, NUMBERS),
    st.builds(requests.Restore, NUMBERS),
    st.builds(requests.Style, NUMBERS, st.sampled_from(Style)),
    st.builds(requests.Volume, NUMBERS, st.booleans()),
    st.builds(requests.Retable, NUMBERS, NAMES),
    st.builds(requests.Move, NUMBERS, AFTER),
)
#: Most books begin with some paragraphs, so that most commands have something to work on.
BOOKS = st.tuples(
    st.lists(
        st.builds(requests.Type, st.just("end"), st.just("many"), SHORT), max_size=3
    ),
    st.lists(COMMANDS, max_size=25),
).map(lambda parts: [*parts[0], *parts[1]])


@pytest.fixture(scope="module")
def tabled(made_once: Path, tmp_path_factory: pytest.TempPathFactory) -> Path:
    """A book with the two tables, at version 2."""
    path = tmp_path_factory.mktemp("model") / "tabled.braildesk"
    shutil.copyfile(made_once / "empty.braildesk", path)
    with Session(path) as session:
        for name, text in TEXTS.items():
            session.put_table(name, text)
    return path


def compare(session: Session, model: ModelBook) -> None:
    """Looks at all that the book shows."""
    assert session.version() == model.version
    assert session.paragraphs() == tuple(
        Paragraph(p.id, p.table, p.style, p.begins_volume, p.is_struck, len(p.text))
        for p in model.paragraphs
    )
    for paragraph in model.paragraphs:
        id, spans = paragraph.id, paragraph.spans()
        assert session.print_of(id) == paragraph.text
        assert session.braille_of(id) == paragraph.braille()
        assert session.history_of(id) == tuple(paragraph.entries)
        assert session.marks_of(id) == tuple(
            Mark(number, m.start, m.stop, m.is_resolved, m.is_touched, m.note)
            for number, m in enumerate(model.marks, 1)
            if m.paragraph == id
        )
        starts = [start for start, _ in spans]
        asked = [requests.Whence(id, cell) for cell in range(len(spans))]
        assert list(session.each(asked)) == starts
        places = [requests.Where(id, place) for place in range(len(paragraph.text))]
        first = [
            next(n for n, (start, stop) in enumerate(spans) if start <= place < stop)
            for place in range(len(paragraph.text))
        ]
        assert list(session.each(places)) == first


@settings(
    max_examples=RUNS,
    deadline=None,
    suppress_health_check=[HealthCheck.function_scoped_fixture, HealthCheck.too_slow],
)
@given(commands=BOOKS)
def test_random_commands_make_the_book_that_the_definitions_say(
    tabled: Path, tmp_path: Path, commands: list[Request[Any]]
) -> None:
    path = tmp_path / "book.braildesk"
    path.with_name("book.braildesk-wal").unlink(missing_ok=True)
    shutil.copyfile(tabled, path)
    model = ModelBook(2)
    wanted: list[int | None] = []
    for command in commands:
        try:
            model.apply(command)
        except ModelRefusal as refusal:
            wanted.append(refusal.args[0])
        else:
            wanted.append(None)
    with Session(path) as session:
        answers = list(session.each(commands))
        found = [a.code if isinstance(a, Refused) else None for a in answers]
        assert found == wanted
        compare(session, model)
    with Session(path) as session:
        compare(session, model)
