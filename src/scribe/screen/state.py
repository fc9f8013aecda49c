"""What the screen knows: all that is drawn, and all by which a key is understood."""

from collections.abc import Mapping, Sequence
from dataclasses import dataclass, field, replace
from enum import Enum, auto
from typing import Any

from braildesk import Mark, Paragraph, limits
from braildesk.desk.draft import Aim, Draft
from braildesk.desk.highlighting import Highlighted
from braildesk.desk.layout import PageSize
from braildesk.desk.readings import ParagraphReading
from braildesk.protocol.requests import Command, Resolve
from braildesk.text.spans import Span

from scribe.screen.actions import (
    Action,
    ByPages,
    ChangePlaces,
    ExportTo,
    FindPlaces,
    ImportFrom,
    LeaveChange,
    LeaveImport,
    OfWholeBook,
    Quit,
    SetVolumes,
    TakeBack,
    TypeAll,
)
from scribe.screen.field import Cut, Field, Purpose, joined_by_blanks
from scribe.words.deeds import Deed, imported, together
from scribe.words.preview import Preview


class Pane(Enum):
    """What the cursor stands on."""

    PRINT = auto()
    CELLS = auto()


@dataclass(frozen=True)
class Size:
    """The size of the terminal."""

    columns: int
    lines: int


@dataclass(frozen=True)
class Opening:
    """The first words of a listed paragraph, and how many of its marks are open."""

    words: str
    open_marks: int


class End(Enum):
    """What the last of some lines ended in, which parts it from what comes after it."""

    NOTHING = auto()
    BLANK = auto()
    #: The end of a line that was pasted: a blank, if anything comes after it.
    LINE = auto()
    #: Enter among keys: what is typed on is another line.
    ENTER = auto()


@dataclass(frozen=True)
class Question:
    """What is asked before something is done: y is yes, n is no, and what else there is."""

    sentence: str
    lines: tuple[str, ...] = ()
    #: Whether the last of the lines is typed on, so that y and n are letters of it until Enter.
    is_typed_on: bool = False
    #: What the last of the lines ended in, until it is typed on.
    end: End = End.NOTHING
    draft: Field | None = None
    #: The text that waits or was given up, as it was kept.
    saved: Draft | None = None
    #: A text that is too long for one paragraph, and may go on in a new one, in its two parts.
    parts: tuple[str, str] | None = None
    #: What is done if the answer is yes, or no, where the question is about a text in a file, about
    #: words that were being changed, about what is taken back, or about what can't be, or kept.
    yes: ImportFrom | FindPlaces | TakeBack | Resolve | Quit | None = None
    no: LeaveImport | LeaveChange | None = None
    #: The place of the text that U asks about next, if this one was given up.
    older: int | None = None
    #: Where the cursor was as U was pressed: the paragraph, the place and what that is in.
    came_from: tuple[int, int, Pane] | None = None
    more: str = ""
    #: The row of the cursor while keys go through it, where there is no room for all of it: it is the
    #: same question at each of them.
    row: int | None = field(default=None, compare=False)

    @property
    def is_offer(self) -> bool:
        """Whether no key has asked for it, so that who types on may not have read it."""
        is_of_waiting = self.draft is not None and self.older is None
        return is_of_waiting or isinstance(self.yes, ImportFrom | FindPlaces)


#: Where the cursor stands when it is on what is said above the lines that are looked at.
HEAD_LINE = -1


@dataclass(frozen=True)
class Target:
    """A place in the print of a paragraph to which a line of a list leads, and a mark there.

    Where several lines are about one entry of the list, its number is said, counted from 0.
    """

    paragraph: int
    place: int = 0
    mark: int | None = None
    nth: int | None = None


@dataclass(frozen=True)
class Pages:
    """Lines that are looked at in place of the book.

    The top, and the place of the cursor, are lines as they stand on the screen, where a long one
    takes several; they are counted from 0.
    """

    title: str
    lines: tuple[str, ...]
    top: int = 0
    place: int = HEAD_LINE
    #: Where Enter goes from each of the lines, if this is a list to go by.
    targets: tuple[Target, ...] = ()
    #: What the list offers to be done with what is on it.
    offer: ChangePlaces | SetVolumes | None = None
    #: What was looked at before, to which Escape goes back.
    under: "Pages | None" = None


@dataclass(frozen=True)
class InHand:
    """The mark that is worked on: one that n or N went to, that was put, or that an edit began on.

    It is in hand while the cursor stays where it was then, also where an edit took the cursor past
    the words of the mark.
    """

    mark: int
    paragraph: int
    pane: Pane
    place: int


@dataclass(frozen=True)
class WordsFound:
    """The cells of what was found, which a mark is put on while the cursor stays at its front.

    The braille is that of the paragraph then: if it is another one, they may be others by now.
    """

    paragraph: int
    pane: Pane
    place: int
    cells: Span
    braille: str
    #: How many characters or cells were found.
    count: int


@dataclass(frozen=True)
class State:
    """What the screen knows."""

    name: str
    version: int
    book: tuple[Paragraph, ...]
    tables: tuple[str, ...]
    size: Size
    by: str | None = None
    is_ascii: bool = False
    #: Whether dots 7 and 8 of cells say what is marked, and what belongs to the cursor.
    has_dots: bool = False
    #: Whether neither the list of paragraphs nor the braille of what is typed is shown.
    is_quiet: bool = False
    #: Whether the page and line are said of marks and words that are gone to.
    says_pages: bool = False
    #: The encoding of the terminal.
    encoding: str = "utf-8"
    #: The size of the pages that are looked at and exported.
    page_size: PageSize = PageSize()
    #: The place of the chosen paragraph in the book, and of the first that is listed.
    chosen: int = 0
    top: int = 0
    pane: Pane = Pane.PRINT
    #: The character, or the cell, on which the cursor stands, counted from 0.
    place: int = 0
    #: The cell at which a choice of cells began.
    anchor: int | None = None
    openings: Mapping[int, Opening] = field(default_factory=dict)
    reading: ParagraphReading | None = None
    #: The cells of the open marks of the paragraph.
    marked_cells: tuple[Span, ...] = ()
    highlighted: Highlighted | None = None
    in_hand: InHand | None = None
    found: WordsFound | None = None
    typed: Field | None = None
    #: The purposes of which a hint was said already: it is said once.
    hinted: frozenset[Purpose] = frozenset()
    #: What was last cut out of a text for the book, and out of an answer since then.
    cut: Cut | None = None
    answer_cut: Cut | None = None
    #: A text that Enter ended, while nothing else is done: it came among keys that came all at once, or
    #: the book didn't get the text.
    ended: Field | None = None
    preview: Preview | None = None
    question: Question | None = None
    pages: Pages | None = None
    #: What was looked for last, and whether words that are only like it are found too.
    sought: str = ""
    finds_alike: bool = False
    #: The words that go, while those are typed that come in their place.
    gone: str = ""
    #: What was last typed for each purpose that isn't for the book, which Up brings back.
    answers: Mapping[Purpose, str] = field(default_factory=dict)
    #: Words that were to be changed, and those in their place, when scribe last ended.
    unchanged: tuple[str, str] = ("", "")
    #: The table of a new paragraph if no paragraph is chosen.
    table: str | None = None
    #: What keys did in this session and didn't take back, the newest last.
    deeds: tuple[Deed, ...] = ()
    #: What is in the way of keeping what is typed.
    unkept: str = ""
    #: What has to be said, how many keys in a row said it, and what was last kept, if that is known.
    message: str = ""
    times: int = 1
    kept: str | None = ""
    #: What was last said of something that wasn't done.
    failure: str = ""
    #: The first row that is seen of what is said, while keys go through what has no room.
    said_row: int = 0
    #: The session with the book ended by itself.
    is_lost: bool = False
    #: What was kept isn't in the file that stands at the path now.
    is_displaced: bool = False
    #: What is going on beside the screen.
    away: (
        ExportTo | ImportFrom | ByPages | TakeBack | OfWholeBook | TypeAll | None
    ) = None
    is_over: bool = False

    @property
    def paragraph(self) -> Paragraph | None:
        """The chosen paragraph, none if the book is empty."""
        return self.book[self.chosen] if self.book else None

    @property
    def is_typing(self) -> bool:
        """Whether keys are for what is typed, and not for lines that are looked at in its place.

        The volumes stay in sight above the line on which the most pages of one are typed.
        """
        if self.typed is None or self.pages is None:
            return self.typed is not None
        is_of_volumes = isinstance(self.pages.offer, SetVolumes)
        return is_of_volumes and self.typed.purpose is Purpose.PAGES

    @property
    def joined(self) -> Field | None:
        """What is typed: while something is asked about its lines, all of them joined."""
        typed, question = self.typed, self.question
        if typed is None or question is None or not question.lines:
            return typed
        text = joined_by_blanks(question.lines)
        return replace(typed, text=text, place=len(text) - len(typed.back))

    @property
    def shown(self) -> Field | None:
        """What is typed as it is shown: lines that are asked about too, or what fits into a print."""
        joined = self.joined
        most = limits.PRINT_CHARACTERS
        if joined is None or joined == self.typed or len(joined.text) <= most:
            return joined
        front = joined.text[:most]
        return replace(joined, text=front, place=len(front))

    @property
    def cut_kept(self) -> Cut | None:
        """What is kept of what was cut: what was for the book first of all."""
        return self.cut or self.answer_cut

    @property
    def list_lines(self) -> int:
        """How many paragraphs are listed."""
        return max(2, (self.size.lines - 6) // 3)

    @property
    def listed(self) -> tuple[Paragraph, ...]:
        """The paragraphs that are listed."""
        return self.book[self.top : self.top + self.list_lines]

    @property
    def chosen_cells(self) -> Span | None:
        """The cells on which a mark would stand."""
        if self.anchor is not None and self.pane is Pane.CELLS:
            first, last = sorted((self.anchor, self.place))
            return Span(first, last + 1)
        if self.found_here is not None:
            return self.found_here.cells
        return self.highlighted.cells if self.highlighted else None

    @property
    def found_here(self) -> WordsFound | None:
        """What was found, while the cursor stays at its front."""
        found, its = self.found, self.reading
        if found is None or its is None or found.braille != its.braille:
            return None
        here = (its.paragraph.id, self.pane, self.place)
        return found if (found.paragraph, found.pane, found.place) == here else None

    @property
    def mark_in_hand(self) -> Mark | None:
        """The mark that is worked on, as long as the cursor hasn't moved since."""
        held, reading = self.in_hand, self.reading
        if held is None or reading is None:
            return None
        here = InHand(held.mark, reading.paragraph.id, self.pane, self.place)
        if held != here:
            return None
        return next((mark for mark in reading.marks if mark.id == held.mark), None)

    @property
    def marks_here(self) -> tuple[Mark, ...]:
        """The marks on the characters of the cursor, and the one in hand.

        Open ones come first, and of those the one in hand: it is the first that r resolves.
        """
        if self.reading is None or self.highlighted is None:
            return ()
        held = self.mark_in_hand
        found = (m for m in self.reading.marks if m == held or self.is_on(m))
        return tuple(sorted(found, key=lambda mark: (mark.resolved, mark != held)))

    def is_on(self, mark: Mark) -> bool:
        """Whether the cursor is on a mark of its paragraph; the one in hand may be elsewhere."""
        assert self.reading is not None and self.highlighted is not None
        last = max(0, len(self.reading.text) - 1)
        return _stands_on(mark, self.highlighted.words, last)

    @property
    def marked_words(self) -> tuple[Span, ...]:
        """The words of the open marks of the paragraph."""
        marks = self.reading.marks if self.reading else ()
        return tuple(Span(m.start, m.stop) for m in marks if not m.resolved)

    @property
    def opens(self) -> str:
        """What Enter opens once the session has ended; another file may be at the path then, or none."""
        return "what is at the path" if self.is_displaced else "the book again"

    @property
    def heard(self) -> str:
        """What has to be said, otherwise than before, so that it is drawn and spoken once more.

        Where nothing has to be, it is said of a text that is typed why it isn't kept, or else what its
        key said first.
        """
        if not self.message:
            is_asked = self.question is not None or self.is_lost
            typed = self.typed if self.is_typing and not is_asked else None
            return (self.unkept or typed.said) if typed else ""
        again = {1: "", 2: "Again: "}.get(self.times, f"{self.times} times now: ")
        return again + self.message

    def after(self, before: "State") -> "State":
        """The state after a key, which may have said the same as the one before it.

        On one line, where no title says what was kept, that is said.
        """
        state = self._saying_kept(before) if self.size.lines < 2 else self
        is_again = state.message == before.message != ""
        return replace(state, times=before.times + 1 if is_again else 1)

    def _saying_kept(self, before: "State") -> "State":
        """The state in which it is said what was kept since another one, before what else is said."""
        is_same = self.kept == before.kept
        if (
            not self.kept
            or is_same
            and (self.message or self.version == before.version)
        ):
            return self
        return saying_first(f"Kept: {self.kept.removeprefix('kept: ')}.", self)

    def saying(self, sentence: str) -> "State":
        """The state with something to say."""
        return replace(self, message=sentence, said_row=0)

    def failing(self, sentence: str) -> "State":
        """The state with something to say of what wasn't done, which has to be read."""
        return replace(self.saying(sentence), failure=sentence)

    @property
    def says_failure(self) -> bool:
        """Whether what has to be said is that something wasn't done."""
        return bool(self.failure) and self.failure in self.message

    def saying_too(self, sentence: str) -> "State":
        """The state with something to say after what is said already, and that once."""
        if sentence in self.message:
            return replace(self)
        return self.saying(f"{self.message} {sentence}".lstrip())

    def at(self, chosen: int, place: int = 0) -> "State":
        """The state with another paragraph chosen, within the book, and listed."""
        chosen = max(0, min(chosen, len(self.book) - 1))
        top = min(self.top, chosen)
        top = max(top, chosen - self.list_lines + 1)
        top = max(0, min(top, len(self.book) - self.list_lines))
        return replace(
            self, chosen=chosen, top=top, place=place, anchor=None, highlighted=None
        )


@dataclass(frozen=True)
class Step:
    """What a key asks for: the state after it, and a command or an action that goes with it."""

    state: State
    asked: Command[Any] | Action | None = None


def _stands_on(mark: Mark, words: Span, last: int) -> bool:
    """Whether a mark stands on some of these words; without words of its own, on one character."""
    start = min(mark.start, last)
    stop = max(mark.stop, start + 1)
    return start < max(words.stop, words.start + 1) and words.start < stop


def done_by_one_key(state: State, before: int) -> State:
    """The state in which what was done since there were so many deeds is one deed."""
    done = state.deeds[before:]
    if len(done) < 2:
        return state
    return replace(state, deeds=(*state.deeds[:before], together(done)))


def with_imported(
    before: State, after: State, count: int | None, lacking: Sequence[Command[Any]]
) -> State:
    """The state with an import, of so many paragraphs if that is known, as a deed, if it was alone.

    It first did what an earlier part of it lacked.
    """
    commands = after.version - before.version
    deed = imported(before.book, after.book, commands, count, lacking)
    return after if deed is None else replace(after, deeds=(*before.deeds, deed))


def so_far(state: State, done: int) -> State:
    """The state after so many commands that take back what a key last did."""
    *earlier, deed = state.deeds
    rest = deed.back[done:]
    left = [replace(deed, back=rest, taken=deed.taken + done)] if rest else []
    return replace(state, deeds=(*earlier, *left))


def saying_first(sentence: str, state: State) -> State:
    """The state in which a sentence is said before what has to be said anyway."""
    return state.saying(f"{sentence} {state.message}".strip())


def prompted(state: State, purpose: Purpose, said: str = "", hint: str = "") -> State:
    """The state in which a text is typed, with what is said of it; a hint is said the first time."""
    if hint and purpose not in state.hinted:
        said = f"{said} {hint}".lstrip()
    field = Field(purpose, said=said)
    return replace(state, typed=field, hinted=state.hinted | {purpose})


def at_paragraph(state: State, number: int) -> State:
    """The state with a paragraph chosen, if the book has it."""
    if state.paragraph and state.paragraph.id == number:
        return state
    places = [n for n, each in enumerate(state.book) if each.id == number]
    return state.at(places[0]) if places else state


def listed_places(state: State) -> ChangePlaces | None:
    """The places of words that are listed, also below other lines that are looked at; or none."""
    pages = state.pages
    while pages is not None:
        if isinstance(pages.offer, ChangePlaces):
            return pages.offer
        pages = pages.under
    return None


def draft_of(state: State) -> Draft | None:
    """What is typed and not in the book yet."""
    typed = state.typed
    if typed is None or not typed.purpose.is_for_book:
        return None
    pasted = state.question.lines if state.question else ()
    text = "\n".join(line for line in pasted if line) or typed.text
    before = state.reading.text if state.reading else ""
    if not text or typed.purpose is Purpose.EDIT and text == before:
        return None
    before = before if typed.before is None else typed.before
    number = state.paragraph.id if state.paragraph else None
    cells = state.chosen_cells if typed.purpose is Purpose.NOTE else None
    aim = Aim[typed.purpose.name]
    its = (aim, number, state.table, before, text, cells, state.version)
    # of lines nobody knows in which of them it would be
    place = None if pasted else typed.place
    return Draft(*its, typed.words, place=place)


def lines_typed(state: State) -> tuple[str, ...]:
    """What is typed, in its lines if these are asked about; none if it is empty."""
    question, typed = state.question, state.typed
    lines = question.lines if question else ()
    return tuple(filter(None, lines or ((typed.text,) if typed else ())))


def size_typed(state: State) -> str:
    """The size of pages as it would be typed."""
    return f"{state.page_size.width} {state.page_size.lines}"


def answered_with(state: State, typed: Field | None) -> State:
    """The state in which Up brings back what is typed, if it isn't for the book."""
    if typed is None or typed.purpose.is_for_book or not typed.text:
        return state
    if typed.purpose is Purpose.SIZE and typed.text == size_typed(state):
        # which stands there before anything is typed
        return state
    return replace(state, answers={**state.answers, typed.purpose: typed.text})


def without_typed(state: State) -> State:
    """The state in which nothing is typed; what isn't for the book is brought back by Up."""
    state = replace(answered_with(state, state.typed), unchanged=words_of(state))
    return replace(state, typed=None, preview=None)


def words_of(state: State) -> tuple[str, str]:
    """Words that are typed to be changed and to come in their place, or were before; or none."""
    typed = state.typed
    if typed is not None and typed.purpose is Purpose.NEW:
        return state.gone, typed.text
    if typed is not None and typed.purpose is Purpose.OLD and typed.text:
        return typed.text, ""
    return state.unchanged


def draft_of_pasted(state: State, text: str) -> Draft:
    """A text that was pasted where nothing is typed, as one of a new paragraph."""
    lines = [line.strip() for line in text.replace("\r", "\n").split("\n")]
    text = "\n".join(line.replace("\t", " ") for line in lines if line)
    its = state.paragraph
    table = its.table if its else state.table
    number = its.id if its else None
    return Draft(Aim.AFTER, number, table, "", text, None, state.version)


def field_of(draft: Draft) -> Field:
    """The text of a draft as it is typed further, from the place where it was left if that is known."""
    text = draft.text
    is_known = draft.place is not None and "\n" not in text
    place = min(draft.place or 0, len(text)) if is_known else len(text)
    return Field(Purpose[draft.aim.name], text, place)
