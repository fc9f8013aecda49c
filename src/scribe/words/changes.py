"""What was changed in a book, in words: what is now first, then what was."""

from collections.abc import Callable, Iterable, Iterator, Sequence
from dataclasses import replace
from typing import Any, TypeVar

from braildesk import (
    Failed,
    Kind,
    Lost,
    Mark,
    NoMemory,
    Paragraph,
    Refused,
    Session,
    Style,
    requests,
)
from braildesk.desk.change import Change, newly_touched
from braildesk.desk.correction import smallest_correction
from braildesk.desk.history import Step, histories
from braildesk.desk.marks import MarkedWords
from braildesk.desk.places import NoPlace
from braildesk.desk.readings import answers, paragraph_of
from braildesk.protocol.requests import Command, Request
from braildesk.protocol.values import After, Corrected, Done, Marked, Typed
from braildesk.text.cells import Notation
from braildesk.text.characters import visible
from braildesk.text.excerpt import excerpt_lines, opening, word_end, word_front
from braildesk.text.wrapping import columns

from scribe.words.find import instead
from scribe.words.paragraph import counted, in_its_line, mark_line, quoted

Answer = TypeVar("Answer")


def carried_out(
    session: Session, command: Command[Any], width: int, cells: Notation
) -> list[str]:
    """Sends a command, and says what it changed; Refused if it is refused."""
    before = session.last_version
    try:
        return _carried_out(session, command, width, cells)
    except NoMemory:
        if session.last_version == before:
            raise
        kept = "It is done, and there was no memory to show what it changed."
        return [kept, at_version(session.last_version)]


def _carried_out(
    session: Session, command: Command[Any], width: int, cells: Notation
) -> list[str]:
    match command:
        case requests.Type():
            return _typed(session, command, width)
        case requests.Correct() | requests.Undo():
            return _corrected(session, command, width)
        case requests.Mark():
            return _marked(session, command)
        case requests.Resolve():
            return _resolved(session, command)
        case requests.Strike() | requests.Restore():
            is_struck = isinstance(command, requests.Strike)
            return _flagged(session, command, _life, width, struck=is_struck)
        case requests.Style(style=style):
            return _flagged(session, command, _style, width, style=Style(style))
        case requests.Volume(begins=begins):
            lines = _flagged(session, command, _volume, width, begins_volume=begins)
            return [*lines[:-1], *_anyway(session, command.paragraph), lines[-1]]
        case requests.Retable():
            return _retabled(session, command, width, cells)
        case requests.Move():
            return _moved(session, command, width)
        case requests.Table() | requests.Supply():
            return _supplied(session, command)
    raise TypeError(f"no command of a book: {command!r}")


def at_version(version: int) -> str:
    """At which version a book is."""
    return f"The book is at version {version:,}."


def place_after(after: After) -> str:
    """Where a paragraph is put, in words."""
    if isinstance(after, int):
        return f"after paragraph {after}"
    return f"at the {after} of the book"


def _before(session: Session, query: Request[Answer]) -> Answer | None:
    """What stands there before a command; nothing if the command will be refused as well."""
    try:
        return session.ask(query)
    except Refused:
        return None


def _typed(session: Session, command: requests.Type, width: int) -> list[str]:
    typed: Typed = session.ask(command)
    head = f"Paragraph {typed.id}, {place_after(command.after)}:"
    text = visible(session.print_of(typed.id)) or "empty."
    whole = f"{head} {text}"
    lines = [whole] if columns(whole) <= width else [head, opening(text, width)]
    return [*lines, at_version(typed.version)]


def _corrected(
    session: Session, command: requests.Correct | requests.Undo, width: int
) -> list[str]:
    number = command.paragraph
    text = _before(session, requests.Print(number))
    marks = _before(session, requests.Marks(number))
    corrected: Corrected = session.ask(command)
    now = session.print_of(number)
    title = f"Paragraph {number}"
    lines = difference(text or "", now, width, title, f"{title} reads as before.")
    touched = newly_touched(marks or (), session.marks_of(number))
    lines += [mark_line(mark, now) for mark in touched]
    done = f"Correction {corrected.seq} of paragraph {number}."
    if isinstance(command, requests.Undo):
        undone = session.history_of(number)[-1].undone
        done = f"Correction {undone} of paragraph {number} is taken back."
    return [*lines, f"{done} {at_version(corrected.version)}"]


def difference(before: str, now: str, width: int, title: str, same: str) -> list[str]:
    """A line as it is and as it was, in each the words that differ in brackets."""
    least = smallest_correction(before, now)
    if least is None:
        return [same]
    start = word_front(now, least.start)
    kept = len(before) - word_end(before, least.stop)
    return [
        *in_its_line(title, now, start, len(now) - kept, width),
        *in_its_line("Before", before, start, len(before) - kept, width),
    ]


def _marked(session: Session, command: requests.Mark) -> list[str]:
    marked: Marked = session.ask(command)
    number = command.paragraph
    (mark,) = (each for each in session.marks_of(number) if each.id == marked.id)
    line = mark_line(mark, session.print_of(number), number)
    return [line, at_version(marked.version)]


def _resolved(session: Session, command: requests.Resolve) -> list[str]:
    done: Done = session.ask(command)
    book = session.paragraphs()
    asked = (requests.Marks(paragraph.id) for paragraph in book)
    number, mark = next(
        (paragraph.id, mark)
        for paragraph, marks in zip(book, answers(session, asked))
        for mark in marks
        if mark.id == command.mark
    )
    return [
        mark_line(mark, session.print_of(number), number),
        f"Before, it was open. {at_version(done.version)}",
    ]


def _flagged(
    session: Session,
    command: requests.Strike | requests.Restore | requests.Style | requests.Volume,
    flag: Callable[[Paragraph], str],
    width: int,
    **changed: Any,
) -> list[str]:
    before = paragraph_of(session, command.paragraph)
    done: Done = session.ask(command)
    assert before is not None
    was, is_now = flag(before), flag(replace(before, **changed))
    change = f"{is_now}, as before" if was == is_now else f"{is_now} now, {was} before"
    return [
        f"Paragraph {command.paragraph}: {change}.",
        *_its_words(session, command.paragraph, width),
        at_version(done.version),
    ]


def _anyway(session: Session, number: int) -> list[str]:
    """That a paragraph begins volume 1, or none, whatever is said of it, if it does."""
    book = session.paragraphs()
    shown = next((each.id for each in book if not each.struck), None)
    if shown == number:
        return ["It begins volume 1 in any case, as the first that isn't struck."]
    begins = (each.begins_volume for each in book if each.id == number and each.struck)
    return ["It is struck, and begins none until it is restored."] * any(begins)


def _retabled(
    session: Session, command: requests.Retable, width: int, cells: Notation
) -> list[str]:
    number = command.paragraph
    before = paragraph_of(session, number)
    was = _before(session, requests.Braille(number)) or ""
    done: Done = session.ask(command)
    assert before is not None
    braille = session.braille_of(number)
    lines = difference(
        cells.write(was),
        cells.write(braille),
        width,
        "Its braille",
        "Its braille is as before.",
    )
    if before.table == command.table:
        change = f"table {command.table}, as before"
    else:
        change = f"table {command.table} now, table {before.table} before"
    return [f"Paragraph {number}: {change}.", *lines, at_version(done.version)]


def _moved(session: Session, command: requests.Move, width: int) -> list[str]:
    number = command.paragraph
    before = session.paragraphs()
    done: Done = session.ask(command)
    was, is_now = _position(before, number), _position(session.paragraphs(), number)
    change = f"{is_now}, as before" if was == is_now else f"{is_now} now, {was} before"
    return [
        f"Paragraph {number}: {change}.",
        *_its_words(session, number, width),
        at_version(done.version),
    ]


def _supplied(session: Session, command: requests.Table | requests.Supply) -> list[str]:
    before = _text_of(session, command.table)
    done: Done = session.ask(command)
    users = sum(paragraph.table == command.table for paragraph in session.paragraphs())
    is_other = before is not None and _text_now(session, command) not in (None, before)
    how = ", with another text than before" if is_other else ""
    return [
        f"Table {command.table} is in the book{how}. {used(users)}",
        at_version(done.version),
    ]


def _text_of(session: Session, name: str) -> bytes | None:
    """The text of a table, if the book has one of that name and it can be read."""
    try:
        tables = session.tables()
    except Lost:
        raise
    except (Failed, OSError):
        return None
    return next((each.text for each in tables if each.name == name), None)


def _text_now(
    session: Session, command: requests.Table | requests.Supply
) -> bytes | None:
    """The text of a table that was put into the book."""
    if isinstance(command, requests.Table):
        return command.text
    return _text_of(session, command.table)


def used(users: int) -> str:
    """How many paragraphs have a table, in a sentence."""
    if users == 0:
        return "No paragraph has it yet."
    return "1 paragraph has it." if users == 1 else f"{users:,} paragraphs have it."


def _its_words(session: Session, number: int, width: int) -> list[str]:
    text = session.print_of(number)
    return [opening(visible(text), width)] if text else []


def _position(book: tuple[Paragraph, ...], number: int) -> str:
    ids = [paragraph.id for paragraph in book]
    place = ids.index(number)
    return f"after paragraph {ids[place - 1]}" if place else "at the front of the book"


def _life(paragraph: Paragraph) -> str:
    return "struck" if paragraph.struck else "in the volumes"


def _style(paragraph: Paragraph) -> str:
    return "a heading" if paragraph.style is Style.HEADING else "body text"


def _volume(paragraph: Paragraph) -> str:
    return "begins a volume" if paragraph.begins_volume else "begins no volume"


def change_lines(change: Change, width: int) -> list[str]:
    """What was changed, by how many corrections if not by one, and at which version the book is."""
    lines = changed_lines(change, width)
    if change.corrections > 1:
        lines.append(
            f"These are {change.corrections:,} corrections, so that marks stay on their words:"
            " undo takes back one at a time."
        )
    return [*lines, at_version(change.version)]


def kept_of(done: int, count: int, version: int) -> str:
    """What is in the book if the corrections of a change were stopped among them."""
    if not done:
        return f"Nothing was changed. {at_version(version)}"
    is_are = "is" if done == 1 else "are"
    whole = counted(count, "correction")
    return f"Of {whole} {done:,} {is_are} in the book. {at_version(version)}"


def changed_lines(change: Change, width: int) -> list[str]:
    """What is now first, then what was, then each mark that the change touched."""
    head, former = f"Paragraph {change.paragraph}: ", "Before: "
    came, went = change.came, change.went
    marks = (mark_line(mark, change.now) for mark in change.touched)
    return [
        *excerpt_lines(head, change.now, came.start, came.stop, width),
        *excerpt_lines(former, change.before, went.start, went.stop, width),
        *marks,
    ]


def edit_in_part(done: int, refused: Refused) -> str:
    """The sentence for an edit of which so many corrections are kept, and then one was refused."""
    is_are = "is" if done == 1 else "are"
    kept = f"{counted(done, 'correction')} of this edit {is_are} kept"
    return f"{kept}, and the rest isn't. {refused.reason}"


def left_behind(before: Sequence[Mark], now: Sequence[Mark], number: int) -> str:
    """The sentence for marks that stay in a paragraph whose last words go into another; or nothing."""
    touched = [str(mark.id) for mark in newly_touched(before, now)]
    if not touched:
        return ""
    if len(touched) == 1:
        return f"Mark {touched[0]} was touched, and stays in paragraph {number}."
    names = f"{', '.join(touched[:-1])} and {touched[-1]}"
    return f"The marks {names} were touched, and stay in paragraph {number}."


def wider(marked: MarkedWords) -> str:
    """The sentence for a mark whose cells stand for more than its words."""
    mark, place = marked.mark, marked.place
    wanted = quoted(marked.text[place.start : place.stop])
    found = quoted(marked.text[mark.start : mark.stop])
    return (
        f"{wanted} shares its cells with what is beside it, so the mark is on {found}."
    )


def no_place(none: NoPlace) -> str:
    """The sentence for words that stand nowhere in a paragraph."""
    where = f"in paragraph {none.paragraph}{instead(none.sought, none.text)}"
    return f"{quoted(none.sought)} isn't {where}. Nothing was changed."


def not_given(table: str, paragraph: int, refused: Refused) -> str:
    """The sentence for a table that was put into the book, and that a paragraph isn't given."""
    return f"{refused.reason} Table {table} is in the book now, and paragraph {paragraph} wasn't given it."


def history_lines(found: Iterable[Step], width: int) -> Iterator[list[str]]:
    """The lines of each entry: which it is, who made it, for which words, and the print after it."""
    for step in found:
        head = f"Paragraph {step.paragraph}, {_entry(step)}"
        yield _in_its_print(step, head, width)


def paragraph_history(
    session: Session, paragraph: Paragraph, width: int
) -> Iterator[str]:
    """The lines of one paragraph's history, the newest first, where its number is said before."""
    for step in histories(session, [paragraph]):
        head = _entry(step)
        yield from _in_its_print(step, head[0].upper() + head[1:], width)


def _in_its_print(step: Step, head: str, width: int) -> list[str]:
    text, start = step.before + step.came + step.after, len(step.before)
    return in_its_line(head, text, start, start + len(step.came), width)


def nothing_found(
    by: str | None, names: Iterable[str], paragraph: int | None = None
) -> str:
    """What is said if a history has nothing to show, be it of one paragraph or of all that it has."""
    known = sorted({*names})
    where = "" if paragraph is None else f" in paragraph {paragraph}"
    if by is None:
        return f"Nothing was corrected{where} yet."
    none = f"There is no correction by {quoted(by)}{where}"
    if not known:
        return f"{none}, nor by anybody with a name."
    return f"{none}. There are some by {', '.join(map(visible, known))}."


def _entry(step: Step) -> str:
    """Which entry of a history a step is, who made it, and for which words."""
    entry = step.entry
    if entry.kind is Kind.UNDO:
        return f"correction {entry.undone} taken back"
    by = "" if entry.who is None else f", by {visible(entry.who)}"
    return f"correction {entry.seq}{by}{_for(step)}"


def _for(step: Step) -> str:
    """In place of what the words came."""
    if not step.is_known:
        return f", for {counted(step.length, 'character')}"
    return f", for {quoted(step.went)}" if step.went.strip() else ""
