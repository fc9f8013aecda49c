"""What keys did to the book, in words, and how each of that is taken back."""

from collections.abc import Sequence
from dataclasses import dataclass, replace
from typing import Any

from braildesk import After, Mark, Paragraph, Session, Style, requests
from braildesk.desk.change_all import Replacement
from braildesk.desk.highlighting import cells_of_marks
from braildesk.desk.places import words_of
from braildesk.desk.readings import ParagraphReading
from braildesk.protocol.requests import Command
from braildesk.text.spans import Span

from scribe.words.paragraph import quoted

_STRUCK = "The book keeps it, struck."
_ALL_STRUCK = "The book keeps them, struck."
_RESOLVED = "The book keeps it, resolved."
_PUT_AGAIN = "It stays resolved, and a new mark stands in its place."
# where its words are gone, or the cells of more words are those of its own
_PUT_ELSEWHERE = "It stays resolved, and a new mark is on {}."


@dataclass(frozen=True)
class Deed:
    """What was done, and the commands that take it back; none if the book has no way back.

    What the book keeps all the same is in words. The paragraph is the one to be shown then.
    """

    what: str
    back: tuple[Command[Any], ...] = ()
    left: str = ""
    paragraph: int | None = None
    #: The mark that was resolved, in whose place a new one is put.
    mark: int | None = None
    #: How many of its changes were taken back before those that are left.
    taken: int = 0
    #: The words that were replaced wherever they stand, if any were.
    wanted: Replacement | None = None

    @property
    def is_edit(self) -> bool:
        """Whether it is one edit of a paragraph, also where that took several corrections."""
        return self.paragraph is not None and not self.taken

    @property
    def question(self) -> str:
        """What is asked before it is taken back, if that takes more than one change."""
        if not self.taken:
            said = f"This was done last and isn't taken back: {self.what}."
            return f"{said} Shall all of it be taken back?"
        is_are, whole = "is" if self.taken == 1 else "are", self.taken + len(self.back)
        return (
            f"This was done last: {self.what}. {self.taken:,} of its {whole:,} changes {is_are} taken"
            " back. Shall the rest be taken back?"
        )

    @property
    def sentence(self) -> str:
        """What is said once it was taken back."""
        return f"Taken back: {self.what}. {self.left}".rstrip()


def deed_of(
    command: Command[Any], answer: Any, book: Sequence[Paragraph]
) -> Deed | None:
    """What a command did to a book that was so before; none if it took something back."""
    match command:
        case requests.Undo() | requests.Resolve():
            return None
        case requests.Type():
            return typed([answer.id], "typed")
        case requests.Mark():
            back = requests.Resolve(answer.id)
            what = f"mark {answer.id} was put"
            return Deed(what, (back,), _RESOLVED, command.paragraph)
        case requests.Table() | requests.Supply():
            return Deed(f"table {command.table} was put into the book")
        case requests.OfParagraph():
            place = [each.id for each in book].index(command.paragraph)
            before: After = book[place - 1].id if place else "front"
            return _of_paragraph(command, book[place], before)
    raise TypeError(f"no command of a book: {command!r}")


def _of_paragraph(command: Command[Any], was: Paragraph, before: After) -> Deed:
    """What a command did to a paragraph that was so, and stood after another one."""
    name, number = f"paragraph {was.id}", was.id
    match command:
        case requests.Correct():
            back = (requests.Undo(number),)
            return Deed(f"{name} was corrected", back, paragraph=number)
        case requests.Strike():
            return Deed(f"{name} was struck", (requests.Restore(number),))
        case requests.Restore():
            return Deed(f"{name} was restored", (requests.Strike(number),))
        case requests.Style():
            what = "a heading" if command.style is Style.HEADING else "body text"
            old = requests.Style(number, was.style)
            return Deed(f"{name} was made {what}", (old,))
        case requests.Volume():
            what = "begin a volume" if command.begins else "begin no volume"
            turned = requests.Volume(number, was.begins_volume)
            return Deed(f"{name} was made to {what}", (turned,))
        case requests.Retable():
            what = f"{name} was given the table {command.table}"
            return Deed(what, (requests.Retable(number, was.table),))
        case requests.Move():
            return Deed(f"{name} was moved", (requests.Move(number, before),))
    raise TypeError(f"no command of a paragraph: {command!r}")


def resolved(session: Session, its: ParagraphReading, mark: Mark) -> Deed:
    """A mark that was resolved; without cells, as in an empty paragraph, it can't be put again."""
    what, number, text = f"mark {mark.id} was resolved", its.paragraph.id, its.text
    if its.paragraph.struck:
        return Deed(what)
    put = replace(_on_a_character(mark, len(text)), resolved=False)
    (cells,) = cells_of_marks(session, replace(its, marks=(put,)))
    count = cells.stop - cells.start
    if count < 1:
        return Deed(what)
    words = words_of(session, number, cells, text, its.braille)
    left = _PUT_AGAIN
    if words != Span(mark.start, mark.stop):
        left = _PUT_ELSEWHERE.format(quoted(text[words.start : words.stop]))
    back = requests.Mark(number, cells.start, count, mark.note)
    return Deed(what, (back,), left, number, mark.id)


def _on_a_character(mark: Mark, length: int) -> Mark:
    """A mark as it can be put again: one without words on the character that is there."""
    if mark.start < mark.stop or not length:
        return mark
    start = min(mark.start, length - 1)
    return replace(mark, start=start, stop=start + 1)


def typed(numbers: Sequence[int], how: str) -> Deed:
    """Paragraphs that one key typed, or imported."""
    back = tuple(map(requests.Strike, numbers))
    if len(numbers) == 1:
        return Deed(f"paragraph {numbers[0]} was {how}", back, _STRUCK)
    what = f"{len(numbers):,} paragraphs were {how}, {numbers[0]} to {numbers[-1]}"
    return Deed(what, back, _ALL_STRUCK)


def imported(
    before: Sequence[Paragraph],
    now: Sequence[Paragraph],
    commands: int,
    count: int | None,
    lacking: Sequence[Command[Any]] = (),
) -> Deed | None:
    """What an import did to a book, if so many commands were that and nothing else.

    It had so many paragraphs, if that is known, and first did what an earlier part of it lacked.
    """
    if not _are_of_import(before, now, commands, count, lacking):
        return None
    there = {each.id for each in before}
    new = sorted(each.id for each in now if each.id not in there)
    found = [deed_of(each, None, before) for each in lacking if _is_done(each, now)]
    done = [*filter(None, found), *([typed(new, "imported")] if new else [])]
    if not done:
        return None
    back = tuple(command for each in reversed(done) for command in each.back)
    return Deed(", and ".join(each.what for each in done), back, done[-1].left)


def _are_of_import(
    before: Sequence[Paragraph],
    now: Sequence[Paragraph],
    commands: int,
    count: int | None,
    lacking: Sequence[Command[Any]],
) -> bool:
    """Whether so many commands were an import alone, of so many paragraphs if that is known."""
    is_count = count is None or count == len(now) - len(before)
    return is_count and commands == _commands_of_import(before, now, lacking)


def _commands_of_import(
    before: Sequence[Paragraph],
    now: Sequence[Paragraph],
    lacking: Sequence[Command[Any]],
) -> int:
    """How many commands an import was: one for each paragraph, heading and begin of a volume.

    Of the paragraphs that were there it set only what an earlier part of it lacked.
    """
    there = {each.id for each in before}
    new = [each for each in now if each.id not in there]
    settings = sum((each.style is not Style.BODY) + each.begins_volume for each in new)
    return len(new) + settings + sum(_is_done(each, now) for each in lacking)


def _is_done(command: Command[Any], now: Sequence[Paragraph]) -> bool:
    """Whether a paragraph is set as a command sets it."""
    match command:
        case requests.Style(paragraph=number):
            return any(p.id == number and p.style is command.style for p in now)
        case requests.Volume(paragraph=number):
            begins = command.begins
            return any(p.id == number and p.begins_volume is begins for p in now)
    return False


def changed_between(
    before: Sequence[Paragraph],
    now: Sequence[Paragraph],
    version: int,
    commands: int,
    count: int | None,
    lacking: Sequence[Command[Any]] = (),
) -> tuple[str, ...]:
    """What is said if a book, which is at a version now, had other commands than those of an import.

    That had so many paragraphs, if that is known, and first did what an earlier part of it lacked.
    """
    if _are_of_import(before, now, commands, count, lacking):
        return ()
    return (
        f"Another program changed the book meanwhile. It is at version {version:,} now, and is"
        " shown as it is.",
    )


def together(deeds: Sequence[Deed]) -> Deed:
    """What one key did by several commands: corrections of a paragraph perhaps, and new ones."""
    backs = [command for each in reversed(deeds) for command in each.back]
    new = [each.paragraph for each in backs if isinstance(each, requests.Strike)][::-1]
    if not new:
        return replace(deeds[0], back=tuple(backs))
    all_new = typed(new, "typed")
    others = [each.what for each in deeds if each.left != _STRUCK]
    return Deed(", and ".join([*others, all_new.what]), tuple(backs), all_new.left)


def without(taken: Deed, earlier: Sequence[Deed], done: Deed) -> tuple[Deed, ...]:
    """The deeds before one that was taken back by doing another.

    If a mark was put again it has another number, by which it is resolved.
    """
    if taken.mark is None:
        return tuple(earlier)
    old = (requests.Resolve(taken.mark),)
    return tuple(
        replace(each, back=done.back) if each.back == old else each for each in earlier
    )


def kept(command: Command[Any], answer: Any) -> str:
    """What a command that was answered by its `ok` did."""
    match command:
        case requests.Type():
            return f"kept: paragraph {answer.id}"
        case requests.Undo():
            return f"kept: the print of paragraph {command.paragraph} as it was before"
        case requests.Correct():
            return f"kept: correction {answer.seq} of paragraph {command.paragraph}"
        case requests.Mark():
            return f"kept: mark {answer.id}"
        case requests.Resolve():
            return f"kept: mark {command.mark} resolved"
        case requests.Table() | requests.Supply():
            return f"kept: table {command.table}"
    return f"kept: {_kept_of_paragraph(command)}"


def kept_parts(parts: Sequence[Command[Any]], answers: Sequence[Any]) -> str:
    """What those of a command's parts did that were answered: corrections, if it has more than one."""
    if len(answers) == 1:
        return kept(parts[0], answers[0])
    first, last = answers[0].seq, answers[-1].seq
    between = "and" if len(answers) == 2 else "to"
    number = getattr(parts[0], "paragraph")
    return f"kept: corrections {first} {between} {last} of paragraph {number}"


def _kept_of_paragraph(command: Command[Any]) -> str:
    match command:
        case requests.Strike():
            return f"paragraph {command.paragraph} struck"
        case requests.Restore():
            return f"paragraph {command.paragraph} restored"
        case requests.Style():
            what = "a heading" if command.style is Style.HEADING else "body text"
            return f"paragraph {command.paragraph} {what}"
        case requests.Volume():
            what = "begins a volume" if command.begins else "begins no volume"
            return f"paragraph {command.paragraph} {what}"
        case requests.Retable():
            return f"paragraph {command.paragraph} with table {command.table}"
        case requests.Move():
            # where to, so that a second one is heard too; short, for a line of 40 columns
            after = command.after
            where = f"after {after}" if isinstance(after, int) else f"to the {after}"
            return f"paragraph {command.paragraph} moved {where}"
    raise TypeError(f"no command of a book: {command!r}")
