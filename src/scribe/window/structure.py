"""The paragraphs of the book at work: what they are, where they stand, and by which table."""

from pathlib import Path

from braildesk import After, Refused, Style, requests
from braildesk.desk.draft import Aim
from braildesk.desk.tables import SUPPLIED, table_names

from scribe.window import dialogs
from scribe.window.book import Done, NotAll
from scribe.window.desk import STRUCK, Desk, New
from scribe.window.dialogs import IsStopped, Say
from scribe.words.changes import not_given, nothing_found, paragraph_history, used
from scribe.words.status import Stop

_HISTORY_COLUMNS = 72
_FROM_A_FILE = "From a file…"
_TABLES = "Tables (*.utb);;All files (*)"
_NO_TABLE = "No other table can be chosen until what is typed is kept or given up."


class Structure:
    """What is done with whole paragraphs."""

    def __init__(self, desk: Desk) -> None:
        self.desk = desk

    def new_after(self) -> None:
        """Begins a paragraph after the chosen one."""
        self._begin(Aim.AFTER)

    def new_before(self) -> None:
        """Begins a paragraph before the chosen one."""
        self._begin(Aim.BEFORE)

    def _begin(self, aim: Aim) -> None:
        desk = self.desk
        if desk.settle():
            desk.begin_new(New(aim, desk.number, desk.table_of_new()))

    def strike(self) -> None:
        """Strikes the chosen paragraph, or restores it."""
        number = self.desk.settled()
        is_struck = self.desk.chosen.struck
        self.desk.do(requests.Restore(number) if is_struck else requests.Strike(number))

    def heading(self) -> None:
        """Makes the chosen paragraph a heading, or body text."""
        number = self.desk.settled()
        is_heading = self.desk.chosen.style is Style.HEADING
        style = Style.BODY if is_heading else Style.HEADING
        self.desk.do(requests.Style(number, style))

    def volume(self) -> None:
        """Has the chosen paragraph begin a volume, or not."""
        number = self.desk.settled()
        begins = not self.desk.chosen.begins_volume
        self.desk.do(requests.Volume(number, begins))

    def table(self) -> None:
        """Asks for a table, and gives it to the chosen paragraph, or to new ones in a book that has none."""
        desk = self.desk
        # which refuses what is typed where that is by another table
        is_first = desk.new is not None and not desk.contents.paragraphs
        if not is_first and not desk.settle():
            desk.say_too(_NO_TABLE * (not desk.is_closed))
            return
        if desk.is_closed:
            raise Stop(desk.closed)
        its = desk.reading.its.paragraph if desk.reading else None
        if its is not None and its.struck:
            raise Stop(f"Paragraph {its.id} {STRUCK}")
        there = list(desk.contents.tables)
        others = [n for n in (SUPPLIED, *table_names()) if n not in there]
        names = [*there, *others, _FROM_A_FILE]
        first = (
            names.index(desk.table_of_typed() or desk.table_of_new()) if there else 0
        )
        where = f"paragraph {its.id}" if its else "new paragraphs"
        name = desk.one_of("Table", f"The table of {where}:", names, first)
        path = None
        if name == _FROM_A_FILE:
            path = dialogs.file_to_read(
                desk.window, "A table from a file", desk.path, _TABLES
            )
            name = path.stem if path is not None else None
            if name in there and not self._may_replace(name):
                return
        if name is not None and (its is None or name != its.table or path is not None):
            self._give(its.id if its else None, name, path)

    def _may_replace(self, name: str) -> bool:
        """Whether a table of the book is to have the text of a file, which all its paragraphs have then."""
        its = [each for each in self.desk.contents.paragraphs if each.table == name]
        asked = (
            f"The book has a table {name}. {used(len(its))} Shall it have the text of the file from now on,"
            " and give other braille? Ctrl+Z doesn't take that back."
        )
        answer = self.desk.answer("A table from a file", asked, ("&Yes", "&No"))
        if answer:
            self.desk.say(f"The table {name} is as it was.")
        return answer == 0

    def _give(self, number: int | None, name: str, path: Path | None) -> None:
        """Gives a paragraph a table, which takes a while if it is in many paragraphs already."""
        desk = self.desk

        def act(say: Say, is_stopped: IsStopped) -> Done:
            def go_on(step: str) -> bool:
                say(step)
                return not is_stopped()

            return desk.book.with_table(number, name, path, go_on)

        try:
            done = desk.long("Table", act)
            if number is None:
                desk.have_new_by(name, done)
            else:
                desk.show_done(done)
        except NotAll as part:
            desk.show(desk.asked(desk.book.contents), None)
            assert number is not None and isinstance(part.cause, Refused)
            raise Stop(not_given(name, number, part.cause)) from part

    def move_up(self) -> None:
        """Moves the chosen paragraph before the one before it."""
        self._move(-1)

    def move_down(self) -> None:
        """Moves the chosen paragraph after the one after it."""
        self._move(1)

    def _move(self, by: int) -> None:
        number = self.desk.settled()
        book, row = self.desk.contents.paragraphs, self.desk.row
        if by > 0:
            if row + 1 >= len(book):
                raise Stop(f"Paragraph {number} is the last of the book.")
            self.desk.do(requests.Move(number, book[row + 1].id))
            return
        if row == 0:
            raise Stop(f"Paragraph {number} is the first of the book.")
        after: After = book[row - 2].id if row > 1 else "front"
        self.desk.do(requests.Move(number, after))

    def history(self) -> None:
        """Shows the corrections of the chosen paragraph."""
        desk, number = self.desk, self.desk.settled()
        found = paragraph_history(desk.book.session, desk.chosen, _HISTORY_COLUMNS)
        lines = desk.asked(lambda: list(found)) or [nothing_found(None, ())]
        desk.show_lines(f"History of paragraph {number}", lines)
