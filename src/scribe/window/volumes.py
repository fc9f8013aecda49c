"""The volumes of the book at work: where each begins, and where others would."""

from collections.abc import Sequence

from braildesk import Paragraph, requests
from braildesk.desk.volume_plan import (
    Planned,
    as_they_are,
    planned,
    shown_lines,
    to_be_set,
)

from scribe.window.book import Done, NoAnswer
from scribe.window.desk import Desk
from scribe.window.dialogs import IsStopped, Say
from scribe.words.paragraph import counted
from scribe.words.status import Stop
from scribe.words.volumes import faults, summary, to_begin, volume_lines

_ASKED = "How many pages a volume has at most:"


class Volumes:
    """What is seen of the volumes, and how the book is parted into them."""

    def __init__(self, desk: Desk) -> None:
        self.desk = desk

    def volumes(self) -> None:
        """Lists the volumes with their pages, and goes to where one begins."""
        desk = self.desk
        desk.settled()
        book, volumes, lines = self._looked_at("Volumes", None)
        size = desk.page_size
        title = " ".join([f"Volumes: {summary(volumes, size)}", *faults(volumes)])
        line = desk.line_of(title, lines, 0)
        if line is None:
            return
        first = book[volumes[line].paragraphs.start]
        row = desk.contents.place(first.id)
        if row is not None:
            desk.window.table.setFocus()
            desk.choose(row)

    def part(self) -> None:
        """Asks how many pages a volume has, proposes volumes, and sets them."""
        self.desk.settled()
        self.desk.line("Part into volumes", _ASKED, self._part)

    def _part(self, typed: str) -> None:
        desk, word = self.desk, typed.strip().lstrip("0")
        if not (word.isascii() and word.isdigit()):
            raise NoAnswer("A volume has at least 1 page: type how many, as in 80.")
        most = int(word[:9])
        book, volumes, lines = self._looked_at("Part into volumes", most)
        changed = to_be_set(book, volumes)
        whole = " ".join([summary(volumes, desk.page_size), *faults(volumes)])
        if not changed:
            desk.say(f"The volumes begin there already: {whole}")
            return
        said = "\n".join([whole, *lines[:12], *_more(lines[12:]), *to_begin(changed)])
        asked = f"{said}\nShall the volumes be set so?"
        answers = ("&Yes", "&No")
        if desk.answer("Part into volumes", asked, answers):
            desk.say("Nothing was changed.")
            return
        self._set(changed)

    def _looked_at(
        self, title: str, most: int | None
    ) -> tuple[Sequence[Paragraph], Sequence[Planned], list[str]]:
        """The paragraphs that stand in volumes, the volumes, and a line for each of them."""
        desk = self.desk
        contents, page_size = desk.contents, desk.page_size

        def look(
            say: Say, is_stopped: IsStopped
        ) -> tuple[Sequence[Paragraph], Sequence[Planned], list[str]]:
            session = desk.book.session
            book, lines = shown_lines(session, contents.paragraphs, page_size)
            if not book:
                raise Stop("All paragraphs are struck, so the book has no volume.")
            volumes = as_they_are(book, lines, page_size)
            if most is not None:
                volumes = planned(lines, page_size, most)
            return book, volumes, list(volume_lines(session, book, volumes))

        return desk.long(title, look)

    def _set(self, changed: Sequence[tuple[Paragraph, bool]]) -> None:
        desk = self.desk
        commands = [requests.Volume(each.id, begins) for each, begins in changed]

        def what(count: int) -> str:
            return f"volumes set at {counted(count, 'paragraph')}"

        def act(say: Say, is_stopped: IsStopped) -> Done:
            def go_on(done: int) -> bool:
                say(f"{done:,} of {len(commands):,} done.")
                return not is_stopped()

            return desk.book.all_done(commands, what, go_on)

        done = desk.long("Part into volumes", act)
        desk.window.model.all_unread()
        desk.show_done(done)


def _more(lines: Sequence[str]) -> list[str]:
    """What is said in place of lines that are too many to be asked about."""
    return [f"And {len(lines):,} more."] if lines else []
