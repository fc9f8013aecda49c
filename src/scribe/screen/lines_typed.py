"""Lines that are typed as paragraphs one after the other, while those that are left wait."""

from collections.abc import Sequence
from contextlib import suppress
from dataclasses import replace

from braildesk import Paragraph, Session, Style, requests
from braildesk.desk.drafts import NotKept
from braildesk.desk.kept_lines import LinesLeft
from braildesk.text.sequences import composed

from scribe.screen.field import Purpose
from scribe.screen.pasted_lines import waiting
from scribe.screen.state import State, draft_of
from scribe.screen.whole_book import Report
from scribe.words import deeds
from scribe.words.drafts import Unsent


class LinesTyped:
    """Lines that are typed after the chosen paragraph.

    Nothing is listed or drawn meanwhile: the time grows with the lines, and not with the book.
    """

    def __init__(
        self, session: Session, unsent: Unsent, state: State, lines: Sequence[str]
    ) -> None:
        self._session = session
        self._unsent = unsent
        self._before = state
        self._lines = lines
        self._new: list[Paragraph] = []
        self._version, self._kept = state.version, state.kept

    @property
    def left(self) -> Sequence[str]:
        """Those that weren't typed."""
        return self._lines[len(self._new) :]

    @property
    def newest(self) -> int | None:
        """The paragraph that was typed last, none if none was."""
        return self._new[-1].id if self._new else None

    @property
    def state(self) -> State:
        """The state with the paragraphs that were typed, and with those lines that weren't."""
        state, new = self._before, self._new
        place = state.chosen + 1
        state = replace(
            state,
            version=self._version,
            kept=self._kept,
            book=(*state.book[:place], *new, *state.book[place:]),
            deeds=(*state.deeds, *(deeds.typed([each.id], "typed") for each in new)),
        )
        if new:
            state = state.at(state.chosen + len(new))
        return waiting(state, Purpose.AFTER, self.left) if self.left else state

    def go_on(self, tell: Report, done: int) -> None:
        """Types them; how many are done with those before is told ahead of each.

        May raise `Refused`, `Lost`, or what ends scribe.
        """
        if not self._lines:
            return
        count = done + len(self._lines)
        left = LinesLeft(draft_of(self.state))
        with suppress(NotKept):
            # what is kept of an edit and of lines after it doesn't say how many of these are typed
            self._unsent.keep(left.left())
        for line in self._lines:
            tell(done + len(self._new), count)
            self._type(line)
            rest = left.one_typed(self._new[-1].id, self._version)
            if rest is not None:
                with suppress(NotKept):
                    self._unsent.keep(rest)

    def _type(self, line: str) -> None:
        its, table = (
            self._new[-1] if self._new else self._before.paragraph,
            self._before.table,
        )
        assert its is not None and table is not None
        command = requests.Type(its.id, table, line, expect=self._version)
        answer = self._session.ask(command)
        length = len(composed(line))
        self._new.append(Paragraph(answer.id, table, Style.BODY, False, False, length))
        self._version, self._kept = answer.version, deeds.kept(command, answer)
