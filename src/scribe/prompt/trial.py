"""A table that is tried at a prompt, and read again whenever its file has changed."""

import stat
import time
from contextlib import suppress
from pathlib import Path
from typing import TypeAlias

from braildesk import DeskError
from braildesk.tables import TableText, text_at

from scribe.words.status import Status
from scribe.words.tables import counted, fault_line, piece_lines


#: When a file was saved, by which it is seen that it was saved again.
_Saved: TypeAlias = tuple[int, int, int]
#: How long an editor may take to fill a file that it has emptied, and when that is looked at again, in
#: seconds.
_FILLING, _SOON = 2.0, 0.05


class Trial:
    """The table of a file, as its text was when it was last read."""

    def __init__(self, path: Path) -> None:
        self._path = path
        self._seen = self._read = self._saved()
        #: Since when the file is as it was last seen.
        self._since = time.monotonic()
        self._table = TableText(path, text_at(path))
        #: What the last line, or the last reading of the table, came to.
        self.status = Status.DONE

    def state(self) -> list[str]:
        """What there is to say of the table: how many lines it has, or why it is refused."""
        reading = self._table.reading
        name = self._path.name
        if (first := reading.first) is None:
            self.status = Status.DONE
            if not self._table.text:
                return [f"{name} is empty, and defines no character."]
            return [f"{name}: {counted(len(reading.lines), 'line')}, accepted."]
        self.status = Status.REFUSED
        more = len(reading.faults) - 1
        others = (
            f" It has {counted(more, 'other fault')}: scribe check-table shows all."
            if more
            else ""
        )
        return [
            fault_line(first, reading),
            f"{name} is refused, so nothing can be translated.{others} Save it corrected, and"
            " go on here.",
        ]

    def is_saved(self) -> bool:
        """Whether the file has another text, and was left alone since this was last asked.

        So a text of which a part is still to be written isn't taken for the whole.
        """
        before = self._seen
        saved = self._look()
        if saved is None or saved != before or saved == self._read:
            return False
        if self._is_being_filled(saved):
            return False
        self._read = saved
        with suppress(DeskError):
            return text_at(self._path) != self._table.text
        return False

    def reread(self) -> bool:
        """Reads the file again; whether its text is another one than before."""
        if self._path.exists() and not self._path.is_file():
            return False  # a pipe, which is read once
        while self._is_being_filled(self._look()):
            time.sleep(_SOON)
        self._read = self._saved()
        text = text_at(self._path)
        if text == self._table.text:
            return False
        self._table = TableText(self._path, text)
        return True

    def answer(self, text: str) -> list[str]:
        """The braille of a text, and the lines of the table by which it came about."""
        if self._table.reading.faults:
            return self.state()
        cells, pieces = self._table.pieces(text)
        self.status = Status.DONE
        return [cells, *piece_lines(pieces, self._table.reading)]

    def _look(self) -> _Saved | None:
        """When the file was saved, and since when it is so."""
        saved = self._saved()
        if saved != self._seen:
            self._seen, self._since = saved, time.monotonic()
        return saved

    def _is_being_filled(self, saved: _Saved | None) -> bool:
        """Whether the file was emptied just now, as by an editor that is about to write it anew."""
        if saved is None or saved[1] or not self._table.text:
            return False
        return time.monotonic() - self._since < _FILLING

    def _saved(self) -> _Saved | None:
        """When the file was saved, if it is there and no pipe."""
        try:
            found = self._path.stat()
        except OSError:
            return None
        if not stat.S_ISREG(found.st_mode):
            return None
        return found.st_mtime_ns, found.st_size, found.st_ino
