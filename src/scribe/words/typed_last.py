"""What keys typed last, whatever became of it: a net beneath all else that keeps what is typed.

It knows nothing of what a key is for, so that no order of keys is one of which nobody thought.
"""

import re
from contextlib import suppress
from threading import Lock

from braildesk.desk.correction import smallest_correction
from braildesk.desk.draft import Aim, Draft, written
from braildesk.desk.drafts import MOST_TYPED_LAST, Drafts, NotKept

#: What is said where it is asked for: that there is none, or that it is typed anew.
NOTHING = "Nothing that was typed last is kept for this book."
BROUGHT = "All that is noted as typed in this file or at its path is here, kept or not."
#: What is noted of a key that may go elsewhere: what is typed there is no part of the word before it.
PARTED = "\x1e"
# what needs to stand between two texts only once, if anything stands before it
_BETWEEN = (PARTED, "\n", "")
# with what Qt takes for the end of a line
_NO_TEXT = re.compile(" ?[\x00-\x1f\x7f-\x9f\u2028\u2029]+ ?")


class TypedLast:
    """The last characters that were typed for a book, in the order in which they came.

    They are noted in one thread, and may be kept in another one.
    """

    def __init__(self, drafts: Drafts) -> None:
        self._drafts = drafts
        self._text = ""
        # what is kept of it; none until it is known what was kept before
        self._kept: str | None = None
        # all of it as it was last brought back
        self._brought = ""
        self._keeping, self._noting = Lock(), Lock()

    def begin(self) -> None:
        """Takes up what was kept at another time, or by others while the book wasn't open here."""
        with self._keeping:
            self._take_up()

    def _take_up(self) -> None:
        """Has what is kept by now, also by others, come before what was typed here since it was kept."""
        kept, before = self._drafts.typed_last(), self._kept
        if not kept and before:
            # it can't be read
            return
        # what comes now comes after it too
        with self._noting:
            since = _after(before or "", self._text)
            self._kept, self._text = kept, _last_of(kept + since)

    def note(self, text: str) -> None:
        """Notes what a key typed, what was pasted, or what an input method handed over."""
        with self._noting:
            if text in _BETWEEN and self._text[-1:] in _BETWEEN:
                # of many keys that type nothing one is enough
                return
            self._text = _last_of(self._text + written(text))

    def note_again(self, draft: Draft) -> None:
        """Notes a text that is typed further, or what is new of a print, if it isn't there any more.

        Keys may take out of it what nothing else keeps then.
        """
        text = draft.text
        if draft.aim is Aim.EDIT:
            least = smallest_correction(draft.before, text)
            text = least.text if least else ""
        if _in_one_line(text) not in self.text:
            self.note(f"{PARTED}{text}{PARTED}")

    @property
    def text(self) -> str:
        """All of it, in one line."""
        return _in_one_line(self._text)

    def bring(self) -> str:
        """All of it, to be typed further."""
        self._brought = self.text
        return self._brought

    def has(self, text: str) -> bool:
        """Whether a text is all of it as it was brought back, and is kept as that."""
        self.keep()
        return self.is_kept and text == self._brought == self.text

    @property
    def is_kept(self) -> bool:
        """Whether nothing of it is left to be kept."""
        return self._kept in (None, self._text)

    def keep(self) -> None:
        """Keeps it; where that can't be, nothing is said, since all that matters is kept elsewhere."""
        with self._keeping, suppress(NotKept):
            if not self.is_kept:
                self._take_up()
                text = self._text
                self._drafts.keep_typed_last(text)
                self._kept = text


def _in_one_line(text: str) -> str:
    """A text in which ends of lines, and what else is no text, are blanks."""
    return _NO_TEXT.sub(" ", text).strip()


def _last_of(text: str) -> str:
    return text[-MOST_TYPED_LAST:]


def _after(before: str, text: str) -> str:
    """What of a text comes after another one, with the end of which it begins."""
    fronts = (before[place:] for place in range(len(before) + 1))
    return text[len(next(filter(text.startswith, fronts))) :]
