"""What was typed and taken back, which a key types again until something else is typed."""

from collections.abc import Sequence
from os.path import commonprefix

from braildesk.desk.draft import Draft


class TakenBack:
    """The texts that a key brings back: the one of which Ctrl+Z took back something, and those after it.

    What Ctrl+Z takes back may be that more had been taken away by hand. Of texts one of which has all
    of the other there is the longer one.
    """

    def __init__(self) -> None:
        # how the print read last, if it was seen, and what is typed by that
        self._last: tuple[str | None, Draft | None] = None, None
        # how it read before something was taken back, none if nothing is
        self._first: str | None = None
        self._texts: tuple[Draft, ...] = ()

    def see(self, now: str, typed: Draft | None, is_more: bool) -> tuple[Draft, ...]:
        """Sees how the print reads once it changed, and gives the texts that no key brings back any more.

        There is more that a key types again as long as what was taken back is.
        """
        (before, last), self._last = self._last, (now, typed)
        if before is None:
            # so it read before the first change
            before = typed.before if typed is not None else ""
        if is_more:
            self._note(before, last, typed)
            return ()
        if _is_less(now, before):
            # what was typed is what it was before a hand took away some of it
            self._last = now, last
        # all of it was typed again, or something else was
        texts = () if now == self._first else self._texts
        self._first, self._texts = None, ()
        # what the print had until then was taken away by hand
        return _not_in(texts, now, before)

    def _note(self, before: str, *seen: Draft | None) -> None:
        if self._first is None:
            self._first = before
        for draft in filter(None, seen):
            self._texts = _with(self._texts, draft)

    def end(self) -> tuple[Draft, ...]:
        """Gives the texts that no key brings back any more, since the print is another one from now on."""
        (last, _), texts = self._last, self._texts
        self._last, self._first, self._texts = (None, None), None, ()
        return _not_in(texts, last or "")

    def whole(self, typed: Draft) -> Draft:
        """The longest text that has all of what was typed last."""
        its = typed.aim, typed.paragraph
        there = (each for each in self._texts if (each.aim, each.paragraph) == its)
        having = (each for each in there if typed.text in each.text)
        return max(having, key=_length, default=typed)


def _is_less(now: str, before: str) -> bool:
    """Whether a text is another one without a piece of it."""
    front = len(commonprefix((now, before)))
    return len(now) < len(before) and before.endswith(now[front:])


def _with(texts: Sequence[Draft], draft: Draft) -> tuple[Draft, ...]:
    """Texts with one more, unless it is in one of them, and without those that are in it."""
    if any(_has_all(each.text, draft.text) for each in texts):
        return tuple(texts)
    others = (each for each in texts[1:] if not _has_all(draft.text, each.text))
    return *_not_in(texts[:1], draft.text), *others, draft


def _has_all(whole: str, text: str) -> bool:
    """Whether a text is another one, or a piece of it, or that without a piece."""
    return text in whole or _is_less(text, whole)


def _length(draft: Draft) -> int:
    return len(draft.text)


def _not_in(texts: Sequence[Draft], *prints: str) -> tuple[Draft, ...]:
    """The texts that no print has."""
    return tuple(t for t in texts if not any(t.text in each for each in prints))
