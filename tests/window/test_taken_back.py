"""Keys that are pressed in the window in any order: what was typed is somewhere, and what is said of it is so."""

import random
import re
from collections.abc import Callable, Iterator
from pathlib import Path

import pytest
from PyQt6.QtCore import QEvent, QMimeData, Qt
from PyQt6.QtGui import QGuiApplication, QKeyEvent, QTextDocument
from PyQt6.QtWidgets import QApplication

from braildesk import new_book
from braildesk.desk.drafts import MOST_GIVEN_UP, Drafts
from braildesk.desk.layout import PageSize
from braildesk.protocol.requests import Supply, Type

from scribe.window import dialogs
from scribe.window.actions import Actions
from scribe.window.desk import Desk
from scribe.words.drafts import in_short

from test_whole import prints_of

_ASIDE = re.compile(r"is set aside: (“.*?”)\. ")
_CONTROL, _NONE = Qt.KeyboardModifier.ControlModifier, Qt.KeyboardModifier(0)
_BOOK = [
    Supply("en"),
    *(Type("end", "en", each) for each in ("The Moon", "It is far away.")),
]
_WORDS = ("so ", "moon", "a", "rose. ", "b", "up")


class Hands:
    """Somebody who presses keys at random, and knows what was typed and wasn't taken away by hand."""

    def __init__(self, book: Path, seed: int) -> None:
        self.book, self.random = book, random.Random(seed)
        self.typed: list[str] = []
        self.pressed: list[str] = []
        self._adding = (
            *(self._letters, self._type_over),
            *(self._paste, self._put_in_again),
        )
        self._keys = {
            **dict.fromkeys(self._adding, 3),
            **dict.fromkeys((self._caret, self._take_away, self._choose), 2),
            **{self._take_back: 10, self._type_again: 5, self._act: 6},
            **{self._cut: 1, self._close: 1},
        }
        self.open()

    def open(self) -> None:
        """Opens the book."""
        self.desk = Desk(self.book, None, 0.0, PageSize())
        self.desk.acts = Actions(self.desk).by_name
        self.desk.begin()
        self.desk.acting(Actions(self.desk).offer)

    def press(self) -> None:
        """Presses a key, and notes what is typed by then."""
        (key,) = self.random.choices(list(self._keys), list(self._keys.values()))
        self.pressed.append(key.__name__)
        before, prints, kept = self._seen()
        is_writable = not self.desk.window.print.isReadOnly()
        key()
        QApplication.processEvents()
        now, prints_now, kept_now = self._seen()
        gone: list[str] = []
        if key in (*self._adding, self._take_away, self._cut) and is_writable:
            # it goes on as it reads now, also where that came into its midst
            gone.append(before)
        if prints_now != prints:
            # what the book had, its history has from now on
            gone += prints
        if len(kept_now) == MOST_GIVEN_UP:
            # for more there is no room
            gone += set(kept).difference(kept_now)
        self._forget("|".join(gone), now)
        if key in self._adding or self.pressed[-1] == "bring_back":
            draft = self.desk.draft()
            self.typed += [draft.text] if draft is not None else []
        self.pressed[-1] += f" -> {now!r}"

    def _seen(self) -> tuple[str, list[str], list[str]]:
        return self.desk.typed_text(), prints_of(self.desk), self.given_up()

    def _forget(self, gone: str, now: str) -> None:
        self.typed = [each for each in self.typed if each not in gone or each in now]

    def _key(self, key: int, text: str = "", held: Qt.KeyboardModifier = _NONE) -> None:
        event = QKeyEvent(QEvent.Type.KeyPress, key, held, text)
        QApplication.sendEvent(self.desk.window.print, event)

    def _letters(self) -> None:
        for letter in self.random.choice(_WORDS):
            before = self.desk.typed_text()
            self._key(0, letter)
            self._forget(before, self.desk.typed_text())

    def _take_away(self) -> None:
        for _ in range(self.random.randint(1, 4)):
            self._key(Qt.Key.Key_Backspace)

    def _type_over(self) -> None:
        self.desk.window.print.selectAll()
        self._key(0, self.random.choice("xyz"))

    def _caret(self) -> None:
        field = self.desk.window.print
        length = len(field.text)
        field.put_caret(self.random.choice([0, length // 2, length]))
        if self.random.random() < 0.5:
            self.desk.act("to_print")

    def _take_back(self) -> None:
        for _ in range(self.random.choice([1, 1, 2, 3])):
            self.desk.act("take_back")

    def _type_again(self) -> None:
        for _ in range(self.random.choice([1, 1, 2, 3])):
            if self.desk.window.print.may_be_typed_again:
                self.desk.window.print.redo()

    def _paste(self) -> None:
        data = QMimeData()
        data.setText(self.random.choice(_WORDS))
        if not self.desk.window.print.isReadOnly():
            self.desk.window.print.insertFromMimeData(data)

    def _cut(self) -> None:
        field = self.desk.window.print
        cursor = field.textCursor()
        cursor.movePosition(cursor.MoveOperation.WordLeft, cursor.MoveMode.KeepAnchor)
        field.setTextCursor(cursor)
        self._key(Qt.Key.Key_X, "\x18", _CONTROL)

    def _put_in_again(self) -> None:
        self._key(Qt.Key.Key_V, "\x16", _CONTROL)

    def _act(self) -> None:
        acts = ("keep", "give_up", "give_up", "bring_back", "bring_back", "new_after")
        others = ("to_print", "to_paragraphs", "to_cells", "heading", "new_before")
        name = self.random.choice([*acts, *others])
        self.pressed[-1] = name
        self.desk.act(name)

    def _choose(self) -> None:
        row = self.random.randrange(len(self.desk.contents.paragraphs))
        self.desk.window.choose(row)

    def _close(self) -> None:
        if not self.desk.window.close():
            return
        self.desk.close()
        kept = [each.text for each in Drafts(self.book).given_up()]
        # those for which there is no room are only here until it ends, which was said
        gone = {each.text for each in self.desk.unsent.texts()}.difference(kept)
        self.typed = [t for t in self.typed if not any(t in each for each in gone)]
        self.open()

    def places(self) -> Iterator[str]:
        """What is typed, what keys bring back, the book, and what was given up."""
        desk = self.desk
        yield desk.typed_text()
        yield from _brought_by_keys(desk)
        yield from prints_of(desk)
        yield from self.given_up()

    def given_up(self) -> list[str]:
        """The texts that were given up."""
        self.desk.wait_for_draft()
        return [each.text for each in self.desk.unsent.texts()]


def _brought_by_keys(desk: Desk) -> list[str]:
    """How the print reads once keys type again what was taken back, or take back more."""
    field, document = desk.window.print, desk.window.print.document()
    assert document is not None
    text, cursor = field.text, field.textCursor()
    place, anchor = cursor.position(), cursor.anchor()
    # of which the desk hears nothing
    field.blockSignals(True)
    found = _there_and_back(document, document.isRedoAvailable, "redo", "undo")
    found += _there_and_back(document, document.isUndoAvailable, "undo", "redo")
    assert field.text == text
    cursor.setPosition(anchor)
    cursor.setPosition(place, cursor.MoveMode.KeepAnchor)
    field.setTextCursor(cursor)
    field.blockSignals(False)
    return found


def _there_and_back(
    document: QTextDocument, is_more: Callable[[], bool], there: str, back: str
) -> list[str]:
    found: list[str] = []
    while is_more():
        getattr(document, there)()
        found.append(document.toRawText())
    _press_times(len(found), getattr(document, back))
    return found


def _press_times(count: int, key: Callable[[], None]) -> None:
    for _ in range(count):
        key()


def _check(hands: Hands) -> None:
    places, given_up = list(hands.places()), hands.given_up()
    lost = [t for t in hands.typed if not any(t in place for place in places)]
    assert not lost, (lost, hands.pressed)
    said = _ASIDE.findall(hands.desk.window.message.text)
    untrue = set(said).difference(map(in_short, hands.desk.unsent.texts()))
    assert not untrue, (untrue, given_up, hands.pressed)


@pytest.mark.parametrize("seed", range(3))
def test_what_is_typed_is_somewhere_whatever_keys_are_pressed(
    application: QApplication,
    tmp_path: Path,
    monkeypatch: pytest.MonkeyPatch,
    seed: int,
) -> None:
    monkeypatch.setattr(dialogs, "one_of", lambda _, title, asked, names, n: names[0])
    monkeypatch.setattr(dialogs, "choice", lambda *_: 0)
    clipboard = QGuiApplication.clipboard()
    assert clipboard is not None
    clipboard.setText("moon")
    book = tmp_path / "moon.braildesk"
    new_book(book, holding=_BOOK)
    hands = Hands(book, seed)
    try:
        for _ in range(60):
            hands.press()
            _check(hands)
    finally:
        hands.desk.close()
