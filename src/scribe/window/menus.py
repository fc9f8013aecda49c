"""All that can be done, in menus: each action with its key, and with its letter of `scribe edit`."""

from collections.abc import Callable, Mapping
from dataclasses import dataclass

from PyQt6.QtCore import QEvent, QObject, Qt
from PyQt6.QtGui import QAction, QKeyEvent, QKeySequence, QShortcut
from PyQt6.QtWidgets import QMainWindow, QMenuBar


@dataclass(frozen=True)
class Item:
    """An action: its name in the code, what its menu says, its key, and the letter of the desk.

    The letter goes where no text is typed: in the table of the paragraphs, and in the cells.
    """

    name: str
    says: str
    key: str = ""
    letter: str = ""

    @property
    def plain(self) -> str:
        """What its menu says, without the sign of its letter there."""
        return self.says.replace("&", "").removesuffix("…")


#: The menus in their order; None parts an action from the one before it.
MENUS: Mapping[str, tuple[Item | None, ...]] = {
    "&Book": (
        Item("import_text", "&Import a text…", "Ctrl+I", "i"),
        Item("export", "E&xport the volumes…", "Ctrl+E", "x"),
        Item("proof", "Write a &proof…", "Ctrl+Shift+E"),
        Item("page_size", "Page &size…", "Ctrl+Shift+P", "w"),
        Item("volumes", "&Volumes…", "Ctrl+Shift+L", "V"),
        Item("part", "Par&t into volumes…", "Ctrl+Shift+V"),
        None,
        Item("open_again", "Open the book &again", "Ctrl+O"),
        Item("leave", "&Quit", "Ctrl+Q", "q"),
    ),
    "&Edit": (
        Item("take_back", "&Take back", "Ctrl+Z", "u"),
        Item("undo_here", "Take back the &newest correction", "Ctrl+Shift+Z"),
        Item("keep", "&Keep what is typed", "Enter"),
        Item("give_up", "&Give up what is typed", "Esc"),
        Item("bring_back", "&Bring back a text…", "Ctrl+B", "U"),
        Item("bring_typed", "A&ll that was typed last", "Ctrl+Shift+B"),
        None,
        Item("copy_unicode", "Copy the braille as &Unicode", "Ctrl+Shift+U"),
        Item("copy_ascii", "Copy the braille as Braille &ASCII", "Ctrl+Shift+C"),
        None,
        Item("find", "&Find…", "Ctrl+F", "/"),
        Item("find_next", "Find ne&xt", "F3", "*"),
        Item("change", "&Change words…", "Ctrl+H"),
        Item("change_all", "Change &everywhere…", "Ctrl+Shift+H", "c"),
    ),
    "&Paragraph": (
        Item("new_after", "&New paragraph after", "Ctrl+Return", "o"),
        Item("new_before", "New paragraph &before", "Ctrl+Shift+Return", "O"),
        None,
        Item("strike", "&Strike or restore", "Ctrl+D", "s"),
        Item("heading", "&Heading or body", "Ctrl+T", "b"),
        Item("volume", "&Volume begins here, or not", "Ctrl+U", "v"),
        Item("table", "&Table…", "Ctrl+L", "t"),
        Item("move_up", "Move &up", "Alt+Up"),
        Item("move_down", "Move &down", "Alt+Down"),
        None,
        Item("history", "H&istory…", "Ctrl+Y", "h"),
        Item("go_to", "&Go to…", "Ctrl+G", "g"),
        Item("headings", "&All headings…", "Ctrl+Shift+T", "H"),
    ),
    "&Marks": (
        Item("mark", "&Mark what is selected…", "Ctrl+M", "m"),
        Item("next_mark", "&Next open mark", "F4", "n"),
        Item("last_mark", "&Open mark before", "Shift+F4", "N"),
        Item("all_marks", "&All marks…", "Ctrl+Shift+M", "M"),
        Item("resolve", "&Resolve the mark", "Ctrl+R", "r"),
    ),
    "&View": (
        Item("to_paragraphs", "To the para&graphs", "F5"),
        Item("to_print", "To the &print", "F2"),
        Item("to_cells", "To the &braille", "F8"),
        Item("to_message", "To the &message", "F6"),
        None,
        Item("page", "Page of the &caret, shown or not", "Ctrl+P", "p"),
        Item("pages_said", "Page and line sai&d, or not", "Ctrl+Shift+N", "P"),
        Item("notation", "Braille &ASCII or Unicode", "F9", "a"),
        Item("larger", "&Larger", "Ctrl++"),
        Item("smaller", "&Smaller", "Ctrl+-"),
        Item("fonts", "&Font of the braille…", "Ctrl+Shift+F"),
    ),
    "&Help": (Item("keys", "&Keys", "F1", "?"),),
}
# keys that mean other things where no print is typed, and are taken by the print alone
_OF_THE_PRINT = ("Enter", "Esc")
_OTHER_KEYS = {"larger": "Ctrl+="}
_OF_MENUS = "F10"


class _Bar(QMenuBar):
    """The bar of menus, of which a key opens the first one, and Alt alone none.

    Where a screen reader hears of keys, Qt takes Alt for alone that came up before the key with it,
    and letters that are typed after that would be keys of menus.
    """

    def eventFilter(self, to: QObject | None, event: QEvent | None) -> bool:
        """Looks for no Alt."""
        return False

    def open_first(self) -> None:
        """Opens the first menu, on its first action.

        The bar has the focus before that, as after Alt alone. Else what had it would be told to have it
        again each time another menu is opened.
        """
        if not self.hasFocus():
            # Qt changes by itself whether Alt is held, where that is the key
            key, held = Qt.Key.Key_Alt, Qt.KeyboardModifier.NoModifier
            for kind in (QEvent.Type.ShortcutOverride, QEvent.Type.KeyRelease):
                super().eventFilter(self, QKeyEvent(kind, key, held))
        first = self.actions()[0]
        self.setActiveAction(first)
        menu = first.menu()
        assert menu is not None
        menu.setActiveAction(menu.actions()[0])


class Menus:
    """The actions of a window, in its menus."""

    def __init__(
        self, window: QMainWindow, acts: Mapping[str, Callable[[], object]]
    ) -> None:
        self.actions: dict[str, QAction] = {}
        self._letters: dict[str, QAction] = {}
        bar = _Bar()
        window.setMenuBar(bar)
        QShortcut(QKeySequence(_OF_MENUS), window, bar.open_first)
        for title, items in MENUS.items():
            menu = bar.addMenu(title)
            assert menu is not None
            for item in items:
                if item is None:
                    menu.addSeparator()
                    continue
                action = QAction(item.says, window)
                if item.key in _OF_THE_PRINT:
                    action.setText(f"{item.says}\t{item.key}")
                else:
                    keys = [item.key, _OTHER_KEYS.get(item.name, "")]
                    action.setShortcuts([QKeySequence(key) for key in keys if key])
                action.triggered.connect(_slot(acts[item.name]))
                menu.addAction(action)
                self.actions[item.name] = action
                if item.letter:
                    self._letters[item.letter] = action

    def letter(self, event: QKeyEvent) -> bool:
        """Does what a letter is for where no text is typed; whether it is one of the desk's."""
        held = event.modifiers() & ~Qt.KeyboardModifier.ShiftModifier
        text = event.text()
        if held not in (
            Qt.KeyboardModifier.NoModifier,
            Qt.KeyboardModifier.KeypadModifier,
        ):
            return False
        action = self._letters.get(text)
        if action is not None:
            action.trigger()
        # any other letter does nothing, as it would look for paragraphs
        return action is not None or (len(text) == 1 and text.isprintable())


def key_lines() -> list[str]:
    """A line for each action: its key, its letter, and what it does."""
    lines = []
    for title, items in MENUS.items():
        lines.append(title.replace("&", ""))
        for item in items:
            if item is not None:
                letter = f"{item.letter} in the table or the braille"
                keys = [item.key, letter if item.letter else ""]
                said = " or ".join(filter(None, keys)) or "no key"
                lines.append(f"  {item.plain}: {said}")
    return [*lines, f"  The menus: {_OF_MENUS}, or Alt and an underlined letter"]


def _slot(act: Callable[[], object]) -> Callable[[], None]:
    """What is called without the state that an action comes with, and gives nothing."""

    def slot() -> None:
        act()

    return slot
