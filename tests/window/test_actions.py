"""Each action of the menus: clicked on there, pressed by its key, and by its letter in the table."""

from collections.abc import Callable
from dataclasses import dataclass
from pathlib import Path

import pytest

from scribe.screen.keys import KEYS
from scribe.window.menus import MENUS, Item

from conftest import Open
from reader import Reader

ITEMS = {item.name: item for items in MENUS.values() for item in items if item}
MENU_OF = {
    item.name: title.replace("&", "")
    for title, items in MENUS.items()
    for item in items
    if item
}
MARK = "Mark 1, open, on “mon”: spelled so?"
SIZE = "25 lines of 40 cells"


@dataclass(frozen=True)
class Case:
    """An action, what is said of it, or the dialog that it opens, and where the focus is then."""

    name: str
    says: str = ""
    dialog: str = ""
    focus: tuple[str, str] = ("", "")
    #: Pressed before, where an action needs it.
    before: tuple[str, ...] = ()


#: One after the other, on the book of three paragraphs: the first one is chosen.
CASES = (
    Case("heading", "Kept: paragraph 1 a heading."),
    Case("take_back", "Taken back: paragraph 1 was made a heading."),
    Case("volume", "Kept: paragraph 1 begins a volume."),
    Case("strike", "Kept: paragraph 1 struck."),
    Case("strike", "Kept: paragraph 1 restored."),
    Case("move_down", "Kept: paragraph 1 moved after 2."),
    Case("move_up", "Kept: paragraph 1 moved to the front."),
    Case("undo_here", "Paragraph 1 has no correction that could be taken back."),
    Case("history", dialog="History of paragraph 1"),
    Case("table", dialog="Table"),
    Case("go_to", dialog="Go to"),
    Case("headings", "The book has no headings. Ctrl+T makes one of a paragraph."),
    Case("all_marks", dialog="All marks"),
    Case("next_mark", MARK, focus=("text", "Print")),
    Case("mark", dialog="Mark in paragraph 2"),
    Case("resolve", "Kept: mark 1 resolved."),
    Case("last_mark", "The book has no open marks."),
    Case("find", dialog="Find"),
    Case("find_next", dialog="Find"),
    Case("change", dialog="Change words"),
    Case("change_all", dialog="Change everywhere"),
    Case("to_print", focus=("text", "Print")),
    Case("keep", "The print reads as before, so there is nothing to keep."),
    Case("new_after", focus=("text", "Print")),
    Case("give_up", "This paragraph was empty, and wasn't added."),
    Case("new_before", focus=("text", "Print")),
    Case("give_up", "This paragraph was empty, and wasn't added."),
    Case("bring_back", "No text is set aside in this book."),
    # of letters, where these were pressed
    Case("bring_typed"),
    Case("give_up"),
    Case("to_cells", focus=("text", "Braille")),
    Case("to_message", focus=("text", "Message")),
    Case("to_paragraphs", focus=("table", "Paragraphs")),
    Case("page", "The page is shown beside the book."),
    Case(
        "pages_said",
        "Now F4, Ctrl+F and F3 say the page and line to which they go.",
    ),
    Case("notation", "Cells are shown in Braille ASCII."),
    Case("larger", "Print has 16 points now, and braille 23."),
    Case("smaller", "Print has 14 points now, and braille 20."),
    Case("fonts", dialog="Font of the braille"),
    Case("copy_unicode", "Copied as Unicode: 21 cells."),
    Case("copy_ascii", "Copied in Braille ASCII: 21 cells."),
    Case("open_again", "The book is open."),
    Case("import_text", dialog="Import a text"),
    Case("export", dialog=f"Export, pages of {SIZE}"),
    Case("proof", dialog="Write a proof"),
    Case("page_size", dialog="Page size"),
    Case("volumes", dialog=f"Volumes: 1 volume, 1 page of {SIZE}."),
    Case("part", dialog="Part into volumes"),
    Case("keys", dialog="Keys"),
    Case("leave"),
)

#: The letters of `scribe edit`: the action of each in the window, and how the help of the terminal begins.
LETTERS = {
    "/": ("find", "finds words"),
    "*": ("find_next", "finds the same again"),
    "?": ("keys", "shows the keys"),
    "H": ("headings", "the headings with their pages"),
    "M": ("all_marks", "the marks with their pages"),
    "N": ("last_mark", "to the open mark before"),
    "O": ("new_before", "a new paragraph before"),
    "P": ("pages_said", "says the page and line of marks and words"),
    "U": ("bring_back", "brings back a text"),
    "V": ("volumes", "the volumes with their pages"),
    "a": ("notation", "cells in Braille ASCII"),
    "b": ("heading", "makes it a heading"),
    "c": ("change_all", "changes words wherever they stand"),
    "g": ("go_to", "goes to a paragraph by its number"),
    "h": ("history", "the history"),
    "i": ("import_text", "imports a text"),
    "m": ("mark", "puts a mark on"),
    "n": ("next_mark", "to the next open mark"),
    "o": ("new_after", "a new paragraph after"),
    "p": ("page", "the page on which"),
    "q": ("leave", "ends"),
    "r": ("resolve", "says that the mark shown first is dealt with"),
    "s": ("strike", "strikes the paragraph"),
    "t": ("table", "gives it a table"),
    "u": ("take_back", "takes back what a key last did"),
    "v": ("volume", "has it begin a volume"),
    "w": ("page_size", "the size of pages"),
    "x": ("export", "exports all volumes"),
}
# lines and cells are chosen by the keys of any window; what the others are for is elsewhere in docs/window.md
TERMINAL_ALONE = {"j", "k", " ", "d", "z"}

Press = Callable[[Reader, Item], None]


def _menu(window: Reader, item: Item) -> None:
    name = item.says.replace("&", "")
    if item.key in ("Enter", "Esc"):
        name = f"{name}\t{item.key}"
    window.choose(MENU_OF[item.name], name)


def _key(window: Reader, item: Item) -> None:
    plain = {"Enter": "Return", "Esc": "Escape", "Ctrl++": "Ctrl+=", "Ctrl+-": "Ctrl+-"}
    key = plain.get(item.key, item.key)
    *held, last = key.split("+")
    last = last.lower() if len(last) == 1 else last
    window.press("+".join([*held, last]))


def _letter(window: Reader, item: Item) -> None:
    if not item.letter:
        _key(window, item)
        return
    window.press("F5")
    window.focus("table", "Paragraphs")
    window.type(item.letter)


@pytest.mark.parametrize("press", [_menu, _key, _letter])
def test_each_action_is_done(moon: Path, at: Open, press: Press) -> None:
    window = at(moon)
    window.focus("table", "Paragraphs")
    for case in CASES:
        press(window, ITEMS[case.name])
        if case.dialog:
            window.dialog(case.dialog)
            window.press("Escape")
            window.no_dialog()
        if case.says:
            window.says(case.says)
        if case.focus[0]:
            window.focus(*case.focus)
    assert window.end() == 0


def test_no_action_is_left_out_and_no_key_or_letter_stands_for_two() -> None:
    assert {case.name for case in CASES} == set(ITEMS)
    for kind in ("key", "letter"):
        given = [getattr(item, kind) for item in ITEMS.values()]
        assert len([each for each in given if each]) == len({*given} - {""})
    assert [name for name, item in ITEMS.items() if not item.key] == []


def test_no_underlined_letter_stands_for_two_menus_or_for_two_actions_of_one() -> None:
    menus = [[each.says for each in items if each] for items in MENUS.values()]
    for names in ([*MENUS], *menus):
        letters = [name[name.index("&") + 1].lower() for name in names]
        assert len({*letters}) == len(letters), names


def test_a_letter_does_the_same_as_in_the_terminal() -> None:
    letters = {item.letter: name for name, item in ITEMS.items() if item.letter}
    assert letters == {letter: name for letter, (name, _) in LETTERS.items()}
    assert {key for key in KEYS if len(key) == 1} == LETTERS.keys() | TERMINAL_ALONE
    for letter, (_, says) in LETTERS.items():
        assert KEYS[letter].says.startswith(says), letter
