"""All parts of the window as a screen reader finds them, and each action in its menu."""

from pathlib import Path

from scribe.window.menus import MENUS

from conftest import Open
from reader import Part, all_within, children, text_of, within
from test_held import ALT, press_at_once


def test_all_parts_have_names_and_take_the_focus_in_their_order(
    moon: Path, at: Open
) -> None:
    window = at(moon)
    order = ["Print", "Braille", "Marks", "Place", "Message"]
    window.focus("table", "Paragraphs")
    for name in order:
        window.press("Tab")
        window.focus("text", name)
    window.press("Tab")
    window.focus("table", "Paragraphs")
    window.press("Shift+Tab")
    window.focus("text", "Message")
    for key, role, name in (
        ("F8", "text", "Braille"),
        ("F6", "text", "Message"),
        ("Escape", "text", "Braille"),
        ("F2", "text", "Print"),
        ("F5", "table", "Paragraphs"),
    ):
        window.press(key)
        window.focus(role, name)
    for key, name in (("F5", "Paragraphs"), ("F8", "Braille")):
        window.press(key)
        window.focus("table" if key == "F5" else "text", name)
        window.press("Return")
        window.focus("text", "Print")
    nameless = [
        each.get_role_name()
        for each in all_within(window.top)
        if each.get_role_name() in ("text", "table", "menu", "menu item", "push button")
        and not each.get_name()
    ]
    assert nameless == []


def test_each_action_stands_in_a_menu_and_is_done_from_there(
    moon: Path, at: Open
) -> None:
    window = at(moon)
    bar: Part = window.until(
        "the bar of menus",
        lambda: next(
            (e for e in children(window.top) if e.get_role_name() == "menu bar"), None
        ),
    )
    for title, items in MENUS.items():
        its = within(bar, "menu item", title.replace("&", ""))
        assert its is not None, title
        # some have their key behind a tab
        found = [each.get_name().partition("\t")[0] for each in all_within(its)]
        for item in items:
            assert item is None or item.says.replace("&", "") in found, item
    for name, said in (
        ("Heading or body", "Kept: paragraph 1 a heading."),
        ("Volume begins here, or not", "Kept: paragraph 1 begins a volume."),
        ("Strike or restore", "Kept: paragraph 1 struck."),
        ("Take back", "Taken back: paragraph 1 was struck."),
        ("Move down", "Kept: paragraph 1 moved after 2."),
        ("Braille ASCII or Unicode", "Cells are shown in Braille ASCII."),
        ("Copy the braille as Unicode", "Copied as Unicode: 10 cells."),
        ("Open mark before", "Mark 1, open, on “mon”: spelled so?"),
        ("Resolve the mark", "Kept: mark 1 resolved."),
    ):
        window.click(window.part("menu item", name))
        window.reads("Message", said)
    assert text_of(window.part("text", "Print")) == "The mon is far away."


def test_menus_are_opened_by_keys_and_what_is_typed_after_alt_alone_is_typed(
    moon: Path, at: Open
) -> None:
    window = at(moon)
    window.press("F2")
    window.focus("text", "Print")
    for key, name in (
        ("F10", "Import a text…"),
        ("Alt+p", "New paragraph after"),
        ("Alt+h", "Keys"),
    ):
        window.press(key)
        window.focus("menu item", name)
        window.press("Escape")
        window.focus("menu bar", "")
        window.press("Escape")
        window.focus("text", "Print")
    window.press("F10", "Right", "Right", "Right", "Down", "Return")
    window.says("Mark 1, open")
    window.press("F2", "Home")
    press_at_once([ALT, *map(ord, "at")])
    window.reads("Print", "atThe mon is far away.")


def test_the_mouse_does_what_the_keys_do(moon: Path, at: Open) -> None:
    window = at(moon)
    window.lists(1, "2 body, 1 open mark: The mon is far away.")
    window.click_at(window.row(1))
    window.reads("Print", "The mon is far away.")
    window.click_at(window.shown("menu item", "Paragraph"))
    window.click_at(window.shown("menu item", "Heading or body"))
    window.reads("Message", "Kept: paragraph 2 a heading.")
    window.click_at(window.part("text", "Braille"))
    window.focus("text", "Braille")
