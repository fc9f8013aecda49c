"""A window for which no book was named, as where it is started from a menu: it asks for one."""

from pathlib import Path

import pytest

from braildesk import Session

from scribe.window import choosing, dialogs

from conftest import Open
from reader import Part, Reader, all_within


def asked(at: Open) -> Reader:
    """A window that was started without a book, once it asks for one."""
    window = at(None, is_waited_for=False)
    dialog = window.dialog("braildesk")
    window.part("label", "Which book shall be opened?", dialog)
    return window


def _is_in_label(top: Part, words: str) -> bool:
    """Whether a label of a dialog has some words."""
    labels = (e for e in all_within(top) if e.get_role_name() == "label")
    return any(words in each.get_name() for each in labels)


def test_a_book_is_asked_for_and_opened(at: Open, moon: Path) -> None:
    window = asked(at)
    window.press("Return")
    dialog = window.dialog("Open a book")
    window.insert_in(window.first("text", dialog), str(moon))
    window.press("Return")
    window.no_dialog()
    window.opened().lists(0, "1 body: The Moon")
    window.press("Ctrl+q")
    assert window.end() == 0


def test_a_new_book_is_made_where_one_is_asked_for(at: Open, tmp_path: Path) -> None:
    window = asked(at)
    window.press("Alt+n")
    dialog = window.dialog("New book")
    window.insert_in(window.first("text", dialog), str(tmp_path / "tides"))
    window.press("Return")
    window.no_dialog()
    window.opened().press("Ctrl+q")
    assert window.end() == 0
    with Session(tmp_path / "tides.braildesk") as session:
        assert [each.name for each in session.tables()] == ["ueb"]


@pytest.mark.parametrize("keys", [("Escape",), ("Return", "Escape")])
def test_where_no_book_is_chosen_it_ends_without_noise(
    at: Open, keys: tuple[str, ...]
) -> None:
    window = asked(at)
    titles = {"Return": "Open a book"}
    for key in keys:
        window.press(key)
        if key in titles:
            window.dialog(titles[key])
    shown, said = window.program.communicate()
    assert (window.program.returncode, shown, said) == (0, b"", b"")


@pytest.mark.parametrize("text", ["could be", "no", "on"])
def test_a_text_that_is_typed_on_where_a_book_is_asked_for_is_no_answer(
    at: Open, text: str
) -> None:
    window = asked(at)
    window.type(text)
    window.press("Return")
    said = "What is typed here is no answer. Tab goes to one, and Enter gives it."
    label = f"Which book shall be opened?\n\n{said}"
    window.part("label", label, window.dialog("braildesk"))
    window.press("Return")
    shown, errors = window.program.communicate()
    assert (window.program.returncode, shown, errors) == (0, b"", b"")


def test_a_text_that_is_typed_on_where_no_book_can_be_made_closes_nothing_by_its_enter(
    at: Open, moon: Path
) -> None:
    window = asked(at)
    window.press("Alt+n")
    dialog = window.dialog("New book")
    window.insert_in(window.first("text", dialog), str(moon))
    window.press("Return")
    top = window.dialog("braildesk")
    window.until("the reason", lambda: _is_in_label(top, str(moon)))
    window.type("could be")
    window.press("Return")
    said = "What is typed here goes nowhere. Enter closes this."
    window.until("what is said", lambda: _is_in_label(top, said))
    assert window.part("push button", "Close", top).get_description() == said
    window.press("Return")
    window.dialog("New book")
    window.press("Escape")
    shown, errors = window.program.communicate()
    assert (window.program.returncode, shown, errors) == (0, b"", b"")


@pytest.mark.usefixtures("application")
def test_a_new_book_takes_no_name_that_is_there_and_is_asked_for_again(
    moon: Path, tmp_path: Path, monkeypatch: pytest.MonkeyPatch
) -> None:
    names, said = iter([moon, None]), list[str]()
    firsts = list[Path]()

    def choice(over: None, title: str, sentence: str, answers: tuple[str, ...]) -> int:
        said.append(sentence)
        return 1 if len(answers) > 1 else 0

    def new_file(over: None, title: str, first: Path) -> Path | None:
        firsts.append(first)
        return next(names)

    before = moon.read_bytes()
    monkeypatch.setattr(dialogs, "choice", choice)
    monkeypatch.setattr(dialogs, "new_file", new_file)
    assert choosing.chosen_book() is None
    assert firsts[1] == moon and moon.read_bytes() == before
    assert said[0] == "Which book shall be opened?"
    assert str(moon) in said[1] and len(said) == 2


@pytest.mark.usefixtures("application")
def test_a_new_book_has_the_ending_of_books_also_with_a_full_stop_in_its_name(
    tmp_path: Path, monkeypatch: pytest.MonkeyPatch
) -> None:
    typed = tmp_path / "Dr. Jekyll"

    def choice(over: None, title: str, sentence: str, answers: tuple[str, ...]) -> int:
        return 1

    def new_file(over: None, title: str, first: Path) -> Path | None:
        return typed

    monkeypatch.setattr(dialogs, "choice", choice)
    monkeypatch.setattr(dialogs, "new_file", new_file)
    assert choosing.chosen_book() == tmp_path / "Dr. Jekyll.braildesk"
