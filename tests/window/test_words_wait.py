"""Words that were typed to take the place of others, and weren't used."""

from pathlib import Path

import pytest
from PyQt6.QtWidgets import QApplication

from braildesk.desk.drafts import Drafts

from scribe.window.desk import Desk

from conftest import Answers, wait


@pytest.mark.parametrize("new", ["ocean", ""])
def test_words_that_were_typed_to_change_others_are_there_again_until_they_are_used(
    desk: Desk, given: Answers, monkeypatch: pytest.MonkeyPatch, new: str
) -> None:
    entered: list[str | None] = []
    firsts: list[str] = []

    def text(
        over: object, title: str, asked: str, first: str, changed: object, *_: object
    ) -> object:
        assert callable(changed)
        firsts.append(first)
        typed = entered.pop(0)
        if typed is not None:
            changed(typed)
        return None if typed is None or typed.startswith("-") else typed

    monkeypatch.setattr("scribe.window.dialogs.text", text)
    entered += ["sea", f"-{new}"]
    desk.act("change")
    said = "Nothing was changed. Ctrl+H has the words again."
    assert desk.window.message.text == said
    desk.wait_for_draft()
    assert Drafts(desk.path).words() == ("sea", f"-{new}")
    entered += ["sea", new]
    desk.act("change")
    assert firsts == ["", "", "sea", f"-{new}"]
    assert desk.window.message.text == "Kept: correction 1 of paragraph 3."
    desk.wait_for_draft()
    assert Drafts(desk.path).words() is None
    entered += [None]
    desk.act("change")
    assert firsts[4:] == ["sea"]


def test_words_that_were_typed_to_change_all_are_there_again_until_they_are_used(
    desk: Desk, given: Answers, monkeypatch: pytest.MonkeyPatch
) -> None:
    firsts: list[object] = []
    answers: list[object] = [None, (["a", "one"], [True, False])]

    def fields(
        over: object,
        title: str,
        asked: object,
        first: object,
        checks: object,
        changed: object,
        *_: object,
    ) -> object:
        assert callable(changed)
        firsts.append(first)
        changed(["a", "one"])
        return answers.pop(0)

    monkeypatch.setattr("scribe.window.dialogs.fields", fields)
    desk.act("change_all")
    desk.wait_for_draft()
    assert Drafts(desk.path).words() == ("a", "one")
    given["choices"] = [0]
    desk.act("change_all")
    desk.wait_for_draft()
    assert firsts == [["", ""], ["a", "one"]]
    assert Drafts(desk.path).words() is None


def test_that_words_can_be_kept_nowhere_is_said_until_they_are_kept(
    desk: Desk,
    application: QApplication,
    monkeypatch: pytest.MonkeyPatch,
    tmp_path: Path,
) -> None:
    folder, message = tmp_path / "state" / "braildesk", desk.window.message
    folder.write_text("")

    def text(
        over: object, title: str, asked: str, first: str, changed: object, *_: object
    ) -> object:
        assert callable(changed)
        changed("se")
        assert wait(application, 5, lambda: "can't be kept in" in message.text)
        folder.unlink()
        changed("sea")
        assert wait(application, 5, lambda: message.text == "")
        return None

    monkeypatch.setattr("scribe.window.dialogs.text", text)
    desk.act("change")
    desk.wait_for_draft()
    assert Drafts(desk.path).words() == ("sea", "")


def test_words_that_can_be_kept_nowhere_are_there_again_until_the_window_is_closed(
    desk: Desk, monkeypatch: pytest.MonkeyPatch, tmp_path: Path
) -> None:
    folder, message = tmp_path / "state" / "braildesk", desk.window.message
    folder.write_text("")
    firsts: list[str] = []
    entered = ["sea", "-ocean", "sea", "-ocean", "sea", "ocean"]

    def text(
        over: object, title: str, asked: str, first: str, changed: object, *_: object
    ) -> object:
        assert callable(changed)
        firsts.append(first)
        changed(typed := entered.pop(0))
        return None if typed.startswith("-") else typed

    monkeypatch.setattr("scribe.window.dialogs.text", text)
    desk.act("change")
    assert message.text == (
        "Nothing was changed. Ctrl+H has the words again until the window is closed."
    )
    folder.unlink()
    desk.act("change")
    assert message.text == "Nothing was changed. Ctrl+H has the words again."
    assert Drafts(desk.path).words() == ("sea", "-ocean")
    desk.act("change")
    assert firsts == ["", "", *["sea", "-ocean"] * 2]
    desk.wait_for_draft()
    assert Drafts(desk.path).words() is None
