"""Imports that were cut short, and texts that are imported again."""

import hashlib
import os
import shutil
import shlex
import signal
import subprocess
import sys
from collections.abc import Callable, Iterator
from dataclasses import replace
from io import BytesIO, StringIO
from pathlib import Path
from typing import Any

import pytest

from braildesk import After, Session
from braildesk.desk.documents.kinds import ManuscriptKind
from braildesk.desk.documents.options import ReadingOptions
from braildesk.desk.drafts import Drafts
from braildesk.desk.import_note import How, ImportNote
from braildesk.desk.readings import answers
from braildesk.protocol.requests import Command

from scribe.cli import run_words
from scribe.words.console import Console
from scribe.words.status import Interrupted
from sitting import Sat, Sit
from stand_in import KEPT, KILL_BOTH, KILL_PROGRAM, READ, REPLY
from strangers import NEEDS_ROOT, as_stranger, lead_to
from terminal import standing_in
from test_import import TEXT, prints, version
from tool import Ran, environment, scribe

LINES = [f"Line number {number} of the moon." for number in range(1, 13)]


def begun(book: Path) -> ImportNote:
    """What is noted of the import of these lines after the first of two paragraphs."""
    text = book.parent / "text.txt"
    digest = hashlib.sha256(text.read_bytes()).hexdigest()
    return ImportNote(str(text), digest, True, 1, 12, "en", 1, 3, 2)


@pytest.fixture
def front(book: Path) -> Path:
    """A book with two paragraphs, and the lines in a file beside it."""
    (book.parent / "text.txt").write_text("\n".join(LINES))
    with Session(book) as session:
        session.add_paragraph("end", "en", "front")
        session.add_paragraph("end", "en", "end")
    return book


@pytest.fixture
def killed(front: Path) -> Path:
    """That book after the import of the lines between the two ended when five were kept."""
    with Session(front) as session:
        for number, line in enumerate(LINES[:5], 2):
            session.add_paragraph(1 if number == 2 else number, "en", line)
    Drafts(front).begin_import(begun(front))
    assert prints(front) == ["front", *LINES[:5], "end"]
    return front


@pytest.fixture(autouse=True)
def folder(tmp_path: Path, monkeypatch: pytest.MonkeyPatch) -> None:
    """Has the tests work where the text is."""
    monkeypatch.chdir(tmp_path)


def ran(*words: str | Path) -> Ran:
    """What comes of a command."""
    console = Console(BytesIO(), shown := StringIO(), said := StringIO())
    status = run_words(list(map(str, words)), console)
    return Ran(status, shown.getvalue(), said.getvalue())


def again(book: Path, *words: str) -> Ran:
    return ran("import", book, "text.txt", *words)


def put(book: Path, text: str, *words: str) -> Ran:
    """Imports a text that is written beside the book."""
    (book.parent / "text.txt").write_text(text)
    return again(book, *words)


def ended(
    patch: pytest.MonkeyPatch, number: int, far: str, book: Path, *words: str
) -> None:
    """Imports the lines, and ends all when so many of them have come so far."""
    with patch.context() as patched:
        for name, value in standing_in(number, far, KILL_BOTH).items():
            patched.setenv(name, value)
        done = scribe("import", book, "text.txt", *words, folder=book.parent)
    assert done.status == -signal.SIGKILL


def test_an_import_is_noted_before_its_first_paragraph_is_typed(
    front: Path, monkeypatch: pytest.MonkeyPatch
) -> None:
    for number, far, kept in ((1, READ, 0), (5, KEPT, 5)):
        ended(monkeypatch, number, far, front, "--lines", "--after", "1")
        assert Drafts(front).imports() == (begun(front),)
        assert prints(front) == ["front", *LINES[:kept], "end"]


def where(kept: int) -> str:
    return (
        f"The import of text.txt was cut short: {kept} of its 12 paragraphs"
        f" {'is' if kept == 1 else 'are'} in the book, up to"
        f" line {kept} of the text."
    )


def test_show_says_where_an_import_was_cut_short_and_how_it_goes_on(
    killed: Path,
) -> None:
    found = ran("show", killed, "--paragraphs", "1", "--print")
    assert found == Ran(
        0,
        "Paragraph 1, body\nfront\n",
        f"{where(5)}\n"
        f"Go on by: scribe import {killed} {killed.parent}/text.txt --continue\n"
        f"Leave the rest out by: scribe import {killed} {killed.parent}/text.txt --leave\n",
    )
    assert again(killed, "--continue").shown == (
        "7 paragraphs typed, numbers 8 to 14, by the table en.\n"
    )
    assert prints(killed) == ["front", *LINES, "end"]
    assert ran("show", killed, "--paragraphs", "1").said == ""


@NEEDS_ROOT
@pytest.mark.parametrize("to", ["the text", "/dev/null"])
def test_a_text_that_was_cut_short_is_read_again_through_no_link_of_another_user(
    killed: Path, to: str
) -> None:
    text, kept = killed.parent / "text.txt", killed.parent / "kept.txt"
    text.rename(kept)
    killed.parent.chmod(0o777)
    lead_to(killed.parent)
    target = kept if to == "the text" else Path(to)
    assert as_stranger(lambda: text.symlink_to(target)) == ""
    found = ran("show", killed, "--paragraphs", "1", "--print")
    assert found.status == 0
    assert found.said.startswith(
        f"The import of text.txt was cut short, and {text} can't be read: the link “{text}” is another"
        " user's. So how much of it is in the book can't be seen: "
    )


def test_an_import_that_another_scribe_is_at_is_neither_called_cut_short_nor_forgotten(
    front: Path,
) -> None:
    note = begun(front)
    Drafts(front).begin_import(note)
    with Session(front) as session:
        for number, line in enumerate(["", *LINES[:2]], 1):
            if line:
                session.add_paragraph(1 if number == 2 else number, "en", line)
            found = ran("show", front, "--paragraphs", "1", "--print")
            assert found == Ran(
                0,
                "Paragraph 1, body\nfront\n",
                f"Another program has {front} open. This is what it had kept a moment ago, at"
                f" version {session.last_version}.\n",
            )
            assert Drafts(front).imports() == (note,)
    assert ran("show", front, "--paragraphs", "1").said.startswith(where(2))


def test_the_rest_of_an_import_that_may_go_on_is_not_left_out(killed: Path) -> None:
    with Session(killed):
        assert again(killed, "--leave", "--wait", "0") == Ran(
            2,
            "",
            f"Another program has “{killed}” open. Nothing was changed. That one must end first.\n",
        )
    assert Drafts(killed).imports() == (begun(killed),)
    killed.rename(killed.with_name("elsewhere"))
    assert again(killed, "--leave").status == 0


def test_the_same_import_is_refused_where_it_was_cut_short(killed: Path) -> None:
    asked = (
        f"{where(5)}\n--continue goes on with line 6, --again types all of it once more,"
        " and --leave leaves the rest out. Nothing was typed.\n"
    )
    for words in ((), ("--lines", "--dry-run"), ("--lines", "--from", "1")):
        assert again(killed, *words) == Ran(2, "", asked)
    shutil.copyfile(killed.parent / "text.txt", killed.parent / "copy.txt")
    assert ran("import", killed, "copy.txt").said == asked
    assert prints(killed) == ["front", *LINES[:5], "end"]


def test_an_import_that_was_cut_short_is_refused_from_any_line_up_to_the_first_paragraph(
    killed: Path,
) -> None:
    (text := killed.parent / "text.txt").write_text("\n \n" + "\n".join(LINES))
    digest = hashlib.sha256(text.read_bytes()).hexdigest()
    Drafts(killed).begin_import(replace(begun(killed), digest=digest, line=3))
    for line in "123":
        found = again(killed, "--lines", "--after", "1", "--from", line)
        assert found.status == 2 and found.said.endswith(
            "\n--continue goes on with line 8, --again types all of it once more, and --leave"
            " leaves the rest out. Nothing was typed.\n"
        )
    assert again(killed, "--lines", "--after", "7", "--from", "8").status == 0
    assert prints(killed) == ["front", *LINES, "end"]


def test_an_import_whose_book_is_replaced_goes_on_where_that_is_saved(
    front: Path, monkeypatch: pytest.MonkeyPatch
) -> None:
    monkeypatch.setattr("braildesk.session._AHEAD", 8)
    monkeypatch.setattr("braildesk.session._GROUP", 4)
    earlier = Path(shutil.copyfile(front, front.with_name("earlier")))

    def replacing(
        session: Session, asked: Iterator[Command[Any]], progress: Callable[[int], None]
    ) -> Iterator[Any]:
        def passed() -> Iterator[Command[Any]]:
            for number, request in enumerate(asked):
                if number == 6:
                    earlier.replace(front)
                yield request

        return answers(session, passed(), progress)

    with monkeypatch.context() as patched:
        patched.setattr("braildesk.desk.typist.answers", replacing)
        cut = again(front, "--lines")
    saved = front.with_name(f"{front.name}-saved-1")
    kept = len(prints(saved)) - 2
    assert 0 < kept < 12
    assert cut == Ran(
        3,
        "",
        f"The file of the book is no longer at “{front}”: another one was put there while it was"
        " open. All of the book, with what was kept last, is in the new file"
        f" “{saved}”. Go on with that one, or look first what is at the old path by now.\n"
        f"text.txt is in the book up to line {kept}, which is the end of paragraph {kept + 2} of"
        " the book.\n"
        "When nothing stands in the way any more, go on by: scribe import"
        f" {saved} text.txt --lines --from {kept + 1}\n",
    )
    anew = again(saved, "--lines")
    assert anew.status == 2
    assert "--continue goes on with" in anew.said
    assert ran(*cut.said.splitlines()[-1].split()[-6:]).status == 0
    assert prints(saved) == ["front", "end", *LINES]
    assert prints(front) == ["front", "end"]
    assert Drafts(saved).imports() == ()


@pytest.mark.parametrize("is_there", [True, False])
def test_an_import_that_is_stopped_as_its_book_is_taken_away_says_where_that_is_saved(
    front: Path, monkeypatch: pytest.MonkeyPatch, is_there: bool
) -> None:
    monkeypatch.setattr("braildesk.session._AHEAD", 8)
    earlier = Path(shutil.copyfile(front, front.with_name("earlier")))

    def stopped(
        session: Session, asked: Iterator[Command[Any]], progress: Callable[[int], None]
    ) -> Iterator[Any]:
        for number, answer in enumerate(answers(session, asked, progress), 1):
            yield answer
            if number == 5:
                earlier.replace(front) if is_there else front.unlink()
                raise Interrupted(signal.SIGTERM)

    console = Console(BytesIO(), StringIO(), said := StringIO())
    with monkeypatch.context() as patched, pytest.raises(Interrupted) as caught:
        patched.setattr("braildesk.desk.typist.answers", stopped)
        run_words(["import", str(front), "text.txt", "--lines"], console)
    assert caught.value.is_said
    saved = front.with_name(f"{front.name}-saved-1")
    kept = len(prints(saved)) - 2
    assert kept >= 5
    what = "another one was put there" if is_there else "it was removed or moved"
    assert said.getvalue() == (
        "Stopped by SIGTERM.\n"
        f"The file of the book is no longer at “{front}”: {what} while it was open. All of the book,"
        f" with what was kept last, is in the new file “{saved}”. Go on with that one, or look first"
        " what is at the old path by now.\n"
        f"text.txt is in the book up to line {kept}, which is the end of paragraph {kept + 2} of"
        " the book.\n"
    ) + (
        f"When nothing stands in the way any more, go on by: scribe import {saved} text.txt --lines"
        f" --from {kept + 1}\n"
        if kept < 12
        else ""
    )


def test_commands_that_are_said_take_names_that_begin_with_a_hyphen(
    killed: Path,
) -> None:
    for ending in ("", "-wal"):
        Path(f"{killed}{ending}").rename(killed.with_name(f"-x{ending}"))
    said = ran("show", "--print", "--", "-x").said.splitlines()
    assert said[1].startswith("Go on by: scribe import ./-x ")
    words = shlex.split(said[1].removeprefix("Go on by: scribe "))
    assert ran(*words).status == 0
    assert prints(killed.with_name("-x")) == ["front", *LINES, "end"]


def test_commands_that_are_said_take_names_with_a_line_feed(killed: Path) -> None:
    name = "the\nmoon"
    for ending in ("", "-wal"):
        Path(f"{killed}{ending}").rename(killed.with_name(f"{name}{ending}"))
    said = ran("show", "--print", name).said.splitlines()
    assert said[1].startswith("Go on by: scribe import $'the\\012moon' ")
    words = said[1].replace("Go on by: scribe", f"{sys.executable} -m scribe")
    subprocess.run(["bash", "-c", words], env=environment(), check=True)
    assert prints(killed.with_name(name)) == ["front", *LINES, "end"]


def test_commands_that_are_said_stay_in_one_line_of_any_width(killed: Path) -> None:
    name = "a book about the moon and the tides of all its seas.braildesk"
    for ending in ("", "-wal"):
        Path(f"{killed}{ending}").rename(killed.with_name(f"{name}{ending}"))
    said = ran("show", "--print", "--width", "40", name).said.splitlines()
    text = killed.parent / "text.txt"
    assert said[-4:] == [
        "Go on by:",
        f"scribe import '{name}' {text} --continue",
        "Leave the rest out by:",
        f"scribe import '{name}' {text} --leave",
    ]
    words = shlex.split(said[-3])[1:]
    assert ran(*words).status == 0
    assert prints(killed.with_name(name)) == ["front", *LINES, "end"]


def test_an_import_that_goes_on_from_a_line_is_done(killed: Path) -> None:
    assert again(killed, "--lines", "--after", "7", "--from", "6").status == 0
    assert prints(killed) == ["front", *LINES, "end"]
    assert Drafts(killed).imports() == ()


def test_an_import_that_was_cut_short_is_done_anew_where_that_is_asked_for(
    killed: Path,
) -> None:
    assert again(killed, "--lines", "--again").status == 0
    assert prints(killed) == ["front", *LINES[:5], "end", *LINES]
    assert ran("show", killed).said == ""


def test_an_import_of_which_a_part_was_typed_does_not_say_that_nothing_was_added(
    killed: Path, monkeypatch: pytest.MonkeyPatch
) -> None:
    with monkeypatch.context() as patched:
        for name, value in standing_in(3, READ, REPLY, "no", "90").items():
            patched.setenv(name, value)
        ran = again(killed, "--continue")
    assert (ran.status, len(prints(killed))) == (2, 9)
    assert ran.said.startswith(
        "There was no memory for this. Close other programs, and ask again.\n"
    )


def test_an_import_done_anew_of_which_nothing_was_typed_leaves_the_earlier_one(
    killed: Path, monkeypatch: pytest.MonkeyPatch
) -> None:
    with monkeypatch.context() as patched:
        for name, value in standing_in(1, READ, KILL_PROGRAM).items():
            patched.setenv(name, value)
        said = again(killed, "--lines", "--again").said
    assert "Nothing of text.txt was typed." in said
    assert said.endswith(f"go on by: scribe import {killed} text.txt --lines --again\n")
    assert Drafts(killed).imports() == (begun(killed),)
    assert again(killed, "--continue").status == 0
    assert prints(killed) == ["front", *LINES, "end"]


def test_an_import_that_goes_on_and_is_cut_at_once_says_that_nothing_more_was_typed(
    killed: Path, monkeypatch: pytest.MonkeyPatch
) -> None:
    with monkeypatch.context() as patched:
        for name, value in standing_in(1, READ, KILL_PROGRAM).items():
            patched.setenv(name, value)
        said = again(killed, "--continue").said
    assert "Nothing more of text.txt was typed." in said
    assert prints(killed) == ["front", *LINES[:5], "end"]


def test_the_rest_of_an_import_can_be_left_out(killed: Path) -> None:
    assert again(killed, "--leave") == Ran(
        0, "The rest of text.txt is left out. What is in the book stays there.\n", ""
    )
    assert prints(killed) == ["front", *LINES[:5], "end"]
    assert ran("show", killed).said == ""
    none = "No import of text.txt is known that was cut short."
    assert again(killed, "--leave") == Ran(2, "", f"{none}\n")
    assert again(killed, "--continue") == Ran(2, "", f"{none} Nothing was typed.\n")


def test_a_trial_leaves_the_rest_of_no_import_out(killed: Path) -> None:
    found = again(killed, "--leave", "--dry-run")
    assert (found.status, found.shown) == (1, "")
    assert found.said.startswith(
        "Argument --leave: not allowed with argument --dry-run.\n"
    )
    assert Drafts(killed).imports() == (begun(killed),)


def test_an_import_goes_on_after_corrections_and_other_paragraphs(killed: Path) -> None:
    with Session(killed) as session:
        session.correct(3, 0, 4, "Row")
        session.correct(4, 0, 4, "Row")
        session.correct(4, 0, 1, "B")
        session.undo(4)
        # the last one too, after which the rest comes
        session.correct(7, 0, 4, "Row")
        session.add_paragraph("end", "en", "Typed by hand.")
    assert again(killed, "--continue").status == 0
    rows = [line.replace("Line", "Row") for line in LINES]
    lines = [*rows[:2], *LINES[2:4], rows[4], *LINES[5:]]
    assert prints(killed) == ["front", *lines, "end", "Typed by hand."]


def test_an_import_that_was_taken_back_is_not_called_cut_short(killed: Path) -> None:
    with Session(killed) as session:
        for number in range(3, 8):
            session.strike(number)
    assert ran("show", killed).said == ""
    assert Drafts(killed).imports() == ()


@pytest.mark.parametrize("lines", [["By hand."], LINES])
def test_an_import_of_which_nothing_or_all_is_in_the_book_is_not_called_cut_short(
    front: Path, lines: list[str]
) -> None:
    Drafts(front).begin_import(begun(front))
    with Session(front) as session:
        for line in lines:
            session.add_paragraph("end", "en", line)
    assert ran("show", front).said == ""
    assert Drafts(front).imports() == ()


def test_a_look_at_an_older_file_of_the_book_forgets_no_import(
    front: Path, tmp_path: Path
) -> None:
    older, newer = tmp_path / "older", tmp_path / "newer"
    shutil.copyfile(front, older)
    Drafts(front).begin_import(begun(front))
    with Session(front) as session:
        session.add_paragraph(1, "en", LINES[0])
    shutil.copyfile(front, newer)
    shutil.copyfile(older, front)
    text = front.with_name("text.txt")
    for lines in ("\n".join(LINES), "Other"):
        text.write_text(lines)
        assert ran("show", front, "1").said == ""
    text.write_text("\n".join(LINES))
    shutil.copyfile(newer, front)
    assert again(front, "--lines").status == 2
    assert ran("show", front, "1").said.startswith(where(1))


def _fifo(path: Path) -> None:
    path.unlink()
    os.mkfifo(path)


@pytest.mark.parametrize(
    "change, why",
    [
        (lambda path: path.write_text("Other"), "was changed since"),
        (Path.unlink, "can't be read: No such file or directory"),
        (
            _fifo,
            "can't be read: it is a pipe and no file",
        ),
    ],
    ids=["changed", "gone", "a FIFO"],
)
def test_a_text_that_is_another_now_shows_nothing_of_where_its_import_stopped(
    killed: Path, change: Callable[[Path], object], why: str
) -> None:
    change(killed.parent / "text.txt")
    found = ran("show", killed, "--paragraphs", "1")
    assert found.said.startswith(
        f"The import of text.txt was cut short, and {killed.parent}/text.txt {why}. So how much of"
        " it is in the book can't be seen: the book had 2 paragraphs before, and the text"
        f" 12.\nLeave the rest out by: scribe import {killed} "
    )


def test_the_desk_says_that_nothing_shows_where_an_import_stopped(
    killed: Path, sit: Sit
) -> None:
    (killed.parent / "text.txt").write_text("Other")
    sat = sit(killed)
    assert sat.state.question is None
    assert "text.txt was changed since. So how much of" in sat.state.message
    assert sat.state.message.endswith(" i and the name of that file ask what is done.")


def test_the_desk_says_of_a_text_that_is_gone_how_the_rest_of_it_is_left_out(
    killed: Path, sit: Sit
) -> None:
    (killed.parent / "text.txt").unlink()
    assert sit(killed).state.message.endswith(
        " scribe import with --leave leaves the rest out."
    )


@pytest.mark.parametrize(
    "key, typed, said",
    [
        ("y", ["Other"], "kept: 1 paragraph typed, number 8, by the table en"),
        ("n", [], "The rest of text.txt is left out. What is in the book stays there."),
    ],
)
def test_the_desk_asks_what_is_done_about_a_text_that_was_changed_since(
    killed: Path, sit: Sit, key: str, typed: list[str], said: str
) -> None:
    (text := killed.parent / "text.txt").write_text("Other")
    sat = sit(killed)
    sat.press("i")
    sat.write(str(text))
    sat.press("enter")
    sat.state = sat.desk.away(sat.state, lambda line: None)
    assert sat.state.question is not None
    assert sat.state.question.sentence == (
        f"The import of text.txt was cut short, and {text} was changed since. So how much of it is in"
        " the book can't be seen: the book had 2 paragraphs before, and the text 12. Shall all of"
        " the text be typed, also what may be there already?"
    )
    sat.press(key)
    if key == "y":
        sat.state = sat.desk.away(sat.state, lambda line: None)
    assert said in (sat.state.message, sat.state.kept)
    sat = sit_again(sat, sit)
    assert "cut short" not in sat.state.message and sat.state.question is None
    assert prints_of(sat) == ["front", *typed, *LINES[:5], "end"]


def test_a_text_that_was_changed_since_is_not_imported_before_that_is_decided(
    killed: Path,
) -> None:
    (killed.parent / "text.txt").write_text("Other")
    for words in ("", "--continue", "--from 1"):
        found = again(killed, *words.split())
        assert found.status == 2 and found.said.endswith(
            "\n--from goes on at a line of the text after its first paragraph, --again types all"
            " of it, and --leave leaves the rest out. Nothing was typed.\n"
        )
    assert again(killed, "--again").status == 0
    assert prints(killed)[-1] == "Other"


def test_a_document_that_was_changed_since_may_go_on_at_one_of_its_paragraphs(
    killed: Path,
) -> None:
    how = How(ReadingOptions(ManuscriptKind.DOCX))
    Drafts(killed).begin_import(replace(begun(killed), how=how))
    (killed.parent / "text.txt").write_text("Other")
    assert again(killed).said.endswith(
        "\n--from goes on at a paragraph of the document after the first, --again types all of it,"
        " and --leave leaves the rest out. Nothing was typed.\n"
    )


def test_an_import_that_goes_on_and_is_cut_short_again_goes_on_once_more(
    killed: Path, monkeypatch: pytest.MonkeyPatch
) -> None:
    for number, far, kept in ((1, READ, 5), (2, KEPT, 7)):
        ended(monkeypatch, number, far, killed, "--continue")
        assert again(killed).said.startswith(where(kept))
    assert again(killed, "--continue").status == 0
    assert prints(killed) == ["front", *LINES, "end"]


@pytest.mark.parametrize("after", [7, "end"])
def test_an_earlier_copy_has_no_part_of_an_import_that_went_on_later(
    front: Path, after: After
) -> None:
    text = front.with_name("text.txt")
    earlier = Path(shutil.copyfile(front, front.with_name("earlier")))
    digest = hashlib.sha256(text.read_bytes()).hexdigest()
    # the first five were typed before, and it was cut short once more before the sixth
    with Session(front) as session:
        for line in LINES[:5]:
            session.add_paragraph("end", "en", line)
    note = ImportNote(str(text), digest, True, 6, 7, "en", after, 8, 7)
    Drafts(front).begin_import(note)
    assert (
        "5 of its 12 paragraphs are in the book"
        in scribe("show", front.name, "1", folder=front.parent).said
    )
    shutil.copyfile(earlier, front)
    words = ["import", front.name, text.name, "--lines"]
    ran = scribe(*words, "--continue", folder=front.parent)
    assert ran.said == (
        "No import of text.txt is known that was cut short. Nothing was typed.\n"
    )
    ran = scribe(*words, folder=front.parent)
    assert ran.shown == "12 paragraphs typed, numbers 3 to 14, by the table en.\n"
    assert prints(front) == ["front", "end", *LINES]


def test_the_desk_asks_whether_an_import_that_was_cut_short_goes_on(
    killed: Path, sit: Sit
) -> None:
    sat = sit(killed)
    assert sat.state.question and sat.state.question.sentence == (
        f"{where(5)} Shall the rest be typed now?"
    )
    assert " ".join(sat.lines[-2:]).endswith("n is no. l leaves it for later.")
    sat.press("q", "l")
    assert sat.state.question is None and sat.state.message == (
        "Nothing was typed. It is asked again when the book is opened."
    )
    sat = sit_again(sat, sit)
    sat.press("y")
    sat.state = sat.desk.away(sat.state, lambda line: None)
    assert sat.state.kept == (
        "kept: 7 paragraphs typed, numbers 8 to 14, by the table en"
    )
    sat = sit_again(sat, sit)
    assert sat.state.question is None
    assert prints_of(sat) == ["front", *LINES, "end"]


def sit_again(sat: Sat, sit: Sit) -> Sat:
    """Leaves the book, and opens it again."""
    sat.desk.close()
    return sit(sat.desk.path)


def prints_of(sat: Sat) -> list[str]:
    sat.desk.close()
    return prints(sat.desk.path)


def test_what_is_said_at_the_opening_stays_beside_the_question_about_an_import(
    killed: Path, sit: Sit
) -> None:
    Path(f"{killed}-unsent").mkdir()
    sat = sit(killed)
    assert sat.state.question and "cut short" in sat.state.question.sentence
    assert "isn't taken as a text that waits" in sat.state.message


def test_the_desk_leaves_the_rest_of_an_import_out(killed: Path, sit: Sit) -> None:
    sat = sit(killed)
    sat.press("n")
    assert sat.state.message == (
        "The rest of text.txt is left out. What is in the book stays there."
    )
    assert sat.state.question is None
    sat = sit_again(sat, sit)
    assert sat.state.question is None and len(sat.state.book) == 7


def test_the_desk_names_an_import_that_was_cut_short_beside_a_text_that_waits(
    killed: Path, sit: Sit
) -> None:
    sat = sit(killed)
    sat.press("escape", "enter", "O")
    sat.state = sat.desk.save_draft(sat.state)
    sat = sit_again(sat, sit)
    assert (
        sat.state.question
        and "was typed and isn't in the book" in sat.state.question.sentence
    )
    assert sat.state.message.endswith(
        " of the text. i and the name of that file go on."
    )
    sat.press("n", "i")
    sat.write(str(killed.parent / "text.txt"))
    sat.press("enter")
    sat.state = sat.desk.away(sat.state, lambda line: None)
    assert sat.state.question and "cut short" in sat.state.question.sentence
    sat.press("y")
    sat.state = sat.desk.away(sat.state, lambda line: None)
    assert prints_of(sat) == ["front", *LINES, "end"]


def test_a_text_that_stands_in_the_book_is_typed_once_more_only_where_asked_for(
    book: Path,
) -> None:
    assert put(book, TEXT).status == 0
    with Session(book) as session:
        session.correct(2, 0, 5, "Tide")
    assert put(book, TEXT) == Ran(
        2,
        "",
        "text.txt was typed there already, from paragraph 1 to paragraph 3.\n"
        "--again types it once more. Nothing was typed.\n",
    )
    assert version(book) == 5
    assert put(book, TEXT, "--again").status == 0
    assert len(prints(book)) == 6


@pytest.mark.parametrize("place", ["front", "1", "3"])
def test_a_text_is_recognized_where_it_would_go(book: Path, place: str) -> None:
    put(book, "front")
    assert put(book, "One.\n\nTwo.\n", "--after", "front").status == 0
    with Session(book) as session:
        assert [each.id for each in session.paragraphs()] == [2, 3, 1]
    found = put(book, "One.\n\nTwo.\n", "--after", place)
    if place == "1":
        assert found.status == 0
    else:
        assert found.said.startswith(
            "text.txt was typed there already, from paragraph 2 to paragraph 3.\n"
        )


@pytest.mark.parametrize("words", [["--continue"], ["--lines", "--from", "3"]])
def test_an_import_goes_on_where_the_rest_of_the_text_reads_as_the_part_that_is_there(
    book: Path, words: list[str]
) -> None:
    (text := book.with_name("text.txt")).write_text("Row, row.\nGently.\n" * 2)
    digest = hashlib.sha256(text.read_bytes()).hexdigest()
    note = ImportNote(str(text), digest, True, 1, 4, "en", "end", 1, 0)
    Drafts(book).begin_import(note)
    with Session(book) as session:
        assert session.last_version == 1
        session.add_paragraph("end", "en", "Row, row.")
        session.add_paragraph("end", "en", "Gently.")
    assert again(book, *words) == Ran(
        0, "2 paragraphs typed, numbers 3 to 4, by the table en.\n", ""
    )
    assert prints(book) == ["Row, row.", "Gently."] * 2
    # all of it is there by now
    assert again(book, "--lines", "--from", "3").said == (
        "text.txt was typed there already, from paragraph 3 to paragraph 4.\n"
        "--again types it once more. Nothing was typed.\n"
    )


def test_a_paragraph_whose_print_was_replaced_is_not_taken_for_a_shorter_text(
    book: Path,
) -> None:
    put(book, "Twice a day the sea comes up.")
    with Session(book) as session:
        session.correct(1, 0, session.paragraphs()[0].length, "It sets")
    assert put(book, "Once a day.") == Ran(
        0, "1 paragraph typed, number 2, by the table en.\n", ""
    )
    assert prints(book) == ["It sets", "Once a day."]


def test_a_text_that_is_struck_is_imported_again(book: Path) -> None:
    put(book, "One.")
    with Session(book) as session:
        session.strike(1)
    assert put(book, "One.").status == 0


def test_the_desk_asks_before_it_imports_a_text_once_more(moon: Path, sit: Sit) -> None:
    (moon.parent / "text.txt").write_text("One.\n\nTwo.\n")
    sat = sit(moon)

    def imported() -> None:
        sat.press("c-end", "i")
        sat.write(str(moon.parent / "text.txt"))
        sat.press("enter")
        sat.state = sat.desk.away(sat.state, lambda line: None)

    imported()
    sat.press("escape")
    imported()
    assert sat.state.question and sat.state.question.sentence == (
        f"{moon.parent}/text.txt was typed there already, from paragraph 4 to paragraph"
        " 5. Shall it be typed once more?"
    )
    sat.press("n")
    assert (sat.state.message, len(sat.state.book)) == ("Nothing was typed.", 5)
    imported()
    sat.press("y")
    sat.state = sat.desk.away(sat.state, lambda line: None)
    assert len(sat.state.book) == 7


def test_an_import_is_done_where_it_can_not_be_noted(
    book: Path, monkeypatch: pytest.MonkeyPatch
) -> None:
    monkeypatch.setenv("XDG_STATE_HOME", str(book))
    found = put(book, TEXT)
    assert (found.status, found.said) == (
        0,
        f"How far the import comes can't be kept in {book}/braildesk: Not a directory.\n",
    )
    # so also where notes can't even be looked for
    home = book.with_name("home")
    (home / "braildesk").mkdir(parents=True)
    name = Drafts(book).place.name.replace("unsent", "imports")
    (home / "braildesk" / name).symlink_to("none")
    monkeypatch.setenv("XDG_STATE_HOME", str(home))
    found = put(book, TEXT, "--again")
    assert (found.status, found.said) == (
        0,
        f"{home}/braildesk/{name} can't be read: it is a link.\n"
        f"How far the import comes can't be kept in {home}/braildesk: it is a link.\n",
    )


def test_what_is_in_the_way_of_noting_an_import_is_said_once(
    moon: Path, tmp_path: Path
) -> None:
    (moon.parent / "text.txt").write_text("The sun\n")
    words = ("import", moon.name, "text.txt")
    home = tmp_path / "home"
    name = Drafts(moon).place.name.replace("unsent", "imports")
    (home / "braildesk").mkdir(mode=0o700, parents=True)
    (home / "braildesk" / name).mkdir()
    ran = scribe(*words, folder=moon.parent, XDG_STATE_HOME=str(home))
    assert (ran.status, ran.said) == (
        0,
        f"{home}/braildesk/{name} can't be read as what scribe kept there for the book. It is kept as"
        f" {name}.unreadable. The book is as it was.\n",
    )
