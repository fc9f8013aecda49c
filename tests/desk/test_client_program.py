"""The program, where it is found, and what it does without a session."""

import os
import shutil
import subprocess
import sys
from collections.abc import Callable
from pathlib import Path

import pytest

import braildesk
from braildesk import CannotOpen, Failed, NoProgram, Refused, Session, Table, Why
from braildesk.program import exporting
from braildesk.protocol.asked import TableFile
from braildesk.refusals import cannot_open

ROOT = Path(__file__).parents[2]


def made(path: Path, line: str = "echo ok 7") -> Path:
    """A file that can be run."""
    path.parent.mkdir(parents=True, exist_ok=True)
    path.write_text(f"#!/bin/sh\n{line}\n")
    path.chmod(0o755)
    return path


def test_the_program_is_the_one_that_is_named(
    tmp_path: Path, monkeypatch: pytest.MonkeyPatch
) -> None:
    monkeypatch.setenv("BRAILDESK", str(made(tmp_path / "other")))
    named = made(tmp_path / "named")
    assert braildesk.find(named) == str(named)
    assert braildesk.check("any", program=named) == 7


def test_else_it_is_the_one_that_the_environment_names(
    tmp_path: Path, monkeypatch: pytest.MonkeyPatch
) -> None:
    named = made(tmp_path / "named")
    monkeypatch.setenv("BRAILDESK", str(named))
    assert braildesk.find() == str(named)


def test_else_it_is_the_one_of_the_checkout_and_else_the_one_on_the_path(
    tmp_path: Path, monkeypatch: pytest.MonkeyPatch
) -> None:
    # a checkout of its own, since the package finds the one in which it stands
    package = shutil.copytree(
        ROOT / "src" / "braildesk", tmp_path / "src" / "braildesk"
    )
    on_path = made(tmp_path / "bin" / "braildesk")
    monkeypatch.delenv("BRAILDESK", raising=False)
    monkeypatch.setenv("PATH", f"{on_path.parent}:{os.environ['PATH']}")

    def found() -> str:
        ask = [sys.executable, "-c", "import braildesk; print(braildesk.find())"]
        environment = {**os.environ, "PYTHONPATH": str(package.parent)}
        return subprocess.check_output(ask, env=environment, text=True).rstrip("\n")

    assert found() == str(on_path)
    built = made(tmp_path / "build" / "braildesk")
    assert found() == str(built)


def test_a_program_that_is_not_there_is_named(
    tmp_path: Path, monkeypatch: pytest.MonkeyPatch
) -> None:
    monkeypatch.setenv("BRAILDESK", str(tmp_path / "none"))
    with pytest.raises(NoProgram) as caught:
        braildesk.find()
    assert caught.value.sentence == (
        f"The program “{tmp_path / 'none'}” isn't there, or may not be run. It is the one that"
        " BRAILDESK names, or else the one that belongs beside scribe."
    )
    with pytest.raises(NoProgram) as caught:
        Session("any", program="./none")
    assert (
        caught.value.sentence == "The program “./none” isn't there, or may not be run."
    )


def test_a_program_that_cannot_be_run_is_named(tmp_path: Path) -> None:
    program = tmp_path / "program"
    program.write_text("no program at all")
    program.chmod(0o755)
    attempts: list[Callable[[], object]] = [
        lambda: Session(tmp_path, program),
        lambda: braildesk.check(tmp_path, program),
    ]
    for attempt in attempts:
        with pytest.raises(NoProgram) as caught:
            attempt()
        assert caught.value.sentence == (
            f"The program “{program}” can't be run: Exec format error."
        )


def test_what_else_is_lacking_for_the_program_to_be_run_is_named(
    tmp_path: Path, monkeypatch: pytest.MonkeyPatch
) -> None:
    monkeypatch.setattr(os, "devnull", str(tmp_path / "null"))
    with pytest.raises(NoProgram) as caught:
        braildesk.new_book(tmp_path / "book")
    assert caught.value.sentence == (
        f"The program “{braildesk.find()}” can't be run: {tmp_path / 'null'}: No such file or"
        " directory."
    )


@pytest.mark.parametrize(
    "is_there, see",
    [(True, "/proc is mounted"), (False, "/dev/fd leads to /proc/self/fd")],
)
def test_what_is_lacking_for_a_text_to_be_handed_over_is_named(
    monkeypatch: pytest.MonkeyPatch, is_there: bool, see: str
) -> None:
    def refused(*_: object) -> bytes:
        raise cannot_open(TableFile("/dev/fd/3"), Why.UNKNOWN)

    monkeypatch.setattr("braildesk.program._run", refused)
    monkeypatch.setattr(os.path, "lexists", lambda _: is_there)
    with pytest.raises(Failed) as caught:
        braildesk.translate(Table("en", b""), ["a"])
    assert caught.value.sentence.endswith(f"Nothing was translated. See that {see}.")


def test_a_program_that_answers_something_else_is_not_taken_for_braildesk(
    tmp_path: Path,
) -> None:
    program = made(tmp_path / "program", "echo hello; exec sleep 60")
    brief = made(tmp_path / "brief", "echo hello")
    attempts: list[tuple[Path, Callable[[], object]]] = [
        (program, lambda: Session(tmp_path, program)),
        (brief, lambda: braildesk.check(tmp_path, brief)),
        (brief, lambda: braildesk.translate("@en", ["a", "b"], brief)),
    ]
    for named, attempt in attempts:
        with pytest.raises(Failed) as caught:
            attempt()
        assert caught.value.sentence == (
            f"The program “{named}” answers as braildesk doesn't: “hello”. It may be another one"
            " of that name, or of another version. Let BRAILDESK name the one that belongs to this"
            " scribe."
        )
    for does, said in (("echo Sorry >&2; exit 4", "4: Sorry"), ("exit 5", "5.")):
        with pytest.raises(Failed) as caught:
            Session(tmp_path, program=made(tmp_path / "program", does))
        assert caught.value.sentence == f"braildesk ended with status {said}"


def test_a_new_book_is_empty_and_may_be_made_again(tmp_path: Path) -> None:
    path = tmp_path / "moon.braildesk"
    braildesk.new_book(path)
    assert braildesk.check(path) == 0
    braildesk.new_book(path)
    with Session(path) as session:
        session.supply_table("en")
    assert braildesk.check(str(path)) == 1


def test_a_path_may_look_like_an_option_or_have_blanks_and_other_letters(
    tmp_path: Path, monkeypatch: pytest.MonkeyPatch
) -> None:
    monkeypatch.chdir(tmp_path)
    for name in ("--help", "-x", "@en", "a book – Zdeněk.braildesk", "月"):
        braildesk.new_book(name)
        with Session(name) as session:
            session.supply_table("en")
            session.add_paragraph("end", "en", "a")
        assert braildesk.check(name) == 2
        assert braildesk.export(name, 1).startswith(b"  A\r\n")
        assert [table.name for table in braildesk.read_tables(name)] == ["en"]
        assert braildesk.copy(name, f"{name} copied") == 2


def test_a_volume_is_exported_as_pages(book: Path) -> None:
    with Session(book) as session:
        session.add_paragraph("end", "en", "The Moon")
        session.add_paragraph("end", "en", "is far")
        session.set_style(1, "heading")
    lines = ["    ,THE ,MOON", "  IS FAR", "", "", " " * 18 + "#A"]
    assert braildesk.export(book, 1, width=20, lines=5) == (
        "".join(line + "\r\n" for line in lines).encode() + b"\f"
    )
    assert braildesk.export(book, 1).count(b"\r\n") == 25


def test_an_export_goes_on_beside_other_work_and_ends_with_it(book: Path) -> None:
    with Session(book) as session:
        session.add_paragraph("end", "en", "The Moon")
    wanted = braildesk.export(book, 1, 20, 5)
    with exporting(book, 1, 20, 5) as pages:
        assert pages() == wanted
    with exporting(book, 2) as pages, pytest.raises(braildesk.NotFound):
        pages()
    with exporting(book, 1):
        pass
    # nobody has it open any more
    assert braildesk.check(book) == 2


def test_lines_are_translated_or_refused_one_by_one() -> None:
    lines = [
        "Hello",
        "so…",
        "",
        "ab 5a",
        "a\r",
        "a\nb",
        "a\ud800",
        "x" * 4_001,
        "x" * 70_000,
    ]
    answers = braildesk.translate("@en", lines)
    assert [answer for answer in answers if isinstance(answer, str)] == [
        "⠠⠓⠑⠇⠇⠕",
        "",
        "⠁⠃⠀⠼⠑⠰⠁",
    ]
    refusals = [answer for answer in answers if isinstance(answer, Refused)]
    assert [(refusal.code, refusal.place) for refusal in refusals] == [
        (7, 2),
        (7, 1),
        (6, 1),
        (1, 1),
        (14, None),
        (1, None),
    ]
    assert [refusal.sentence for refusal in refusals] == [
        "The table @en has no cells for “…” (U+2026 HORIZONTAL ELLIPSIS), character 3 of the line:"
        " “so…”. This line was not translated.",
        "The table @en has no cells for U+000D CARRIAGE RETURN, character 2 of the line:"
        " “a<U+000D>”. This line was not translated.",
        "A line can't have U+000A LINE FEED, which is character 2 of this one: “a<U+000A>b”. This"
        " line was not translated. Take it out.",
        "Character 2 of the line is U+D800, which is only half of a character and can't be kept:"
        " “a<U+D800>”. This line was not translated.",
        "The line has 4,001 characters, and may have 4,000. This line was not translated. Cut it.",
        "The line has over 65,536 bytes. This line was not translated.",
    ]


def test_megabytes_of_lines_are_translated() -> None:
    answers = braildesk.translate("@en", ["a" * 3_000] * 1_000)
    assert answers == ["⠁" * 3_000] * 1_000


def test_a_table_of_a_file_translates_and_its_bad_line_is_shown(
    tmp_path: Path, monkeypatch: pytest.MonkeyPatch
) -> None:
    path = tmp_path / "few letters.utb"
    path.write_bytes(b"letter a 1\nletter b 12")
    assert braildesk.translate(path, ["ab"]) == ["⠁⠃"]
    path.write_bytes(b"letter a 1\nletter b 19\n")
    with pytest.raises(Refused) as caught:
        braildesk.translate(path, ["ab"])
    assert (caught.value.code, caught.value.line, caught.value.cause) == (8, 2, 4)
    assert caught.value.sentence == (
        f"Line 2 of the table “{path}” is refused: its dots are none that the opcode takes. It"
        " reads “letter b 19”."
    )
    # a path named @en is a file, and the string is the supplied table
    monkeypatch.chdir(tmp_path)
    Path("@en").write_bytes(b"letter a 12345\n")
    assert braildesk.translate(Path("@en"), ["a"]) == ["⠟"]
    assert braildesk.translate("@en", ["a"]) == ["⠁"]


def test_a_table_that_cannot_be_read_says_why(tmp_path: Path) -> None:
    whys = {}
    for path in (tmp_path / "none", tmp_path):
        with pytest.raises(CannotOpen) as caught:
            braildesk.translate(path, ["a"])
        whys[path] = caught.value.why
    assert whys == {tmp_path / "none": Why.MISSING, tmp_path: Why.FOLDER}
    large = tmp_path / "large"
    with large.open("wb") as file:
        file.truncate(2**27 + 1)
    with pytest.raises(CannotOpen) as caught:
        braildesk.translate(large, ["a"])
    assert caught.value.why == Why.TOO_LARGE
    assert caught.value.sentence == (
        f"“{large}” is too large for a table, which has at most 134,217,728 bytes."
    )


@pytest.mark.parametrize("is_session", [False, True])
def test_a_program_that_stops_while_a_book_is_judged_isnt_waited_for_to_no_end(
    book: Path, tmp_path: Path, is_session: bool
) -> None:
    copy, stopping = tmp_path / "copy", tmp_path / "stopping"
    with Session(book) as session:
        session.add_paragraph("end", "en", "The moon")
        for ending in ("", "-wal"):
            shutil.copyfile(f"{book}{ending}", f"{copy}{ending}")
    # at the first copy that is tried
    found = braildesk.find()
    stopping.write_text(f"#!/bin/sh\nkill -STOP $$\nexec '{found}' \"$@\"\n")
    stopping.chmod(0o755)

    def stop() -> None:
        raise KeyboardInterrupt

    with pytest.raises(KeyboardInterrupt):
        if is_session:
            Session(copy, stopping, while_waiting=stop)
        else:
            braildesk.check(copy, stopping, while_waiting=stop)
    assert braildesk.check(copy) == 2
