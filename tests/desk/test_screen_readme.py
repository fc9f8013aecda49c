"""The screens that the documents show: by the keys and the commands that stand before them."""

import re
import subprocess
from pathlib import Path

import braildesk
from terminal import Open
from tool import ROOT, WAIT_SECONDS, environment, scribe

README = (ROOT / "README.md").read_text(encoding="utf-8")
#: What the commands show there, and the picture of the screen.
COMMANDS = README.split("```console\n")[1].split("```")[0].split("\n")
PICTURE = README.split("```text\n")[1].split("\n```")[0].split("\n")


def test_the_book_of_the_readme_is_made_at_the_screen_alone(
    tmp_path: Path, at: Open
) -> None:
    scribe("new", "moon.braildesk", folder=tmp_path)
    book = tmp_path / "moon.braildesk"
    terminal = at(book, 72, len(PICTURE))
    terminal.wait("The book has no paragraphs. o types the first one")
    terminal.keys("o", "The mon is far away.", "enter")
    terminal.wait("kept: paragraph 1")
    terminal.keys("escape", "c-right", "enter", "right", "o", "enter")
    terminal.wait("kept: correction 1 of paragraph 1")
    # from the f of “far” to the y of “away”
    terminal.keys("c-right", "c-right", " ", "c-right", *["right"] * 5)
    terminal.wait("8 cells chosen, at ⠽ “y”")
    terminal.keys("m", "how far?", "enter")
    terminal.wait("kept: mark 1")
    terminal.wait_for(PICTURE, (5, 20), "what is marked")
    terminal.keys("w", *["backspace"] * 5, "30 5", "enter")
    terminal.wait("Pages of 5 lines of 30 cells")
    terminal.keys("x", "pages", "enter")
    exported = "pages/moon-1.brf: volume 1, 1 page, 18 cells with dots."
    assert exported in terminal.wait("Export. Lines 1 to 1 of 1.")
    terminal.keys("q", "q")
    assert terminal.ended() == 0
    assert exported in COMMANDS
    written = (tmp_path / "pages" / "moon-1.brf").read_bytes()
    assert written == braildesk.export(book, 1, 30, 5)
    shown = scribe("show", "moon.braildesk", folder=tmp_path).shown.split("\n")[:-1]
    place = COMMANDS.index("$ scribe show moon.braildesk") + 1
    assert shown == COMMANDS[place : place + len(shown)]


def test_the_screen_of_the_transcribers_page_is_what_its_steps_make(
    tmp_path: Path, at: Open
) -> None:
    page = (ROOT / "docs" / "transcriber.md").read_text(encoding="utf-8")
    before, after = page.split("```text\n", 1)
    picture = after.split("\n```")[0].split("\n")
    lines = re.findall(r"^[$>] .*$|^>$", before, re.MULTILINE)
    typed = "\n".join(line[2:] for line in lines)
    here = f"scribe() {{ '{ROOT}/bin/scribe' \"$@\"; }}\nbraildesk() {{ '{braildesk.find()}' \"$@\"; }}\n"
    subprocess.run(
        ["bash", "-c", here + typed],
        cwd=tmp_path,
        env=environment(),
        capture_output=True,
        check=True,
        timeout=WAIT_SECONDS,
    )
    terminal = at(tmp_path / "moon.braildesk", 72, len(picture))
    terminal.wait("Paragraph 1, heading")
    terminal.keys("/", "dusty", "enter")
    terminal.wait_for(picture, (6, 17), "what is found")
