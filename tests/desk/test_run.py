"""scribe run: replies as the program gives them, and a sentence after each refusal."""

import random
import shutil
import subprocess
import sys
from pathlib import Path

import pytest

import braildesk
from tool import Ran, at_end, at_terminal, environment, scribe

REQUESTS = """\
type 1 en It rises  late.
type end en The sea
type front en The Sea
style 4 heading
volume 2 on
correct-by anna 1 0 3 Our
correct 1 4 4 sun
undo 1
mark 1 5 2
mark 1 5 2 a  note, of two  words\x20
marks 1
history 1
resolve 2
strike 3
restore 3
retable 2 plain
move 2 front
where 1 4
whence 1 5
print 1
braille 1
list
version
table own 2
space \\s 0
letter a 1
supply plain
"""
REFUSED = """\
undo 9
correct 1 90 1 x
type end en é
type end own a
resolve 8
undo 2
mark 1 0 0 nothing
restore 1
@3 undo 1
table Own 1
letter a 1
table own 2
space \\s 0
letter a 19
supply Own

undo
undo 1\x20
list\x20
supper en
 version
@7 list
@x undo 1
type end  x
mark 1 99999999999999999 1
"""


@pytest.mark.parametrize("requests", [REQUESTS, REFUSED])
def test_each_reply_is_that_of_the_program(requests: str, moon: Path) -> None:
    other = Path(shutil.copyfile(moon, moon.with_name("other.braildesk")))
    wanted = session(other, requests.encode())
    ran = scribe("run", moon, "--keep-going", folder=moon.parent, given=requests)
    assert ran.shown == wanted
    assert braildesk.read_tables(moon) == braildesk.read_tables(other)


def test_lines_of_all_forms_are_read_as_the_program_reads_them(moon: Path) -> None:
    other = Path(shutil.copyfile(moon, moon.with_name("other.braildesk")))
    given = "".join(line + "\n" for line in any_lines(random.Random(41), 600))
    wanted = session(other, given.encode())
    ran = scribe("run", moon, "--keep-going", folder=moon.parent, given=given)
    assert ran.shown == wanted
    assert wanted.count("ok ") > 50 and wanted.count("no 1\n") > 100


#: The fields of each request, by a letter for each: a number, a place for a paragraph, a table,
#: a style, a switch, a text.
FIELDS = {
    "supply": "t",
    "type": "atx",
    "correct": "nnnx",
    "correct-by": "xnnnx",
    "undo": "n",
    "mark": "nnnx",
    "resolve": "n",
    "strike": "n",
    "restore": "n",
    "style": "ny",
    "volume": "nw",
    "retable": "nt",
    "move": "na",
    "print": "n",
    "braille": "n",
    "history": "n",
    "marks": "n",
    "where": "nn",
    "whence": "nn",
    "list": "",
    "version": "",
}
WORDS = {
    "n": ["1", "2", "3", "0001", "0", "12345678901234567"],
    "a": ["front", "end", "1", "2"],
    "t": ["en", "plain", "en", "En"],
    "y": ["body", "heading", "Body"],
    "w": ["on", "off", "On"],
    "x": ["so", "moon", "a  b", ""],
}


def any_lines(chance: random.Random, count: int) -> list[str]:
    """Lines that are requests, and lines that are nearly requests."""
    every = [word for words in WORDS.values() for word in words]
    lines = []
    for _ in range(count):
        name = chance.choice(list(FIELDS))
        fields = [name, *(chance.choice(WORDS[kind]) for kind in FIELDS[name])]
        match chance.randrange(12):
            case 0:
                fields.insert(0, chance.choice(["@7", "@8", "@", "@x"]))
            case 1:
                fields[chance.randrange(len(fields))] = chance.choice(every)
            case 2:
                fields.insert(chance.randrange(len(fields) + 1), chance.choice(every))
            case 3:
                fields.pop()
        lines.append(" ".join(fields))
    return lines


def session(path: Path, requests: bytes) -> str:
    """What the program itself answers."""
    words = [braildesk.find(), "session", str(path)]
    return subprocess.run(words, input=requests, capture_output=True).stdout.decode()


def test_it_stops_at_the_first_refusal_with_a_sentence(moon: Path) -> None:
    ran = scribe(
        "run",
        moon,
        folder=moon.parent,
        given="strike 1\nstrike 1\nstrike 2\n",
    )
    assert ran == Ran(
        2,
        "ok 8\nno 11\n",
        "Line 2: Paragraph 1 is struck already.\n",
    )
    assert braildesk.check(moon) == 8


def test_it_goes_on_where_that_is_asked_for(moon: Path) -> None:
    ran = scribe(
        "run",
        moon,
        "--keep-going",
        folder=moon.parent,
        given="strike 1\nstrike 1\nstrike 2\n",
    )
    assert (ran.status, ran.shown) == (2, "ok 8\nno 11\nok 9\n")


def test_sentences_that_count_otherwise_than_requests_say_so(moon: Path) -> None:
    ran = scribe(
        "run",
        moon,
        "--keep-going",
        folder=moon.parent,
        given="correct 1 90 2 x\nwhere 1 30\ntype end en aé\nundo 3\n",
    )
    assert ran.shown == "no 5\nno 5\nno 7 1\nno 10\n"
    counts = "Requests count from 0, sentences from 1."
    lines = ran.said.splitlines()
    assert lines[:2] == [
        "Line 1: Paragraph 1 doesn't have the characters 91 to 92: it has 21 characters."
        f" Nothing was changed. {counts}",
        "Line 2: Paragraph 1 doesn't have character 31: it has 21 characters."
        f" {counts}",
    ]
    assert "character 2 of the text" in lines[2] and lines[2].endswith(counts)
    assert counts not in lines[3]


def test_a_line_that_is_no_request_is_explained(moon: Path) -> None:
    ran = scribe("run", moon, folder=moon.parent, given="version\nstryke 1\n")
    assert ran == Ran(
        2,
        "end 7\nno 1\n",
        "Line 2: There is no request “stryke”. Did you mean strike? Nothing was changed.\n",
    )


def test_the_form_of_a_request_is_shown_where_it_is_missed(moon: Path) -> None:
    ran = scribe("run", moon, folder=moon.parent, given="correct 1 2\n")
    assert ran.said == (
        "Line 1: The request correct is written as: correct PARA START COUNT TEXT."
        " START is counted from 0. One blank stands between fields, and none at the end. Nothing was changed.\n"
    )


@pytest.mark.parametrize(
    "character, name",
    [
        ("\x1b", "U+001B ESCAPE, a control character"),
        ("\x7f", "U+007F DELETE, a control character"),
        ("\x85", "U+0085 NEXT LINE, a control character"),
    ],
)
def test_a_control_character_is_refused_and_nothing_is_sent(
    character: str, name: str, moon: Path
) -> None:
    given = f"mark 1 0 1 so{character}?\nversion\n"
    ran = scribe("run", moon, "--keep-going", folder=moon.parent, given=given)
    assert ran == Ran(
        2,
        "end 7\n",
        f"Line 1: Character 14 of the line is {name}. Texts, notes and names can't have one"
        " here. Nothing was changed.\n",
    )


def test_a_tab_and_a_format_character_are_kept_and_the_second_is_made_visible(
    moon: Path,
) -> None:
    given = "mark 1 0 1 a\tb\u202ec\nmarks 1\n"
    ran = scribe("run", moon, folder=moon.parent, given=given)
    assert "open kept a\tb<U+202E>c\n" in ran.shown
    assert "kept a\tb\u202ec\n" in session(moon, b"marks 1\n")


def test_an_escape_that_is_in_the_book_is_not_written_to_the_terminal(
    moon: Path,
) -> None:
    session(moon, b"mark 1 0 1 \x1b[2J\n")
    ran = scribe("run", moon, folder=moon.parent, given="marks 1\n")
    assert "<U+001B>[2J" in ran.shown and "\x1b" not in ran.shown


def test_the_lines_of_a_table_arrive_as_they_stand(moon: Path) -> None:
    given = b"table own 2\nspace \\s 0\r\n# a b\xc2\x85c \r\r\nversion"
    ran = scribe("run", moon, folder=moon.parent, given=given)
    assert ran == Ran(0, "ok 8\nend 8\n", "")
    (own,) = (table for table in braildesk.read_tables(moon) if table.name == "own")
    assert own.text == b"space \\s 0\r\n# a b\xc2\x85c \r\r\n"


def test_a_table_without_all_its_lines_is_refused_and_not_cut(moon: Path) -> None:
    ran = scribe("run", moon, folder=moon.parent, given="table own 3\nspace \\s 0\n")
    assert ran == Ran(
        2,
        "no 1\n",
        "Line 1: The input ends after 1 of the 3 lines of this table. Nothing was changed.\n",
    )
    assert braildesk.check(moon) == 7


def test_of_a_table_of_one_line_none_may_be_there(moon: Path) -> None:
    ran = scribe("run", moon, folder=moon.parent, given="table own 1\n")
    said = "Line 1: The input ends after 0 of the 1 line of this table. Nothing was changed.\n"
    assert ran == Ran(2, "no 1\n", said)


def test_a_table_whose_name_has_a_control_character_takes_its_lines(moon: Path) -> None:
    given = "table o\x1bn 1\nstrike 1\nversion\n"
    ran = scribe("run", moon, "--keep-going", folder=moon.parent, given=given)
    assert (ran.status, ran.shown) == (2, "end 7\n")


def test_a_line_of_more_bytes_than_a_request_may_have_is_not_cut(moon: Path) -> None:
    given = "mark 1 0 1 " + "x" * 65_526 + "\n"
    ran = scribe("run", moon, folder=moon.parent, given=given)
    assert ran == Ran(
        2,
        "no 1\n",
        "Line 1: This line has over 65,536 bytes, and no request has so many. Nothing was"
        " changed.\n",
    )


def test_a_line_that_a_terminal_may_have_cut_is_refused(moon: Path) -> None:
    child = at_terminal(
        *(sys.executable, "-m", "scribe", "run", moon),
        settings=environment(),
        folder=moon.parent,
    )
    child.send("table own 2\rspace \\s 0\rletter é 1\r")
    child.expect_exact("ok 8")
    # the first 2,041 come to scribe
    child.send(f"type end own {'é' * 2_500}\r")
    status = at_end(child)
    assert "no 1\r\nLine 4: The terminal may have cut a line of this" in child.before
    assert status == 2
    assert braildesk.check(moon) == 8


def test_a_session_that_is_lost_says_what_was_kept(moon: Path) -> None:
    program = moon.with_name("cut short")
    program.write_text(
        "#!/bin/sh\n"
        'two_lines() { for _ in 1 2; do read -r line; echo "$line"; done; }\n'
        f"two_lines | '{braildesk.find()}' \"$@\"\nkill $$\n"
    )
    program.chmod(0o755)
    given = "strike 1\nstrike 2\nstrike 3\n"
    ran = scribe("run", moon, folder=moon.parent, given=given, BRAILDESK=str(program))
    assert (ran.status, ran.shown) == (3, "ok 8\n")
    assert (
        "The last command that was reported as kept is the striking of paragraph 1"
        in ran.said
    )
    assert braildesk.check(moon) == 8


def test_ten_thousand_requests_take_seconds(moon: Path) -> None:
    ran = scribe("run", moon, folder=moon.parent, given="version\n" * 10_000)
    assert ran.shown == "end 7\n" * 10_000


def test_a_request_that_was_not_begun_is_not_taken_for_what_was_changed_last(
    moon: Path,
) -> None:
    ran = subprocess.Popen(
        [sys.executable, "-m", "scribe", "run", moon],
        stdin=subprocess.PIPE,
        stdout=subprocess.PIPE,
        stderr=subprocess.PIPE,
        env=environment(COLUMNS="400"),
        text=True,
    )
    assert ran.stdin is not None and ran.stdout is not None
    ran.stdin.write("strike 1\n")
    ran.stdin.flush()
    assert ran.stdout.readline() == "ok 8\n"
    Path(f"{moon}-wal").unlink()
    shown, said = ran.communicate("strike 2\n")
    assert (ran.returncode, shown) == (3, "")
    assert said.endswith(
        "The book was opened again: it is at version 8, as before, and what was asked last is not in"
        " it.\n"
    )
