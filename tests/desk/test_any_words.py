"""Words of the command line at random: each ends in a status and a sentence."""

import os
import shutil
from collections.abc import Iterator
from io import BytesIO, StringIO
from pathlib import Path
from tempfile import TemporaryDirectory

import pytest
from hypothesis import HealthCheck, given, settings
from hypothesis import strategies as st

from scribe.cli import run_words
from scribe.cli.commands import COMMANDS
from scribe.cli import prompt_words
from scribe.words.console import Console

SAMPLE = Path(__file__).resolve().parents[2] / "sample"
#: bring asks liblouis for seconds where a table is one, which test_bring.py does.
NAMES = sorted({*COMMANDS} - {"bring"})
PATHS = [
    "moon.braildesk",
    "other.braildesk",
    "link",
    "hanging",
    "pipe",
    "missing/moon.braildesk",
    "folder",
    "plain.utb",
    "text.txt",
    "empty",
    "noise",
    "/dev/null",
    "/dev/full",
    "/proc",
    "",
    ".",
    "..",
    "~",
    "~nobody/x",
    "-",
    "x" * 300,
    "y/" * 2_100,
    "caf\udce9",
    "a\nb\x1b[2J",
]
OPTIONS = (
    "--by --width --lines --nth --table --after --from --dry-run --paragraphs --print --braille"
    " --ascii --page --line --pages --set --words --case --in --ask --only-changed --volume"
    " --paragraph --display --keep-going --list --help -h --version --"
).split()
TEXTS = [
    "moon",
    "The",
    "",
    " ",
    "…",
    "\u0301",
    "a\tb",
    "\x1b",
    "\udce9",
    "z" * 4_001,
    "en",
    "plain",
    "front",
    "end",
    "on",
    "off",
    "3-9",
    "9-3",
    "-1",
    "0",
    "1",
    "2",
    "3",
    "40",
    "9007199254740993",
    "99999999999999999",
    "٣",
    "1.5",
]
WORD = st.one_of(
    st.sampled_from(PATHS), st.sampled_from(TEXTS), st.sampled_from(OPTIONS)
)
#: What a line may begin with for the commands that read input.
BEGUN = [
    *prompt_words.names(),
    "@1",
    "@",
    "@3 correct",
    "import",
    "histroy",
    "request",
    "request mark 1",
]
LINE = st.one_of(
    WORD, st.builds(" ".join, st.tuples(st.sampled_from(BEGUN), st.sampled_from(TEXTS)))
)
INPUT = st.lists(LINE, max_size=6).map(
    lambda lines: "\n".join(lines).encode("utf-8", "surrogateescape")
)


@pytest.fixture(scope="module")
def folder(moon_once: Path) -> Iterator[Path]:
    """A folder with files of all kinds, in which the commands run one after another."""
    before = os.getcwd()
    with TemporaryDirectory() as name:
        # one folder below, so that nothing is written beside it
        path = Path(name, "work")
        shutil.copytree(SAMPLE, path, dirs_exist_ok=True)
        shutil.copyfile(moon_once, path / "moon.braildesk")
        (path / "folder").mkdir()
        (path / "link").symlink_to("moon.braildesk")
        (path / "hanging").symlink_to("nowhere")
        os.mkfifo(path / "pipe")
        (path / "text.txt").write_text("The sun\n\nThe stars.\n")
        (path / "empty").touch()
        (path / "noise").write_bytes(bytes(range(256)) * 20)
        os.chdir(path)
        yield path
        os.chdir(before)


@settings(
    max_examples=300,
    deadline=None,
    suppress_health_check=[HealthCheck.function_scoped_fixture],
)
@given(
    name=st.sampled_from(NAMES),
    path=st.sampled_from(PATHS),
    words=st.lists(WORD, max_size=4),
    data=INPUT,
)
def test_any_words_end_in_a_status_and_a_sentence(
    folder: Path, name: str, path: str, words: list[str], data: bytes
) -> None:
    shown, said = StringIO(), StringIO()
    status = run_words([name, path, *words], Console(BytesIO(data), shown, said))
    assert status in (0, 1, 2, 3)
    # what has nothing to say was given no request
    assert shown.getvalue() or said.getvalue() or (name, status) == ("run", 0)
    assert "Traceback" not in said.getvalue() and "\x1b" not in said.getvalue()
