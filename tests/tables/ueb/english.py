"""Lines of running English from the documents of a machine, the same ones each time.

A line is running English where it has eight words or more, at least two of them among
the commonest, and nine in ten of its words are letters, or numbers, once the marks at
their ends are taken off. The documents are taken in the order of the digests of their
paths, so that no hand chooses them, and of each its first lines of running English.
"""

import enum
import gzip
import hashlib
import os
import pathlib
import re
from collections.abc import Iterator

import capitals

ROOTS = (
    "/usr/share/common-licenses",
    "/usr/share/doc",
    "/usr/share/man",
    "/usr/share/perl",
)

# how many lines of a document are taken at most
OF_A_DOCUMENT = 40

# which files of documentation have text for people, by their names: those named copyright
# aren't among them, since they repeat the same licences, which have a folder of their own
DOCUMENT = re.compile(
    r"(README|NEWS|FAQ|TODO|THANKS|AUTHORS|HACKING|INSTALL|.*\.(txt|md|rst|pod))(\.gz)?",
    re.I,
)
# the manual pages in English, whose lines of text have no mark-up
MANUAL = re.compile(r"/usr/share/man/man\d/")
MARKED_UP = re.compile(r"[.']|.*\\")

COMMONEST = frozenset(
    "the of and to a in is that it for on with as be are this by or not from an if you"
    " can will which at have has was but all when no any may your".split()
)
MARKS = "\"'“”‘’().,;:?!…[]"
WORD = re.compile(r"[^\W\d_]+(?:['’-][^\W\d_]+)*|\d+(?:[.,:]\d+)*")

FEWEST_WORDS = 8
FEWEST_COMMON = 2


class Need(enum.Enum):
    """What a line needs that no table of the profile has."""

    PASSAGE = "lines with a passage of capitals"
    TERMINATOR = "lines with capitals that small letters follow in the word (PDFs)"
    NOTHING = "lines that need neither"


def is_running(line: str) -> bool:
    """Whether a line is running English."""
    words = [word.strip(MARKS) for word in line.split()]
    common = sum(word.lower() in COMMONEST for word in words)
    plain = sum(bool(WORD.fullmatch(word)) for word in words)
    return (
        len(words) >= FEWEST_WORDS
        and common >= FEWEST_COMMON
        and 10 * plain >= 9 * len(words)
    )


def need_of(line: str) -> Need:
    """What a line needs, by its print alone."""
    if capitals.passages(line):
        return Need.PASSAGE
    return Need.TERMINATOR if capitals.runs_before_small_letters(line) else Need.NOTHING


def documents() -> list[pathlib.Path]:
    """The documents of the machine, in the order of the digests of their paths."""
    found = []
    for root in ROOTS:
        for folder, _, files in os.walk(root):
            paths = (pathlib.Path(folder, name) for name in files)
            found += [path for path in paths if is_document(path)]
    return sorted(found, key=lambda it: hashlib.sha256(str(it).encode()).digest())


def is_document(path: pathlib.Path) -> bool:
    """Whether a file has text for people in English."""
    text = str(path)
    if path.is_symlink() or not path.is_file():
        return False
    if text.startswith("/usr/share/man/"):
        return bool(MANUAL.match(text))
    return "/doc/" not in text or bool(DOCUMENT.fullmatch(path.name))


def lines_of(path: pathlib.Path) -> Iterator[str]:
    """The lines of a document, of which those that can't be read have none."""
    try:
        written = path.read_bytes()
        if path.suffix == ".gz":
            written = gzip.decompress(written)
        lines = written.decode("utf-8").split("\n")
    except (UnicodeDecodeError, gzip.BadGzipFile, EOFError, PermissionError):
        return
    is_manual = str(path).startswith("/usr/share/man/")
    for line in lines:
        if not is_manual or not MARKED_UP.match(line):
            yield line.strip()


def running_lines(most: int | None) -> tuple[list[str], int]:
    """At most so many lines of running English, none twice, and of how many documents."""
    found: dict[str, None] = {}
    for count, path in enumerate(documents(), 1):
        new = (line for line in lines_of(path) if line not in found)
        for _, line in zip(range(OF_A_DOCUMENT), filter(is_running, new)):
            found.setdefault(line)
            if len(found) == most:
                return [*found], count
    return [*found], len(documents())
