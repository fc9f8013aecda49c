"""Brings ten tables over, and compares eight with liblouis on the messages that installed programs have.

It fails where a table has a smaller share of words than it is known to have, or of plain lines, where a
character is refused for which liblouis has cells, where a word of real text has other cells than its
braille code gives it, and where a table has more lines than the program reads.
"""

import sys
import tempfile
from collections.abc import Mapping
from concurrent.futures import ProcessPoolExecutor
from dataclasses import dataclass
from pathlib import Path

import measure
import running

from braildesk.program import translate
from braildesk.tables.convert.conversion import Options, convert
from braildesk.tables.convert.draft import MOST_LINES
from braildesk.tables.convert.source import find_table
from braildesk.tables.convert.subject import script_of_table

LINES = 300
MANY_LINES = 1_500
"""How many lines of a language are compared, the first in the order of their digests.

Where many lines differ, a few hundred say little: of 300 in Russian 134 are plain, and two of them more
or less are a hundredth. So there are more of these.
"""

FEWEST_LINES = 100
"""With fewer lines a share says nothing, and a machine may have none: small ones leave messages out."""

FEWEST_TABLES = 5


@dataclass(frozen=True)
class Least:
    """A table with the language of its text, and the least shares of words and of plain lines."""

    table: str
    language: str
    words: float
    plain: float
    lines: int = LINES


LEAST = (
    Least("Pl-Pl-g1.utb", "pl", 0.99, 0.99),
    Least("de-g0.utb", "de", 0.98, 0.88),
    Least("el.ctb", "el", 0.99, 0.97),
    Least("es-g1.ctb", "es", 0.99, 0.99),
    Least("fr-bfu-comp6.utb", "fr", 0.99, 0.97),
    Least("ru-litbrl.ctb", "ru", 0.9695, 0.87, MANY_LINES),
    Least("sv-g0.utb", "sv", 0.99, 0.97),
    Least("uk.utb", "uk", 0.967, 0.86, MANY_LINES),
)
"""Messages have more Latin words, options and file names than manual pages, so their shares are smaller."""


BY_HAND: Mapping[str, Mapping[str, str]] = {
    "de-g1.ctb": {
        "speziell": "⠎⠏⠑⠵⠊⠑⠇⠇",
        "Client": "⠉⠇⠊⠑⠝⠞",
        "Partitionstabelle": "⠏⠁⠗⠞⠊⠞⠊⠕⠝⠎⠞⠁⠃⠑⠇⠇⠑",
        "angepasst": "⠁⠝⠛⠑⠏⠁⠎⠎⠞",
        "viel Stein": "⠧⠬⠇⠀⠾⠩⠝",
        "utf-8": "⠥⠞⠋⠤⠼⠓",
    },
    "el.ctb": {
        "είναι": "⠐⠩⠝⠣",
        "Είναι": "⠨⠐⠩⠝⠣",
        "αυτού": "⠡⠞⠐⠥",
        "το the end ID": "⠞⠕⠀⠰⠞⠓⠑⠀⠰⠑⠝⠙⠀⠰⠠⠊⠠⠙",
        "ποιος;": "⠏⠪⠕⠎⠢",
    },
    "no-no-g0.utb": {
        "3-linjers": "⠼⠉⠤⠇⠊⠝⠚⠑⠗⠎",
        "5-7": "⠼⠑⠤⠤⠼⠛",
        "base64-alfabetet": "⠃⠁⠎⠑⠼⠋⠙⠤⠁⠇⠋⠁⠃⠑⠞⠑⠞",
    },
    "ru-litbrl.ctb": {
        "ядро Linux 5.3": "⠫⠙⠗⠕⠀⠨⠇⠊⠝⠥⠭⠀⠼⠑⠲⠼⠉",
        "слово the end": "⠎⠇⠕⠺⠕⠀⠠⠞⠓⠑⠀⠑⠝⠙",
        "их 25.": "⠊⠓⠀⠼⠃⠑⠠⠲",
        "в 1945.": "⠺⠀⠼⠁⠊⠙⠑⠠⠲",
        "в 12.05.": "⠺⠀⠼⠁⠃⠲⠼⠚⠑⠠⠲",
        "the end. The list": "⠠⠞⠓⠑⠀⠑⠝⠙⠲⠀⠞⠓⠑⠀⠇⠊⠎⠞",
        "в System V и": "⠺⠀⠨⠎⠽⠎⠞⠑⠍⠀⠧⠀⠊",
        "о New-York": "⠕⠀⠨⠝⠑⠺⠤⠽⠕⠗⠅",
        "тип root:disk и": "⠞⠊⠏⠀⠠⠗⠕⠕⠞⠒⠙⠊⠎⠅⠀⠊",
        "тип comp_t и": "⠞⠊⠏⠀⠠⠉⠕⠍⠏⠸⠞⠀⠊",
        "тип Rela_R и": "⠞⠊⠏⠀⠨⠗⠑⠇⠁⠸⠗⠀⠊",
        "вид tar --help и": "⠺⠊⠙⠀⠠⠞⠁⠗⠤⠤⠓⠑⠇⠏⠀⠊",
        "вид mount -a и": "⠺⠊⠙⠀⠠⠍⠕⠥⠝⠞⠤⠁⠀⠊",
        "в cgroups v1": "⠺⠀⠠⠉⠛⠗⠕⠥⠏⠎⠀⠧⠼⠁",
        "путь $PATH": "⠏⠥⠞⠾⠀⠈⠙⠨⠏⠁⠞⠓",
        "прокси-DMA": "⠏⠗⠕⠅⠎⠊⠤⠨⠙⠍⠁",
    },
}
"""Words of real text by tables of the installed liblouis, with the cells that the braille codes give them."""


@dataclass(frozen=True)
class Judged:
    """What is said of a table, whether it is good, and whether there were lines enough to compare it."""

    said: str
    is_good: bool
    is_compared: bool


def judged(name: str) -> Judged:
    """A table that is made, and looked at by words whose cells are known and by messages."""
    with tempfile.TemporaryDirectory() as folder:
        made = Path(folder) / "made.utb"
        text = convert(find_table(name), Options(each=1)).text
        made.write_text(text, encoding="utf-8")
        faults = known_faults(name, made, text.count("\n"))
        if faults:
            return Judged(f"{name}: {'; '.join(faults)}", False, True)
        least = next((its for its in LEAST if its.table == name), None)
        if least is None:
            return Judged(f"{name}: all words that are known", True, False)
        return compared(least, made)


def known_faults(name: str, made: Path, lines: int) -> list[str]:
    """Which words have other cells than the braille code gives them, and whether there are too many lines."""
    words = BY_HAND.get(name, {})
    found = translate(made, list(words))
    faults = [
        f"{word} is {cells}, wanted {words[word]}"
        for word, cells in zip(words, found, strict=True)
        if cells != words[word]
    ]
    return faults + ([f"{lines} lines"] if lines >= MOST_LINES else [])


def compared(least: Least, made: Path) -> Judged:
    """Whether the shares of a table are large enough on the messages in its language, if there are enough."""
    script = script_of_table(least.language)
    lines = [
        line
        for line in running.in_order(running.of_messages(least.language))
        if running.is_of_script(line, script)
    ][: least.lines]
    if len(lines) < FEWEST_LINES:
        said = f"{least.table}: {len(lines)} lines of messages in {least.language}, too few"
        return Judged(said, True, False)
    found = measure.measure(least.table, made, measure.in_first_plane(lines))
    said = (
        f"{least.table}: {found.lines.of_all} lines, of the words {found.words.share:.2%} and of"
        f" {found.plain.of_all} plain lines {found.plain.share:.2%} with the same cells,"
        f" {found.refused} refused"
    )
    if (
        found.words.share < least.words
        or found.plain.share < least.plain
        or found.refused
    ):
        wanted = f"wanted {least.words:.2%} and {least.plain:.2%}"
        return Judged(f"{said}; {wanted}", False, True)
    return Judged(said, True, True)


def main() -> int:
    """Judges each table."""
    names = dict.fromkeys((*BY_HAND, *(its.table for its in LEAST)))
    with ProcessPoolExecutor(2) as pool:
        found = list(pool.map(judged, names))
    for each in found:
        print(f"{'ok  ' if each.is_good else '    '}{each.said}")
    failed = [each.said for each in found if not each.is_good]
    for said in failed:
        print(f"tests/tables/bring_real.sh: {said}", file=sys.stderr)
    if sum(each.is_compared for each in found) < FEWEST_TABLES:
        print(
            "tests/tables/bring_real.sh: too few programs have their messages installed in other"
            " languages, which Debian's git and binutils have unless /usr/share/locale is left out",
            file=sys.stderr,
        )
        return 1
    return 1 if failed else 0


if __name__ == "__main__":
    sys.exit(main())
