"""The part of measured.md of src/braildesk/tables/convert on running text, by the figures of `figures.py`."""

import csv
from collections.abc import Mapping, Sequence
from pathlib import Path

FIGURES = Path(__file__).with_name("figures.tsv")

WANTED = 0.995
"""The share of words, and of plain lines, that is wanted of an uncontracted table of Europe."""

PASSAGES = "passages of Latin words over several marks or numbers, in which the first word alone has a sign"

LACKS = {
    "da-dk-g16-lit_1993.ctb": "signs of capitals that small letters follow, and of a capital within a word",
    "de-g0.utb": "computer braille, which liblouis uses for what it takes for an address or a path",
    "de-g0-detailed.utb": "computer braille, which liblouis uses for what it takes for an address or a path",
    "de-g1.ctb": "computer braille, which liblouis uses for what it takes for an address or a path",
    "fr-bfu-comp6.utb": "capitals that go on over a hyphen or an apostrophe, and numbers after a bracket",
    "no-no-g0.utb": "passages of capitals, and capitals that small letters follow in the word",
    "ru-litbrl-detailed.utb": PASSAGES,
    "ru-litbrl.ctb": PASSAGES,
    "sv-g0.utb": "passages of capitals",
    "uk.utb": PASSAGES,
}
"""What the tables lack that stay below that, as their lines show it."""

HEAD = """\
## On running text

These lines were made for no table: they are those of Debian's translated manual pages, of eight words or
more, of whose characters five sixths are letters, blanks aside. `tests/tables/bring_real.sh` takes them
in the order of their digests. The first 800 of a language were looked at while `scribe bring` was written,
and the next 800 were held back: nobody looked at them, and they were measured for these figures alone.
For Greek, Norwegian and Portuguese, of which there are fewer, lines of the messages of programs follow.
Of both those lines are left out of which less than half of the letters are of the language's script, as
English lines that nobody translated, which are a fifth of the Russian ones.

- **words**: the share of liblouis's words of cells that stand in the same order in the program's
  line.
- **all lines**: the share of lines with the same cells.
- **plain lines**: the same of those lines that have words, numbers and marks of a book alone: no
  path, no digit beside a letter, and no capital within a word. An option such as `-a` or `--help` is
  taken for a word with hyphens. About three quarters are such lines.
- **held back**: the three shares on the lines that were held back.
- **without cells**: how many of the 800 lines have a character for which liblouis's own table has
  no cells, and which of these characters are most frequent. These lines don't count in the shares.
  `--add` gives such characters cells.

{refused} Of the {count} uncontracted tables of Europe that are measured here, {words} have at least 99.5%
of the words, and {plain} at least 99.5% of the plain lines, of those that were looked at; of those held
back, {held_words} and {held_plain}.
"""

BELOW = """
### Tables below that

| table | words | plain lines | what it lacks | print | liblouis | here |
|---|---|---|---|---|---|---|
"""

COLUMNS = (
    "| language | table | words | all lines | plain lines | held back: words | all lines | plain lines"
    " | without cells |\n|---|---|---|---|---|---|---|---|---|\n"
)

Row = Mapping[str, str]


def rows() -> dict[str, Row]:
    """The figures by the names of the tables, those without a line that counts aside."""
    if not FIGURES.is_file():
        return {}
    with FIGURES.open(encoding="utf-8", newline="") as file:
        found = csv.DictReader(file, delimiter="\t")
        return {row["table"]: row for row in found if int(row["lines"])}


def percent(share: str) -> str:
    """A share in percent, rounded down."""
    return f"{int(float(share) * 10_000) / 100:g}%"


def head(uncontracted: Sequence[Row], every: Sequence[Row]) -> str:
    """What is said before the tables."""

    def reaching(key: str) -> int:
        return sum(float(row[key]) >= WANTED for row in uncontracted)

    refused = sum(int(row["refused"]) for row in every)
    return HEAD.format(
        refused=(
            "No line was refused for a character that liblouis's table defines."
            if not refused
            else f"{refused} lines were refused for a character that liblouis's table defines."
        ),
        count=len(uncontracted),
        words=reaching("all_words"),
        plain=reaching("plain_lines"),
        held_words=reaching("held_words"),
        held_plain=reaching("held_plain"),
    )


def line_of(row: Row, title: str) -> str:
    """The line of a table."""
    lacking = " ".join(
        f"`{one}`" for one in row["lacking"] if one.isprintable() and one not in "|`"
    )
    without = (
        f"{row['without_cells']} {lacking}".strip() if int(row["without_cells"]) else ""
    )
    shares = (
        "all_words",
        "all_lines",
        "plain_lines",
        "held_words",
        "held_lines",
        "held_plain",
    )
    cells = [
        row["language"],
        f"`{row['table']}` {title}".strip(),
        *(percent(row[key]) for key in shares),
        without,
    ]
    return "| " + " | ".join(cells) + " |\n"


def below(uncontracted: Sequence[Row]) -> str:
    """The uncontracted tables that stay below what is wanted, each with what it lacks and an example."""
    lines = [
        below_line(row)
        for row in uncontracted
        if min(
            float(row[key])
            for key in ("all_words", "plain_lines", "held_words", "held_plain")
        )
        < WANTED
    ]
    return BELOW + "".join(lines) if lines else ""


def below_line(row: Row) -> str:
    """The line of a table that stays below."""
    example = [part.replace("|", "\\|") for part in row["example"].split("\u241f")]
    shown = [f"`{part}`" if part else "" for part in (*example, "", "", "")[:3]]
    shares = [f"{percent(row[one])}, {percent(row[other])}" for one, other in PAIRS]
    cells = [f"`{row['table']}`", *shares, LACKS.get(row["table"], ""), *shown]
    return "| " + " | ".join(cells) + " |\n"


PAIRS = (("all_words", "held_words"), ("plain_lines", "held_plain"))
