"""Contracted tables made for texts, and what each is worth on its own text and on others.

    contracted.py FOLDER [TEXT ..]

FOLDER has Debian's packages below `tree`, as contracted.sh puts them there. A table is compared with
the texts of its language, of these with those named if any are. What is found is kept in
contracted.tsv, from which the tables of figures in contracted.md of src/braildesk/tables/convert are written.
"""

import csv
import gettext
import gzip
import html
import re
import resource
import subprocess
import sys
from collections.abc import Iterable, Iterator, Mapping
from dataclasses import dataclass
from pathlib import Path

from braildesk.tables import read
from braildesk.tables.convert.draft import cells_by
from braildesk.tables.convert.oracle import Liblouis
from braildesk.tables.convert.report import percent
from braildesk.tables.convert.source import find_table
from braildesk.tables.convert.tailoring import Figures, figures

MOST_CHARACTERS = 3_900
"""A paragraph is cut here, since one of a book has 4,000 characters at most."""

FEWEST_LETTERS = 0.7
"""The share of letters that running text has."""

MOST_WORDS = 100_000
"""The words of the text of which a part is taken."""


@dataclass(frozen=True)
class Text:
    """A text with its language, its files, and the words that are taken of it, if not all."""

    name: str
    files: str
    most: int | None = None

    @property
    def language(self) -> str:
        return self.name.split(".")[1]


HANDBOOK = "doc/debian-handbook/html/{}/*.html"
GUIDE = "doc/installation-guide-amd64/{}/*.html"
STORY = "games/wesnoth/1.16/locale/{}/LC_MESSAGES/wesnoth-httt.mo"
HELP = "help/{}/gnome-help/*.page"
QUESTIONS = "doc/debian/FAQ/{}.html"
REFERENCE = "debian-reference/*.{}.html"
DEVELOPERS = "developers-reference/{}*.html"
PICTURES = "gimp/2.0/help/{}/*.html"
PACKAGES = "doc/aptitude/html/{}/*.html"
ACCOUNTS = "doc/gnucash-docs/gnucash-guide-{}/*.html"
DATABASE = "doc/postgresql-doc-15/html/*.html"
LANGUAGE = "doc/python3.11/html/[htu]*/*.html"
VERSIONS = "doc/git-doc/*.html"
SERVER = "doc/apache2-doc/manual/en/**/*.html"
KEPT = Path(__file__).with_suffix(".tsv")
COLUMNS = "made_for text words right within paragraphs held_back lines seconds".split()
PAGE = (
    Path(__file__).resolve().parents[2] / "src/braildesk/tables/convert/contracted.md"
)
BEGIN = "<!-- tests/tables/contracted.sh writes the tables from here -->\n"
END = "<!-- to here -->\n"
OWN = """\
| text | table | words | of them right | within rules | paragraphs right | held back | lines of the table |
|---|---|---|---|---|---|---|---|
"""
OTHERS = """
On texts that a table wasn't made for:

| text | table for | words | of them right | within rules |
|---|---|---|---|---|
"""
TEXTS = (
    Text("handbook.en", HANDBOOK.format("en-US")),
    Text("install.en", GUIDE.format("en")),
    Text("devil.en", "dictd/devil.dict.dz"),
    Text("anarchism.en", "doc/anarchism/html/*.html", MOST_WORDS),
    # English is what the messages of a catalog are translated from
    Text("story.en", STORY.format("de")),
    Text("help.en", HELP.format("C")),
    Text("questions.en", QUESTIONS.format("*.en")),
    Text("reference.en", REFERENCE.format("en")),
    Text("developers.en", DEVELOPERS.format("")),
    Text("pictures.en", PICTURES.format("en"), MOST_WORDS),
    Text("packages.en", PACKAGES.format("en")),
    Text("accounts.en", ACCOUNTS.format("en"), MOST_WORDS),
    Text("database.en", DATABASE, MOST_WORDS),
    Text("language.en", LANGUAGE, MOST_WORDS),
    Text("versions.en", VERSIONS, MOST_WORDS),
    Text("server.en", SERVER, MOST_WORDS),
    Text("handbook.de", HANDBOOK.format("de-DE"), MOST_WORDS),
    Text("install.de", GUIDE.format("de")),
    Text("story.de", STORY.format("de")),
    Text("help.de", HELP.format("de")),
    Text("questions.de", QUESTIONS.format("de/*")),
    Text("reference.de", REFERENCE.format("de")),
    Text("developers.de", DEVELOPERS.format("de/")),
    Text("pictures.de", PICTURES.format("de"), MOST_WORDS),
    Text("handbook.fr", HANDBOOK.format("fr-FR"), MOST_WORDS),
    Text("install.fr", GUIDE.format("fr")),
    Text("story.fr", STORY.format("fr")),
    Text("help.fr", HELP.format("fr")),
    Text("questions.fr", QUESTIONS.format("fr/*")),
    Text("reference.fr", REFERENCE.format("fr")),
    Text("developers.fr", DEVELOPERS.format("fr/")),
    Text("pictures.fr", PICTURES.format("fr"), MOST_WORDS),
    Text("packages.fr", PACKAGES.format("fr")),
)
TABLES = {"en": "en-ueb-g2.ctb", "de": "de-g2.ctb", "fr": "fr-bfu-g2.ctb"}
LANGUAGES = {"en": "English", "de": "German", "fr": "French"}
TITLES = {
    "handbook": "*The Debian Administrator's Handbook*",
    "install": "Debian's installation guide",
    "devil": "*The Devil's Dictionary*",
    "anarchism": "*An Anarchist FAQ*",
    "story": "*Heir to the Throne*, a story in a game",
    "help": "the help of GNOME",
    "questions": "*The Debian GNU/Linux FAQ*",
    "reference": "*Debian Reference*",
    "developers": "*Debian Developer's Reference*",
    "pictures": "the manual of GIMP",
    "packages": "the manual of aptitude",
    "accounts": "the guide to GnuCash",
    "database": "the manual of PostgreSQL",
    "language": "the documentation of Python",
    "versions": "the manual of Git",
    "server": "the manual of Apache",
}
LISTS = {"en": "british-english", "de": "ngerman", "fr": "french"}


def paragraphs(parts: Iterable[str]) -> Iterator[str]:
    """The parts of a document that are paragraphs of running text."""
    for part in parts:
        text = " ".join(part.replace("\u200b", "").split())
        letters = sum(map(str.isalpha, text))
        if len(text.split()) > 3 and letters > FEWEST_LETTERS * len(text):
            yield text[:MOST_CHARACTERS]


def parts_of(path: Path, language: str) -> Iterable[str]:
    """The parts of a document between which its paragraphs end."""
    raw = path.read_bytes()
    if path.suffix == ".mo":
        with path.open("rb") as file:
            catalog = gettext.GNUTranslations(file)
        # what the library has no public name for: all messages with what they are translated to
        messages: Mapping[object, str] = getattr(catalog, "_catalog")
        return [
            asked if language == "en" else answered
            for asked, answered in messages.items()
            if isinstance(asked, str) and "\x04" not in asked
        ]
    if path.suffix == ".dz":
        raw = gzip.decompress(raw)
    written = raw.decode(errors="replace")
    if path.suffix in (".html", ".page"):
        written = re.sub(r"<pre\b.*?</pre>", " ", written, flags=re.S)
        pattern = _PARAGRAPH if path.suffix == ".html" else f"{_PARAGRAPH}|{_TITLE}"
        found = re.findall(pattern, written, re.S)
        return (html.unescape(re.sub("<[^>]*>", "", " ".join(one))) for one in found)
    return re.split(r"\n[ \t]*\n", written)


_PARAGRAPH = (
    r'<div class="para">(.*?)</div>|<h[1-6][^>]*>(.*?)</h[1-6]>|<p\b[^>]*>(.*?)</p>'
)
_TITLE = r"<title\b[^>]*>(.*?)</title>"


def paragraphs_of(text: Text, folder: Path) -> list[str]:
    """The paragraphs of a text, none twice."""
    found: dict[str, None] = {}
    words = 0
    for path in sorted((folder / "tree/usr/share").glob(text.files)):
        for one in paragraphs(parts_of(path, text.language)):
            if one not in found and (text.most is None or words < text.most):
                found[one] = None
                words += len(one.split())
    return [*found]


def path_of(text: Text, folder: Path, ending: str) -> Path:
    return folder / f"{text.name}.{ending}"


def make(text: Text, folder: Path) -> tuple[float, str]:
    """Makes a table for a text. Says how many seconds of a processor that took, and what was said."""
    before = _seconds()
    table, words = TABLES[text.language], LISTS[text.language]
    done = subprocess.run(
        [
            *(sys.executable, "-m", "scribe", "bring", table),
            *(path_of(text, folder, "utb"), "--anyway"),
            *("--for", path_of(text, folder, "txt")),
            *("--words", folder / "tree/usr/share/dict" / words),
        ],
        check=True,
        stdout=subprocess.PIPE,
        stderr=subprocess.STDOUT,
        text=True,
    )
    print(done.stdout, flush=True)
    return _seconds() - before, done.stdout


def _seconds() -> float:
    used = resource.getrusage(resource.RUSAGE_CHILDREN)
    return used.ru_utime + used.ru_stime


def compared(made_for: Text, text: Text, folder: Path) -> Figures:
    """The words of a text by the table that was made for another one."""
    lines = path_of(text, folder, "txt").read_text(encoding="utf-8").split("\n\n")
    lines = [line.strip() for line in lines]
    path = path_of(made_for, folder, "utb")
    with Liblouis(find_table(TABLES[text.language])) as liblouis:
        table = read(path.read_bytes()).table
        return figures(liblouis, table, lines, cells_by(path, lines))


Row = dict[str, str]
"""The columns of a line of contracted.tsv by their names."""


def row(made_for: Text, text: Text, found: Figures) -> Row:
    """What was found of a text by the table for another one."""
    agreement = found.agreement
    shares = {
        "right": agreement.share_of_words,
        "within": found.share_within_rules,
        "paragraphs": agreement.share_of_lines,
    }
    return {
        "made_for": made_for.name,
        "text": text.name,
        "words": str(agreement.words),
        **{name: f"{share:.5f}" for name, share in shares.items()},
    }


def of_making(text: Text, folder: Path) -> Row:
    """What is known of a table once it is made: its lines, its time, and what it was worth at first."""
    seconds, said = make(text, folder)
    held_back = re.search(r"of a tenth of the manuscript.*? ([\d.]+)% have", said)
    lines = path_of(text, folder, "utb").read_text(encoding="utf-8").count("\n")
    return {
        "held_back": f"{float(held_back[1]) / 100:.5f}" if held_back else "",
        "lines": str(lines),
        "seconds": f"{seconds:.0f}",
    }


def keep(rows: Iterable[Row]) -> None:
    """Puts rows in place of those of the same texts."""
    known = {(one["made_for"], one["text"]): one for one in kept()}
    known |= {(one["made_for"], one["text"]): one for one in rows}
    names = [text.name for text in TEXTS]
    with KEPT.open("w", encoding="utf-8", newline="") as file:
        writer = csv.DictWriter(file, COLUMNS, delimiter="\t", lineterminator="\n")
        writer.writeheader()
        for key in sorted(known, key=lambda key: tuple(map(names.index, key))):
            writer.writerow(known[key])


def kept() -> list[Row]:
    """The rows of earlier runs."""
    if not KEPT.is_file():
        return []
    with KEPT.open(encoding="utf-8", newline="") as file:
        return list(csv.DictReader(file, delimiter="\t"))


def document() -> None:
    """Writes the tables of figures into the page."""
    rows = kept()
    own = [one for one in rows if one["made_for"] == one["text"]]
    others = [one for one in rows if one["made_for"] != one["text"]]
    lines = [
        "\n" + OWN,
        *(
            f"| {title(one['text'])} | `{table_of(one['text'])}` | {number(one, 'words')}"
            f" | {share(one, 'right')} | {share(one, 'within')} | {share(one, 'paragraphs')}"
            f" | {share(one, 'held_back')} | {number(one, 'lines')} |\n"
            for one in own
        ),
        OTHERS,
        *(
            f"| {title(one['text'])} | {title(one['made_for'])} | {number(one, 'words')}"
            f" | {share(one, 'right')} | {share(one, 'within')} |\n"
            for one in others
        ),
    ]
    written = PAGE.read_text(encoding="utf-8")
    before, rest = written.split(BEGIN)
    _, after = rest.split(END)
    PAGE.write_text(
        before + BEGIN + "".join(lines) + "\n" + END + after, encoding="utf-8"
    )


def title(name: str) -> str:
    """What a text is called on the page."""
    kind, language = name.split(".")
    return f"{TITLES[kind]}, {LANGUAGES[language]}"


def table_of(name: str) -> str:
    return TABLES[name.split(".")[1]].split(".")[0]


def number(one: Row, name: str) -> str:
    """A number, where it is known."""
    return f"{int(one[name]):,}" if one[name] else ""


def share(one: Row, name: str) -> str:
    """A share in percent, where it is known."""
    return percent(float(one[name])) if one[name] else ""


def main(folder: Path, names: list[str]) -> None:
    texts = [text for text in TEXTS if not names or text.name in names]
    for text in texts:
        whole = "\n\n".join(paragraphs_of(text, folder)) + "\n"
        path_of(text, folder, "txt").write_text(whole, encoding="utf-8")
    for text in texts:
        print(f"== {text.name}", flush=True)
        made = of_making(text, folder)
        for other in texts:
            if other.language != text.language:
                continue
            found = row(text, other, compared(text, other, folder))
            if found["words"] != "0":
                keep([found | made] if other is text else [found])
                print(*found.values(), flush=True)
        document()


if __name__ == "__main__":
    main(Path(sys.argv[1]), sys.argv[2:])
