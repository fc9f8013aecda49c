"""Measures brought tables on running text, for each language of which Debian has translated manual pages.

    tests/tables/real/figures.py --packages       the packages of manual pages
    tests/tables/real/figures.py FOLDER [NAME ..] a file of FOLDER for each table, and then figures.tsv

A table that has its file already is left out, so that a stopped run goes on. Of tables that have the same
lines one is measured, for all of them. What figures.tsv has of tables without a file stays.
"""

import csv
import json
import subprocess
import sys
import tempfile
from collections.abc import Sequence
from concurrent.futures import ThreadPoolExecutor
from pathlib import Path
from typing import Any

import measure
import running
from document import FIGURES

sys.path.insert(0, str(Path(__file__).resolve().parents[1]))

import bring_all  # noqa: E402

from braildesk.tables.convert.subject import script_of_table  # noqa: E402
from braildesk.tables.convert.conversion import Options, convert  # noqa: E402
from braildesk.tables.convert.oracle import NoLiblouis  # noqa: E402
from braildesk.tables.convert.source import NoTable, find_table  # noqa: E402

LINES = 800
"""How many lines are looked at, and how many more are held back."""

LANGUAGES = {
    **{
        one: (one,) for one in "cs da de el es fi fr hu it nl pl ro ru sr sv uk".split()
    },
    "no": ("nb",),
    "pt": ("pt", "pt_BR"),
}
"""The languages of manual pages by those of tables."""

PACKAGES = (
    "cs da de el es fi fr hu it nb nl pl pt-br ro ru sr sv uk"  # those of manpages-l10n
).split()

COLUMNS = (
    "table language lines words all_lines all_words plain_lines plain_all"
    " held_lines held_words held_plain without_cells lacking refused example"
).split()


def text_of(language: str) -> tuple[list[str], list[str]]:
    """The lines of a language that are looked at, and those that are held back, both in its script."""
    names = LANGUAGES[language]
    lines = running.in_order(
        line for name in names for line in running.of_manuals(name)
    )
    if len(lines) < 2 * LINES:
        known = set(lines)
        more = running.in_order(
            line for name in names for line in running.of_messages(name)
        )
        lines += [line for line in more if line not in known]
    script = script_of_table(language)
    looked_at, held_back = (
        [line for line in part if running.is_of_script(line, script)]
        for part in (lines[:LINES], lines[LINES : 2 * LINES])
    )
    return looked_at, held_back


def measured(name: str, language: str) -> dict[str, Any]:
    """The figures of a table."""
    looked_at, held_back = text_of(language)
    with tempfile.TemporaryDirectory() as folder:
        made = Path(folder) / "made.utb"
        try:
            made.write_text(
                convert(find_table(name), Options(each=1)).text, encoding="utf-8"
            )
        except (NoLiblouis, NoTable) as error:
            return {"table": name, "failed": str(error)}
        first = measure.measure(name, made, measure.in_first_plane(looked_at))
        second = measure.measure(name, made, measure.in_first_plane(held_back))
    lacking = "".join(one for one, _ in first.lacking.most_common(8))
    return {
        "table": name,
        "language": language,
        "lines": first.lines.of_all,
        "words": first.words.of_all,
        "all_lines": first.lines.share,
        "all_words": first.words.share,
        "plain_lines": first.plain.share,
        "plain_all": first.plain.of_all,
        "held_lines": second.lines.share,
        "held_words": second.words.share,
        "held_plain": second.plain.share,
        "without_cells": first.without_cells,
        "lacking": lacking,
        "refused": first.refused + second.refused,
        "example": "\u241f".join(example(first)),
    }


def example(found: measure.Measure) -> tuple[str, ...]:
    """The shortest word of a plain line that differs, or else of any, with both braille texts."""
    return min(
        found.examples, key=lambda one: (not one[3], len(one[0])), default=("",) * 4
    )[:3]


def keep(folder: Path, name: str, language: str) -> None:
    """Measures a table in a process of its own, and keeps its figures."""
    kept = folder / f"{name}.json"
    if kept.exists():
        return
    words = [sys.executable, __file__, "--one", name, language]
    done = subprocess.run(words, capture_output=True, text=True)
    if done.returncode:
        print(f"{name}: {done.stderr.strip()[-300:]}", file=sys.stderr)
        return
    kept.write_text(done.stdout)
    print(name, flush=True)


def write(folder: Path) -> None:
    """Writes the figures of all tables that have a file, in place of those that are known of them."""
    found = [json.loads(path.read_text()) for path in folder.glob("*.json")]
    by_name = known() | {row["table"]: row for row in found}
    with FIGURES.open("w", encoding="utf-8", newline="") as file:
        writer = csv.DictWriter(file, COLUMNS, delimiter="\t", lineterminator="\n")
        writer.writeheader()
        writer.writerows(
            {
                key: f"{value:.5f}" if isinstance(value, float) else value
                for key, value in row.items()
            }
            for _, row in sorted(by_name.items())
            if "failed" not in row
        )


def known() -> dict[str, dict[str, Any]]:
    """The figures that are written down, by the names of the tables."""
    if not FIGURES.is_file():
        return {}
    with FIGURES.open(encoding="utf-8", newline="") as file:
        return {row["table"]: row for row in csv.DictReader(file, delimiter="\t")}


def main(words: Sequence[str]) -> int:
    """Runs what the words ask for."""
    if words[0] == "--packages":
        print(*(f"manpages-{one}" for one in PACKAGES))
        return 0
    if words[0] == "--one":
        print(json.dumps(measured(words[1], words[2])))
        return 0
    folder = Path(words[0])
    folder.mkdir(parents=True, exist_ok=True)
    tables = [
        (table.name, table.language)
        for table in bring_all.different_tables()
        if table.language in LANGUAGES and (not words[1:] or table.name in words[1:])
    ]
    with ThreadPoolExecutor(bring_all.PROCESSES) as pool:
        list(pool.map(lambda one: keep(folder, *one), tables))
    write(folder)
    return 0


if __name__ == "__main__":
    sys.exit(main(sys.argv[1:]))
