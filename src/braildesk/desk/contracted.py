"""What a table is made with for a manuscript: a list of words, and what was kept."""

from pathlib import Path

from braildesk.desk.own_folder import OwnFolder, cache_folder
from braildesk.tables.convert.addition import read_addition
from braildesk.tables.convert.shipped import shipped_table
from braildesk.tables.convert.tailoring import Means, Report
from braildesk.tables.convert.word_list import WordList
from braildesk.tables.convert.words import installed_words

FOLDER = "contractions"
"""The folder, within what can be made again, of the rules that were learned from lists."""


def means_for(
    table: Path, words: Path | None, report: Report, add: Path | None = None
) -> Means:
    """A list of words, or else the installed one of the table's language, and the user's cache.

    Raises `BadAddition` if the lines of a file can't be added.
    """
    path = words or installed_words(shipped_table(table).language)
    found = None if path is None else WordList.of(path)
    addition = None if add is None else read_addition(add)
    return Means(found, OwnFolder(cache_folder() / FOLDER), report, addition)
