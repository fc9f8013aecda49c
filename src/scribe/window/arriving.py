"""What is said once the caret has gone to a mark, or to words or cells that were looked for."""

from functools import partial

from scribe.window.desk import Desk
from scribe.window.spoken import ended


def say_there(desk: Desk, said: str) -> None:
    """Says where the caret is now, and its page and line where these are said too."""
    cell = desk.cell if desk.says_pages else None
    if desk.reading is not None and cell is not None:
        here = desk.reading.its.paragraph, cell
        look = partial(desk.book.place_said, desk.contents, desk.page_size, here)
        page = desk.long("Page and line", look)
        said = f"{ended(said)} {page}"
    desk.say(said)
