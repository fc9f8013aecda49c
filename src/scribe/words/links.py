"""Links by which a person names a book, also those of other users."""

import os
from pathlib import Path

from braildesk.protocol.asked import SeenPath, real_path, seen
from braildesk.workshop import OthersLink, own_path


def followed(book: Path) -> Path:
    """The path of a book, which leads from now on where it leads by now, with a link that is named."""
    try:
        return SeenPath.of(book, own_path(str(book)))
    except OthersLink as found:
        path = seen(book)
        path.link = found.link, real_path(found.link)
        return path
    except (OSError, ValueError):
        # it is said where the book is opened
        return book


def led(book: Path) -> str:
    """What is said of a link of another user by which a book is named; nothing if there is none."""
    link, to = book.link if isinstance(book, SeenPath) else ("", "")
    return f"“{link}” is a link of another user, and leads to “{to}”." if link else ""


def name_of(book: Path) -> str:
    """The name of a book that was open, or its path if the name is of a link that leads elsewhere by now."""
    its = book.led_to if isinstance(book, SeenPath) else ""
    is_elsewhere = its and os.path.islink(book) and real_path(str(book)) != its
    return f"“{its}”" if is_elsewhere else book.name
