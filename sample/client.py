#!/usr/bin/env python3
"""Types lines of print into a book, and writes the braille of each.

    PYTHONPATH=src sample/client.py FILE < PRINT

The book has to be there, and gets the supplied table. A line that is refused is said on standard
error, with why, and the lines after it go on; the status is 2 then.
"""

import sys
from io import TextIOWrapper

from braildesk import DeskError, Refused, Session, requests


def type_lines(session: Session, lines: list[str]) -> int:
    """Types the lines, and writes the braille of those that were typed; gives the status."""
    session.supply_table("en")
    answers = list(session.each(requests.Type("end", "en", line) for line in lines))
    typed = [answer for answer in answers if not isinstance(answer, Refused)]
    for braille in session.each(requests.Braille(paragraph.id) for paragraph in typed):
        print(braille)
    for number, answer in enumerate(answers, 1):
        if isinstance(answer, Refused):
            print(f"Line {number}: {answer.sentence}", file=sys.stderr)
    return 0 if len(typed) == len(lines) else 2


def main(path: str) -> int:
    """Opens the book and types what standard input has."""
    text = TextIOWrapper(sys.stdin.buffer, "utf-8", newline="\n")
    lines = [line.removesuffix("\n") for line in text]
    try:
        with Session(path) as session:
            return type_lines(session, lines)
    except DeskError as error:
        print(error.sentence, file=sys.stderr)
        return 2


sys.exit(main(sys.argv[1]))
