"""The process that asks liblouis, started by `oracle`.

Each line of standard input is a question in JSON: a table alone is read, and answered by the version
of liblouis or by what is wrong; with texts, each text is answered by a line of its own. Where liblouis
breaks off or loops, the answers that were written show at which text, if it was asked carefully.

Tables may come from anybody. So this process has no more time than any good table takes; `oracle`
limits its memory, and has it end with the one that started it.
"""

from __future__ import annotations

import json
import math
import os
import resource
import signal
import sys
import time
from collections.abc import Iterator
from typing import Any, Final

SECONDS: Final = 0.25
"""The time of the processor that a text may take. The system ends the process after that."""

READING_SECONDS: Final = 3
"""The time of the processor in which a table is read; the largest of liblouis takes a quarter of one."""

PAUSE: Final = 0.1
"""How long answers may be kept back, in seconds, if they needn't be written one by one."""


def main() -> None:
    answers = os.fdopen(os.dup(1), "w", encoding="utf-8")
    os.dup2(2, 1)
    try:
        import louis  # type: ignore[import]
    except ImportError:
        louis = None
    for line in sys.stdin:
        question = json.loads(line)
        allow_time(question)
        written = time.monotonic()
        for answer in answered(louis, question):
            answers.write(json.dumps(answer) + "\n")
            if question.get("careful") or time.monotonic() - written > PAUSE:
                answers.flush()
                written = time.monotonic()
        answers.flush()


def allow_time(question: dict[str, Any]) -> None:
    """Has the system end this process if it takes longer for a question than it may."""
    texts = len(question.get("cells", question.get("pieces", ())))
    used = resource.getrusage(resource.RUSAGE_SELF)
    seconds = used.ru_utime + used.ru_stime + READING_SECONDS + SECONDS * texts
    _, most = resource.getrlimit(resource.RLIMIT_CPU)
    wanted = math.ceil(seconds)
    if most == resource.RLIM_INFINITY or wanted < most:
        resource.setrlimit(resource.RLIMIT_CPU, (wanted, most))


def answered(louis: Any, question: dict[str, Any]) -> Iterator[object]:
    """The answers to a question, one after another."""
    tables = [question["table"]]
    if "cells" in question:
        return (cells(louis, tables, text) for text in question["cells"])
    if "pieces" in question:
        return (pieces(louis, tables, text) for text in question["pieces"])
    return iter([read(louis, tables)])


def read(louis: Any, tables: list[str]) -> dict[str, str]:
    """The version of liblouis if it reads a table, or else what is wrong."""
    if louis is None:
        return {
            "fault": f"liblouis for Python is missing in {sys.executable}, by which scribe runs."
            " Install it, as by apt-get install python3-louis, which is for Debian's own Python."
        }
    signal.setitimer(signal.ITIMER_PROF, 0)
    try:
        louis.checkTable(tables)
    except RuntimeError:
        return {"fault": f"liblouis refuses the table {tables[0]}."}
    return {"version": str(louis.version())}


def cells(louis: Any, tables: list[str], text: str) -> str | None:
    """The braille of a text."""
    if not text:
        return ""
    signal.setitimer(signal.ITIMER_PROF, SECONDS)
    try:
        return str(louis.translateString(tables, text, mode=louis.dotsIO | louis.ucBrl))
    except RuntimeError:
        return None


def pieces(louis: Any, tables: list[str], text: str) -> list[tuple[str, str]]:
    """The runs of print that share their first cell, each with the braille up to the next run.

    There are none if the runs of braille don't follow one another.
    """
    signal.setitimer(signal.ITIMER_PROF, SECONDS)
    try:
        braille, _, starts, _ = louis.translate(
            tables, text, mode=louis.dotsIO | louis.ucBrl
        )
    except RuntimeError:
        return []
    edges = [
        place
        for place in range(len(text))
        if place == 0 or starts[place] != starts[place - 1]
    ]
    found = []
    for start, end in zip(edges, [*edges[1:], len(text)]):
        stop = starts[end] if end < len(text) else len(braille)
        found.append((text[start:end], braille[starts[start] : stop]))
    return found if "".join(its for _, its in found) == braille else []


if __name__ == "__main__":
    main()
