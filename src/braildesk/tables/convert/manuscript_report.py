"""What is said of a table that was made for a manuscript, at its top and to the one who asked."""

from __future__ import annotations

from collections import Counter
from collections.abc import Iterator

from braildesk.tables.convert import report
from braildesk.tables.convert.causes import Difference
from braildesk.tables.convert.running_text import Agreement
from braildesk.tables.convert.tailoring import Figures, Tailored
from braildesk.text.characters import named

EXAMPLES = 8
"""How many words are shown of each cause."""

NOT_CERTIFIED = (
    "This is the table of liblouis taken over by rules, of which many were learned by asking"
    " liblouis. It is to be proofread, and it is not certified contracted braille."
)


def text_of(tailored: Tailored) -> tuple[str, list[str]]:
    """The text of the table with what is said of it at its top, and what is to be known of added lines."""
    addition = tailored.addition
    sentences = [NOT_CERTIFIED, *said_of(tailored)]
    comments = report.comments(tailored.made, tailored.subject, sentences, addition)
    text = tailored.made.draft.text(comments)
    return (text, []) if addition is None else addition.after(text)


def said_of(tailored: Tailored) -> list[str]:
    """How the table was made, and what it is worth."""
    sentences = [_made_for(tailored)]
    sentences += _shares(tailored.own, f"the manuscript {tailored.manuscript.name}")
    if tailored.held_back is not None:
        sentences += _shares(
            tailored.held_back,
            "a tenth of the manuscript, before that was learned from too,",
        )
    return [*sentences, *_lacking(tailored), *_causes(tailored.own)]


def _made_for(tailored: Tailored) -> str:
    rules = _learned(tailored.from_manuscript, "the manuscript")
    if tailored.words is None:
        return (
            f"{rules}, and none from a list of words, since none was given or is installed:"
            " words that the manuscript lacks may be wrong."
        )
    source = f"{tailored.words.path} and the table's own words"
    return f"{_learned(tailored.from_list, source)}, and {rules}."


def _learned(count: int, source: str) -> str:
    """How many rules were learned from something."""
    were = "was" if count == 1 else "were"
    return f"{report.so_many(count, 'rule')} {were} learned from {source}"


def _shares(figures: Figures, what: str) -> Iterator[str]:
    found = figures.agreement
    if not found.words:
        yield f"No word of {what} could be compared with liblouis."
        return
    yield share_line(found, f" of {what}")
    if any(cause.is_beyond for cause in figures.causes):
        yield (
            "Without the words that no table of braildesk can write so"
            f" {report.percent(figures.share_within_rules)} of the words have them."
        )


def share_line(found: Agreement, what: str = "") -> str:
    """How many words of something, and how many of its paragraphs, have the cells of liblouis."""
    have = "has" if found.words == 1 else "have"
    return (
        f"Of {report.so_many(found.words, 'word')}{what} {report.percent(found.share_of_words)} {have}"
        f" the cells of liblouis, and of {report.so_many(found.lines, 'paragraph')}"
        f" {report.percent(found.share_of_lines)}."
    )


def _lacking(tailored: Tailored) -> Iterator[str]:
    """The paragraphs that weren't compared, and why."""
    found = tailored.own.agreement
    added = tailored.addition.characters if tailored.addition else frozenset[str]()
    lacking = [one for one, _ in found.lacking.most_common() if one not in added]
    if not found.refused:
        return
    one = found.refused == 1
    which = (
        f"{found.refused:,} {'paragraph was' if one else 'paragraphs were'}n't compared"
    )
    if lacking:
        its = "it has characters" if one else "they have characters"
        listed = ", ".join(map(named, lacking))
        if len(lacking) < len(found.lacking):
            what = "that liblouis lacks and that were added, or that this table lacks"
        else:
            what = "that this table lacks"
        yield f"{which}, since {its} {what}: {listed}."
    else:
        yield f"{which}, since liblouis lacks characters that were added."


def _causes(figures: Figures) -> Iterator[str]:
    """What differs, cause by cause, with examples."""
    for cause, words in figures.by_cause.items():
        yield f"{differing(words.total(), cause)}: {_examples(words)}."


def differing(count: int, cause: Difference) -> str:
    """How many words differ, and by what."""
    words = f"{report.so_many(count, 'word')} differ{'s' if count == 1 else ''}"
    return f"{words} by {cause.value}"


def counted(words: Counter[str]) -> str:
    """How many words there are."""
    return report.so_many(words.total(), "word")


def _examples(words: Counter[str]) -> str:
    shown = [
        f"{word} {count:,}" if count > 1 else word
        for word, count in words.most_common(EXAMPLES)
    ]
    return ", ".join(shown) + (", .." if len(words) > EXAMPLES else "")
