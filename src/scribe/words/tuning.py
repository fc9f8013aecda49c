"""How the table of a book compares with one of liblouis, and what would mend it, in lines."""

from collections import Counter
from collections.abc import Iterator, Sequence

from braildesk.tables.convert.causes import Difference
from braildesk.tables.convert.manuscript_report import counted, differing
from braildesk.tables.convert.operands import shown
from braildesk.tables.convert.tailoring import Figures
from braildesk.tables.convert.tuning import Mend, Tuned

_INDENT = "  "
_NOT_CERTIFIED = "A rule writes words as liblouis does. That is to be proofread, and is not certified braille."


def difference_lines(figures: Figures) -> Iterator[str]:
    """The words that differ by their causes, each once with both of its brailles."""
    by_cause: dict[Difference, Counter[tuple[str, str, str]]] = {}
    for word, cause in zip(figures.agreement.differences, figures.causes, strict=True):
        ours = "unknown cells" if word.ours is None else shown(word.ours)
        both = word.text, ours, shown(word.theirs)
        by_cause.setdefault(cause, Counter())[both] += 1
    for cause, found in sorted(
        by_cause.items(), key=lambda one: (one[0].is_beyond, -one[1].total())
    ):
        yield f"{differing(found.total(), cause)}:"
        for (text, ours, theirs), count in found.most_common():
            often = f", {count:,} times" if count > 1 else ""
            yield f"{_INDENT}{text}{often}: {ours}, in liblouis {theirs}"


def mend_lines(tuned: Tuned) -> Iterator[str]:
    """The rules, each with the words that it mends and what else it changes."""
    if not tuned.mends:
        yield "No rule was found that mends a word."
        return
    count = len(tuned.mends)
    yield "One rule mends words:" if count == 1 else f"{count:,} rules mend words:"
    for mend in tuned.mends:
        yield f"{_INDENT}{mend.line}: {_effect(mend)}"
    yield _NOT_CERTIFIED


def _effect(mend: Mend) -> str:
    mended = f"mends {counted(mend.mended)} ({_listed(mend.mended)})"
    if not mend.mended:
        mended = "mends words together with other rules"
    if not mend.others:
        return f"{mended} and changes nothing else."
    return f"{mended}. It also changes {_listed(mend.others)}."


def _listed(words: Counter[str]) -> str:
    return ", ".join(
        f"{word} {count:,}" if count > 1 else word
        for word, count in words.most_common()
    )


def apart_lines(figures: Figures, numbers: Sequence[int]) -> Iterator[str]:
    """The words that differ whatever the rules, by their paragraphs."""
    by_paragraph: dict[int, list[str]] = {}
    for word, cause in zip(figures.agreement.differences, figures.causes, strict=True):
        reason = "no rule was found" if cause is Difference.RULES else cause.value
        by_paragraph.setdefault(numbers[word.line], []).append(
            f"{word.text} ({reason})"
        )
    if by_paragraph:
        yield "To be proofread, since no rule mends these words:"
    for number, words in by_paragraph.items():
        yield f"{_INDENT}paragraph {number}: {', '.join(words)}"
