"""The volumes of a book in words: where each begins, its pages, and what is to be set."""

from collections.abc import Iterator, Sequence

from braildesk import Paragraph, Session, Style
from braildesk.desk.layout import PageSize
from braildesk.desk.readings import prints
from braildesk.desk.volume_plan import Planned, TooManyPages
from braildesk.text.characters import visible
from braildesk.text.excerpt import opening

from scribe.words.pages import described, not_exported
from scribe.words.paragraph import counted


_OPENING = 40


def volume_lines(
    session: Session, book: Sequence[Paragraph], volumes: Sequence[Planned]
) -> Iterator[str]:
    """A line for each volume: its pages, and with which paragraph it begins."""
    firsts = [book[each.paragraphs.start] for each in volumes]
    for nth, (its, first, text) in enumerate(
        zip(volumes, firsts, prints(session, firsts)), 1
    ):
        style = "heading" if first.style is Style.HEADING else "body"
        words = opening(visible(text), _OPENING)
        pages = counted(its.pages, "page")
        line = f"Volume {nth}: {pages}, from paragraph {first.id}, {style}: {words}"
        yield line.removesuffix(": ")


def faults(volumes: Sequence[Planned]) -> list[str]:
    """What keeps volumes from being exported."""
    return not_exported((nth, each.eight_dots) for nth, each in enumerate(volumes, 1))


def summary(volumes: Sequence[Planned], page_size: PageSize) -> str:
    """How many volumes and pages there are."""
    pages = sum(each.pages for each in volumes)
    count = counted(len(volumes), "volume")
    return f"{count}, {counted(pages, 'page')} of {described(page_size)}."


def to_set(
    changed: Sequence[tuple[Paragraph, bool]], how: str = "--set does it"
) -> Iterator[str]:
    """What would be set, and how it is."""
    if not changed:
        yield "The volumes begin there already."
        return
    for line in to_begin(changed):
        yield f"{line.removesuffix('.')}; {how}."


def to_begin(changed: Sequence[tuple[Paragraph, bool]]) -> Iterator[str]:
    """Which paragraphs would begin a volume, and which would begin none."""
    for begins, what in ((True, "a volume"), (False, "no volume")):
        if numbers := [each.id for each, on in changed if on is begins]:
            yield f"{numbered(numbers)} would begin {what}."


def was_set(changed: Sequence[tuple[Paragraph, bool]], version: int) -> Iterator[str]:
    """What was set."""
    if not changed:
        yield "The volumes begin there already."
    for begins, what in ((True, "a volume"), (False, "no volume")):
        if numbers := [each.id for each, on in changed if on is begins]:
            verb = "begins" if len(numbers) == 1 else "begin"
            yield f"{numbered(numbers)} {verb} {what} now."
    yield f"The book is at version {version:,}."


def stopped_after(done: int, count: int, version: int) -> str:
    """What is in the book if the setting was stopped."""
    if not done:
        return "Nothing was changed."
    is_are = "is" if done == 1 else "are"
    others = " The same command makes the others." if done < count else ""
    return (
        f"Of {counted(count, 'change')} {done:,} {is_are} in the book, which is at version"
        f" {version:,}.{others}"
    )


def numbered(numbers: Sequence[int]) -> str:
    """The numbers of paragraphs at the front of a sentence."""
    *others, last = map(str, numbers)
    if not others:
        return f"Paragraph {last}"
    return f"Paragraphs {', '.join(others)} and {last}"


def too_long(fault: TooManyPages) -> str:
    """The sentence for a paragraph that no volume can have."""
    return (
        f"Paragraph {fault.paragraph} has {counted(fault.pages, 'page')} by itself, so that no"
        f" volume of at most {counted(fault.most, 'page')} can have it. Nothing was changed."
    )
