"""How many requests are sent ahead of their replies, so that somebody who stops waits for no more than a moment."""

from pathlib import Path

import pytest

from braildesk import Session, new_book
from braildesk.pipe import Pace
from braildesk.protocol.requests import Supply, Type


def paced(seconds: float, count: int, most: int = 512) -> Pace:
    """The pace after so many answers, each of which took so long."""
    now = [0.0]
    pace = Pace(most, lambda: now[0])
    for _ in range(count):
        now[0] += seconds
        pace.answered()
    return pace


@pytest.mark.parametrize(
    "seconds, wanted", [(0.0, 512), (0.0001, 512), (0.01, 50), (0.05, 10), (60.0, 4)]
)
def test_so_many_are_under_way_as_are_answered_in_half_a_second(
    seconds: float, wanted: int
) -> None:
    assert paced(seconds, 1_000).ahead == wanted


def test_it_begins_with_few_and_never_has_more_than_may_be() -> None:
    assert Pace(512).ahead == 16
    assert paced(0.0, 8).ahead == 32
    assert paced(0.0, 1_000, most=8).ahead == 8
    assert paced(60.0, 1_000, most=2).ahead == 2


def test_few_commands_are_carried_out_after_somebody_stopped_where_each_takes_long(
    tmp_path: Path,
) -> None:
    book, count, taken = tmp_path / "long.braildesk", 3_000, 20
    new_book(book)
    with Session(book) as session:
        lines = (Type("end", "en", "It rose.") for _ in range(count))
        assert sum(1 for _ in session.each([Supply("en"), *lines])) == count + 1
    with Session(book) as session:
        lines = (Type(10, "en", "It set.") for _ in range(1_000))
        answers = session.each(lines)
        for _ in range(taken):
            next(answers)
    with Session(book) as session:
        assert len(session.paragraphs()) < count + taken + 200
