"""The corrections of an edit: one, or more around the words of marks."""

import re
import time
from collections.abc import Sequence
from dataclasses import replace
from itertools import accumulate

import pytest
from hypothesis import given, settings
from hypothesis import strategies as st

from braildesk import Mark
from braildesk.desk.around_marks import corrections, prints_between
from braildesk.desk.correction import Correction, smallest_correction
from braildesk.text.sequences import composed, sequences
from braildesk.text.spans import Span

SEA = (
    "Twice a day the sea comes up the beach and goes out again, and the moon is dusty."
)


def on(text: str, *words: str) -> list[Mark]:
    """Marks on words, each where they stand first."""
    found = [(text.index(each), len(each)) for each in words]
    return [
        Mark(nth, start, start + size, nth == 2, False, "?")
        for nth, (start, size) in enumerate(found, 1)
    ]


CASES: list[tuple[str, str, list[Mark], list[tuple[int, int, str]]]] = [
    # old, new, marks, and start, count and text of each correction
    (SEA, f"X{SEA} Yes.", on(SEA, "beach"), [(81, 0, " Yes."), (0, 0, "X")]),
    (SEA, f"X{SEA} Yes.", [], [(0, 80, f"X{SEA} Yes")]),
    # only the marks within what changes part it
    ("a b c d e", "a X c Y e", on("a b c d e", "a", "e"), [(2, 5, "X c Y")]),
    ("a b c d e", "a X c Y e", on("a b c d e", "c"), [(6, 1, "Y"), (2, 1, "X")]),
    # what changes of marked words is corrected by itself
    ("a b c d e", "a X c Y e", on("a b c d e", "b c"), [(6, 1, "Y"), (2, 1, "X")]),
    ("a b c d e", "a X c Y e", on("a b c d e", "d"), [(6, 1, "Y"), (2, 1, "X")]),
    ("a b c d e", "X b c Y e", on("a b c d e", "c d"), [(6, 1, "Y"), (0, 1, "X")]),
    ("a b c d e", "a X c Y e", on("a b c d e", "a b"), [(6, 1, "Y"), (2, 1, "X")]),
    (
        "abcd efgh i",
        "abXd efgh Y",
        on("abcd efgh i", "cd ef"),
        [(10, 1, "Y"), (2, 1, "X")],
    ),
    # apart from what changes side by side with them, where as many words come in
    (
        "a men c d",
        "X mon c Y",
        on("a men c d", "men"),
        [(8, 1, "Y"), (3, 1, "o"), (0, 1, "X")],
    ),
    ("the sea", "an ocean", on("the sea", "sea"), [(4, 3, "ocean"), (0, 3, "an")]),
    (
        "The sea.",
        "An ice!",
        on("The sea.", "sea"),
        [(7, 1, "!"), (4, 3, "ice"), (0, 3, "An")],
    ),
    ("the sea", "an icy sea", on("the sea", "the"), [(0, 3, "an icy")]),
    # and otherwise with it
    (
        "a men c d",
        "X Z mon c Y",
        on("a men c d", "men"),
        [(8, 1, "Y"), (0, 4, "X Z mo")],
    ),
    # a mark on all that changes parts nothing
    ("a b c d e", "a X c Y e", on("a b c d e", "a b c d e"), [(2, 5, "X c Y")]),
    ("a b c d e", "a X c Y e", on("a b c d e", "b c d"), [(2, 5, "X c Y")]),
    # of two words that are the same the one goes that has no mark
    ("a b c c", "X b c", on("a b c c", "b"), [(5, 2, ""), (0, 1, "X")]),
    (
        "a b c c",
        "X b c",
        [*on("a b c c", "b"), Mark(2, 6, 7, False, False, "?")],
        [(4, 2, ""), (0, 1, "X")],
    ),
    # a word that begins as the next one does goes by itself, whether it has a mark or not
    ("the them", "them", on("the them", "them"), [(0, 4, "")]),
    (
        "the them",
        "them",
        [*on("the them", "them"), Mark(2, 0, 3, False, False, "?")],
        [(0, 4, "")],
    ),
    # also a part of a word, with what belongs to it
    ("a beach c", "X beach Y", on("a beach c", "eac"), [(8, 1, "Y"), (0, 1, "X")]),
    # without the signs beside it
    ("a, b, c", "X, b; Y", on("a, b, c", "b"), [(4, 3, "; Y"), (0, 1, "X")]),
    ("a b c", 'a "b" c', on("a b c", "b"), [(3, 0, '"'), (2, 0, '"')]),
    # and a blank behind it
    ("a b c", "X b Y", on("a b c", "b "), [(4, 1, "Y"), (0, 1, "X")]),
    # two marks, one of them resolved, with words between that change
    (
        "a b c d e",
        "X b Y d Z",
        on("a b c d e", "b", "d"),
        [(8, 1, "Z"), (4, 1, "Y"), (0, 1, "X")],
    ),
    # words that come in between
    ("a b c", "X Y b Z", on("a b c", "b"), [(4, 1, "Z"), (0, 1, "X Y")]),
    # words that change their order
    ("a b c d", "d c b a", on("a b c d", "a"), [(1, 6, ""), (0, 0, "d c b ")]),
    # the first of two that are the same is gone
    ("x a y a z", "X y a Z", on("x a y a z", "a y"), [(8, 1, "Z"), (0, 3, "X")]),
    ("x a y a z", "X y a Z", on("x a y a z", "y"), [(8, 1, "Z"), (0, 3, "X")]),
    # no combining sequence is cut
    (
        "a q\u0307 c",
        "X q\u0307 Y",
        on("a q\u0307 c", "q\u0307"),
        [(5, 1, "Y"), (0, 1, "X")],
    ),
    (
        "a b \u0307c",
        "X b \u0307Y",
        on("a b \u0307c", "b"),
        [(5, 1, "Y"), (0, 1, "X")],
    ),
    (
        "a b c",
        "X b\u0307 Y",
        on("a b c", "b"),
        [(4, 1, "Y"), (2, 1, "b\u0307"), (0, 1, "X")],
    ),
    # one change is the smallest correction, whatever mark is there
    ("a b c", "a X c", on("a b c", "b"), [(2, 1, "X")]),
    ("a b c", "a b c", on("a b c", "b"), []),
]


@pytest.mark.parametrize("old, new, marks, wanted", CASES)
def test_an_edit_is_parted_only_around_words_that_stay_and_have_a_mark(
    old: str, new: str, marks: list[Mark], wanted: list[tuple[int, int, str]]
) -> None:
    found = [
        (each.start, each.count, each.text) for each in corrections(old, new, marks)
    ]
    assert found == wanted


#: Sentences and what they are to be, with the words of marks between brackets.
STAY = [
    # what comes in front of a word begins as that does
    ("[The] sea is wide.", "Then [The] sea is wide."),
    ("I saw [them] go.", "I saw the old [them] go."),
    ("Er sah [die] See.", "Er sah dieses Mal [die] See."),
    ("[Kůň] úpěl dál.", "Kůňský hřbet, [Kůň] úpěl dál."),
    ("[Ночь] темна.", "Ночью ходят. [Ночь] темна."),
    ("[The] sea is wide.", "Then [The] beach is wide."),
    # or what comes behind it ends as it does
    ("A [cat] sat.", "A [cat] and bobcat sat."),
    ("«[Oui]», dit-il.", "«[Oui]», dit-on, «oui», dit-il."),
    # one of two words that are equal goes
    ("He had [had it].", "He [had it]."),
    ("Twice the [the sea] came.", "Once [the sea] went."),
    ("L’eau [d’en haut], l’eau.", "L’eau [d’en haut]."),
    ("the [them]", "[them]"),
    # some words stay, in other places of the sentence
    (
        "The [sea], the [moon] and the [beach].",
        "A day, the [sea], a night, the dusty [moon], a [beach].",
    ),
    (
        "Don't say that it [won't], or [can't].",
        "Please don't say it. It [won't]; it really [can't]!",
    ),
    (
        "A [well-known] e-mail was re-sent.",
        "That e-mail, well known, a [well-known] one, was sent again.",
    ),
    (
        "Qu’il vienne, ou qu’elle aille à [l’eau] ici.",
        "Qu’elle dise : qu’il parte, ou qu’elle nage à [l’eau].",
    ),
    ("a [q\u0307] b q c", "q q\u0307q\u0307 [q\u0307] b c"),
    ("[月亮]很远，[太阳]很近。", "那[月亮]不远，但是[太阳]很热。"),
    ("[つき]はとおい。", "あの[つき]はちかい。"),
    ("[พระจันทร์]ไกลมาก", "ดู[พระจันทร์]ใกล้ มากๆ"),
    # a sign alone
    ("Hin, her [-] und wieder, ja.", "Her, hin [-] oder nicht, nein."),
    # where words are gone the mark stays beside those that stay or are changed
    ("The [] moon is far.", "A [] sun is far, they say."),
    ("The moon[] is far.", "A moon[] was far, they say."),
]


def bracketed(text: str) -> tuple[str, list[Mark]]:
    """A text without brackets, and marks on what was between them."""
    pieces = re.split(r"[][]", text)
    ends = [0, *accumulate(len(piece) for piece in pieces)]
    places = zip(ends[1::2], ends[2::2])
    return "".join(pieces), [
        Mark(nth, start, stop, False, False, "?")
        for nth, (start, stop) in enumerate(places, 1)
    ]


def kept(
    old: str, parts: Sequence[Correction], marks: Sequence[Mark]
) -> tuple[str, list[Mark]]:
    """A print and its marks after corrections, as a book keeps them."""
    for part in parts:
        by = len(part.text) - part.count
        moved = list[Mark]()
        for mark in marks:
            start, stop = mark.start, mark.stop
            if stop <= part.start:
                moved.append(mark)
            elif part.stop <= start:
                moved.append(replace(mark, start=start + by, stop=stop + by))
            else:
                start, stop = min(start, part.start), max(stop, part.stop) + by
                moved.append(replace(mark, start=start, stop=stop, touched=True))
        old, marks = composed(part.applied(old)), moved
    return old, [*marks]


@pytest.mark.parametrize("before, after", STAY)
def test_a_mark_stays_on_its_words_where_others_come_and_go_beside_them(
    before: str, after: str
) -> None:
    (old, marks), wanted = bracketed(before), bracketed(after)
    assert kept(old, corrections(old, wanted[0], marks), marks) == wanted


#: The same, where words of marks go or change: these are touched, and only these.
GONE = [
    # the word before ends in the same letters, or the one after begins so
    (
        "Non esitate ad unirvi alla [vostra associazione] locale [e sostenere] il progetto!",
        "Non esitare ad unirvi alla [vostra associazione] locale [sostenere] il progetto!",
        [False, True],
    ),
    (
        "[lavora a] altri progetti ed [aiuta] la nostra associazione.",
        "[lavora] altri progetti ed [aiuta] la nostra comunità.",
        [True, False],
    ),
    (
        "[Πηγαίνετε] στο [το μενού] και επιλέξτε",
        "[Πηγαίνεται] στο [μενού] και επιλέξτε",
        [True, True],
    ),
    # also where nothing else changes
    ("[lavora a] altri progetti.", "[lavora] altri progetti.", [True]),
    ("malsukcesa ekde [la] lasta", "malsukcesa ekde []lasta", [True]),
    # a word becomes a part of another one
    (
        "Dine [egne] ord (f.[eks]. et navn) til.",
        "Sine [egne] ord (f[eks]. et navn) til.",
        [False, False],
    ),
    (
        "[Use] the version 1.4.[0] with [these] tools.",
        "[Use] the version 1.4[0] among [these] tools.",
        [False, False, False],
    ),
]


@pytest.mark.parametrize("before, after, touched", GONE)
def test_a_word_that_goes_touches_its_own_mark_and_takes_no_other_beyond_its_words(
    before: str, after: str, touched: list[bool]
) -> None:
    (old, marks), (new, wanted) = bracketed(before), bracketed(after)
    now, found = kept(old, corrections(old, new, marks), marks)
    assert now == new
    assert found == [
        replace(mark, touched=is_touched) for mark, is_touched in zip(wanted, touched)
    ]


def test_of_marked_words_that_change_places_those_stay_beside_which_most_stays() -> (
    None
):
    old, new = "x a r s t y", "z s t y a w"
    marks = on(old, "a", "s t")
    now, (one, other) = kept(old, corrections(old, new, marks), marks)
    assert now == new and one.touched
    assert new[other.start : other.stop] == "s t" and not other.touched


WORDS = (
    "the then them theme he her a an and the, “the” (the) - don't can't won't o'clock "
    "l’eau d’eau l’air qu’il re-enter re enter die dieses See Seen, kůň kůňský q\u0307 "
    "q\u0307q ночь ночью שלום הים 한국 한국어 月亮 月 太阳。"
).split()
OLD_WORDS = st.lists(st.sampled_from(WORDS), min_size=1, max_size=12)


@st.composite
def edits(draw: st.DrawFn) -> tuple[list[str], list[str], list[int | None]]:
    """Words, others that come of them by what is put in, taken away and put in its place, and which
    of the first each of these was.
    """
    old = draw(OLD_WORDS)
    places: list[int | None] = [*range(len(old))]
    new = list(old)
    for _ in range(draw(st.integers(1, 4))):
        start = draw(st.integers(0, len(new)))
        stop = min(start + draw(st.integers(0, 2)), len(new))
        came = draw(st.lists(st.sampled_from(WORDS), max_size=2))
        new[start:stop], places[start:stop] = came, [None] * len(came)
    return old, new, places


def spans_of(words: Sequence[str]) -> list[Span]:
    """Where words stand that have a blank between them."""
    ends = accumulate((len(word) + 1 for word in words), initial=0)
    return [Span(end, end + len(word)) for end, word in zip(ends, words)]


@given(edits(), st.data())
@settings(max_examples=400)
def test_a_marked_word_that_is_there_once_keeps_its_mark_as_those_beside_it_stay(
    edit: tuple[list[str], list[str], list[int | None]], data: st.DataObject
) -> None:
    old, new, places = edit
    before, after = spans_of(old), spans_of(new)
    stay = [place for place in places if place is not None]
    nths = data.draw(st.lists(st.sampled_from(stay), max_size=4)) if stay else []
    marks = [Mark(n, *before[nth], False, False, "") for n, nth in enumerate(nths, 1)]
    text = " ".join(old)
    now, found = kept(text, corrections(text, " ".join(new), marks), marks)
    assert now == " ".join(new)
    assert [mark.id for mark in found] == [mark.id for mark in marks]
    sides, others = [None, *old, None], [None, *new, None]
    for nth, mark in zip(nths, found):
        word = old[nth]
        if old.count(word) == new.count(word) == 1:
            place = places.index(nth)
            if sides[nth : nth + 3] == others[place : place + 3]:
                assert (mark.start, mark.stop, mark.touched) == (*after[place], False)


def made(old: str, parts: Sequence[Correction], mark: Mark) -> tuple[str, Span | None]:
    """The print after corrections, and where a mark is then; nothing if it was touched."""
    its: Span | None = Span(mark.start, mark.stop)
    for part in parts:
        if its is not None and its.start >= part.stop:
            by = len(part.text) - part.count
            its = Span(its.start + by, its.stop + by)
        elif its is not None and its.stop > part.start:
            its = None
        old = part.applied(old)
    return old, its


def is_in_word(text: str, place: int) -> bool:
    """Whether a place of a print is between letters of one word."""
    pieces = list(sequences(text[:place])), list(sequences(text[place:]))
    return all(pieces) and pieces[0][-1][0].isalnum() and pieces[1][0][0].isalnum()


def beyond(old: str, parts: Sequence[Correction], marks: Sequence[Mark]) -> int:
    """How many marks corrections take beyond their words, or make a part of another word."""
    count = 0
    for mark in marks:
        now, its = made(old, parts, mark)
        if its is None:
            count += any(
                part.text
                and mark.start < part.stop
                and part.start < mark.stop
                and (part.start < mark.start or mark.stop < part.stop)
                for part in parts
            )
        elif mark.start < mark.stop:
            count += any(
                is_in_word(now, place) and not is_in_word(old, before)
                for place, before in zip(its, (mark.start, mark.stop))
            )
    return count


PIECES = ["a", "b", "ab", "q\u0307", "\u0307", " ", " ", "á", " a b", " ab ab"]
TEXTS = st.lists(st.sampled_from(PIECES), max_size=14)
PRINTS = TEXTS.map(lambda words: composed("".join(words)))


@given(PRINTS, PRINTS, st.data())
def test_they_touch_a_mark_that_one_correction_would_not_only_to_keep_more_on_words(
    old: str, new: str, data: st.DataObject
) -> None:
    places = st.integers(0, len(old))
    spans = data.draw(st.lists(st.tuples(places, places), max_size=3))
    marks = [Mark(1, min(span), max(span), False, False, "") for span in spans]
    parts, least = corrections(old, new, marks), smallest_correction(old, new)
    alone = [least] if least else []
    kept_more = beyond(old, parts, marks) < beyond(old, alone, marks)
    for mark in marks:
        now, its = made(old, parts, mark)
        assert now == new
        if its is not None and mark.start < mark.stop:
            assert now[its.start : its.stop] == old[mark.start : mark.stop]
        if least and made(old, [least], mark)[1] is not None:
            assert its is not None or kept_more
    assert [*prints_between(old, parts), new][-1] == new


def test_a_print_is_not_parted_where_one_between_would_be_too_long() -> None:
    old = f"{'c' * 3_990} b a"
    new = f"c b {'d' * 3_990}"
    assert len(corrections(old, new, on(old, "b"))) == 1
    assert len(corrections(new, old, on(new, "b"))) == 2


@pytest.mark.parametrize(
    "word, other", [("a a", "a a"), ("a {}", "a {}x"), ("{}", "{}")]
)
def test_a_long_print_of_whatever_words_is_soon_parted(word: str, other: str) -> None:
    count = 700
    old = "b " + " ".join(word.format(n) for n in range(count))
    new = "c " + " ".join(other.format(n) for n in range(count)) + " d"
    begun = time.process_time()
    assert corrections(old, new, on(old, "a" if "a" in word else "345"))
    assert time.process_time() - begun < 10


def test_an_edit_of_a_long_print_with_marks_all_over_takes_no_time_that_is_felt() -> (
    None
):
    words = f"{SEA} ".split() * 24
    old = " ".join(words)[:2_000]
    spans = spans_of(words[:-60])
    marks = [Mark(n, *spans[n * 15], False, False, "?") for n in range(1, 21)]
    words[5::40] = ["a big"] * len(words[5::40])
    new = " ".join(words)[:2_050]
    times = []
    for _ in range(5):
        begun = time.process_time()
        assert len(corrections(old, new, marks)) > 1
        times.append(time.process_time() - begun)
    assert min(times) < 0.05


def test_an_edit_of_a_print_with_marks_from_anywhere_to_anywhere_ends_soon() -> None:
    old = [f"w{number}" for number in range(700)]
    text, new = " ".join(old), " ".join(old[1::2])
    ends = range(0, len(text) // 2, 11)
    spans = [(start, len(text) - stop) for start in ends for stop in ends]
    marks = [Mark(n, *span, False, False, "?") for n, span in enumerate(spans, 1)]
    begun = time.process_time()
    least = smallest_correction(text, new)
    assert len(spans) > 20_000 and corrections(text, new, marks) == (least,)
    assert time.process_time() - begun < 5
