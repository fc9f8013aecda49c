"""The corrections that make one print of another and leave marks on their words.

A mark that a correction touches covers all that came in, for good. So an edit that changes a print at
several places is parted around the words of marks: these stay as they are, or are corrected alone.
"""

from bisect import bisect_left, bisect_right
from collections.abc import Callable, Iterable, Iterator, Mapping, Sequence, Set
from dataclasses import dataclass, replace
from functools import partial
from itertools import accumulate, chain, groupby, pairwise

from braildesk import Mark
from braildesk.desk.correction import Correction, smallest_correction
from braildesk.desk.matched_words import finer, is_sign, steps, sure_matches
from braildesk.text import limits
from braildesk.text.cells import BLANKS
from braildesk.text.sequences import seams, sequences
from braildesk.text.spans import Span

#: Words are put beside each other where that takes no more steps than about a second has.
_MOST_STEPS = 10_000_000
#: A correction is moved to one of so many places, those that are nearest to it.
_MOST_PLACES = 64
#: An edit isn't parted around marks that are on more characters together, which would take too long.
_MOST_MARKED = 4_000_000
#: The scripts that put no blanks between words: Thai and Lao, Burmese, Khmer, kana and ideographs.
_ALONE = (
    range(0x0E00, 0x0F00),
    range(0x1000, 0x10A0),
    range(0x1780, 0x1800),
    range(0x3040, 0x3100),
    range(0x3400, 0xA000),
    range(0xF900, 0xFB00),
    range(0x20000, 0x40000),
)
#: The last character before those.
_MOST_WITH_BLANKS = "\u0dff"
#: A stretch of a print that stays, and how much further on it stands in the other print.
_Stay = tuple[Span, int]
#: A word of a print, and the word that stands in its place in the other print.
_Pair = tuple[Span, Span]


@dataclass(frozen=True)
class _Print:
    """A print, its places where no sequence is cut, and of these the ones where no word is."""

    text: str
    seams: Set[int]
    edges: Set[int]


@dataclass(frozen=True)
class _Edit:
    """A print, what it is to be, and where marks are."""

    old: _Print
    new: _Print
    least: Correction
    #: The marks that the smallest correction doesn't touch.
    others: Set[Span]
    #: Those that it touches or makes a part of another word.
    near: Sequence[Span]


@dataclass(frozen=True)
class _Words:
    """The words of a print that change or stand between such words, and those in place of them."""

    before: list[Span]
    #: Those that stay.
    same: list[_Pair]
    #: Those in place of which as many others come, as far as they stand together; or all between
    #: blanks, if as many come and one changes only its signs.
    changed: list[list[_Pair]]


def corrections(old: str, new: str, marks: Iterable[Mark]) -> tuple[Correction, ...]:
    """The corrections that make the new print of the old one, none if they are the same.

    The last of the print comes first, so that each is right once those before it are made. It is the
    smallest one alone unless it would take a mark of the paragraph beyond its words, or beside them.
    """
    least = smallest_correction(old, new)
    if least is None:
        return ()
    spans = {Span(mark.start, mark.stop) for mark in marks}
    is_soon = sum(its.stop - its.start for its in spans) <= _MOST_MARKED
    edit = _edit(old, new, least, spans) if spans and is_soon else None
    if edit is None or not edit.near:
        return (least,)
    found = _parted(old, new, _stays(edit))
    parts = _beside_words(edit, found)
    if _is_right(edit, parts) and not _touches_others(edit, parts):
        return parts
    ways = _beside_words(edit, _fewer(edit, found)), _beside_words(edit, (least,))
    right = [way for way in ways if _is_right(edit, way)]
    return min((*right, (least,)), key=partial(_harm, edit))


def prints_between(old: str, parts: Sequence[Correction]) -> list[str]:
    """The prints after each of some corrections but the last, as they are made of one in turn."""
    prints = []
    for part in parts[:-1]:
        old = part.applied(old)
        prints.append(old)
    return prints


def _edit(old: str, new: str, least: Correction, spans: Set[Span]) -> _Edit:
    """An edit of a print that has marks on some spans."""
    others = {its for its in spans if not _is_touched(its, least)}
    edit = _Edit(_print(old), _print(new), least, others, ())
    near = [
        its
        for its in sorted(spans)
        if its not in others or _is_joined(edit, its, least, 0)
    ]
    return replace(edit, near=near)


def _print(text: str) -> _Print:
    edges = {0, *accumulate(len(piece) for piece in _pieces(text, _is_of_letters))}
    return _Print(text, frozenset(seams(text)), edges)


def _is_right(edit: _Edit, parts: Sequence[Correction]) -> bool:
    """Whether corrections make just the new print."""
    text, prints = edit.old.text, prints_between(edit.old.text, parts)
    for part in parts:
        text = part.applied(text)
        # what came in would be joined to what is beside it, and places after it count otherwise
        if not {part.start, part.start + len(part.text)} <= set(seams(text)):
            return False
    is_long = any(len(each) > limits.PRINT_CHARACTERS for each in prints)
    return text == edit.new.text and not is_long


def _touches_others(edit: _Edit, parts: Sequence[Correction]) -> bool:
    """Whether corrections touch a mark that the smallest one alone doesn't."""
    return any(_is_touched(its, part) for its in edit.others for part in parts)


def _harm(edit: _Edit, parts: Sequence[Correction]) -> tuple[int, int]:
    """How many marks corrections take beyond their words or make a part of others, and touch."""
    ordered = parts[::-1]
    by = accumulate((len(part.text) - part.count for part in ordered), initial=0)
    places = list(zip(ordered, by))
    beyond = touched = 0
    for its in {*edit.near, *edit.others}:
        first = bisect_left(ordered, its.start, key=lambda part: part.stop)
        end = bisect_right(ordered, its.stop, key=lambda part: part.start)
        on = [part for part in ordered[first:end] if _is_touched(its, part)]
        is_grown = any(
            part.text and (part.start < its.start or its.stop < part.stop)
            for part in on
        )
        beyond += is_grown or any(
            _is_joined(edit, its, *each) for each in places[first:end]
        )
        touched += bool(on)
    return beyond, touched


def _fewer(edit: _Edit, parts: Sequence[Correction]) -> tuple[Correction, ...]:
    """The same corrections, two beside each other made one where that is smaller than both together.

    Only such are made one of which either touches a mark that the smallest correction alone doesn't.
    """
    found = list[Correction]()
    for part in parts:
        both = _both(edit, found[-1], part) if found else None
        if both and _touches_others(edit, (found[-1], part)):
            found[-1] = both
        else:
            found.append(part)
    return tuple(found)


def _both(edit: _Edit, after: Correction, before: Correction) -> Correction | None:
    """The correction that does what two do, if it is smaller than both together."""
    between = edit.old.text[before.stop : after.start]
    whole = edit.old.text[before.start : after.stop]
    both = smallest_correction(whole, before.text + between + after.text)
    if both is None or _size(both) >= _size(before) + _size(after):
        return None
    return replace(both, start=before.start + both.start)


def _size(part: Correction) -> int:
    return part.count + len(part.text)


def _is_touched(its: Span, by: Correction) -> bool:
    """Whether a correction of a print touches a mark on a span of it."""
    return its.start < by.stop and by.start < its.stop


def _is_joined(edit: _Edit, its: Span, by: Correction, further: int) -> bool:
    """Whether a correction makes a mark's words, which it is beside, a part of another word.

    Where it is, the new print stands so much further on.
    """
    if its.start == its.stop:
        return False
    place, edges, new_edges = by.start + further, edit.old.edges, edit.new.edges
    if its.stop == by.start:
        return its.stop in edges and place not in new_edges
    if its.start == by.stop:
        return its.start in edges and place + len(by.text) not in new_edges
    return False


def _parted(old: str, new: str, stays: Iterable[_Stay]) -> tuple[Correction, ...]:
    """The smallest corrections before, between and after stretches that stay, the last one first."""
    parts: list[Correction] = []
    here = there = 0
    end = Span(len(old), len(old)), len(new) - len(old)
    for (start, stop), further in [*sorted(stays), end]:
        start = max(start, here)
        if stop < here or start + further < there:
            # beside a stretch that it overlaps, other words came in
            continue
        part = smallest_correction(old[here:start], new[there : start + further])
        if part is not None:
            parts.insert(0, replace(part, start=here + part.start))
        here = max(stop, here)
        there = here + further
    return tuple(parts)


def _beside_words(edit: _Edit, parts: Sequence[Correction]) -> tuple[Correction, ...]:
    """The same corrections, each moved along equal letters to where marks stay on their words."""
    moved, further = list[Correction](), 0
    stops = [part.start for part in parts[-2::-1]] + [len(edit.old.text)]
    for part, stop in zip(reversed(parts), stops):
        within = Span(moved[-1].stop if moved else 0, stop)
        moved.append(_moved(edit, part, further, within))
        further += len(part.text) - part.count
    return tuple(reversed(moved))


def _moved(edit: _Edit, part: Correction, further: int, within: Span) -> Correction:
    """A correction, or one that does the same elsewhere within a stretch if that leaves more marks.

    Where it is, the new print stands so much further on.
    """
    if part.count and part.text:
        return part
    marks = {
        its
        for its in chain(edit.near, edit.others)
        if its.start <= within.stop and within.start <= its.stop
    }

    def harm(by: Correction) -> tuple[int, ...]:
        touched = [its for its in marks if _is_touched(its, by)]
        others = sum(its in edit.others for its in touched)
        grown = sum(by.start < its.start or its.stop < by.stop for its in touched)
        joined = sum(_is_joined(edit, its, by, further) for its in marks)
        start = by.start + further
        is_beside = {by.start, by.stop} <= edit.old.edges
        is_there = {start, start + len(by.text)} <= edit.new.edges
        far = abs(by.start - part.start)
        return joined, others, len(touched), grown, not (is_beside and is_there), far

    if not any(harm(part)[:4]):
        return part
    ends = {place for its in marks for place in its}
    places = edit.old.edges | (edit.old.seams & ends)
    same = [
        by
        for by in _same(edit, part, further, within)
        if {by.start, by.stop} <= places
        and {by.start + further, by.start + further + len(by.text)} <= edit.new.seams
    ]
    same.sort(key=lambda by: abs(by.start - part.start))
    return min((part, *same[:_MOST_PLACES]), key=harm)


def _same(
    edit: _Edit, part: Correction, further: int, within: Span
) -> Iterator[Correction]:
    """The corrections that put in or take away as many characters within a stretch and do the same."""
    text, start = edit.old.text, part.start
    if part.text:
        text, start = edit.new.text, start + further
    size = len(part.text) or part.count
    for step, most in ((-1, part.start - within.start), (1, within.stop - part.stop)):
        for by in range(step, step * (most + 1), step):
            last = start + min(by, by - step)
            if text[last] != text[last + size]:
                break
            came = text[start + by : start + by + size] if part.text else ""
            yield replace(part, start=part.start + by, text=came)


def _stays(edit: _Edit) -> Iterator[_Stay]:
    """The words of marks that stay as they are while others beside them change.

    Of a mark that changes too, these are the words that part its changes from those beside it, or
    what stands between its words and those beside it, if as many words come in place of both.
    """
    words = _words_of(edit)
    before, further = words.before, {
        its: to.start - its.start for its, to in words.same
    }
    up_to = list(_nearest(before, further))
    after = list(_nearest(reversed(before), further))[::-1]
    between = [stay for run in words.changed for stay in _between(edit, run)]
    ahead, behind = ({gap[0][n]: gap for gap in between} for n in (1, 0))
    for span in edit.near:
        first, end = _overlapped(before, span)
        its = before[first:end]
        if not its:
            if span.start == span.stop:
                yield from _beside(edit, words, span.start)
            continue
        whole = Span(min(its[0].start, span.start), max(its[-1].stop, span.stop))
        ways = dict.fromkeys(further[word] for word in its if word in further)
        by = next((by for by in ways if _is_same(edit, whole, by)), None)
        if by is not None:
            yield whole, by
            continue
        if edit.least.start <= span.start:
            yield from up_to[first]
        if span.stop <= edit.least.stop:
            yield from after[end - 1]
        yield from (
            gaps[place]
            for gaps, place in ((ahead, its[0].start), (behind, its[-1].stop))
            if place in gaps
        )


def _nearest(
    words: Iterable[Span], further: Mapping[Span, int]
) -> Iterator[list[_Stay]]:
    """For each of some words that one or the last one before it that stays, if one does."""
    found = list[_Stay]()
    for word in words:
        found = [(word, further[word])] if word in further else found
        yield found


def _overlapped(words: Sequence[Span], span: Span) -> tuple[int, int]:
    """Which of some words, in their order, have a character in a span or around it."""
    first = bisect_right(words, span.start, key=lambda word: word.stop)
    return first, bisect_left(words, span.stop, key=lambda word: word.start)


def _is_same(edit: _Edit, its: Span, by: int) -> bool:
    """Whether a span of the print reads the same so much further on in the other one."""
    old, new, there = edit.old, edit.new, Span(its.start + by, its.stop + by)
    is_seam = set(its) <= old.seams and set(there) <= new.seams
    if (
        not is_seam
        or old.text[its.start : its.stop] != new.text[there.start : there.stop]
    ):
        return False
    # it is no part of another word there
    return all(end not in old.edges or end + by in new.edges for end in its)


def _beside(edit: _Edit, words: _Words, place: int) -> Iterator[_Stay]:
    """The blanks, if any, between a place and a word beside it, where they stand beside that word still."""
    old, new = edit.old.text, edit.new.text
    for its, to in (*words.same, *chain.from_iterable(words.changed)):
        by = to.stop - its.stop
        gap = Span(its.stop, place)
        if place <= its.start:
            by = to.start - its.start
            gap = Span(place, its.start)
        between = old[gap.start : gap.stop]
        there = gap.start + by
        is_there = 0 <= there and new[there : there + len(between)] == between
        if gap.start <= gap.stop and is_there and set(between) <= set(BLANKS):
            yield gap, by
            return


def _words_of(edit: _Edit) -> _Words:
    """The words of an edit, those of marks put beside each other first."""
    # signs are no part of the words beside them, unless that takes too long
    for is_of_word in (_is_of_letters, _is_no_blank, None):
        before, after = _both_words(edit, is_of_word or _is_of_letters)
        some = [edit.old.text[word.start : word.stop] for word in before]
        others = [edit.new.text[word.start : word.stop] for word in after]
        starts = _after_blanks(before), _after_blanks(after)
        found = sure_matches(some, others, *starts, _marked(edit, before, some))
        if is_of_word and steps(some, others, found) <= _MOST_STEPS:
            found = list(finer(some, others, found))
            break
    words = _Words(before, [], [])
    for one, two, is_same in found:
        its, there = before[one.start : one.stop], after[two.start : two.stop]
        if is_same:
            words.same.extend(zip(its, there))
            continue
        pairs = list(zip(its, there))
        if len(its) != len(there):
            pairs = _wholes(edit, its, there)
        words.changed.append(pairs)
    return words


def _wholes(edit: _Edit, its: Sequence[Span], there: Sequence[Span]) -> list[_Pair]:
    """What stands between blanks and what comes in place of it, if of one only the signs change."""
    before, after = _with_signs(its), _with_signs(there)
    if len(before) != len(after):
        return []
    pairs = list(zip(before, after))
    is_same = any(
        "" != _letters(edit.old.text, one) == _letters(edit.new.text, two)
        for one, two in pairs
    )
    return pairs if is_same else []


def _letters(text: str, its: Span) -> str:
    return "".join(filter(str.isalnum, text[its.start : its.stop]))


def _with_signs(words: Iterable[Span]) -> list[Span]:
    """Words made one with those at whose ends they stand."""
    wholes = list[Span]()
    for word in words:
        if wholes and wholes[-1].stop == word.start:
            wholes[-1] = Span(wholes[-1].start, word.stop)
        else:
            wholes.append(word)
    return wholes


def _both_words(
    edit: _Edit, is_of_word: Callable[[str], bool]
) -> tuple[list[Span], list[Span]]:
    """The words that change in both prints, and those between them."""
    its, there = _changing(edit)
    before = _words(edit.old.text, its, is_of_word)
    return before, _words(edit.new.text, there, is_of_word)


def _changing(edit: _Edit) -> tuple[Span, Span]:
    """What the smallest correction changes in both prints, up to the blanks beside it."""
    old, by = edit.old, len(edit.new.text) - len(edit.old.text)
    start, stop = edit.least.start, edit.least.stop
    while start and not (old.text[start - 1] in BLANKS and start in old.seams):
        start -= 1
    while stop < len(old.text) and old.text[stop] not in BLANKS:
        stop += 1
    return Span(start, stop), Span(start, stop + by)


def _marked(edit: _Edit, before: Sequence[Span], some: Sequence[str]) -> list[int]:
    """Which words are marked; signs only where a mark is on nothing else."""
    marked = set[int]()
    for span in edit.near:
        its = range(*_overlapped(before, span))
        marked.update([nth for nth in its if not is_sign(some[nth])] or its)
    return sorted(marked)


def _after_blanks(words: Sequence[Span]) -> list[int]:
    """Which words stand at no end of the one before."""
    fronts = pairwise([None, *words])
    return [n for n, (a, b) in enumerate(fronts) if not a or not b or a.stop < b.start]


def _between(edit: _Edit, pairs: Sequence[_Pair]) -> Iterator[_Stay]:
    """What stands as it did between words of a print and those that come in place of them."""
    for (its, to), (after, to_after) in pairwise(pairs):
        if (
            edit.old.text[its.stop : after.start]
            == edit.new.text[to.stop : to_after.start]
        ):
            yield Span(its.stop, after.start), to.stop - its.stop


def _is_of_letters(piece: str) -> bool:
    """Whether a sequence is of a word with others; in some scripts each is a word of its own."""
    letter = piece[0]
    is_alone = letter > _MOST_WITH_BLANKS and any(
        ord(letter) in each for each in _ALONE
    )
    return letter.isalnum() and not is_alone


def _is_no_blank(piece: str) -> bool:
    return piece not in BLANKS


def _pieces(text: str, is_of_word: Callable[[str], bool]) -> Iterator[str]:
    """The words of a text, and each sequence that is of none."""
    for is_word, run in groupby(sequences(text), is_of_word):
        yield from ["".join(run)] if is_word else run


def _words(text: str, within: Span, is_of_word: Callable[[str], bool]) -> list[Span]:
    """The words of a text, and its signs beside them, that have a character in a span."""
    words, place = list[Span](), 0
    for piece in _pieces(text, is_of_word):
        end = place + len(piece)
        if piece not in BLANKS and place < within.stop and within.start < end:
            words.append(Span(place, end))
        place = end
    return words
