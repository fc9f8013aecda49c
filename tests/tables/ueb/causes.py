"""The causes for which the cells of print differ from liblouis's, as docs/tables.md has them.

A cause has to do with some print, and changes only certain cells of it. It claims a
difference where the print is such, and the cells are the same once those are set aside.
So a wrong cell beside a quotation mark is claimed by no cause, nor is an opening mark
where liblouis has a closing one.
"""

import dataclasses
import re
from collections.abc import Callable, Iterable

import capitals
from regions import Region


# a number whose thousands are parted by blanks
THOUSANDS = re.compile(r"(?<![\d.,])\d{1,3}(?: \d{3})+(?![\d.,]*\d)")


def unchanged(cells: str) -> str:
    """The cells as they are."""
    return cells


@dataclasses.dataclass(frozen=True)
class Cause:
    """A cause, and what print it has to do with."""

    name: str
    concerns: Callable[[Region], bool]
    #: The cells of either without what the cause changes.
    aside: Callable[[str], str] = unchanged
    #: The form that the cells here may have, by those of liblouis and the print.
    allowed: Callable[[str, Region], str] = lambda cells, _: cells

    def claims(self, region: Region, ours: str, theirs: str) -> bool:
        """Whether cells of a region are the same except for what the cause changes."""
        form = self.allowed(self.aside(theirs), region)
        return bool(re.fullmatch(form, self.aside(ours)))


def without(pattern: str, put: str = "") -> Callable[[str], str]:
    """Sets some cells aside, or puts others in their place."""
    return lambda cells: re.sub(pattern, put, cells)


def instead(pattern: str, form: str) -> Callable[[str, Region], str]:
    """Allows a form of cells here in place of some of liblouis."""
    return lambda cells, _: re.sub(pattern, form, cells)


def directed(cells: str, region: Region) -> str:
    """Allows a mark with the direction that its neighbours show in place of one without."""
    return cells.replace("⠠⠶", direction(region))


def direction(region: Region) -> str:
    """The cells that a straight quotation mark may have, by what stands beside it."""
    if region.print.count('"') == 1:
        before, after = beside_mark(region)
        is_after_word, is_before_word = before.isalnum(), after.isalnum()
        ends = after in ("", " ") and before not in ("", " ")
        if ends or (is_after_word and not is_before_word):
            return "⠴"
        if is_before_word and not is_after_word:
            return "⠦"
    return "[⠦⠴]"


def beside_mark(region: Region) -> tuple[str, str]:
    """What stands before and after the first straight quotation mark of a region."""
    mark = region.first + region.print.find('"')
    return region.line[max(mark - 1, 0) : mark], region.line[mark + 1 :][:1]


def is_in(region: Region, places: Iterable[range]) -> bool:
    """Whether a part begins among some places."""
    return any(region.first in each for each in places)


def is_in_passage(region: Region) -> bool:
    """A word of three or more in capitals."""
    return is_in(region, capitals.passages(region.line))


def is_before_small_letter(region: Region) -> bool:
    """A capital of a run that a small letter follows."""
    return is_in(region, capitals.runs_before_small_letters(region.line))


def is_parting_thousands(region: Region) -> bool:
    """A blank in a number of groups of three digits, or the digit after it."""
    numbers = THOUSANDS.finditer(region.line)
    return any(number.start() < region.first < number.end() for number in numbers)


def is_between_blanks(region: Region) -> bool:
    """A straight quotation mark with a blank on both sides."""
    return '"' in region.print and not "".join(beside_mark(region)).strip()


def has(characters: str) -> Callable[[Region], bool]:
    """One of some characters."""
    return lambda region: any(it in characters for it in region.print)


def looks(before: str, print_: str, after: str) -> Callable[[Region], bool]:
    """Print of a form after and before print of a form, all as regular expressions."""
    whole = re.compile(print_)
    end, front = re.compile(f"(?:{before})$"), re.compile(after)
    return lambda region: bool(
        whole.fullmatch(region.print)
        and end.search(region.before)
        and front.match(region.after)
    )


def any_of(*forms: Callable[[Region], bool]) -> Callable[[Region], bool]:
    """One of some forms."""
    return lambda region: any(form(region) for form in forms)


# the signs of capitals, which are no part of a quotation mark or a dash
SIGNS_OF_CAPITALS = without("⠠⠄|⠠+(?![⠶⠴⠦⠤])")
# a numeric space, or a blank and the sign of the number after it
NUMERIC_SPACE = without("^[⠐⠀]|⠼")
LETTER = r"[^\W\d_]"

# where liblouis follows the Rules, and no table of the profile can
LIMITS = (
    Cause("a passage of capitals", is_in_passage, SIGNS_OF_CAPITALS),
    Cause("capitals before a small letter", is_before_small_letter, SIGNS_OF_CAPITALS),
    Cause(
        "a number that begins with its point",
        any_of(
            looks(r"(?:^|\D)", r"[.,]", r"[.,]*\d"), looks(r"(?:^|\D)[.,]", r"\d.*", "")
        ),
        without("⠼"),
    ),
    Cause("a blank that parts thousands", is_parting_thousands, NUMERIC_SPACE),
    Cause("a ligature in capitals", has("ÆŒĲ"), SIGNS_OF_CAPITALS),
    Cause(
        "a quotation mark that ends a line",
        looks("", '"', "$"),
        allowed=instead("(⠴|⠠⠶)$", "⠦"),
    ),
    Cause(
        "a quotation mark that begins a line, before a blank",
        looks("^", '" ', ""),
        allowed=instead("^⠦", "⠴"),
    ),
)
# where the table follows the Rules, and liblouis doesn't
CHOICES = (
    Cause(
        "a blank between two numbers",
        any_of(looks(r"\d", " ", r"\d"), looks(r"\d ", r"\d.*", "")),
        NUMERIC_SPACE,
    ),
    Cause(
        "a quotation mark between blanks",
        is_between_blanks,
        allowed=instead("[⠦⠴]", "⠠⠶"),
    ),
    Cause("a straight quotation mark", has('"'), allowed=directed),
    Cause("an apostrophe", has("’"), allowed=instead("⠠⠴", "⠄")),
    Cause(
        "a comma or colon between letters",
        looks(LETTER, "[,:;]", LETTER),
        without("⠰"),
    ),
    Cause("a question mark", has("?"), without("⠰(?=⠦)")),
    Cause(
        "a letter after a fraction",
        any_of(looks("", "[¼½¾][a-j]", ""), looks("[¼½¾]", "[a-j]", "")),
        without("⠰"),
    ),
    Cause("digits above the line", has("⁰¹²³⁴⁵⁶⁷⁸⁹"), without("⠰⠔⠼")),
    Cause("a middle dot", has("·"), without("⠐⠲|⠈⠡", "⠲")),
    Cause("a printer's ligature", has("ﬀﬁ"), without("⠘⠖")),
)
CAUSES = LIMITS + CHOICES


def causes_of(region: Region) -> tuple[Cause, ...]:
    """The cause that claims a difference, or the two that do together, or none."""
    concerned = [cause for cause in CAUSES if cause.concerns(region)]
    for cause in concerned:
        if cause.claims(region, region.ours, region.theirs):
            return (cause,)
    for one in concerned:
        ours, theirs = map(one.aside, (region.ours, region.theirs))
        for other in concerned:
            if other.claims(region, ours, theirs):
                return (one, other)
    return ()
