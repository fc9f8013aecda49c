"""Text that is pasted, or comes as keys all at once: its lines, and whether they are paragraphs."""

from collections.abc import Sequence
from dataclasses import replace

from scribe.screen.actions import PutBy
from scribe.screen.field import Field, Purpose, blank_between
from scribe.screen.state import End, Question, State, Step

#: What takes out the character before it, in place of a text that is typed on.
BACK = "\x7f"
_PASTED, _TYPED = "The pasted text", "What is typed"
_NOT_ENTER = "The end of the pasted line was left out. Enter ends what is typed."
_AS_BLANK = "The end of the pasted line is a blank here. Enter ends what is typed."
_NO_END = "Enter came with other keys at once, and ended nothing. Press it to end this."
_NOT_YET = (
    "Enter came with other keys at once, and ended nothing yet. Press it to end this; what is"
    " typed on is another line."
)


def pasted(state: State, text: str, is_keys: bool = False) -> Step:
    """What text that is pasted asks for: lines of a new paragraph may become several.

    If it came as keys, Enter at its end ends the last line for what is typed after it.
    """
    if is_cut(text):
        return Step(state.saying("What came isn't UTF-8, and was left out."))
    typed = state.typed
    question = state.question or (about_ended(state) if text.strip() else None)
    if typed and question and question.lines and not state.pages and not state.is_lost:
        return Step(typed_on(state, typed, question, text))
    if question and question.parts is not None and not (state.pages or state.is_lost):
        state, question = replace(state, question=None), None
    if typed is None or question or not state.is_typing or state.is_lost:
        is_text = bool(text.strip())
        return Step(state, PutBy(text, is_keys=is_keys) if is_text else None)
    typed = parted_from(state, typed)
    came = _lines_of(text)
    lines = [line for line in came if line.strip()] or ["".join(came)]
    if len(came) > 1 and not came[0].strip():
        lines = _parted_lines(typed, lines, is_keys)
    end = _end_of(came, is_keys)
    if len(lines) > 1:
        return Step(_with_lines(state, typed, lines, end, is_keys))
    return Step(_with_line(state, typed, lines[0], end))


def _lines_of(text: str) -> list[str]:
    return text.replace("\r", "\n").replace("\t", " ").split("\n")


def _parted_lines(typed: Field, lines: list[str], is_keys: bool) -> list[str]:
    """Lines before which the end of another one came: a blank there, or Enter among keys."""
    if is_keys and typed.purpose.is_print and typed.front.strip() and lines[0].strip():
        return ["", *lines]
    first, *others = lines
    # a blank on both sides is one
    first = first.lstrip(" ") if typed.front.endswith(" ") else first
    return [blank_between(typed.front, first) + first, *others]


def _end_of(lines: Sequence[str], is_keys: bool) -> End:
    """What the last of some lines ended in as they came."""
    if len(lines) > 1 and not lines[-1].strip():
        return End.ENTER if is_keys else End.LINE
    return End.BLANK if lines[-1].endswith(" ") else End.NOTHING


def _with_line(state: State, typed: Field, line: str, end: End) -> State:
    """The state with one line in what is typed."""
    if end is End.LINE:
        line = line.rstrip(" ") if typed.back.startswith(" ") else line
        blank = blank_between(line, typed.back)
        state = replace(state, typed=typed.inserted(line + blank))
        return state.saying(_AS_BLANK if blank else _NOT_ENTER)
    # hands that end a word by Enter want no blank in it
    field = typed.inserted(line)
    state = replace(state, typed=field)
    if end is not End.ENTER:
        return state.saying("")
    if field.purpose.is_print and field.text.strip():
        return replace(state, ended=field).saying(_NOT_YET)
    return state.saying(_NO_END)


def _with_lines(
    state: State, typed: Field, lines: list[str], end: End, is_keys: bool
) -> State:
    """The state in which it is asked about lines, or in which they are joined if they aren't print."""
    is_parted = lines[0].startswith(" ")
    lines = [line.strip() for line in lines]
    if is_parted:
        lines[0] = blank_between(typed.front, lines[0]) + lines[0]
    blank = "" if end is End.NOTHING else blank_between(lines[-1], typed.back)
    if not typed.purpose.is_print:
        joined = typed.inserted(" ".join(lines) + blank)
        how = "lines that came at once" if is_keys else "pasted lines"
        said = f"The {len(lines)} {how} were joined."
        return replace(state, typed=joined).saying(said)
    lines[0] = typed.front + lines[0]
    lines[-1] += blank + typed.back
    what = _TYPED if is_keys else _PASTED
    question = about_lines(typed.purpose, lines, what)
    return replace(state, question=replace(question, end=end))


def about_lines(purpose: Purpose, lines: Sequence[str], what: str = _TYPED) -> Question:
    """Whether lines that were typed or pasted are paragraphs."""
    count = len(lines)
    if count == 1:
        return Question(f"{what} is 1 line. Shall it be kept?", tuple(lines))
    asked = f"Are they {count} paragraphs?"
    if purpose is Purpose.EDIT:
        others = "the other" if count == 2 else f"the other {count - 1}"
        asked = (
            f"Shall the first go on in this paragraph, and {others} be new after it? If"
            " not, they are joined."
        )
    return Question(f"{what} has {count} lines. {asked}", tuple(lines))


def waiting(state: State, purpose: Purpose, lines: Sequence[str]) -> State:
    """The state in which such lines wait until the book has them."""
    rest = " ".join(lines)
    field = Field(purpose, rest, len(rest))
    return replace(state, typed=field, question=about_lines(purpose, lines))


def beside_lines(state: State, typed: Field) -> Field:
    """What is typed where it all is in lines that are asked about: the print as it stands, or nothing."""
    its = state.reading if typed.purpose is Purpose.EDIT else None
    front = its.text if its else ""
    return replace(typed, text=front, place=len(front))


def about_ended(state: State) -> Question | None:
    """Whether what is typed on is another line: Enter came with the keys before it, all at once."""
    typed = state.typed
    if typed is None or state.ended != typed or not typed.purpose.is_print:
        return None
    if not typed.text.strip():
        return None
    return replace(about_lines(typed.purpose, (typed.text,)), end=End.ENTER)


def parted_from(state: State, typed: Field) -> Field:
    """What is typed, with a blank before what is typed on if Enter ended it and no line comes after it."""
    is_ended = state.ended == typed and bool(typed.text)
    return typed.inserted(" ") if is_ended and not typed.purpose.is_print else typed


def typed_on(state: State, typed: Field, question: Question, text: str) -> State:
    """Lines that are asked about, with what was typed on after them before it was answered.

    Hands that don't read the question type on, where a slow line brought their keys all at once.
    """
    text = "\n".join(_lines_of(text))
    *above, last = question.lines
    place = len(last) - len(typed.back)
    front, back = last[:place], last[place:]
    if question.end is not End.NOTHING:
        # the blank that parts them from what stands there
        front = front.removesuffix(" ") if back else front
        is_ended = question.end is End.ENTER
        text = f"\n{text}" if is_ended else blank_between(front, text) + text
    whole = front[:-1] if text == BACK else front + text
    *ended, front = whole.split("\n")
    lines = [*above, *(line for line in ended if line.strip()), front + back]
    there = [line for line in lines if line]
    if not there:
        # of the one line that waited nothing is left to be asked about
        return replace(state, typed=replace(typed, text="", place=0), question=None)
    if len(there) != sum(map(bool, question.lines)):
        question = about_lines(typed.purpose, there)
    asked = replace(question, lines=tuple(lines), is_typed_on=bool(front), row=None)
    return replace(state, question=replace(asked, end=End.NOTHING))


def is_cut(text: str) -> bool:
    """Whether it came in bytes that aren't UTF-8."""
    return any("\ud800" <= each <= "\udfff" for each in text)
