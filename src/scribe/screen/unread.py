"""Keys that came and weren't carried out: the text among them is kept, and nothing is done to the book."""

from collections.abc import Sequence
from dataclasses import dataclass, replace

from braildesk.desk.draft import Unread

from scribe.screen.actions import PutBy, TypeAll
from scribe.screen.arrivals import is_text, text_of
from scribe.screen.keyboard import Pasted, Stroke
from scribe.screen.pasted_lines import BACK, pasted, typed_on
from scribe.screen.state import State, draft_of, draft_of_pasted
from scribe.screen.typing_keys import while_typing


@dataclass(frozen=True)
class Rest:
    """What keys come to that nobody carries out any more."""

    #: With what is typed by then.
    state: State
    #: The texts that aren't of that: they are set aside.
    aside: tuple[Pasted, ...] = ()
    #: The few letters that are no text.
    letters: str = ""
    #: What else has to be said.
    said: tuple[str, ...] = ()


def rest_of(state: State, came: Sequence[Stroke]) -> Rest:
    """What keys come to: what comes after Enter is another new paragraph, or else is set aside."""
    rest = Rest(state)
    is_of_line = state.is_typing and state.question is None
    is_ended = False
    for stroke in came:
        if isinstance(stroke, Pasted):
            rest = _with_pasted(rest, stroke, is_ended)
        elif is_of_line and len(stroke) == 1:
            rest = replace(rest, state=pasted(rest.state, stroke).state)
        elif is_of_line and (edited := _edited(rest.state, stroke)) is not None:
            rest = replace(rest, state=edited)
        else:
            # what comes after another key may be no text
            if is_text(stroke):
                rest = replace(
                    rest, letters=rest.letters + text_of(stroke).strip("\n\t")
                )
            is_enter = is_of_line and stroke == "enter"
            after = _another_begun(rest.state) if is_enter else None
            is_ended = is_ended or is_enter and after is None
            is_of_line = after is not None
            rest = replace(rest, state=after or rest.state)
    return rest


def unread_of(
    state: State, came: Sequence[Stroke], is_at_offer: bool = False
) -> Unread | None:
    """What is kept of keys as long as they can't be carried out; nothing of none that is text.

    What is typed waits already as it is, so that only the text beyond it is kept. It may be a text
    that is typed at what is offered.
    """
    if state.away:
        text = "".join(map(text_of, came)).strip()
        lines = text if isinstance(state.away, TypeAll) else ""
        texts = [] if lines else [text]
    else:
        rest = rest_of(state, came)
        lines, beyond = _beyond(state, rest.state)
        texts = [beyond, *(each.text for each in rest.aside)]
    aside = draft_of_pasted(state, "\n".join(texts))
    if not (lines or aside.text):
        return None
    return Unread(draft_of_pasted(state, lines).text, aside, is_at_offer)


def _beyond(before: State, after: State) -> tuple[str, str]:
    """The lines after those that are typed, or another text that is typed."""
    was, now = draft_of(before), draft_of(after)
    if now is None or was is not None and was.text == now.text:
        return "", ""
    if was is None or not now.text.startswith(was.text):
        return "", now.text
    more = now.text.removeprefix(was.text)
    return (more.strip(), "") if more.startswith("\n") else ("", more)


def _with_pasted(rest: Rest, text: Pasted, is_ended: bool) -> Rest:
    """The rest with a text: it goes into what is typed, or is set aside."""
    if is_ended:
        return replace(rest, aside=(*rest.aside, text))
    step = pasted(rest.state, text.text, text.is_keys)
    if isinstance(step.asked, PutBy):
        return replace(rest, aside=(*rest.aside, text))
    is_said = rest.state.typed is None and not rest.state.is_lost
    said = (step.state.message,) if is_said and step.state is not rest.state else ()
    return replace(rest, state=step.state, said=(*rest.said, *said))


def _edited(state: State, key: str) -> State | None:
    """The state after a key that moves in what is typed, takes something out or does nothing; or None."""
    typed, asked = state.typed, state.question
    if typed is None or key in ("escape", "enter"):
        return None
    if asked is not None:
        is_back = key == "backspace" and asked.is_typed_on
        return typed_on(state, typed, asked, BACK) if is_back else state
    if state.ended == typed:
        # nothing is typed of another paragraph yet
        return state
    return while_typing(state, typed, key).state.saying(state.message)


def _another_begun(state: State) -> State | None:
    """The state in which Enter has another new paragraph be typed; none if it doesn't."""
    typed, asked = state.typed, state.question
    if typed is None or not typed.purpose.is_new:
        return None
    if asked is not None:
        return pasted(state, "\n").state if asked.lines[-1].strip() else None
    if not typed.text.strip():
        return None
    typed = replace(typed, place=len(typed.text))
    return replace(state, typed=typed, ended=typed)
