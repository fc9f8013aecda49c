"""What a key answers while something is asked."""

from dataclasses import replace

from braildesk import requests
from braildesk.text.characters import control_refused

from scribe.screen import question_rows
from scribe.screen.actions import (
    Action,
    BringBack,
    FindPlaces,
    GiveUp,
    GoOn,
    ImportFrom,
    PutOff,
    Quit,
    TakeBack,
    TypeAll,
)
from scribe.screen.field import Field, Purpose
from scribe.screen.pasted_lines import BACK, about_lines, beside_lines, typed_on
from scribe.screen.state import End, Question, State, Step
from scribe.screen.typing_keys import is_character, no_table, table_of_new, while_typing

_NO_ANSWER = "That key is no answer to the question."
_READ_ON = "Up and Down go through it."
_ASKED_LATER = "It is asked again when the book is opened."
_STAYS_GIVEN_UP = "It stays set aside. U{} asks about it again."
_STAYS_TYPED = "It stays as it is typed. Enter asks again."
_NOT_DONE = {
    ImportFrom: "Nothing was typed.",
    FindPlaces: "Nothing was changed.",
    TakeBack: "Nothing was taken back.",
    requests.Resolve: "Nothing was resolved.",
    Quit: "The book stays open. U brings the text back.",
}


def answered(state: State, question: Question, key: str) -> Step:
    """What a key asks for as the answer to a question."""
    if question.yes is not None:
        return _about_errand(state, question, question.yes, key)
    state = replace(state, question=None)
    if question.draft is not None:
        return _about_text(state, question, question.draft, key)
    if question.parts is not None and state.typed is not None:
        if key == "y":
            return Step(state, GoOn(state.typed.purpose, *question.parts))
        if key in ("n", "escape"):
            return Step(state.saying(_STAYS_TYPED))
        if is_character(key):
            # hands that don't read the question type on
            return Step(
                while_typing(state, state.typed, key).state.saying(_STAYS_TYPED)
            )
    if question.lines and state.typed is not None:
        return _about_lines(state, state.typed, question, key)
    return _no_answer(replace(state, question=question))


def _no_answer(state: State) -> Step:
    """What is said of a key that is no answer, with the keys that show what there is no room for."""
    state = state.saying(_NO_ANSWER)
    is_whole = question_rows.is_whole(state)
    return Step(state if is_whole else state.saying_too(_READ_ON))


def _about_lines(state: State, typed: Field, question: Question, key: str) -> Step:
    """Lines that were pasted are paragraphs, or are joined; what is no answer goes on in them."""
    asked = replace(state, question=question)
    if key == "escape":
        return Step(asked, GiveUp())
    if key in ("y", "n") and not question.is_typed_on:
        if key == "n":
            joined = asked.joined
            if joined is not None and question.end is End.BLANK and not typed.back:
                joined = joined.inserted(" ")
            return Step(replace(state, typed=joined))
        for line in question.lines:
            refused = control_refused(line.encode())
            if refused:
                return Step(asked.saying(refused))
        lines = tuple(line for line in question.lines if line.strip())
        return Step(state, TypeAll(typed.purpose, lines))
    if key == "enter" and question.is_typed_on:
        key = "\n"
    elif key == "backspace" and question.is_typed_on:
        key = BACK
    elif not is_character(key):
        return _no_answer(asked)
    return Step(typed_on(asked, typed, question, key))


def _about_errand(
    state: State,
    question: Question,
    action: ImportFrom | FindPlaces | TakeBack | requests.Resolve | Quit,
    key: str,
) -> Step:
    """An import or a change of words goes on; what keys did is taken back; a mark is resolved; all ends."""
    answered = replace(state, question=None)
    nothing = _NOT_DONE[type(action)]
    if key == "y":
        return Step(answered, action)
    if key == "n" and question.no:
        return Step(answered, question.no)
    if question.no and key in ("l", "escape"):
        return Step(answered.saying(f"{nothing} {_ASKED_LATER}"))
    if key in ("n", "escape"):
        return Step(answered.saying(nothing))
    return _no_answer(state)


def _about_text(state: State, question: Question, draft: Field, key: str) -> Step:
    """A text that waits or was given up: it is typed further, given up, or left for later."""
    asked = replace(state, question=question)
    if key == "y":
        return _taken_up(asked, draft)
    actions: dict[str, Action] = {"n": GiveUp(), "l": PutOff()}
    if question.older is None and key in actions:
        return Step(asked, actions[key])
    if question.older is not None and key == "U":
        return Step(asked, BringBack(question.older))
    if question.older is not None and key in ("n", "escape"):
        if question.came_from is not None:
            chosen, place, pane = question.came_from
            state = replace(state.at(chosen, place), pane=pane)
        times = f", pressed {question.older} times," if question.older > 1 else ""
        said = _STAYS_GIVEN_UP.format(times)
        return Step(replace(state, anchor=None).saying(said))
    return _no_answer(asked)


def _taken_up(asked: State, draft: Field) -> Step:
    """A text that waits or was given up is typed further."""
    table = table_of_new(asked)
    if draft.purpose is not Purpose.EDIT:
        table = asked.table or table
    if draft.purpose.is_new and table is None:
        return Step(asked.saying(no_table(asked)))
    state = replace(asked, question=None, table=table)
    lines = draft.text.split("\n")
    if len(lines) == 1:
        # of a print it is said once, since it has the rows of its braille
        typed = replace(draft, said="") if draft.purpose.is_print else draft
        return Step(replace(state, typed=typed).saying(draft.said))
    typed = replace(beside_lines(asked, draft), said="")
    return Step(replace(state, typed=typed, question=about_lines(typed.purpose, lines)))
