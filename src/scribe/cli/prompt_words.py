"""The commands of the shell at the prompt of `talk`: the words of a line, and those it lacks."""

import re
from argparse import Namespace
from collections.abc import Callable
from pathlib import Path
from typing import Any

from braildesk import NotFound
from braildesk.desk.marks import MarkOfBook
from braildesk.desk.places import ManyPlaces, Words, judge_struck
from braildesk.protocol.requests import BY_NAME, REQUESTS, Command
from braildesk.text.characters import visible
from braildesk.text.excerpt import excerpt_lines, opening_after
from braildesk.text.spans import find_spans

from scribe.cli.commands import AT_PROMPT, COMMANDS, may_change, prompt_command
from scribe.cli.opened_book import places_shown
from scribe.cli.parser import Asked, Parser, TextAsked, WordsRefused, as_asked
from scribe.prompt.conversation import Conversation
from scribe.words.find import instead
from scribe.words.paragraph import quoted
from scribe.words.status import Stop
from scribe.words.typed import InvalidInput, number, words_of

_OWN = {
    "request": "request LINE sends a line of the requests' grammar, which counts places and cells"
    " from 0, also where its first word is that of a command here.",
    "help": "help says what can be typed; help and a name says more of it.",
    "short": "short has questions be asked in a word or two.",
    "long": "long has questions be asked in whole sentences.",
    "quit": "quit, q or exit ends the conversation. What was answered is kept already.",
}
# the name, the options in brackets, and the words
_USAGE = re.compile(r"usage: (\S+) ?((?:\[-[^]]*\] ?)*)(.*)")
_IN_MARKS = "Put words with blanks between them in quotation marks, as in 'far away'."
_WITH_HYPHEN = "A word that begins with a hyphen stands in quotation marks, as '-ing'."
# a command as a shell takes it, which is typed without its first word here
_OF_SHELL = re.compile(rf"\bscribe (?=(?:{'|'.join(AT_PROMPT)})(?![\w-]))")


def names() -> list[str]:
    """Everything that a line may begin with."""
    return [*AT_PROMPT, *_OWN, *(name for name in BY_NAME if name not in AT_PROMPT)]


def overview() -> list[str]:
    """What can be typed."""
    others = [each for each in REQUESTS if each.name not in AT_PROMPT]
    changing = [each.name for each in others if issubclass(each, Command)]
    looking = [each.name for each in others if not issubclass(each, Command)]
    return [
        f"These commands are those of the shell, without the file: {', '.join(AT_PROMPT)}. Words"
        f" that a line lacks are asked for. {_IN_MARKS} {_WITH_HYPHEN}",
        "These are requests, which count places and cells from 0, while all that is said in words"
        f" counts from 1: {', '.join(looking)} show something, and {', '.join(changing)} change"
        " the book.",
        "short has questions be asked in a word or two, and long in sentences. help and a name says"
        " more of it. quit, q or exit ends.",
    ]


def help_of(name: str) -> list[str] | None:
    """What is said of one thing that can be typed, or None if there is no such thing."""
    if name in AT_PROMPT:
        return _help_of_command(name)
    if name in _OWN:
        return [_OWN[name]]
    asked = BY_NAME.get(name.removeprefix("request "))
    if asked is None:
        return None
    lines = [f"{asked.form()}: {asked.__doc__}", f"For example: {asked.example}"]
    if issubclass(asked, Command):
        lines.append(
            f"@12 {asked.example} does the same only if the book is at version 12."
        )
    return lines


def _help_of_command(name: str) -> list[str]:
    its = prompt_command(name)
    examples = [_OF_SHELL.sub("", each) for each in its.example.splitlines()]
    # another command may come before it
    example = next(each for each in examples if each.startswith(f"{name} "))
    _, does = COMMANDS[name]
    lines = [_usage(its.prompt_parser()), does]
    if its.more:
        lines.append(_OF_SHELL.sub("", " ".join(its.more.split())))
    return [*lines, f"For example: {example.replace(' moon.braildesk', '')}"]


def _usage(parser: Parser) -> str:
    """How a line is typed: its words in their order, then the options."""
    usage = " ".join(parser.format_usage().split()).replace("[-h] ", "")
    parts = _USAGE.fullmatch(usage)
    return " ".join(" ".join(parts.group(1, 3, 2)).split()) if parts else usage


def _say_refused(talk: Conversation, parser: Parser, refused: WordsRefused) -> None:
    talk.console.say(_why_refused(refused), f"It is typed as: {_usage(parser)}")


def _why_refused(refused: WordsRefused) -> str:
    """Why the words of a line aren't taken."""
    if refused.sentence.startswith("Unrecognized arguments: "):
        return f"{refused.sentence} {_WITH_HYPHEN}"
    _, is_over, words = refused.sentence.partition("There are too many words: ")
    if not is_over:
        return refused.sentence
    return f"The line has too many words: “{words.removesuffix('.')}”. {_IN_MARKS}"


def command_answered(talk: Conversation, file: Path, name: str, rest: str) -> None:
    """Answers a line that begins with a command of the shell."""
    its = prompt_command(name)
    parser = its.prompt_parser()
    arguments = Namespace(command=name, file=file, read_at=file, ask_person=talk.ask)
    try:
        parser.parse_args(_with_paragraph(talk, parser, words_of(rest)), arguments)
    except TextAsked as asked:
        talk.console.show(*asked.text.rstrip("\n").split("\n"))
        return
    except InvalidInput as fault:
        talk.console.say(f"{fault} Nothing was changed.")
        return
    except WordsRefused as refused:
        _say_refused(talk, parser, refused)
        return
    talk.may_change = may_change(arguments)
    console = as_asked(talk.console, arguments)
    try:
        with places_shown(console.columns):
            _complete(talk, parser, arguments)
            its.judge(arguments)
            outcome = its.answering()(talk.session, arguments, console)
    except WordsRefused as refused:
        talk.bring_back()
        _say_refused(talk, parser, refused)
        return
    except NotFound as missing:
        if hint := _number_first(talk, arguments):
            raise Stop(missing.sentence, more=[hint]) from missing
        raise
    if isinstance(outcome, MarkOfBook):
        talk.hand = outcome


def _with_paragraph(talk: Conversation, parser: Parser, words: list[str]) -> list[str]:
    """The words of a line, with the paragraph of the mark in hand if they begin without one."""
    hand, first = talk.hand, parser.asked[0] if parser.asked else None
    if hand is None or hand.mark.resolved or first is None or not words:
        return words
    takes_it = first.in_hand and first.action.dest == "paragraph"
    if not takes_it or words[0].startswith("-") or words[0].isdecimal():
        return words
    return [str(hand.paragraph), *words]


def _number_first(talk: Conversation, arguments: Namespace) -> str:
    """How a number is changed in the paragraph of the mark in hand, if one was taken for a paragraph's."""
    hand, old = talk.hand, getattr(arguments, "old", None)
    if hand is None or hand.mark.resolved or old is None or arguments.new is not None:
        return ""
    return (
        f"To change a number in paragraph {hand.paragraph}, begin with that of the paragraph: change"
        f" {hand.paragraph} OLD NEW."
    )


def _complete(talk: Conversation, parser: Parser, arguments: Namespace) -> None:
    """Asks for the words that a line lacks."""
    _take_known(talk, parser, arguments)
    for asked in parser.asked:
        given = getattr(arguments, asked.action.dest)
        if given is None:
            read = _reader(talk, asked, arguments)
            given = talk.ask(asked.question, asked.short, read)
            setattr(arguments, asked.action.dest, given)
        is_last = asked is parser.asked[-1]
        if asked.action.dest == "paragraph" and not is_last:
            _show_paragraph(talk, parser, arguments)
        if asked.stands:
            arguments.nth = _which(talk, parser, arguments, given)


def _take_known(talk: Conversation, parser: Parser, arguments: Namespace) -> None:
    """Takes words that a line lacks from what is known: who talks, and the mark in hand."""
    hand = talk.hand
    known: dict[str, Any] = {"by": talk.by}
    if hand is not None:
        known["after_mark"] = hand.mark.id
    if hand is not None and not hand.mark.resolved:
        its = {"paragraph": hand.paragraph, "mark": hand.mark.id}
        in_hand = {each.action.dest for each in parser.asked if each.in_hand}
        known.update((name, its[name]) for name in its if name in in_hand)
    for name, value in known.items():
        if name in arguments and getattr(arguments, name) is None:
            setattr(arguments, name, value)


def _reader(
    talk: Conversation, asked: Asked, arguments: Namespace
) -> Callable[[str], Any]:
    """What reads an answer, and refuses what the book doesn't have."""

    def paragraph(answer: str) -> int:
        found = number(answer)
        try:
            talk.session.print_of(found)
        except NotFound as missing:
            raise InvalidInput(missing.sentence) from missing
        return found

    def standing(answer: str) -> Any:
        text = talk.session.print_of(arguments.paragraph)
        if not find_spans(text, asked.read(answer)):
            where = f"in paragraph {arguments.paragraph}{instead(answer, text)}"
            raise InvalidInput(f"{quoted(answer)} isn't {where}")
        return answer

    if asked.action.dest == "paragraph":
        return paragraph
    return standing if asked.stands else asked.read


def _show_paragraph(talk: Conversation, parser: Parser, arguments: Namespace) -> None:
    """Shows how a paragraph begins, or its mark in hand, if more will be asked for.

    What is refused of a struck one isn't asked for.
    """
    if all(getattr(arguments, each.action.dest) is not None for each in parser.asked):
        return
    number, width, hand = arguments.paragraph, talk.console.columns, talk.hand
    _judge_struck(talk, parser, number)
    head, text = f"Paragraph {number}: ", talk.session.print_of(number)
    if hand is not None and hand.paragraph == number and not hand.mark.resolved:
        start, stop = hand.mark.start, hand.mark.stop
        talk.console.show(*excerpt_lines(head, text, start, stop, width))
    else:
        talk.console.show(opening_after(head, visible(text), width))


def _judge_struck(talk: Conversation, parser: Parser, number: int) -> None:
    """Refuses a struck paragraph before more is asked for, where it is refused in any case."""
    for asked in parser.asked:
        if asked.if_struck is not None:
            judge_struck(talk.session, number, asked.if_struck(number))


def _which(
    talk: Conversation, parser: Parser, arguments: Namespace, sought: str
) -> int | None:
    """In which of the places where words stand they are meant, counted from 1.

    None if they stand just once. Raises `NoPlace`, and `ManyPlaces` if there is no nth place.
    """
    paragraph: int = arguments.paragraph
    given: int | None = arguments.nth
    text = talk.session.print_of(paragraph)
    try:
        Words(paragraph, sought, given).place(text)
        return given
    except ManyPlaces as many:
        if given is not None:
            raise
        places = many.places
    _judge_struck(talk, parser, paragraph)
    for nth, place in enumerate(places, 1):
        talk.console.show(
            *excerpt_lines(
                f"{nth}: ", text, place.start, place.stop, talk.console.columns
            )
        )

    def one_of_them(answer: str) -> int:
        nth = number(answer)
        if not 1 <= nth <= len(places):
            raise InvalidInput(f"the places are 1 to {len(places)}")
        return nth

    question = "Which of these places? Type its number."
    return talk.ask(question, f"place 1 to {len(places)}", one_of_them)
