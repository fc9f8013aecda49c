"""`scribe change-all`: words that are replaced wherever they stand."""

import signal
from argparse import Namespace
from collections.abc import Callable
from contextlib import AbstractContextManager, nullcontext, suppress
from functools import partial
from typing import Any

from braildesk import Session
from braildesk.desk.change_all import Choice, Proposal, Replacement
from braildesk.desk.change_note import Became
from braildesk.desk.changed_so_far import Further, left_open
from braildesk.desk.drafts import Drafts, NotKept

from scribe.cli.book_command import BookCommand
from scribe.cli.own_modules import hold_modules
from scribe.cli.opened_book import said_where_stopped
from scribe.cli.parser import Parser, add_ranges, add_width, proofreader
from scribe.prompt.conversation import Ended, EndedAmong, NoAnswer
from scribe.prompt.typed_lines import GivenUp, Lines, PipedLines, TypedLines, are_typed
from scribe.words.change_all import (
    QUESTION,
    SHORT_QUESTION,
    STOP,
    Asking,
    Count,
    answered,
    cut_short,
    none_left,
    not_seen,
    nowhere,
    proposal_lines,
    stopped_after,
    would_change,
)
from scribe.words.console import Console
from scribe.words.drafts import not_kept
from scribe.words.status import Interrupted, Status, Stop
from scribe.words.typed import InvalidInput, text, words

MORE = """\
Each place is a correction of its own, of the fewest characters, and is shown as it is now
and as it was. A mark between two changes of one place is touched, and covers both then.
With --ask it is asked about each, until you answer all. --words leaves alone what is part
of a longer word. With --case words with other capitals are changed too: moon, Moon and
MOON become sun, Sun and SUN. Places that the book refuses stay as they are, and are
listed at the end with the reason."""
EXAMPLE = """\
scribe change-all moon.braildesk moon sun --words --dry-run
scribe change-all moon.braildesk moon sun --case --in 1-2 --by anna"""
_OFFER = "; --case changes other capitals too."
_ENDED = "The input ended, so the rest stays as it was."


class _Unanswered(Exception):
    """The input ended where it was asked whether a place is changed, which nobody left as it is."""


def add_words(parser: Parser) -> None:
    """Adds the words of `change-all`."""
    parser.add_asked(
        "old",
        "OLD",
        words,
        "the words that go",
        "Which words go, wherever they stand?",
        "old",
    )
    parser.add_asked(
        "new",
        "NEW",
        text,
        "what comes in their place; '' is nothing",
        "What comes in their place? Type '' to take them out.",
    )
    add_ranges(parser, "--in")
    for word, does in (
        ("--words", "only whole words"),
        ("--case", "whatever the capitals: Moon becomes Sun"),
    ):
        parser.add_argument(word, action="store_true", help=does)
    how = parser.add_mutually_exclusive_group()
    how.add_argument(
        "--ask",
        action="store_true",
        help="ask about each place before it is changed",
    )
    how.add_argument(
        "--dry-run", action="store_true", help="show each place, and change nothing"
    )
    parser.add_argument(
        "--by",
        metavar="WHO",
        type=proofreader,
        help="the proofreader, kept in the history",
    )
    add_width(parser)


def answer(session: Session, arguments: Namespace, console: Console) -> Status:
    """Replaces the words, and says what became of each place."""
    wanted = Replacement(
        arguments.old,
        arguments.new,
        arguments.words,
        arguments.case,
        arguments.paragraphs,
        arguments.by,
    )
    drafts, found, before = Drafts(arguments.file), list[Proposal](), list[Became]()
    drafts.adopt()

    def so_far(changed: int, version: int) -> str:
        already = before.count(Became.CHANGED)
        return stopped_after(changed + already, len(found) + already, version)

    with said_where_stopped(session, arguments, console, so_far):
        further = Further(session, drafts, wanted)
        found += further.found()
        # how many were changed before is said beside those that are left
        before += (became for _, became in further.answered)
        for note, places in further.notes:
            console.say(cut_short(note, [became for _, became in places], " already"))
        if not found:
            return _nothing_found(session, drafts, further, console)
        unseen = not_seen(further.unseen(found))
        if unseen and not (arguments.ask or arguments.dry_run):
            raise Stop(f"{unseen} --ask shows each place. Nothing was changed.")
        if unseen and arguments.dry_run:
            unseen = f"{unseen} --ask shows each place."
        console.say(*filter(None, [unseen]))
        if arguments.dry_run:
            return _shown(wanted, found, console)
        choice = _choice(arguments, found, console)
        return _changed(session, further, found, choice, console)


def _nothing_found(
    session: Session, drafts: Drafts, further: Further, console: Console
) -> Status:
    """Says that no place is left of words that were changed before, or why there is none."""
    # what is noted of places that are all done is taken away
    left_open(session, drafts)
    if not further.is_done:
        raise Stop(nowhere(session, further.wanted, _OFFER))
    console.say(none_left(further.wanted, (note for note, _ in further.notes)))
    return Status.DONE


def _shown(wanted: Replacement, found: list[Proposal], console: Console) -> Status:
    """Shows each place as it is and as it would be."""
    for nth, each in enumerate(found, 1):
        console.show(*proposal_lines(each, nth, len(found), console.columns))
    console.say(would_change(wanted, found))
    return Status.DONE


def _changed(
    session: Session,
    further: Further,
    found: list[Proposal],
    choice: Choice,
    console: Console,
) -> Status:
    """Replaces the words, and shows each place that was changed."""

    def report(fault: NotKept) -> None:
        console.say(not_kept(fault))

    count, said = Count(further.wanted), list[str]()
    changed = further.changed(found, choice, report)
    try:
        for lines in count.lines(changed, console.columns):
            console.show(*lines)
    except _Unanswered:
        said.append(_ENDED)
    except Ended as ended:
        # a conversation ends as well, after it is said what was changed
        console.say(*count.sentences(session.last_version), _ENDED)
        raise EndedAmong from ended
    console.say(*count.sentences(session.last_version), *said)
    return Status.REFUSED if count.refused else Status.DONE


def _choice(arguments: Namespace, found: list[Proposal], console: Console) -> Choice:
    """What says which places are changed: a person if that is asked for, else all are."""
    if not arguments.ask:
        return lambda _: True
    ask_person = getattr(arguments, "ask_person", None)
    ask = partial(_asked, console)
    if ask_person is None and are_typed():
        hold_modules()
    if ask_person is not None:
        ask = partial(_asked_at_prompt, ask_person)
    return Asking(console.show, ask, len(found), console.columns).is_wanted


def _asked_at_prompt(ask_person: Callable[..., Any]) -> str:
    """The answer to whether a place is changed, at the prompt of a conversation.

    Whoever gives up stops, since what was changed before stays so.
    """
    while True:
        try:
            return str(ask_person(QUESTION, SHORT_QUESTION, answered, False))
        except NoAnswer:
            # asked again, as after any other word
            continue
        except GivenUp:
            return STOP


def _asked(console: Console) -> str:
    """The answer to whether a place is changed."""
    while True:
        console.say(QUESTION)
        with _lines(console) as lines:
            try:
                line = lines.line(": ")
            except GivenUp as given_up:
                raise Interrupted(signal.SIGINT) from given_up
        if line is None:
            raise _Unanswered
        with suppress(InvalidInput):
            return answered(line.decode(errors="replace"))


def _lines(console: Console) -> AbstractContextManager[Lines]:
    return TypedLines() if are_typed() else nullcontext[Lines](PipedLines(console))


COMMAND = BookCommand("change-all", EXAMPLE, add_words, lambda: answer, MORE)
