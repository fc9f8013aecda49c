"""Words that come in the place of others, at the caret or wherever they stand."""

from collections.abc import Sequence
from concurrent.futures import Future
from contextlib import suppress
from dataclasses import replace
from functools import partial

from braildesk import Lost, Refused
from braildesk.desk.change_all import (
    NotChanged,
    Passed,
    Proposal,
    Replacement,
    moved_by,
)
from braildesk.desk.change_note import Became
from braildesk.desk.changed_so_far import Further, left_open, note_of
from braildesk.desk.correction import replaced
from braildesk.desk.drafts import NotKept
from braildesk.text.characters import visible

from scribe.window import dialogs
from scribe.window.book import NoAnswer, of_answer
from scribe.window.desk import Desk
from scribe.window.dialogs import IsStopped, Say
from scribe.window.finding import Finding
from scribe.words.drafts import not_kept
from scribe.words.change_all import (
    Count,
    cut_short,
    how_many,
    none_left,
    not_seen,
    nowhere,
    proposal_lines,
)
from scribe.words.paragraph import part_of, quoted
from scribe.words.status import Stop

# the lines that were typed, and which of the checks hold
_Answer = tuple[list[str], list[bool]]
_TITLE = "Change everywhere"
_ASKED = ("&Words to change:", "What comes in their &place; nothing takes them out:")
_CHECKS = ("Only wh&ole words", "Whatever the &capitals")
_NOTHING = "Nothing was changed."
_OF_ALL = ("Change &all", "Ask at each &place", "&Cancel")
_OF_A_PLACE = ("&Change", "&Leave", "Change all the &rest", "&Stop here")
# so many columns a place has where it is shown
_WIDTH = 72


class Changing:
    """What is put in place of words that are looked for."""

    def __init__(self, desk: Desk, finding: Finding) -> None:
        self.desk = desk
        self._finding = finding
        # what is in the way of keeping words, if anything is, and the words as long as it is so
        self._unkept = ""
        self._here: tuple[str, str] | None = None

    def change(self) -> None:
        """Puts other words in place of those at the caret that were looked for."""
        desk, finding = self.desk, self._finding
        if not desk.settle():
            return
        old, new = self._words()
        desk.line(
            *("Change words", "Words to change:"),
            lambda sought: self._change(sought, new),
            old or finding.words,
            lambda typed: self._keep(typed, new),
        )

    def _change(self, sought: str, new: str) -> None:
        """Asks what comes in place of words, if there are any, and puts it there."""
        desk, finding = self.desk, self._finding
        if not sought:
            return
        self._keep(sought, new)
        finding.seek(sought)
        if finding.found_here() is None:
            finding.to_next(False)
        place, reading = finding.found_here(), desk.reading
        if place is None or reading is None:
            return
        text, start, stop = reading.its.text, place.start, place.stop
        desk.window.print.select(place)
        words = quoted(text[start:stop])
        asked = f"What comes in place of {words} in paragraph {desk.number}:"
        keep = partial(self._keep, sought)

        def put(came: str) -> None:
            whole = replaced(text, start, stop, came)
            with of_answer():
                done = desk.asked(partial(desk.book.corrected, reading, whole))
            if done is None:
                raise NoAnswer(f"The new words are the same as the old. {_NOTHING}")
            self._keep("", "")
            desk.show_done(done)

        why = desk.line("Change words", asked, put, new, keep)
        if why is not None:
            desk.window.print.put_caret(start)
            is_here = desk.aside.result(lambda: self._here is not None, False)
            until = " until the window is closed" if is_here else ""
            why = why.removesuffix(_NOTHING).rstrip()
            said = f"{why} {_NOTHING} Ctrl+H has the words again{until}."
            desk.say(said.lstrip())

    def _words(self) -> tuple[str, str]:
        """The words that were typed to be changed and to come in their place, and weren't used."""
        desk = self.desk
        look = lambda: self._here or desk.drafts.words()
        return desk.aside.result(look, False) or ("", "")

    def _keep(self, old: str, new: str) -> None:
        """Has such words wait until they are used, or nothing."""
        desk = self.desk

        def keep() -> None:
            self._here = old, new
            desk.drafts.keep_words(old, new)
            self._here = None

        def look(found: "Future[None]") -> None:
            try:
                found.result()
            except NotKept as fault:
                self._unkept = visible(not_kept(fault))
                desk.say(self._unkept)
                return
            before, self._unkept = self._unkept, ""
            desk.unsay(before)

        desk.aside.latest("words", keep, look)

    def change_all(self) -> None:
        """Puts other words in place of some wherever they stand, at once or place by place."""
        desk = self.desk
        desk.settled()
        old, new = self._words()
        keep = lambda typed: self._keep(*typed)

        def ask(why: str, before: _Answer) -> _Answer | None:
            words, holding = before
            its = desk.window, _TITLE, _ASKED, words, _CHECKS
            return dialogs.fields(*its, keep, why, holding)

        first = [old or self._finding.words, new], [False] * len(_CHECKS)
        desk.until_taken(ask, first, self._change_all)

    def _change_all(self, answer: _Answer) -> None:
        (old, new), (is_of_words, is_of_any_case) = answer
        if not old:
            raise NoAnswer(f"No words to change were typed. {_NOTHING}")
        self._finding.seek(old)
        how = is_of_words, is_of_any_case
        self.go_on(Replacement(old, new, *how, by=self.desk.book.by))

    def go_on(self, wanted: Replacement) -> None:
        """Puts words in place of others wherever these stand and weren't changed before."""
        desk = self.desk
        further, found = self._found(wanted)
        answer = self._how(further, found)
        if answer == 2:
            desk.say(_NOTHING)
            return
        places = _PlaceByPlace(desk, further, found)
        try:
            if answer == 0 or places.are_rest_wanted():
                self._do(further, places.open, places.count, places.lines)
            elif not desk.is_ending:
                for each in places.open:
                    places.count.add(Passed(each))
                self._do(further, (), places.count, places.lines)
        except Lost as lost:
            desk.lost_among(lost)

    def _found(self, wanted: Replacement) -> tuple[Further, Sequence[Proposal]]:
        """The places where the words stand."""
        desk = self.desk

        def look(say: Say, is_stopped: IsStopped) -> tuple[Further, Sequence[Proposal]]:
            session = desk.book.session
            further = Further(session, desk.drafts, wanted)
            found = further.found()
            if found:
                return further, found
            # what is noted of places that are all done is taken away
            left_open(session, desk.drafts)
            if not further.is_done:
                raise NoAnswer(nowhere(session, wanted, "."))
            notes = (note for note, _ in further.notes)
            raise Stop(f"{none_left(wanted, notes)} {_NOTHING}")

        return desk.long(_TITLE, look)

    def _how(self, further: Further, found: Sequence[Proposal]) -> int:
        """Asks how the places are changed, if they are."""
        front = "\n".join(proposal_lines(found[0], 1, len(found), _WIDTH))
        before = [
            cut_short(note, [became for _, became in places], " already")
            for note, places in further.notes
        ]
        unseen = filter(None, [not_seen(further.unseen(found))])
        said = " ".join([*before, *unseen, how_many(further.wanted, found)])
        asked = f"{said} The first one:\n\n{front}"
        # Enter may have come to the words that go, and meant that others be asked for
        by_enter = () if further.wanted.new else (len(_OF_ALL) - 1,)
        return self.desk.answer(_TITLE, asked, _OF_ALL, *by_enter)

    def _do(
        self,
        further: Further,
        found: Sequence[Proposal],
        count: Count,
        before: Sequence[str],
    ) -> None:
        """Changes the places, and reports what became of them and of those before them."""
        desk, whole = self.desk, count.changed + len(found)

        def act(say: Say, is_stopped: IsStopped) -> tuple[list[str], list[str]]:
            def go_on(changed: int) -> bool:
                say(f"{part_of(changed, whole, 'place')} changed.")
                return not is_stopped()

            return desk.book.changed_all(further, found, count, go_on, _WIDTH)

        sentences, lines = desk.long(_TITLE, act)
        self._keep("", "")
        desk.window.model.all_unread()
        desk.show(desk.asked(desk.book.contents), None)
        desk.say(" ".join(sentences))
        desk.report(_TITLE, [*sentences, *before, *lines])


class _PlaceByPlace:
    """Places that are asked about, of which each is changed before it is asked about the next one."""

    def __init__(self, desk: Desk, further: Further, found: Sequence[Proposal]) -> None:
        self._desk = desk
        self._further = further
        #: The places about which nothing was answered yet.
        self.open = [*found]
        #: What became of the others, and a few lines of each that was changed.
        self.count = Count(further.wanted)
        self.lines: list[str] = []

    def are_rest_wanted(self) -> bool:
        """Asks about one place after the other; whether all that are left are to be changed."""
        desk, count = self._desk, len(self.open)
        while self.open:
            its, nth = self.open[0], count - len(self.open) + 1
            lines = "\n".join(proposal_lines(its, nth, count, _WIDTH))
            answer = desk.answer(_TITLE, lines, _OF_A_PLACE)
            if answer >= 2:
                return answer == 2
            desk.asked(partial(self._answered, its, answer == 0))
        return False

    def _answered(self, its: Proposal, is_wanted: bool) -> None:
        """Changes a place or leaves it, and notes what became of those up to it."""
        answered = self._further.answered
        if is_wanted and its.changes:
            self._note()
            self._change(its)
            return
        del self.open[0]
        answered.append((its, Became.LEFT))
        self._note()

    def _change(self, its: Proposal) -> None:
        further, answered = self._further, self._further.answered
        try:
            change = self._desk.book.changed_at(its, further.wanted.by)
        except Refused as refused:
            del self.open[0]
            answered.append((its, Became.OPEN))
            self.count.add(NotChanged(its, refused))
            return
        self.open = moved_by(change, self.open[1:])
        became = [each for _, each in answered]
        answered[:] = zip(moved_by(change, (each for each, _ in answered)), became)
        came = replace(its, text=change.now, place=change.came)
        answered.append((came, Became.CHANGED))
        for lines in self.count.lines([change], _WIDTH):
            self.lines += lines

    def _note(self) -> None:
        """Notes what became of the places so far, of which the next opening asks after a kill."""
        desk, further = self._desk, self._further
        places = [*further.answered, *((each, Became.OPEN) for each in self.open)]
        note = note_of(further.wanted, places, desk.book.session.last_version)
        with suppress(NotKept):
            desk.drafts.begin_change(note)
