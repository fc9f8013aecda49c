"""The actions of the menus, each by its name: they are parted by what they are about."""

from collections.abc import Callable

from scribe.window.changing import Changing
from scribe.window.desk import Desk
from scribe.window.files import NO_TEXT, Files
from scribe.window.finding import Finding
from scribe.window.going import Going
from scribe.window.marking import Marking
from scribe.window.offers import Offers
from scribe.window.structure import Structure
from scribe.window.typed import Typed, too_much
from scribe.window.view import View
from scribe.window.volumes import Volumes


class Actions:
    """The actions of a desk, each by the name of its item in the menus."""

    def __init__(self, desk: Desk) -> None:
        files, marking, finding = Files(desk), Marking(desk), Finding(desk)
        typed, changing = Typed(desk, marking.noted_further), Changing(desk, finding)
        parts = (
            *(files, typed, finding, changing, Structure(desk)),
            *(Volumes(desk), Going(desk, finding), marking, View(desk)),
        )
        self.by_name: dict[str, Callable[[], None]] = {
            name: getattr(part, name)
            for name in desk.window.menus.actions
            for part in parts
            if hasattr(part, name)
        }
        #: Asks about what waits from before.
        self.offer = Offers(desk, typed, files, changing).offer
        desk.window.dropped.connect(files.dropped)
        desk.window.several_dropped.connect(files.several_dropped)
        field = desk.window.print
        field.pasted.connect(typed.take_lines)
        field.lines_dropped.connect(typed.take_dropped)
        field.files_pasted.connect(
            lambda paths: desk.acting(lambda: files.pasted(paths))
        )
        field.nothing_pasted.connect(lambda: desk.refuse_until_typed(NO_TEXT))
        field.too_much_pasted.connect(
            lambda *found: desk.refuse_until_typed(too_much(*found))
        )
        field.too_much_dropped.connect(typed.keep_dropped)
