"""What is shown, said or gone to by the pages of volumes, once these are laid out."""

from dataclasses import replace

from braildesk import Session
from braildesk.text.cells import braille_patterns

from scribe.screen import lists, pager
from scribe.screen.actions import ByPages, ListHeadings, ListMarks, SayPage, ToPage
from scribe.screen.state import Pages, Pane, State
from scribe.words import pagelook
from scribe.words.pagelook import Layouts, VolumeLines
from scribe.words.pages import on_no_page


def volumes_for(state: State, action: ByPages) -> tuple[VolumeLines, ...]:
    """The volumes whose pages are needed, which aren't laid out yet."""
    if isinstance(action, ListMarks | ListHeadings):
        return lists.volumes_of(state)
    if isinstance(action, ToPage) and action.volume is not None:
        volumes = lists.volumes_of(state)
        return volumes[action.volume - 1 : action.volume] if action.volume else ()
    assert state.paragraph is not None
    book, version, its = state.book, state.version, state.paragraph
    found = pagelook.volume_of(book, version, state.page_size, its)
    if found is not None:
        return (found,)
    # where the cursor is in none, a page is that of the only one
    volumes = lists.volumes_of(state) if isinstance(action, ToPage) else ()
    return volumes if len(volumes) == 1 else ()


def shown(
    session: Session,
    layouts: Layouts,
    state: State,
    action: ByPages,
    tell: lists.Report,
) -> State:
    """What is shown by the pages of volumes, or gone to."""
    match action:
        case ListMarks():
            return lists.marks_list(session, state, layouts, tell)
        case ListHeadings():
            return lists.headings_list(session, state, layouts, tell)
    (volume,) = volumes_for(state, action)
    laid = layouts.lay(session, volume, tell)
    match action:
        case ToPage():
            return lists.at_page(session, state, action, laid)
        case SayPage(said=said):
            page = lists.page_said(session, state, laid)
            return state.saying(f"{said} {page}".lstrip())
    return _at_page(session, state, laid)


def without_volume(state: State, action: ByPages) -> State:
    """What is said if no volume is there whose pages are asked for."""
    said = action.said if isinstance(action, SayPage) else ""
    return state.saying(f"{said} {_no_volume(state, action)}".lstrip())


def _at_page(session: Session, state: State, laid: VolumeLines) -> State:
    """The page of the cursor's words, of a volume that is laid out."""
    its = state.paragraph
    assert its is not None
    is_cell = state.pane is Pane.CELLS
    says = f"{'cell' if is_cell else 'character'} {state.place + 1}"
    sought = pagelook.Sought(its, lists.cell_of_cursor(session, state), says)
    found = pagelook.page_of(session, laid, sought)
    if found.line is None:
        return state.saying(found.title)
    lines = found.lines
    if not state.is_ascii:
        lines = tuple(map(braille_patterns, lines))
    pages = pager.at_line(Pages(found.title, lines), state.size, found.line)
    return replace(state, pages=pages)


def _no_volume(state: State, action: ByPages) -> str:
    count = len(lists.volumes_of(state))
    if isinstance(action, ToPage) and action.volume is not None and count:
        return f"There is no volume {action.volume}: the book has {count}."
    if not count or isinstance(action, ListMarks | ListHeadings):
        return "All paragraphs are struck, so the book has no pages."
    assert state.paragraph is not None
    return on_no_page(state.paragraph.id)
