"""High contrast, which a window has where the desktop wants it, from its opening on and as it changes."""

import os
from collections import Counter
from collections.abc import Callable, Iterator
from pathlib import Path

import pytest
from gi.repository import Atspi  # type: ignore[import]
from PyQt6.QtGui import QGuiApplication, QImage, QPalette
from PyQt6.QtWidgets import QApplication

from scribe.window.contrast import Contrast
from scribe.window.desk import Desk

from conftest import Open, wait
from portal import CONTRAST, Key, OF_GNOME, Portal, SCHEME
from reader import PATIENCE_SECONDS, Part, Reader

BLACK, WHITE = "#000000", "#ffffff"
#: A program for settings that says so, and one that says nothing and doesn't end.
SAYS = "#!/bin/sh\n[ \"$*\" = 'get {} {}' ] && echo true\n".format(*OF_GNOME)
HANGS = "#!/bin/sh\necho $$ > {}\nexec sleep 600\n"

Lend = Callable[..., Portal]


@pytest.fixture
def lends() -> Iterator[Lend]:
    """Starts a portal that lends settings, and ends it."""
    portals: list[Portal] = []

    def lent(*settings: tuple[Key, str]) -> Portal:
        portals.append(Portal(*settings))
        return portals[-1]

    yield lent
    for portal in portals:
        portal.end()


def picture(part: Part) -> QImage:
    """What is seen of a part on the screen, row by row."""
    at = Atspi.Component.get_extents(part, Atspi.CoordType.SCREEN)
    screen = QGuiApplication.primaryScreen()
    assert screen is not None
    seen = screen.grabWindow(x=at.x, y=at.y, width=at.width, height=at.height)
    return seen.toImage()


def grounds(window: Reader) -> list[str]:
    """The colours of which each covers a hundredth of a window, that of most of it first."""
    seen = picture(window.top)
    count = Counter(
        seen.pixelColor(x, y).name()
        for x in range(0, seen.width(), 3)
        for y in range(0, seen.height(), 3)
    )
    return [name for name, its in count.most_common() if its * 100 > count.total()]


def becomes(window: Reader, *colours: str) -> None:
    """Waits until the window has these colours, and no others."""
    window.until(f"only {colours}", lambda: grounds(window) == list(colours))


def is_usual(window: Reader) -> None:
    """Waits until the window has colours that are neither black nor white."""
    window.until("other colours", lambda: not {*grounds(window)} <= {BLACK, WHITE})


def frame(part: Part) -> int:
    """How wide the line is at the left of a part."""
    seen = picture(part)
    y, ground = seen.height() // 2, seen.pixelColor(seen.width() // 2, 4)
    row = [seen.pixelColor(x, y) for x in range(6)]
    return next(n for n, colour in enumerate(row) if colour == ground)


@pytest.mark.parametrize("setting", [(CONTRAST, "1"), (OF_GNOME, "true")], ids=str)
def test_a_window_has_high_contrast_where_the_desktop_wants_it(
    application: QApplication, moon: Path, at: Open, lends: Lend, setting: object
) -> None:
    lends((SCHEME, "0"), setting)
    window = at(moon)
    becomes(window, WHITE, BLACK)
    table, print_ = window.part("table", "Paragraphs"), window.part("text", "Print")
    window.until("a wide frame of the table", lambda: frame(table) == 3)
    assert frame(print_) == 1
    window.press("F2")
    window.focus("text", "Print")
    window.until("a wide frame", lambda: frame(print_) == 3)
    window.press("Ctrl+f")
    asked = window.first("text", window.dialog("Find"))
    window.until("a wide frame in the dialog", lambda: frame(asked) == 3)


def test_a_window_follows_the_desktop_while_it_is_open(
    application: QApplication, moon: Path, at: Open, lends: Lend
) -> None:
    portal = lends((SCHEME, "0"), (CONTRAST, "0"), (OF_GNOME, "false"))
    window = at(moon)
    is_usual(window)
    portal.set(OF_GNOME, "true")
    becomes(window, WHITE, BLACK)
    portal.set(SCHEME, "1")
    becomes(window, BLACK, WHITE)
    portal.set(OF_GNOME, "false")
    is_usual(window)
    portal.set(CONTRAST, "1")
    becomes(window, BLACK, WHITE)
    # what is lit is black and white as well
    window.press("F4")
    window.focus("text", "Print")
    window.caret("Print", 4)
    for name in ("Print", "Braille"):
        seen = picture(window.part("text", name))
        colours = (
            seen.pixelColor(x, y)
            for x in range(seen.width())
            for y in range(seen.height())
        )
        assert all(its.red() == its.green() == its.blue() for its in colours), name


def program(folder: Path, text: str) -> str:
    """A path on which GNOME's program for settings is another one."""
    folder.mkdir()
    its = folder / "gsettings"
    its.write_text(text)
    its.chmod(0o755)
    return f"{folder}:{os.environ['PATH']}"


def test_the_program_for_settings_is_asked_where_there_is_no_portal(
    application: QApplication, moon: Path, at: Open, tmp_path: Path
) -> None:
    window = at(moon, PATH=program(tmp_path / "bin", SAYS))
    becomes(window, WHITE, BLACK)


def test_a_window_waits_for_no_program_for_settings(
    application: QApplication, moon: Path, at: Open, tmp_path: Path
) -> None:
    number = tmp_path / "number"
    window = at(moon, PATH=program(tmp_path / "bin", HANGS.format(number)))
    window.press("F2")
    window.focus("text", "Print")

    def read() -> str:
        return number.read_text().strip() if number.exists() else ""

    its = Path("/proc", window.until("the program", read))
    is_usual(window)
    window.press("Ctrl+q")
    assert window.end() == 0
    assert not its.exists()


def is_of(application: QApplication, palette: QPalette) -> bool:
    """Whether an application has these colours."""
    return bool(application.palette() == palette)


def test_a_size_that_was_chosen_in_high_contrast_stays(
    application: QApplication, desk: Desk, lends: Lend
) -> None:
    portal, before = lends((CONTRAST, "1")), application.palette()
    contrast = Contrast(application)
    contrast.follow()
    assert wait(application, PATIENCE_SECONDS, lambda: not is_of(application, before))
    desk.window.enlarge(2)
    fields = desk.window.print, desk.window.cells, desk.window.page
    sizes = [field.font().pointSizeF() for field in fields]
    portal.set(CONTRAST, "0")
    assert wait(application, PATIENCE_SECONDS, lambda: is_of(application, before))
    assert [field.font().pointSizeF() for field in fields] == sizes


def test_a_portal_that_answers_late_is_followed(
    application: QApplication,
    lends: Lend,
    monkeypatch: pytest.MonkeyPatch,
    tmp_path: Path,
) -> None:
    portal, before = lends((CONTRAST, "1")), application.palette()
    asked = tmp_path / "asked"
    monkeypatch.setenv("PATH", program(tmp_path / "bin", f"#!/bin/sh\n: > {asked}\n"))
    portal.pause()
    contrast = Contrast(application)
    contrast.follow()
    # nobody waits for it any more by then
    assert wait(application, PATIENCE_SECONDS, asked.exists)
    portal.go_on()
    assert wait(application, PATIENCE_SECONDS, lambda: not is_of(application, before))
    portal.set(CONTRAST, "0")
    assert wait(application, PATIENCE_SECONDS, lambda: is_of(application, before))


def test_kde_has_colours_of_its_own(
    application: QApplication, lends: Lend, monkeypatch: pytest.MonkeyPatch
) -> None:
    portal, before = lends((CONTRAST, "1")), application.palette()
    monkeypatch.setenv("XDG_CURRENT_DESKTOP", "KDE")
    of_kde = Contrast(application)
    of_kde.follow()
    assert not wait(application, 0.5, lambda: not is_of(application, before))
    monkeypatch.setenv("XDG_CURRENT_DESKTOP", "ubuntu:GNOME")
    of_gnome = Contrast(application)
    of_gnome.follow()
    assert wait(application, PATIENCE_SECONDS, lambda: not is_of(application, before))
    portal.set(CONTRAST, "0")
    assert wait(application, PATIENCE_SECONDS, lambda: is_of(application, before))
