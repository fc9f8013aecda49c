"""High contrast where the desktop wants it: black and white, and full lines around all parts.

Qt takes it from KDE by itself. Any other desktop is asked over the session bus, by the portal that
lends its settings to programs, and is followed as they change. Without a portal, or where none answers
soon, GNOME's program for settings is asked, once. Nothing waits for an answer, and none comes too late.
"""

import os

from PyQt6.QtCore import QObject, QProcess, QTimer, pyqtSlot
from PyQt6.QtDBus import (
    QDBusConnection,
    QDBusMessage,
    QDBusPendingCallWatcher,
    QDBusPendingReply,
)
from PyQt6.QtGui import QColor, QPalette
from PyQt6.QtWidgets import QApplication

from scribe.window.fields import FRAME_WITH_FOCUS

_PORTAL = (
    "org.freedesktop.portal.Desktop",
    "/org/freedesktop/portal/desktop",
    "org.freedesktop.portal.Settings",
)
_CONTRAST = ("org.freedesktop.appearance", "contrast")
_OF_GNOME = ("org.gnome.desktop.a11y.interface", "high-contrast")
_SCHEME = ("org.freedesktop.appearance", "color-scheme")
# what the portal says of contrast that is to be high, and of colours that are to be dark
_HIGH, _DARK = 1, 1
# when the program is asked besides, and how long a call to the bus may take: as long as it takes
_SOON_MILLISECONDS, _EVER_MILLISECONDS = 2_000, 0x7FFF_FFFF
_HALF = 128
_BLACK, _WHITE = QColor("black"), QColor("white")
_PADDING = 4
# Lines that a style draws in shades of the ground are drawn in the colour of texts, and what can't be
# used just now is seen by its line.
_SHEET = f"""
QPushButton, QLineEdit, QComboBox, QSpinBox, QMenu, QListView, QTreeView, QScrollBar,
QHeaderView::section, QDockWidget::title, QCheckBox::indicator, QMenuBar::item:selected {{
    border: 1px solid palette(text); background: palette(base); color: palette(text);
}}
QPushButton, QLineEdit, QComboBox, QSpinBox {{ padding: {_PADDING}px; }}
QPushButton:focus, QLineEdit:focus, QComboBox:focus, QSpinBox:focus, QListView:focus,
QTreeView:focus, QCheckBox::indicator:focus {{
    border: {FRAME_WITH_FOCUS}px solid palette(text);
}}
QPushButton:focus, QLineEdit:focus, QComboBox:focus, QSpinBox:focus {{
    padding: {_PADDING + 1 - FRAME_WITH_FOCUS}px;
}}
QPushButton:disabled {{ border-style: dashed; }}
QDialogButtonBox {{ dialogbuttonbox-buttons-have-icons: 0; }}
QCheckBox::indicator:checked, QScrollBar::handle, QSplitter::handle, QMainWindow::separator,
QMenuBar::item:selected, QMenu::item:selected, QMenu::separator, QPushButton:pressed {{
    background: palette(text); color: palette(base);
}}
QMenu::separator {{ height: 1px; }}
QScrollBar::add-line, QScrollBar::sub-line {{ width: 0; height: 0; }}
QTableView {{ gridline-color: palette(text); }}
"""

Key = tuple[str, str]


class Contrast(QObject):
    """The colours of the windows of an application, in high contrast where that is wanted."""

    def __init__(self, application: QApplication) -> None:
        super().__init__()
        self._application = application
        self._bus = QDBusConnection.sessionBus()
        self._known: dict[Key, object] = {}
        self._waiting: list[QDBusPendingCallWatcher] = []
        #: Whether high contrast is shown on black; none where it isn't shown.
        self._shown: bool | None = None
        self._is_dark = self._is_program_asked = False

    def follow(self) -> None:
        """Asks the desktop, and has the colours be what it answers, now and later."""
        if "KDE" in os.environ.get("XDG_CURRENT_DESKTOP", "").split(":"):
            return
        # heard of before it is asked for, so that no change is missed
        self._bus.connect(*_PORTAL, "SettingChanged", self._changed)
        for key in (_CONTRAST, _OF_GNOME, _SCHEME):
            self._ask(key)
        QTimer.singleShot(_SOON_MILLISECONDS, self._ask_program)

    def _ask(self, key: Key) -> None:
        asked = QDBusMessage.createMethodCall(*_PORTAL, "Read")
        asked.setArguments(key)
        call = self._bus.asyncCall(asked, _EVER_MILLISECONDS)
        watcher = QDBusPendingCallWatcher(call)
        self._waiting.append(watcher)
        watcher.finished.connect(lambda: self._answered(watcher, key))

    def _answered(self, watcher: QDBusPendingCallWatcher, key: Key) -> None:
        self._waiting.remove(watcher)
        reply = QDBusPendingReply(watcher)
        if not reply.isError():
            # what was told since then is newer
            self._known.setdefault(key, reply.reply().arguments()[0])
            self._show()
        if not self._waiting:
            self._ask_program()

    @pyqtSlot(QDBusMessage)  # type: ignore[misc]
    def _changed(self, told: QDBusMessage) -> None:
        namespace, name, value = told.arguments()
        self._known[namespace, name] = value
        self._show()

    def _ask_program(self) -> None:
        """Asks GNOME's program for settings, if there is one and nothing is known."""
        if self._known or self._is_program_asked:
            return
        self._is_program_asked = True
        program = QProcess(self)

        def ended() -> None:
            said = bytes(program.readAllStandardOutput().data()).strip()
            self._known.setdefault(_OF_GNOME, said == b"true")
            self._show()

        def end() -> None:
            program.kill()
            program.waitForFinished()

        program.finished.connect(ended)
        program.start("gsettings", ["get", *_OF_GNOME])
        self._application.aboutToQuit.connect(end)

    def _show(self) -> None:
        """Shows the colours that are wanted, if they are others."""
        known, application = self._known, self._application
        if self._shown is None:
            ground = application.palette().color(QPalette.ColorRole.Window)
            self._is_dark = ground.lightness() < _HALF
        wanted = None
        if known.get(_CONTRAST) == _HIGH or known.get(_OF_GNOME) is True:
            wanted = known.get(_SCHEME) == _DARK or self._is_dark
        if wanted != self._shown:
            self._shown = wanted
            application.setPalette(QPalette() if wanted is None else palette(wanted))
            application.setStyleSheet("" if wanted is None else _SHEET)


def palette(is_dark: bool) -> QPalette:
    """White on black, or black on white, and the other way round where something is chosen."""
    ground, ink = (_BLACK, _WHITE) if is_dark else (_WHITE, _BLACK)
    roles, found = QPalette.ColorRole, QPalette(ground)
    for role in roles:
        if role is not roles.NColorRoles:
            found.setColor(role, ink)
    grounds = (roles.Window, roles.Base, roles.AlternateBase, roles.Button)
    for role in (*grounds, roles.ToolTipBase, roles.HighlightedText):
        found.setColor(role, ground)
    return found
