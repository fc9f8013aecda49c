"""What other programs drag over a window: a copy is taken, so that they keep what they have."""

from PyQt6.QtCore import QCoreApplication, QEvent, QObject, Qt
from PyQt6.QtGui import QDropEvent, QWindow

from scribe.window.fields import take_copy


class Dragged(QObject):
    """Has all windows of an application, also those of Qt itself, take copies alone.

    Parts of Qt take the move that is proposed, after which its program takes away what was moved. They
    do so too where a copy alone is offered, so what they answer is set right here.
    """

    def __init__(self, application: QCoreApplication) -> None:
        super().__init__(application)
        # what its window sees to now
        self._handed_on: QDropEvent | None = None
        application.installEventFilter(self)

    def eventFilter(self, to: QObject | None, event: QEvent | None) -> bool:
        """Hands on what comes from another program, and answers that it is copied or isn't taken."""
        if not isinstance(event, QDropEvent) or not isinstance(to, QWindow):
            return False
        if event is self._handed_on or event.source() is not None:
            return False
        if not event.possibleActions() & Qt.DropAction.CopyAction:
            event.ignore()
            return True
        self._handed_on = event
        QCoreApplication.sendEvent(to, event)
        self._handed_on = None
        if event.isAccepted():
            take_copy(event)
        return True
