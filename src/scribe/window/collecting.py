"""What refers to itself in a circle, and to which nothing else does: taken away in the window's thread.

Python would take it away as anything new is made, in whichever thread that is, and in the midst of what
Qt is doing. Windows, texts and fonts of Qt aren't made for that.
"""

import gc

from PyQt6.QtCore import QObject, QTimer

_MILLISECONDS = 500


class Collector(QObject):
    """Has that be taken away between two events of the window alone, as often as Python would."""

    def __init__(self, over: QObject) -> None:
        super().__init__(over)
        gc.disable()
        timer = QTimer(self)
        timer.timeout.connect(self.collect)
        timer.start(_MILLISECONDS)

    def collect(self) -> None:
        """Takes away what Python would have looked at by now."""
        counts = zip(gc.get_count(), gc.get_threshold())
        due = [age for age, (count, most) in enumerate(counts) if count > most]
        if due:
            gc.collect(due[-1])
