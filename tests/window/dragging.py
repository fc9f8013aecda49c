"""Another program, whose window has a text that is selected, and that can be dragged from there.

As a program it shows the text that is its word, and says what text it has for each line that comes in.
"""

import subprocess
import sys

from PyQt6.QtCore import QSocketNotifier
from PyQt6.QtWidgets import QApplication, QPlainTextEdit
from PyQt6.sip import voidptr

#: Where the text is seen on the screen.
PLACE = 14, 14


class Source:
    """The program, in a process of its own."""

    def __init__(self, text: str) -> None:
        self._program = subprocess.Popen(
            [sys.executable, __file__, text],
            stdin=subprocess.PIPE,
            stdout=subprocess.PIPE,
            text=True,
        )
        assert self._said() == "there"

    @property
    def text(self) -> str:
        """The text that it has still."""
        assert self._program.stdin is not None
        self._program.stdin.write("\n")
        self._program.stdin.flush()
        return self._said()

    def _said(self) -> str:
        assert self._program.stdout is not None
        return self._program.stdout.readline().removesuffix("\n")

    def end(self) -> None:
        """Ends it."""
        self._program.communicate()


def _show(text: str) -> None:
    application, field = QApplication([]), QPlainTextEdit(text)
    field.setGeometry(0, 0, 90, 40)
    field.selectAll()
    field.show()
    window = field.windowHandle()
    assert window is not None
    while not window.isExposed():
        application.processEvents()

    def asked() -> None:
        if sys.stdin.readline():
            print(field.toPlainText(), flush=True)
        else:
            application.quit()

    asks = QSocketNotifier(voidptr(sys.stdin.fileno()), QSocketNotifier.Type.Read)
    asks.activated.connect(asked)
    print("there", flush=True)
    application.exec()


if __name__ == "__main__":
    _show(*sys.argv[1:])
