#!/bin/bash
# Makes docs/window.png, the picture of the window that docs/window.md shows: a small book, with a mark, and the page beside it.
#   scripts/picture.sh     PROGRAM: the program (build/braildesk); PYTHON: an interpreter with PyQt6 (that of tests/python.sh)
# It needs no screen.
set -eu
cd "$(dirname "$0")/.."
python=${PYTHON:-$(tests/python.sh)}
made=$(mktemp -d); trap 'rm -rf "$made"' EXIT
BRAILDESK=$(realpath "${PROGRAM:-build/braildesk}")
export BRAILDESK PYTHONPATH=$PWD/src QT_QPA_PLATFORM=offscreen QT_QPA_PLATFORMTHEME='' LANG=C.UTF-8
export XDG_STATE_HOME=$made/state XDG_CONFIG_HOME=$made/config
"$python" - "$made/moon.braildesk" docs/window.png << 'END'
import sys
from pathlib import Path

from PyQt6.QtWidgets import QApplication

from braildesk import Style, new_book
from braildesk.desk.layout import PageSize
from braildesk.protocol import requests
from scribe.window.actions import Actions
from scribe.window.desk import Desk

book, picture = map(Path, sys.argv[1:])
texts = ("The Moon", "The moon is far away.", "Twice a day the sea comes up.")
typed = [requests.Type("end", "en", text) for text in texts]
marked = [requests.Style(1, Style.HEADING), requests.Mark(2, 13, 8, "how far?")]
new_book(book, holding=[requests.Supply("en"), *typed, *marked])
application = QApplication([])
desk = Desk(book, None, 0.0, PageSize(30, 12))
desk.acts = Actions(desk).by_name
desk.begin()
desk.window.resize(1100, 680)
desk.window.show()
desk.act("page")
desk.act("next_mark")
# what is asked beside comes in its turn
for _ in range(3):
    desk.work.result(lambda: None, is_first=False)
    application.processEvents()
desk.window.grab().save(str(picture))
desk.close()
END
echo docs/window.png
