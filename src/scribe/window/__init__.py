"""A book in a window, by PyQt6.

`book` is the session with the book, and does what the window asks for; it knows nothing of Qt, and
all of it runs in a thread of its own, which `worker` has. `paragraphs` is the table of the
paragraphs, and `fields` are the print, the cells and what else is read; places of Qt are turned into
characters there alone. `menus` has all actions with their keys, `dialogs` what is asked, and
`window` puts all of this together. `desk` is the book at work: it asks the book, and shows what comes
back. What the actions do stands by what it is about: `typed` has what is typed, `offers` what waits
from before, `structure` whole paragraphs, `marking` the marks, `finding` words that are looked for,
`files` what comes in and goes out, and `view` what is seen. `actions` names them all, and
`application` starts and ends it, in the colours that `contrast` gives it; `choosing` asks for a book
where none is named.
"""
