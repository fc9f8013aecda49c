"""A book on the screen of a terminal.

`state` is what the screen knows, `drawing` makes lines of it, and `keys` says what each key asks
for: a state, and a command or one of the `actions` that goes with it. While a text is typed
`typing_keys` says it, while something is asked `question_keys`, and for text that comes all at once
`pasted_lines`, whose lines `lines_typed` types one after the other; `field` is a text that is
typed, and `moves` has the keys of the cursor.

`desk` sends commands and actions to the session with the book and gives the state after them.
`drawn` asks for what is drawn of it, `finding` and `in_hand` put the cursor at what was found,
`lists` and `by_pages` have the marks and the headings with their pages, `whole_book` changes words
and volumes, and `background` has exports and imports, which are done beside it. `waiting` is about
texts that aren't in the book, and `at_opening` about the first screen.

`terminal` alone knows the terminal: `keyboard` reads keys from it, `arrivals` says which text no
hands typed, and `unread` what is kept of keys that aren't carried out. Of what is drawn, `body` has
the print and the braille of a paragraph, `pager` what is looked at in place of the book, and
`lines` what all of them are made of.
"""
