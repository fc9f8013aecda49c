"""Sentences and lines for people, which all ways of working have in common.

`status` says how a command ends and `problems` why one wasn't done, by the problems of
`braildesk.desk`; the sentence for each code of the program is in `braildesk.protocol.sentences`.
`typed` reads what a person typed, `elsewhere` says what is near it, and `console`, `outgoing` and
`encoding` are where lines go, how far their readers are, and what can be shown there.

What the book answers is said in `replies`, a paragraph in `paragraph` and `view`, braille that
isn't in the book in `preview`, pages in `pages` and `pagelook`, and tables in `tables` and
`tuning`. What was done is said in `changes`, by keys in `deeds`, and after a loss in `aftermath`;
`change_all`, `compare`, `drafts`, `export`, `find`, `import_text`, `losses` and `volumes` are named
after what they speak of, and `proof_html` writes the page of a proof.
"""
