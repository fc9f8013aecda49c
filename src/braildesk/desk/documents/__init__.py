"""Manuscripts as publishers send them; of a text none of what reads documents is imported.

`kinds` says what a file is, `document` reads one, and `reading` is what came of it. Before `pandoc`
gets it, `numbers` writes the numbers that Word shows into a DOCX, `word_print` what else it shows,
`word_notes` finds its notes of several numbers, `word_styles` what it hides, `styles_of_odt` has
the emphasis of styles, `tables_of_odt` keeps the places of cells, `table_places` counts those in
which none begins, as `markdown_tables` does, `package` has the pages of an EPUB, `pages` keeps the
names of their links and `quotations` their marks, `markdown_notes` those of notes, and
`markdown_front` has one front alone for one; before LibreOffice does, `rtf_fields` and `doc_text`
keep the results of fields, this by what `streams` finds. `tree` makes paragraphs of what pandoc
gives, with the notes that `notes` and `ways_back` find, of which `nodes` has the words, and the
tags that `raw_html` does, and `contents` has all words of the file, with what `page_emphasis`
finds, to be compared with them, as `rtf_words` and `doc_text` have, with what `field_codes` shows.
"""
