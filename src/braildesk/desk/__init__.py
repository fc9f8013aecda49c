"""What is done with a book in more than one request, for any way of working.

Nothing here knows a terminal, the words of a command line, or a sentence: what keeps something from
being done is an exception that says so by its class and its values.

Of a book, ``readings`` asks for many paragraphs, ``ranges`` picks some, ``places`` finds the cells
of words and the words of cells, ``find`` and ``search`` find words, ``highlighting`` says what is
highlighted beside the cursor, ``marks`` puts and lists marks, ``history`` says who changed what,
and ``tables`` puts tables into a book. ``correction`` is the smallest one that makes a print of
another, ``around_marks`` are those of an edit with marks between, for which ``matched_words`` puts
words beside others, ``change`` and ``change_all`` replace words, ``change_note`` and
``changed_so_far`` are about such a change that was cut short, and ``aftermath`` finds what became
of a command that wasn't answered.

Pages are laid out by ``layout``; ``page_places`` says what stands on which of them, ``volume_plan``
where volumes should begin, and ``export`` and ``proof`` write them, for those whom a book is for,
which ``copied_book`` says of a copy. A manuscript is read by
``manuscripts``: a text by ``manuscript``, a document by ``document`` of the package ``documents``
(with ``kinds``, ``options``, ``markup``, ``pages``, ``quotations``, ``package``, ``sheets``,
``page_emphasis``, ``numbers``, ``numbers_of_odt``, ``styles_of_odt``, ``tables_of_odt``,
``table_places``, ``word_print``, ``word_notes``, ``word_styles``, ``xml_writing``, ``rtf_fields``,
``rtf_groups``, ``rtf_words``, ``doc_text``, ``streams``, ``field_codes``, ``pandoc``, ``raw_html``,
``tree``, ``nodes``, ``notes``, ``ways_back``, ``markdown_front``, ``markdown_notes``,
``markdown_tables``, ``markdown_words``, ``contents`` and ``reading``), with ``replacements`` for
characters that no table has. ``validation`` and ``text_faults`` say what keeps it from being typed,
``intake`` and ``typist`` type it, ``import_text`` is the whole, and ``import_note``, ``origin``,
``unfinished`` and ``earlier`` are about imports that were cut short or made before. ``compare``
finds the words in which a book differs from a manuscript, and ``contracted`` has what a table is
made with for one. What a person typed is a ``draft``; ``drafts`` keeps them, as ``record``s in an
``own_folder``, by the ``identity`` of the book's file, ``kept_lines`` says which lines of one wait,
and finds those that a book has by now, and ``whole_file`` writes any file whole or not at all.
"""

#: How many seconds a book is waited for that another program has open, if nothing else is said.
USUAL_WAIT = 2.0


class Problem(Exception):
    """Something isn't done, or not to its end; the exceptions of each module say what and why."""
