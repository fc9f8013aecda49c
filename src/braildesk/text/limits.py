"""What a book, a request and a page hold at most."""

#: A head line of a request, its ending aside, in bytes of UTF-8.
LINE_BYTES = 65_536
#: A number in a request, and the version of a book.
NUMBER = 2**53
#: The lines of a table's text.
TABLE_LINES = 20_000
#: The characters of one line of a table's text.
TABLE_LINE_CHARACTERS = 1_000
#: The bytes of a table's file for ``translate``.
TABLE_BYTES = 2**27
#: The bytes of a text file that is imported, or of a table of liblouis.
TEXT_BYTES = 2**25
#: The bytes of a document that is imported, with its pictures.
DOCUMENT_BYTES = 2**28
#: The bytes of a book's file that the client opens: more than a book takes that is full of prints,
#: braille, marks and tables of the longest kind.
BOOK_BYTES = 2**32
#: The characters of a print, in normal form C.
PRINT_CHARACTERS = 4_000
#: The characters of the note of a mark.
NOTE_CHARACTERS = 500
#: The characters of a table's name.
NAME_CHARACTERS = 32
#: The characters of a proofreader's name.
WHO_CHARACTERS = 40

#: The tables of a book.
TABLES = 16
#: The paragraphs of a book, with the struck ones.
PARAGRAPHS = 20_000
#: The entries of one paragraph's history.
ENTRIES = 10_000
#: The marks of a book, with the resolved ones.
MARKS = 100_000

#: The cells of a line of a page, the fewest and the most.
WIDTHS = (10, 60)
#: The lines of a page, the fewest and the most.
PAGE_LINES = (5, 40)
