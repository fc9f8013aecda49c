"""Tables of liblouis brought over to the profile of braildesk.

    from braildesk.tables.convert.conversion import convert
    from braildesk.tables.convert.source import find_table

    brought = convert(find_table("es-g1.ctb"))
    print(brought.unseen.share, brought.text)

The modules, each above those that it takes from: `operands` reads and writes characters and dots,
`source` the lines of a table with all that it includes, `table` what they say, `oracle` asks
liblouis in a process of its own (`worker`), also for cells in places, and `subject` sorts the
characters and holds all that together. `draft` is the table that is made, and asks the program what
it gives by it. `probes` asks for cells in places; `letters`, `scripts`, `numbers`, `marks`,
`joints`, `contractions` and `crossings` fill the draft, and `making` is the order of these steps.
`addition` has lines of the user's own. `words` and `shapes` give lines, `comparison` compares on
them, and `reduced` and `beyond` say which need what the profile leaves out. `conversion` is the
whole, `report` what is said of it, `shipped` the list of the tables that liblouis has, and `naming`
finds one of them.

A contracted table needs rules that no line says plainly, and they are learned. `chooser` chooses as
the program does, by rules that come and go; `examples` are words with liblouis's cells, of a list
(`word_list`, with what was learned from one before) or of running text (`running_text`).
`proposals` are rules that would set an example right, and `learning` adds those that set most right
and few wrong. `causes` says why a word still differs. `tailoring` makes a table for a manuscript,
`manuscript_report` says what it is worth, and `tuning` does the same for the table of a book.
"""
