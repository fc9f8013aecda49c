"""The prompts of `scribe talk` and `scribe try`.

`conversation` is the first and `trial` the second. `typed_lines` reads lines as they are typed,
`broken_off` keeps one that isn't entered, and `grammar` reads the requests of a book among them.
"""
