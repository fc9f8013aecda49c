"""The program's answers by the words of docs/FORMATS.md, in plain steps: what tests want of it.

It reads tables, translates prints and keeps a book in memory. Nothing in it comes from the program,
and the rows of tests/program/rows, which are worked by hand, have to hold of it too.
"""
