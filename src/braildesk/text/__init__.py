"""Texts as people read them, and the limits of what a book holds."""
