"""Words by which each command does something in the folder of the sample."""

#: The names of the files and folders in it among these words.
PATHS = (
    "moon.braildesk",
    "other.braildesk",
    "copy.braildesk",
    "plain.utb",
    "text.txt",
    "pages",
    "moon.html",
)
#: Each command with its words, but for tune, which test_contracted.py has.
WORDS: dict[str, list[str]] = {
    "new": ["other.braildesk"],
    "edit": ["moon.braildesk"],
    "window": ["moon.braildesk"],
    "run": ["moon.braildesk"],
    "talk": ["moon.braildesk"],
    "table": ["moon.braildesk", "own", "plain.utb"],
    "check-table": ["plain.utb"],
    "try": ["plain.utb"],
    "import": ["moon.braildesk", "text.txt"],
    "show": ["moon.braildesk"],
    "list": ["moon.braildesk"],
    "history": ["moon.braildesk"],
    "compare": ["moon.braildesk", "text.txt"],
    "find": ["moon.braildesk", "moon"],
    "change": ["moon.braildesk", "1", "far away", "near"],
    "change-all": ["moon.braildesk", "far away", "near", "--in", "1"],
    "mark": ["moon.braildesk", "1", "far", "how far?"],
    "marks": ["moon.braildesk"],
    "next": ["moon.braildesk"],
    "undo": ["moon.braildesk", "1"],
    "resolve": ["moon.braildesk", "1"],
    "strike": ["moon.braildesk", "1"],
    "restore": ["moon.braildesk", "3"],
    "heading": ["moon.braildesk", "1"],
    "body": ["moon.braildesk", "1"],
    "volume": ["moon.braildesk", "1", "on"],
    "volumes": ["moon.braildesk", "--pages", "1"],
    "move": ["moon.braildesk", "2", "front"],
    "retable": ["moon.braildesk", "2", "plain"],
    "pages": ["moon.braildesk"],
    "export": ["moon.braildesk", "pages"],
    "proof": ["moon.braildesk", "moon.html"],
    "copy": ["moon.braildesk", "copy.braildesk"],
    "bring": ["--list", "German"],
}
#: Commands that look for a terminal, or for a screen with windows, before they do anything.
LOOKING = ("edit", "window")
#: What each command is given, where it reads that.
GIVEN = {
    "run": "strike 2\n",
    "talk": "strike 2\n",
    "try": "The moon\n",
}
