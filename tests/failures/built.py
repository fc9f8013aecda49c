"""What the tests over the built program share: its replies, and what is said of a wrong one."""

# The longest that a program may take, in seconds.
MOST_SECONDS = 60


class Wrong(Exception):
    """What was found is wrong."""


def replies_of(output: bytes) -> list[bytes]:
    """The whole replies in what a session wrote."""
    replies: list[bytes] = []
    lines: list[bytes] = []
    for line in output.splitlines(keepends=True):
        if not line.endswith(b"\n"):
            break
        lines.append(line)
        if not line.startswith(b"| "):
            replies.append(b"".join(lines))
            lines = []
    return replies


def is_accepted(reply: bytes) -> bool:
    return reply.startswith(b"ok ")


# Of the file of a book in the second format they make one in the first, and one without its braille.
FIRST_FORMAT = """\
CREATE TABLE corr (para INTEGER NOT NULL, seq INTEGER NOT NULL, kind INTEGER NOT NULL, start INTEGER NOT NULL,
    len INTEGER NOT NULL, body TEXT NOT NULL, PRIMARY KEY (para, seq)) STRICT;
INSERT INTO corr SELECT para, seq, kind, start, len, body FROM corr2;
DROP TABLE corr2; UPDATE book SET format = 1;"""
NO_BRAILLE = "DROP TABLE cache;"
