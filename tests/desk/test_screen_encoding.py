"""What a terminal shows of characters that its encoding lacks."""

import pytest

from braildesk.text.wrapping import columns

from scribe.words.encoding import encoding_of, has, in_encoding, is_plain


@pytest.mark.parametrize(
    "encoding, text, wanted",
    [
        ("utf-8", "“é…月⠓”", "“é…月⠓”"),
        ("iso-8859-1", "“é…”", '"é~"'),
        ("iso-8859-1", "a月b", "a??b"),
        ("iso-8859-1", "Těo", "T?o"),
        ("iso-8859-1", "e\u0301o", "eo"),
        ("ascii", "⠓é", "??"),
        # prompt_toolkit would colour them
        ("utf-8", "a\u00a0b", "a b"),
    ],
)
def test_characters_are_replaced_in_as_many_columns(
    encoding: str, text: str, wanted: str
) -> None:
    assert in_encoding(encoding, text) == wanted
    assert columns(wanted) == columns(text)
    assert has(encoding, wanted)


def test_a_tab_is_a_blank() -> None:
    assert in_encoding("utf-8", "a\tb") == "a b"


@pytest.mark.parametrize(
    "settings, plain, encoding",
    [
        ({"LANG": "en_US.UTF-8"}, False, "UTF-8"),
        ({"LANG": "en_US.UTF-8", "TERM": "linux"}, True, "UTF-8"),
        ({"LANG": "en_US.UTF-8", "LC_ALL": "C"}, True, "usual"),
        ({"LC_ALL": "", "LC_CTYPE": "cs_CZ.ISO-8859-2"}, True, "ISO-8859-2"),
        ({"LANG": "de_DE.ISO-8859-15@euro"}, True, "ISO-8859-15"),
        ({"LANG": "en_US"}, True, "usual"),
        ({"LANG": "xx_YY.nothing"}, True, "usual"),
        # neither is an encoding of a terminal
        ({"LANG": "xx_YY.hex"}, True, "usual"),
        ({"LANG": "xx_YY.utf-16"}, True, "usual"),
        ({}, True, "usual"),
    ],
)
def test_the_locale_says_what_the_terminal_shows(
    settings: dict[str, str], plain: bool, encoding: str
) -> None:
    assert is_plain(settings) == plain
    assert encoding_of(settings, "usual") == encoding
