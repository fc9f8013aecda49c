"""Which characters src/braildesk/tables/ueb.utb defines, by the blocks of Unicode, and no others."""

# Where the characters stand that are asked for: all of the blocks that have claims.
ASKED = (range(0x1, 0x3000), range(0xFB00, 0xFB50))

CLAIMED = {
    "Basic Latin": "\t" + "".join(chr(code) for code in range(0x20, 0x7F)),
    # without the spacing accents, the sign that stands for any currency, and the soft
    # hyphen, which has no cells
    "Latin-1 Supplement": "".join(
        chr(code) for code in range(0xA0, 0x100) if chr(code) not in "¤¨¯´¸\xad"
    ),
    # without the two letters i of Turkish, kra, and n with an apostrophe before it
    "Latin Extended-A": "".join(
        chr(code) for code in range(0x100, 0x180) if chr(code) not in "İıĸŉ"
    ),
    "Latin Extended-B": "ȘșȚț",
    "Spacing Modifier Letters": "\u02bc",
    "Greek and Coptic": "ΑΒΓΔΕΖΗΘΙΚΛΜΝΞΟΠΡΣΤΥΦΧΨΩαβγδεζηθικλμνξοπρσςτυφχψω",
    "Latin Extended Additional": "ẀẁẂẃẄẅẞỲỳ",
    "General Punctuation": "\u2002\u2003\u2004\u2005\u2006\u2007\u2008\u2009\u200a"
    "\u2010\u2011\u2012\u2013\u2014\u2015"
    "\u2018\u2019\u201a\u201c\u201d\u201e†‡•‣…\u202f\u2032\u2033\u2034\u2044\u205f",
    "Superscripts and Subscripts": "⁰⁴⁵⁶⁷⁸⁹₀₁₂₃₄₅₆₇₈₉",
    "Currency Symbols": "₣₤₦€",
    "Letterlike Symbols": "℃℉™",
    "Number Forms": "⅐⅑⅒⅓⅔⅕⅖⅗⅘⅙⅚⅛⅜⅝⅞",
    "Arrows": "←↑→↓",
    "Mathematical Operators": "∀∂∃∅∇∈\u2212∓\u2217√∝∞∠∧∨∩∪∴∵\u2236\u223c≈≠≡≤≥⊂⊃\u22c5",
    "Geometric Shapes": "▪◦",
    "Miscellaneous Symbols": "♀♂♭♮♯",
    "Dingbats": "✓✔",
    "Miscellaneous Mathematical Symbols-A": "\u27e8\u27e9",
    "Alphabetic Presentation Forms": "ﬀﬁﬂﬃﬄ",
}

# Capitals that are written as two capitals, and so not as the small letter is.
TWO_CAPITALS = "ÆŒĲ"


def characters() -> str:
    """All that the table claims to define."""
    return "".join(CLAIMED.values())


def asked() -> list[str]:
    """Each character of the blocks that have claims, but those that end a line."""
    return [chr(code) for block in ASKED for code in block if code not in (0xA, 0xD)]


def pairs() -> list[tuple[str, str]]:
    """Each small letter of the claims that has a capital of one character, with it."""
    small = [
        it
        for it in characters()
        if it.islower() and len(it.upper()) == 1 and it.upper() != it
    ]
    # the capitals of micro, final sigma and long s are those of other letters
    found = [(it.upper(), it) for it in small if it not in "\u00b5\u03c2\u017f"]
    return [*found, ("ẞ", "ß")]
