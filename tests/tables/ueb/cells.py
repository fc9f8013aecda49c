"""Cells as dots and as Braille ASCII."""

# the bytes of the 64 cells of six dots, in the order of their masks
ASCII = " A1B'K2L@CIF/MSP\"E3H9O6R^DJG>NTQ,*5<-U8V.%[$+X!&;:4\\0Z7(_?W]#Y)="
FIRST = 0x2800


def from_ascii(written: str) -> str:
    """The cells that Braille ASCII writes."""
    return "".join(chr(FIRST + ASCII.index(byte)) for byte in written)


def to_ascii(cells: str) -> str:
    """Cells of six dots in Braille ASCII, and anything else as it is."""
    return "".join(ASCII[ord(it) - FIRST] if is_six_dot(it) else it for it in cells)


def is_six_dot(character: str) -> bool:
    """Whether a character is a cell without dots 7 and 8."""
    return FIRST <= ord(character) < FIRST + len(ASCII)


def of_dots(dots: str) -> str:
    """The cells that a dots operand of a table writes."""
    return "".join(
        chr(FIRST + sum(1 << (int(dot) - 1) for dot in cell.strip("0")))
        for cell in dots.split("-")
    )
