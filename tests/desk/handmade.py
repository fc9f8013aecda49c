"""Documents made by hand, mostly in DOCX, with what those who write texts put into them."""

import re
import struct
import zipfile
from collections.abc import Iterable, Sequence
from pathlib import Path

_OOXML = "http://schemas.openxmlformats.org"
_NAMES = " ".join(
    f'xmlns:{name}="{uri}"'
    for name, uri in (
        ("w", f"{_OOXML}/wordprocessingml/2006/main"),
        ("mc", f"{_OOXML}/markup-compatibility/2006"),
        ("wps", "http://schemas.microsoft.com/office/word/2010/wordprocessingShape"),
        ("wp", f"{_OOXML}/drawingml/2006/wordprocessingDrawing"),
        ("a", f"{_OOXML}/drawingml/2006/main"),
        ("v", "urn:schemas-microsoft-com:vml"),
    )
)
_PARTS = ("styles", "footnotes", "header", "numbering")
_TYPES = f"""<Types xmlns="{_OOXML}/package/2006/content-types">
<Default Extension="rels" ContentType="application/vnd.openxmlformats-package.relationships+xml"/>
<Default Extension="xml" ContentType="application/xml"/>
<Override PartName="/word/document.xml"
 ContentType="application/vnd.openxmlformats-officedocument.wordprocessingml.document.main+xml"/>
</Types>"""


def _relations(*targets: tuple[str, str]) -> str:
    inner = "".join(
        f'<Relationship Id="r{number}" Target="{target}"'
        f' Type="{_OOXML}/officeDocument/2006/relationships/{kind}"/>'
        for number, (kind, target) in enumerate(targets)
    )
    names = f'xmlns="{_OOXML}/package/2006/relationships"'
    return f"<Relationships {names}>{inner}</Relationships>"


_STYLES = "".join(
    f'<w:style w:type="paragraph" w:styleId="Heading{level}">'
    f'<w:name w:val="heading {level}"/></w:style>'
    for level in (1, 2, 3)
)


def run(text: str, properties: str = "") -> str:
    """Print with some properties, as ``<w:b/>``."""
    return (
        f'<w:r><w:rPr>{properties}</w:rPr><w:t xml:space="preserve">{text}</w:t></w:r>'
    )


def deleted(text: str) -> str:
    """Print that was deleted while changes were tracked."""
    return (
        f'<w:del w:id="7" w:author="A"><w:r><w:delText>{text}</w:delText></w:r></w:del>'
    )


def inserted(text: str) -> str:
    """Print that was inserted while changes were tracked."""
    return f'<w:ins w:id="8" w:author="A">{run(text)}</w:ins>'


def symbol(font: str, number: str) -> str:
    """A symbol of a font, which has no character."""
    return f'<w:r><w:sym w:font="{font}" w:char="{number}"/></w:r>'


def note(number: int) -> str:
    """The number of a footnote."""
    return f'<w:r><w:footnoteReference w:id="{number}"/></w:r>'


def text_box(text: str) -> str:
    """A text box, which a document has twice: for newer programs, and for older ones."""
    box = f"<w:txbxContent>{paragraph(run(text))}</w:txbxContent>"
    newer = (
        "<w:drawing><wp:anchor><a:graphic><a:graphicData><wps:wsp>"
        f"<wps:txbx>{box}</wps:txbx>"
        "</wps:wsp></a:graphicData></a:graphic></wp:anchor></w:drawing>"
    )
    older = f"<w:pict><v:textbox>{box}</v:textbox></w:pict>"
    return (
        f'<w:r><mc:AlternateContent><mc:Choice Requires="wps">{newer}</mc:Choice>'
        f"<mc:Fallback>{older}</mc:Fallback></mc:AlternateContent></w:r>"
    )


def paragraph(*inner: str, style: str = "", properties: str = "") -> str:
    """A paragraph of a style, as ``Heading1``, with other properties."""
    if style:
        properties = f'<w:pStyle w:val="{style}"/>{properties}'
    if properties:
        properties = f"<w:pPr>{properties}</w:pPr>"
    return f"<w:p>{properties}{''.join(inner)}</w:p>"


def in_list(number: int, level: int = 0) -> str:
    """What a paragraph, or a style, has that is in a list."""
    return f'<w:numPr><w:ilvl w:val="{level}"/><w:numId w:val="{number}"/></w:numPr>'


def level(place: int, form: str, text: str, *more: str, start: int = 1) -> str:
    """A level of a list, by the form of its own number and the text around all of them."""
    return (
        f'<w:lvl w:ilvl="{place}"><w:start w:val="{start}"/><w:numFmt w:val="{form}"/>'
        f'{"".join(more)}<w:lvlText w:val="{text}"/></w:lvl>'
    )


def lists(*levels: str, also: str = "") -> str:
    """Lists with the numbers from 1 on, each of some levels, and further ones."""
    abstract = "".join(
        f'<w:abstractNum w:abstractNumId="{number}">{each}</w:abstractNum>'
        for number, each in enumerate(levels, start=1)
    )
    named = "".join(
        f'<w:num w:numId="{number}"><w:abstractNumId w:val="{number}"/></w:num>'
        for number in range(1, len(levels) + 1)
    )
    return abstract + named + also


def table(*rows: Sequence[str]) -> str:
    """A table, whose cells are paragraphs or tables."""
    columns = '<w:gridCol w:w="2000"/>' * max(map(len, rows))
    body = "".join(
        "<w:tr>" + "".join(f"<w:tc>{cell}</w:tc>" for cell in row) + "</w:tr>"
        for row in rows
    )
    return f"<w:tbl><w:tblGrid>{columns}</w:tblGrid>{body}</w:tbl>"


def docx(
    path: Path,
    body: str,
    notes: Iterable[tuple[int, str]] = (),
    header: str = "",
    *,
    numbering: str = "",
    styles: str = "",
) -> Path:
    """A document with a body, footnotes, a running header, lists and further styles."""
    footnotes = "".join(
        f'<w:footnote w:id="{number}">{paragraph(run(text))}</w:footnote>'
        for number, text in notes
    )
    parts = {
        "document": ("document", f"<w:body>{body}</w:body>"),
        "styles": ("styles", _STYLES + styles),
        "footnotes": ("footnotes", footnotes),
        "header": ("hdr", paragraph(run(header)) if header else ""),
        "numbering": ("numbering", numbering),
    }
    with zipfile.ZipFile(path, "w", zipfile.ZIP_DEFLATED) as container:
        container.writestr("[Content_Types].xml", _TYPES)
        container.writestr(
            "_rels/.rels", _relations(("officeDocument", "word/document.xml"))
        )
        container.writestr(
            "word/_rels/document.xml.rels",
            _relations(*((name, f"{name}.xml") for name in _PARTS)),
        )
        for name, (tag, inner) in parts.items():
            text = f"<w:{tag} {_NAMES}>{inner}</w:{tag}>"
            container.writestr(f"word/{name}.xml", text)
    return path


ODT = "application/vnd.oasis.opendocument.text"
_ODT_NAMES = " ".join(
    f'xmlns:{name}="urn:oasis:names:tc:opendocument:xmlns:{uri}:1.0"'
    for name, uri in (
        ("office", "office"),
        ("style", "style"),
        ("text", "text"),
        ("table", "table"),
        ("draw", "drawing"),
        ("svg", "svg-compatible"),
        ("fo", "xsl-fo-compatible"),
    )
)
_LOEXT = (
    'xmlns:loext="urn:org:documentfoundation:names:experimental:office:xmlns:loext:1.0"'
)


def odt(path: Path, text: str, automatic: str = "", styles: str = "") -> Path:
    """A text in ODT with a body, the styles that it has itself, and the others."""
    manifest = (
        '<manifest:manifest xmlns:manifest="urn:oasis:names:tc:opendocument:xmlns:manifest:1.0"'
        f' manifest:version="1.2"><manifest:file-entry manifest:full-path="/" manifest:media-type="{ODT}"/>'
        '<manifest:file-entry manifest:full-path="content.xml" manifest:media-type="text/xml"/>'
        '<manifest:file-entry manifest:full-path="styles.xml" manifest:media-type="text/xml"/>'
        "</manifest:manifest>"
    )
    names = f'{_ODT_NAMES} {_LOEXT} office:version="1.2"'
    parts = {
        "mimetype": ODT,
        "content.xml": f"<office:document-content {names}><office:automatic-styles>{automatic}"
        f"</office:automatic-styles><office:body><office:text>{text}</office:text></office:body>"
        "</office:document-content>",
        "styles.xml": f"<office:document-styles {names}><office:styles>{styles}</office:styles>"
        "</office:document-styles>",
        "META-INF/manifest.xml": manifest,
    }
    with zipfile.ZipFile(path, "w") as container:
        for name, part in parts.items():
            container.writestr(name, part)
    return path


_SECTOR, _NONE, _END = 512, 0xFFFF_FFFF, 0xFFFF_FFFE


def doc(story: str, kinds: Sequence[int], others: Sequence[str] = ("",) * 7) -> bytes:
    """A text in DOC with fields of some kinds, and the stories after it, as its notes; each other piece of it has one
    byte for each character."""
    signs = [
        (_units(story[: each.start()]), each[0].encode())
        for each in re.finditer("[\x13-\x15]", story)
    ]
    places = (*(place for place, _ in signs), _units(story))
    said = iter(kinds)
    fields = struct.pack(f"<{len(places)}I", *places)
    fields += b"".join(
        s + bytes([next(said) if s == b"\x13" else 255]) for _, s in signs
    )
    whole, front = "".join((story, *others)).encode("utf-16-le"), 1_024
    ends = [*range(0, len(whole) // 2, 7), len(whole) // 2]
    text, pieces = b"", b""
    for number, (start, stop) in enumerate(zip(ends, ends[1:])):
        place, piece = front + len(text), whole[2 * start : 2 * stop]
        is_narrow = number % 2 and not any(piece[1::2])
        pieces += struct.pack("<HIH", 0, place * 2 | 1 << 30 if is_narrow else place, 0)
        text += piece[::2] if is_narrow else piece
    pieces = struct.pack(f"<{len(ends)}I", *ends) + pieces
    looks = struct.pack("<BH3s", 1, 3, b"abc")
    table = fields + looks + struct.pack("<BI", 2, len(pieces)) + pieces
    tables = [0] * 2 * 93
    tables[2 * 16 : 2 * 17] = 0, len(fields)
    tables[2 * 33 : 2 * 34] = len(fields), len(table) - len(fields)
    lengths = [0, 0, 0, *map(_units, (story, *others)), *[0] * 11]
    parts = struct.pack("<HHHHHH20x", 0xA5EC, 0xC1, 0, 0, 0, 0x0200)
    parts += struct.pack("<H28xH", 14, 22) + struct.pack("<22i", *lengths[:22])
    parts += struct.pack("<H", 93) + struct.pack("<186I", *tables)
    return _compound(parts.ljust(front, b"\0") + text.ljust(4_096, b"\0"), table)


def _units(text: str) -> int:
    """How many signs a text has in UTF-16."""
    return len(text.encode("utf-16-le")) // 2


def _compound(text: bytes, table: bytes) -> bytes:
    """The container of a text, whose sectors stand there from the last one on, and of its tables, which are small.

    Another text stands in it, as an object in a folder of the container does.
    """
    small = table.ljust(-(-len(table) // _SECTOR) * _SECTOR, b"\0")
    text = text.ljust(-(-len(text) // _SECTOR) * _SECTOR, b"\0")
    first = 3 + len(small) // _SECTOR
    last = first + len(text) // _SECTOR - 1
    follow = [_END, last + 1, _END, *range(4, first), _END]
    follow += [_END, *range(first, last), _END]
    inner = [*range(1, -(-len(table) // 64)), _END]
    entries = [
        ("Root Entry", 5, _NONE, 1, 3, len(small)),
        ("WordDocument", 2, 2, _NONE, last, len(text)),
        ("1Table", 2, 3, _NONE, 0, len(table)),
        ("ObjectPool", 1, _NONE, 4, 0, 0),
        ("WordDocument", 2, _NONE, _NONE, first, len(text)),
    ]
    directory = b"".join(
        struct.pack(
            "<64sHBBIII36xIII",
            f"{name}\0".encode("utf-16-le"),
            2 * len(name) + 2,
            kind,
            1,
            _NONE,
            *places,
            0,
        )
        for name, kind, *places in entries
    )
    head = struct.pack(
        "<Q16xHHHHH6xIIIIIIIII",
        0xE11A_B1A1_E011_CFD0,
        62,
        3,
        0xFFFE,
        9,
        6,
        0,
        1,
        1,
        0,
        4_096,
        2,
        1,
        _END,
        0,
    )
    head += struct.pack("<109I", 0, *[_NONE] * 108)
    sectors = [text[n : n + _SECTOR] for n in range(0, len(text), _SECTOR)]
    return b"".join(
        (
            head,
            *(
                struct.pack("<128I", *part, *[_NONE] * (128 - len(part)))
                for part in (follow,)
            ),
            directory[:_SECTOR],
            struct.pack("<128I", *inner, *[_NONE] * (128 - len(inner))),
            small,
            *reversed(sectors),
            directory[_SECTOR:].ljust(_SECTOR, b"\0"),
        )
    )
