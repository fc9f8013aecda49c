"""Documents as publishers send them: their paragraphs, and all that is lost of them."""

import os
import resource
import subprocess
import sys
import time
import warnings
import zipfile
from collections.abc import Callable
from io import BytesIO
from pathlib import Path
from typing import Any
from xml.etree import ElementTree

import pytest

from braildesk.desk.documents import (
    contents,
    kinds,
    markdown_words,
    pandoc,
    styles_of_odt,
)
from braildesk.desk.documents import sheets as style_sheets
from braildesk.desk.documents.contents import missing
from braildesk.desk.documents.document import read_document
from braildesk.desk.documents.kinds import (
    ManuscriptKind,
    NoConverter,
    NoDocument,
    NotConverted,
    NotRead,
    WhyNot,
    kind_of,
    repacked,
    unpacked,
)
from braildesk.desk.documents.markdown_notes import repeated, with_marks
from braildesk.desk.documents.pandoc import office, tree
from braildesk.desk.documents.options import ReadingOptions
from braildesk.desk.documents.reading import (
    Loss,
    LossKind,
    Manuscript,
    Missing,
    Part,
    short_enough,
)
from braildesk.desk.documents.tree import Node, document
from braildesk.desk.manuscript import UnreadableText
from braildesk.desk.manuscripts import Taken, read_manuscript
from braildesk.desk.replacements import Replacer
from scribe.words.import_text import unreadable
from scribe.words.losses import report_lines

from handmade import (
    deleted,
    doc,
    docx,
    inserted,
    level,
    lists,
    note,
    odt,
    paragraph,
    run,
    symbol,
    table,
    text_box,
)
from tool import WAIT_SECONDS, environment

MARKDOWN = """\
# The Moon

First *paragraph* with a note.[^1] And a [link](http://example.org).

## Part two

3. three
4. four

- bullet
- second

> A quote here.

| a | b |
|---|---|
| 1 | 2 |

One line\\
and another ![A picture of the moon](moon.png) here.

H~2~O, x^2^ and soft\u00adhyphens.

Term
:   What it is

    code  here

| The poem
| goes on

[^1]: The note.
"""
PARTS = [
    ("The Moon", 1),
    ("First paragraph with a note.[1] And a link.", None),
    ("[1: The note.]", None),
    ("Part two", 2),
    ("3. three", None),
    ("4. four", None),
    ("\u2022 bullet", None),
    ("\u2022 second", None),
    ("A quote here.", None),
    ("a; b", None),
    ("1; 2", None),
    ("One line", None),
    ("and another [A picture of the moon] here.", None),
    ("H2O, x2 and softhyphens.", None),
    ("Term", None),
    ("What it is", None),
    ("code here", None),
    ("The poem", None),
    ("goes on", None),
]


def made(folder: Path, kind: ManuscriptKind) -> Path:
    """A document of a kind, as pandoc writes it."""
    path = folder / f"moon.{kind.value}"
    words = ["pandoc", "--from", "markdown", "--to", kind.value, "--standalone"]
    words += ["--metadata", "title= ", "--output", str(path)]
    subprocess.run(words, input=MARKDOWN.encode(), check=True, capture_output=True)
    return path


def kind_at(path: Path) -> ManuscriptKind:
    return kind_of(path.name, path.read_bytes())


def lost(found: Manuscript, what: LossKind) -> list[str]:
    return [loss.words for loss in found.losses if loss.what is what]


@pytest.mark.parametrize(
    "kind",
    [
        ManuscriptKind.MARKDOWN,
        ManuscriptKind.HTML,
        ManuscriptKind.EPUB,
        ManuscriptKind.DOCX,
    ],
)
def test_each_kind_gives_the_same_paragraphs(
    tmp_path: Path, kind: ManuscriptKind
) -> None:
    path = made(tmp_path, kind)
    if kind is ManuscriptKind.MARKDOWN:
        path = path.with_suffix(".md")
        path.write_text(MARKDOWN, encoding="utf-8")
    assert kind_at(path) is kind
    found = read_manuscript(path)
    # DOCX as pandoc writes it has the description of a picture as print, and one blank in code
    wanted = (
        [
            (text.replace("[A picture of the moon]", "A picture of the moon"), level)
            for text, level in PARTS
        ]
        if kind is ManuscriptKind.DOCX
        else PARTS
    )
    shown = [(part.text, part.level) for part in found.parts]
    assert [pair for pair in shown if pair not in wanted] == []
    assert [pair for pair in wanted if pair not in shown] == []
    assert found.missing == ()


def test_what_a_book_cannot_hold_is_noted_with_the_words_around_it(
    tmp_path: Path,
) -> None:
    found = read_manuscript(made(tmp_path, ManuscriptKind.HTML))
    assert lost(found, LossKind.EMPHASIS) == ["paragraph"]
    assert lost(found, LossKind.LINK) == ["link"]
    assert lost(found, LossKind.SUBSCRIPT) == ["2"]
    assert lost(found, LossKind.SUPERSCRIPT) == ["2"]
    assert lost(found, LossKind.TABLE) == ["a; b"]
    assert lost(found, LossKind.LEVEL) == ["Part two"]
    (emphasis,) = (loss for loss in found.losses if loss.what is LossKind.EMPHASIS)
    assert emphasis.around == "First paragraph with a note.[1] And a link."


def test_notes_may_stand_at_the_end_of_their_section(tmp_path: Path) -> None:
    path = tmp_path / "notes.md"
    path.write_text("a[^1] b\n\nc\n\n# d\n\ne\n\n[^1]: note\n", encoding="utf-8")
    assert read_manuscript(path).texts == ["a[1] b", "[1: note]", "c", "d", "e"]
    at_end = read_manuscript(path, ReadingOptions(notes_at_end=True))
    assert at_end.texts == ["a[1] b", "c", "[1: note]", "d", "e"]


def test_a_document_made_by_hand(tmp_path: Path) -> None:
    inner = table((paragraph(run("inner a")), paragraph(run("inner b"))))
    body = (
        paragraph(run("Chapter one"), style="Heading1")
        + paragraph(
            run("The moon "), run("rises", "<w:b/>"), run("."), text_box("In a box")
        )
        + paragraph(
            run("Kept "), inserted("added "), deleted("deleted "), run("words.")
        )
        + paragraph(run("Seen "), run("hidden ", "<w:vanish/>"), run("words."))
        + paragraph(run("A symbol "), symbol("Wingdings", "F04A"), run(" here."))
        + table(
            (paragraph(run("one"), note(1)), inner + paragraph()),
            (paragraph(run("two")), paragraph(run("three"))),
        )
        + paragraph(run("Last."), note(2))
    )
    notes = [(1, "Note in the table."), (2, "Last note.")]
    found = read_manuscript(
        docx(tmp_path / "hand.docx", body, notes, "A running header")
    )
    assert found.texts == [
        "Chapter one",
        "The moon rises.",
        "Kept added words.",
        "Seen hidden words.",
        "A symbol here.",
        "one[1]; inner a; inner b",
        "two; three",
        "[1: Note in the table.]",
        "Last.[2]",
        "[2: Last note.]",
    ]
    assert found.missing == (
        Missing("In a box", "", ""),
        Missing("Wingdings_F04A", "A symbol", "here"),
        Missing("A running header", "", ""),
    )
    assert lost(found, LossKind.HIDDEN) == ["hidden"]
    assert lost(found, LossKind.DELETED) == ["deleted"]
    assert len(lost(found, LossKind.TABLE)) == 2


def field(how: str, shown: str) -> str:
    """What Word computes."""
    return f'<w:fldSimple w:instr=" {how} "><w:r><w:t>{shown}</w:t></w:r></w:fldSimple>'


MATH = 'xmlns:m="http://schemas.openxmlformats.org/officeDocument/2006/math"'
FRACTION = (
    f"<m:oMathPara {MATH}><m:oMath><m:f><m:num><m:r><m:t>x</m:t></m:r></m:num><m:den><m:r>"
    "<m:t>y</m:t></m:r></m:den></m:f></m:oMath><m:oMath><m:r><m:t>z</m:t></m:r></m:oMath>"
    "</m:oMathPara>"
)


@pytest.mark.parametrize(
    ("body", "texts"),
    [
        (paragraph(run("On "), field("DATE", "20 July"), run(".")), ["On 20 July."]),
        (
            '<w:customXml w:element="x">'
            + paragraph(
                run("a "), f'<w:customXml w:element="y">{run("b")}</w:customXml>'
            )
            + "</w:customXml>",
            ["a b"],
        ),
        (f'<w:ins w:id="1">{paragraph(run("a"))}</w:ins>', ["a"]),
        (
            paragraph(
                *(
                    f"<w:{name} w:val='rtl'>{run(name)}</w:{name}>"
                    for name in ("bdo", "dir")
                )
            ),
            ["bdodir"],
        ),
        (
            paragraph(
                "<w:r><w:t>a</w:t><w:ptab/><w:t>b</w:t><w:cr/><w:t>c</w:t></w:r>"
            ),
            ["a b", "c"],
        ),
        (
            '<mc:AlternateContent><mc:Choice Requires="w14">'
            + paragraph(run("newer"))
            + f'</mc:Choice><mc:Fallback>{paragraph(run("older"))}</mc:Fallback>'
            "</mc:AlternateContent>",
            ["newer"],
        ),
        (paragraph(run("a "), FRACTION, run(" b")), ["a \\frac{x}{y}z b"]),
        (
            table((paragraph(run("a")), paragraph(run("b")), paragraph(run("c"))))
            .replace(
                "</w:tc><w:tc>",
                "</w:tc><w:sdt><w:sdtContent><w:tc>",
                1,
            )
            .replace(
                "b</w:t></w:r></w:p></w:tc>",
                "b</w:t></w:r></w:p></w:tc></w:sdtContent></w:sdt>",
            ),
            ["a; b; c"],
        ),
    ],
)
def test_print_within_what_pandoc_does_not_know_is_typed(
    tmp_path: Path, body: str, texts: list[str]
) -> None:
    found = read_manuscript(docx(tmp_path / "a.docx", body))
    assert (found.texts, found.missing) == (texts, ())


def test_choices_of_forms_are_words_that_are_missing(tmp_path: Path) -> None:
    choices = (
        '<w:ffData><w:ddList><w:result w:val="1"/><w:listEntry w:val="Apple"/>'
        '<w:listEntry w:val="Pear"/></w:ddList></w:ffData>'
    )
    form = (
        f'<w:r><w:fldChar w:fldCharType="begin">{choices}</w:fldChar></w:r>'
        '<w:r><w:fldChar w:fldCharType="end"/></w:r>'
    )
    body = paragraph(run("Two "), form)
    found = read_manuscript(docx(tmp_path / "a.docx", body))
    assert [each.words for each in found.missing] == ["Pear"]


def captioned(number: int, style: str = "Caption") -> str:
    """The title of a table, as Word writes it."""
    its = field("SEQ Table", str(number))
    return paragraph(run("Table "), its, run(" of tides"), style=style)


@pytest.mark.parametrize(
    "numbering", ["", lists(level(0, "decimal", "%1."))], ids=["none", "lists"]
)
def test_titles_of_tables_stand_where_the_document_has_them(
    tmp_path: Path, numbering: str
) -> None:
    body = (
        table((paragraph(run("a")), paragraph(run("b"))))
        + paragraph(run("Between"))
        + table((paragraph(run("c")), paragraph(run("d"))))
        + captioned(1)
        + captioned(2)
        + table((paragraph(run("e")), paragraph(run("f"))))
    )
    found = read_manuscript(docx(tmp_path / "a.docx", body, numbering=numbering))
    assert found.texts == [
        "a; b",
        "Between",
        "c; d",
        "Table 1 of tides",
        "Table 2 of tides",
        "e; f",
    ]
    assert found.missing == ()


def test_a_line_that_ends_by_hand_in_odt_has_none_of_its_words_missing_for_others(
    tmp_path: Path, monkeypatch: pytest.MonkeyPatch
) -> None:
    monkeypatch.setattr(pandoc, "office", lambda: None)
    contents = "<text:table-of-content><text:index-body><text:p>the moon</text:p></text:index-body></text:table-of-content>"
    text = f"{contents}<text:p>See<text:line-break/>the moon</text:p>"
    found = read_manuscript(odt(tmp_path / "lines.odt", text))
    assert found.texts == ["See", "the moon"]
    assert found.missing == (Missing("the moon", "", ""),)


def test_an_odt_that_pandoc_refuses_is_read_by_libreoffice_if_that_is_there(
    tmp_path: Path, monkeypatch: pytest.MonkeyPatch
) -> None:
    made = docx(tmp_path / "made.docx", paragraph(run("The moon is far.")))

    def refusing(data: bytes, kind: ManuscriptKind, *others: Any) -> Any:
        if kind is ManuscriptKind.ODT:
            raise NotConverted("pandoc", "Couldn't parse odt file.")
        return tree(data, kind, *others)

    monkeypatch.setattr(pandoc, "tree", refusing)
    monkeypatch.setattr(pandoc, "as_docx", lambda *_: made.read_bytes())
    path = odt(tmp_path / "moon.odt", "<text:p>The moon is far.</text:p>")
    monkeypatch.setattr(pandoc, "office", lambda: "soffice")
    found = read_manuscript(path)
    assert (found.kind, found.texts) == (ManuscriptKind.ODT, ["The moon is far."])
    assert found.missing == ()
    monkeypatch.setattr(pandoc, "office", lambda: None)
    with pytest.raises(NotConverted, match="Couldn't parse"):
        read_manuscript(path)


def test_titles_of_tables_stand_where_a_text_in_odt_has_them(tmp_path: Path) -> None:
    cell = "<table:table-cell><text:p>{}</text:p></table:table-cell>"
    rows = f"<table:table-row>{cell.format('a')}{cell.format('b')}</table:table-row>"
    its = (
        '<table:table><table:table-column table:number-columns-repeated="2"/>'
        f"{rows}</table:table>"
    )
    title = '<text:p text:style-name="Table">Table {}</text:p>'
    text = its + title.format(1) + title.format(2) + its
    style = '<style:style style:name="Table" style:family="paragraph"/>'
    found = read_manuscript(odt(tmp_path / "a.odt", text, styles=style))
    assert found.texts == ["a; b", "Table 1", "Table 2", "a; b"]
    assert found.missing == ()


def test_words_of_drawings_are_missing_unless_they_are_typed(tmp_path: Path) -> None:
    drawing = '<w:drawing><wp:inline><wp:docPr id="1" name="a" descr="{}"/></wp:inline></w:drawing>'
    shape = '<v:shape alt="A chart"><v:textpath string="Moon and sea"/></v:shape>'
    body = paragraph(run("One") + f"<w:r>{drawing.format('A crater')}</w:r>")
    body += paragraph(run("Two") + f"<w:r><w:pict>{shape}</w:pict></w:r>")
    found = read_manuscript(docx(tmp_path / "drawings.docx", body))
    assert found.texts == ["One", "Two"]
    assert found.missing == (
        Missing("A crater", "One", ""),
        Missing("A chart Moon and sea", "Two", ""),
    )


def test_the_title_of_a_picture_in_docx_is_missing_unless_its_description_is_the_same(
    tmp_path: Path,
) -> None:
    drawing = '<w:r><w:drawing><wp:inline><wp:docPr id="1" name="a" title="A moon" descr="{}"/></wp:inline></w:drawing></w:r>'
    said = {"One": "", "Two": "Far off", "Three": "A moon"}
    body = "".join(paragraph(run(n) + drawing.format(said[n])) for n in said)
    found = read_manuscript(docx(tmp_path / "drawings.docx", body))
    missing = {each.before: each.words for each in found.missing}
    assert missing == {"One": "A moon", "Two": "A moon Far off", "Three": "A moon"}


def test_the_description_of_a_picture_in_odt_that_stands_in_no_paragraph_is_missing(
    tmp_path: Path,
) -> None:
    picture = '<draw:frame text:anchor-type="page"><draw:image/><svg:title>Front</svg:title><svg:desc>A crater</svg:desc></draw:frame>'
    found = read_manuscript(odt(tmp_path / "a.odt", f"{picture}<text:p>One</text:p>"))
    assert found.texts == ["One"]
    assert [each.words for each in found.missing] == ["Front", "A crater"]


def test_a_picture_in_docx_that_another_file_has_is_noted_unless_it_is_described(
    tmp_path: Path,
) -> None:
    relations = "http://schemas.openxmlformats.org/officeDocument/2006/relationships"
    shown = (
        '<w:r><w:drawing><wp:inline><wp:docPr id="1" name="a" descr="{}"/><a:graphic>'
        f'<a:graphicData><a:blip xmlns:r="{relations}" r:link="rId9"/></a:graphicData></a:graphic>'
        "</wp:inline></w:drawing></w:r>"
    )
    body = "".join(
        map(
            paragraph,
            (shown.format(""), run("One"), shown.format(""), shown.format("Sea")),
        )
    )
    body += paragraph(run("Two") + shown.format(" ")) + paragraph(
        deleted(shown.format(""))
    )
    found = read_manuscript(docx(tmp_path / "pictures.docx", body))
    around = [each.around for each in found.losses if each.what is LossKind.PICTURE]
    assert around == ["", "One", "Two"]
    assert [each.words for each in found.missing] == ["Sea"]


def test_print_that_is_said_not_to_be_hidden_is_not(tmp_path: Path) -> None:
    body = paragraph(
        run("One", '<w:vanish w:val="0"/>') + run(" two", '<w:vanish w:val="true"/>')
    )
    found = read_manuscript(docx(tmp_path / "shown.docx", body))
    assert found.texts == ["One two"]
    assert lost(found, LossKind.HIDDEN) == ["two"]


def test_words_that_are_there_as_often_are_not_missing() -> None:
    assert missing(["a b c", "c d"], ["1. a b c", "c d"]) == []
    assert missing(["a b c", "a b c"], ["a b c"]) == [Missing("a b c", "", "")]
    assert missing(["one two three four"], ["one two four"]) == [
        Missing("three", "one two", "four")
    ]
    assert missing(["soft\u00adhyphen"], ["softhyphen"]) == []


def test_a_passage_that_is_missing_takes_no_word_from_another() -> None:
    assert missing(["In a box", "inline See a moon"], ["See a moon"]) == [
        Missing("In a box", "", ""),
        Missing("inline", "", "See a moon"),
    ]


def test_a_word_that_is_missing_is_shown_as_it_stands_in_the_file() -> None:
    assert missing(["by xhtml11 and word1"], ["by and word 1"]) == [
        Missing("xhtml11", "by", "and word 1")
    ]


OLE = b"\xd0\xcf\x11\xe0\xa1\xb1\x1a\xe1"
#: A page of which Word has encrypted the package, and one that it has saved for its older versions.
ENCRYPTED = OLE + bytes(500) + "EncryptedPackage".encode("utf-16-le")
WORD = OLE + bytes(500) + "WordDocument".encode("utf-16-le")


@pytest.mark.parametrize(
    "name, front, kind",
    [
        ("moon", b"{\\rtf1 moon}", ManuscriptKind.RTF),
        ("moon", WORD, ManuscriptKind.DOC),
        ("moon", b"\xef\xbb\xbf <!DOCTYPE html>\n<html>", ManuscriptKind.HTML),
        ("moon.txt", b"<!-- of the moon -->\n<html>", ManuscriptKind.HTML),
        ("moon.htm", b"<p>The moon", ManuscriptKind.HTML),
        ("moon.MD", b"Only text.", ManuscriptKind.MARKDOWN),
        ("moon", b"<?xml version='1.0'?><book/>", ManuscriptKind.TEXT),
        ("moon.docx", b"Only text.", ManuscriptKind.TEXT),
        ("moon", b"Only text.", ManuscriptKind.TEXT),
        ("moon", b"", ManuscriptKind.TEXT),
    ],
)
def test_a_kind_is_known_by_the_front_of_a_file(
    name: str, front: bytes, kind: ManuscriptKind
) -> None:
    assert kind_of(name, front) is kind


def container_of(path: Path, **parts: str) -> bytes:
    """A container with parts, of which the names have ``__`` in place of a stroke."""
    with zipfile.ZipFile(path, "w", zipfile.ZIP_DEFLATED) as container:
        for name, text in parts.items():
            container.writestr(name.replace("__", "/"), text)
    return path.read_bytes()


RIGHTS = (
    '<encryption xmlns="urn:oasis:names:tc:opendocument:xmlns:container"'
    ' xmlns:e="http://www.w3.org/2001/04/xmlenc#"><e:EncryptedData>'
    '<e:EncryptionMethod Algorithm="{}"/></e:EncryptedData></encryption>'
)
ADOBE = RIGHTS.format("http://www.w3.org/2001/04/xmlenc#aes128-cbc")
FONTS = RIGHTS.format("http://www.idpf.org/2008/embedding")
MANIFEST = (
    '<m:manifest xmlns:m="urn:oasis:names:tc:opendocument:xmlns:manifest:1.0">'
    "<m:file-entry><m:encryption-data/></m:file-entry></m:manifest>"
)
EPUB, ODT = "application/epub+zip", "application/vnd.oasis.opendocument.text"
NO_BOOK = '<container xmlns="urn:oasis:names:tc:opendocument:xmlns:container"/>'


@pytest.mark.parametrize(
    "parts, why",
    [
        ({"a": "no document"}, WhyNot.OTHER),
        ({"mimetype": "application/vnd.oasis.opendocument.spreadsheet"}, WhyNot.OTHER),
        ({"mimetype": EPUB, "META-INF/encryption.xml": ADOBE}, WhyNot.COPY_PROTECTED),
        ({"mimetype": ODT, "META-INF/manifest.xml": MANIFEST}, WhyNot.ENCRYPTED),
        ({"mimetype": ODT, "META-INF/manifest.xml": "no XML"}, WhyNot.DAMAGED),
        (
            {
                "mimetype": ODT,
                "META-INF/manifest.xml": MANIFEST.replace("xmlns:m", "x"),
            },
            WhyNot.ENCRYPTED,
        ),
    ],
)
def test_containers_that_no_program_can_read_are_refused(
    tmp_path: Path, parts: dict[str, str], why: WhyNot
) -> None:
    with pytest.raises(NoDocument) as found:
        kind_of("moon.epub", container_of(tmp_path / "moon", **parts))
    assert found.value.why is why


@pytest.mark.parametrize("ending", ["", "-template", "-web"])
def test_a_text_in_odt_is_one_whose_list_of_parts_has_no_address_for_its_prefix(
    tmp_path: Path, ending: str
) -> None:
    manifest = "<m:manifest><m:file-entry/></m:manifest>"
    parts = {"mimetype": ODT + ending, "META-INF/manifest.xml": manifest}
    kind = kind_of("moon.ott", container_of(tmp_path / "moon", **parts))
    assert kind is ManuscriptKind.ODT


@pytest.mark.parametrize(
    "data, why",
    [
        (ENCRYPTED, WhyNot.ENCRYPTED),
        (OLE, WhyNot.OTHER),
        (b"%PDF-1.7", WhyNot.PDF),
        (b"PK\x03\x04 no zip at all", WhyNot.DAMAGED),
    ],
)
def test_files_that_no_program_can_read_are_refused(data: bytes, why: WhyNot) -> None:
    with pytest.raises(NoDocument) as found:
        kind_of("moon.docx", data)
    assert found.value.why is why


def test_hidden_fonts_keep_nobody_from_reading_a_book(tmp_path: Path) -> None:
    parts = {"mimetype": EPUB, "META-INF/encryption.xml": FONTS}
    assert (
        kind_of("moon", container_of(tmp_path / "moon", **parts)) is ManuscriptKind.EPUB
    )


def test_a_file_that_is_no_document_is_not_converted(tmp_path: Path) -> None:
    data = container_of(
        tmp_path / "moon", **{"[Content_Types].xml": "", "word/document.xml": "no XML"}
    )
    with pytest.raises(NoDocument) as found:
        read_document(data, ManuscriptKind.DOCX)
    assert found.value.why is WhyNot.DAMAGED
    with pytest.raises(NotConverted, match="couldn't parse docx|parse"):
        tree(data, ManuscriptKind.DOCX)


def test_a_container_that_unpacks_to_too_much_is_not_read(
    tmp_path: Path, monkeypatch: pytest.MonkeyPatch
) -> None:
    path = docx(tmp_path / "moon.docx", paragraph(run("a" * 200_000)))
    monkeypatch.setattr(kinds, "MOST_BYTES", 100_000)
    with pytest.raises(NoDocument) as found:
        read_manuscript(path)
    assert found.value.why is WhyNot.TOO_LARGE


def test_a_container_of_more_tags_than_any_manuscript_has_is_not_read(
    tmp_path: Path, monkeypatch: pytest.MonkeyPatch
) -> None:
    path = docx(tmp_path / "moon.docx", paragraph(run("a")) * 1_000)
    monkeypatch.setattr(kinds, "MOST_TAGS", 5_000)
    with pytest.raises(NoDocument) as found:
        read_manuscript(path)
    assert found.value.why is WhyNot.TOO_LARGE
    with pytest.raises(NoDocument):
        kinds.root_of(b"<a/>" * 5_001)


@pytest.mark.filterwarnings("ignore:Duplicate name")
@pytest.mark.parametrize(
    "name", ["customXml/item1.xml", "word/document.xml", "word/header1.xml"]
)
def test_parts_of_one_name_are_not_unpacked_for_each_of_them(
    tmp_path: Path, monkeypatch: pytest.MonkeyPatch, name: str
) -> None:
    path = docx(tmp_path / "moon.docx", paragraph(run("The moon")))
    with zipfile.ZipFile(path, "a", zipfile.ZIP_DEFLATED) as container:
        last = container.read("word/document.xml") + b" " * 5_001
        for part in (*[b""] * 1_000, last):
            container.writestr(name, part)
    monkeypatch.setattr(kinds, "MOST_TAGS", 5_000)
    opened: list[object] = []
    open_part = zipfile.ZipFile.open

    def counted(
        container: zipfile.ZipFile, name: str, *words: Any, **named: Any
    ) -> Any:
        opened.append(name)
        return open_part(container, name, *words, **named)

    monkeypatch.setattr(zipfile.ZipFile, "open", counted)
    assert read_manuscript(path).texts == ["The moon"]
    assert 0 < opened.count(name) < 20


def test_kinds_that_need_a_program_name_it(
    tmp_path: Path, monkeypatch: pytest.MonkeyPatch
) -> None:
    monkeypatch.setenv("PATH", str(tmp_path))
    path = docx(tmp_path / "moon.docx", paragraph(run("a")))
    with pytest.raises(NoConverter) as found:
        read_manuscript(path)
    assert (found.value.name, found.value.package) == ("pandoc", "pandoc")
    assert office() is None
    with pytest.raises(NoConverter) as found:
        read_document(b"{\\rtf1 moon}", ManuscriptKind.RTF)
    assert found.value.package == "libreoffice-writer-nogui"


def test_a_tree_of_another_program_is_not_read() -> None:
    trees: list[Node] = [
        {},
        {"blocks": [{"t": "New"}]},
        {"blocks": [{"t": "Para", "c": [1]}]},
    ]
    for each in trees:
        with pytest.raises(NotRead):
            document(each)


def test_items_are_numbered_as_they_are_in_print(tmp_path: Path) -> None:
    path = tmp_path / "lists.md"
    path.write_text("iv) a\nv) b\n\n\nz\n\n(B) c\n\n#. d\n", encoding="utf-8")
    assert read_manuscript(path).texts == ["iv) a", "v) b", "z", "(B) c", "1. d"]


@pytest.mark.parametrize(
    "start, kind, shown",
    [
        ("3999", "i", "mmmcmxcix"),
        ("9000000000000000", "I", "9000000000000000"),
        ("-3", "I", "-3"),
        ("0", "a", "0"),
    ],
)
def test_a_number_that_no_letters_stand_for_is_written_in_digits(
    start: str, kind: str, shown: str
) -> None:
    # so many letters would take all of the memory
    page = f"<html><body><ol start={start} type={kind}><li>x</li></ol>".encode()
    assert read_document(page, ManuscriptKind.HTML).texts == [f"{shown}. x"]


def test_notes_of_markdown_that_nothing_leads_to_are_words_that_are_missing(
    tmp_path: Path,
) -> None:
    path = tmp_path / "notes.md"
    path.write_text(
        "One[^a] and `[^b]`.\n\n[^a]: First *one*.\n\n[^a]: Second by_name.\n\n"
        "[^b]: Nobody _leads_ here,\nnor [there](http://x.y).\n\n    Nor so.\n\nThe end.\n\n"
        "> [^ç]: A quiet note.\n\n[^d]: It goes.\n\nIt[^d] goes.\n",
        encoding="utf-8",
    )
    found = read_manuscript(path)
    assert found.texts == [
        "One[1] and [^b].",
        "[1: Second by_name.]",
        "The end.",
        "It[2] goes.",
        "[2: It goes.]",
    ]
    assert found.missing == (
        Missing("First one", "", ""),
        Missing("Nobody leads here nor there Nor so", "", ""),
        Missing("A quiet note", "", ""),
    )


def test_notes_to_which_notes_alone_lead_are_words_that_are_missing() -> None:
    text = "The moon.[^1]\n\n[^1]: Full.[^2]\n\n[^2]: It is *round*.[^3]\n\n[^3]: See [^1].\n"
    found = read_document(text.encode(), ManuscriptKind.MARKDOWN)
    assert found.texts[0] == "The moon.[1]"
    assert [each.words for each in found.missing] == ["It is round 3", "See"]


def test_what_stands_between_lines_of_hyphens_is_print(tmp_path: Path) -> None:
    path = tmp_path / "scenes.md"
    path.write_text("Dawn.\n\n---\nAnna: Go.\nBob: No.\n---\n\nNoon.\n")
    found = read_manuscript(path)
    assert found.texts == ["Dawn.", "Anna: Go.", "Bob: No.", "Noon."]


def test_what_markdown_takes_for_the_address_of_a_link_is_missing_if_it_is_none(
    tmp_path: Path,
) -> None:
    path = tmp_path / "play.md"
    path.write_text(
        "A [Moon] and the [Sea][s].\n\nA [far\nmoon] too.\n\n[Far Moon]: http://z/q\n\n[moon]: http://x.y 'The moon'\n[S]: <a b> {.c}\n\n"
        "[Anna]: I don't *know* it.\n\n[Bob]: Yes.\n\n[Bob] goes, and\n[Eve]: too.\n\n"
        "[Bob]: I go, too.\n"
    )
    found = read_manuscript(path)
    assert found.texts == [
        "A Moon and the Sea.",
        "A far moon too.",
        "Bob goes, and [Eve]: too.",
    ]
    assert found.missing == (
        Missing("Anna I don't know it", "", ""),
        Missing("I go", "", "too"),
        Missing("Yes", "", ""),
    )


def test_what_markdown_takes_for_the_address_of_a_link_is_missing_in_lists_too(
    tmp_path: Path,
) -> None:
    path = tmp_path / "rules.md"
    path.write_text(
        "Rules:\n\n- [Note]: see the end\n- [Tip]: more\n\n> # Act\n> [Anna]: He was *wrong*.\n\n"
        "1. On\n\n    [Moon]: far\n\n~~~\n[Sun]: *a*\n~~~\n\n> or\n> [Bob]: not\n\n::: {.x}\n[Eve]: so\n:::\n"
    )
    found = read_manuscript(path)
    shown = [
        "Rules:",
        "\u2022",
        "\u2022",
        "Act",
        "1. On",
        "[Sun]: *a*",
        "or [Bob]: not",
    ]
    assert found.texts == shown
    assert [each.words for each in found.missing] == [
        *("Note see the end", "Tip more", "Anna He was wrong", "Moon far", "Eve so")
    ]


def test_a_long_document_is_read_whole(tmp_path: Path) -> None:
    body = "".join(
        paragraph(run(" ".join(f"word{number} of" for number in range(50))))
        for _ in range(100)
    )
    found = read_manuscript(docx(tmp_path / "long.docx", body))
    assert len(found.parts) == 100 and found.missing == ()


def test_the_title_of_a_document_is_a_heading_before_its_text(tmp_path: Path) -> None:
    path = tmp_path / "moon.md"
    path.write_text(
        "---\ntitle: The *Moon*\nauthor: [Anna, Ben]\nlang: en\n---\n\n# One\n\nText\n"
    )
    found = read_manuscript(path)
    assert found.parts == (
        Part("The Moon", 0, True),
        Part("Anna", None, True),
        Part("Ben", None, True),
        Part("One", 1),
        Part("Text"),
    )
    assert lost(found, LossKind.EMPHASIS) == ["Moon"]


@pytest.mark.parametrize(
    "text, lengths",
    [
        ("x" * 4_000, [4_000]),
        # the last sentence that ends within the first 4,000 characters is the last of its part
        (("Twenty characters x! " * 200).strip(), [3_989, 209]),
        ((("x" * 99 + " ") * 41).strip(), [3_999, 99]),
        ("x" * 4_005, [4_000, 5]),
        ("x" * 3_999 + "q\u0323" + "y", [3_999, 3]),
    ],
)
def test_a_long_paragraph_is_parted_at_a_sentence(
    text: str, lengths: list[int]
) -> None:
    parts = list(short_enough(Part(text, 2)))
    assert [len(part.text) for part in parts] == lengths
    assert "".join(part.text for part in parts).replace(" ", "") == text.replace(
        " ", ""
    )
    assert {part.level for part in parts} == {2}


def test_long_paragraphs_are_noted_by_their_first_words_and_where_they_are_parted(
    tmp_path: Path,
) -> None:
    path = tmp_path / "long.md"
    texts = ["Twice a day the sea comes up. " * 150, "and twice it goes " * 240]
    # it is parted at a sentence too, and at a blank
    texts += [f"So. {texts[1]}. Up. {'x' * 5_000}"]
    path.write_text("\n\n".join(texts))
    found = read_manuscript(path)
    assert [len(text) for text in found.texts][:4] == [3_989, 509, 3_999, 319]
    _, *lines = report_lines(path, Taken((), (), found))
    assert lines == [
        "1 paragraph is too long for a book, and is parted at its sentences:",
        "- “Twice a day the sea comes up. Twice a day the sea comes up.”",
        "1 paragraph is too long for a book, and is parted between words where no sentence ends:",
        "- “and twice it goes and twice it goes and twice it goes and”",
        "1 paragraph is too long for a book, and is parted where it has no blank:",
        "- “So. and twice it goes and twice it goes and twice it goes”",
    ]


def test_characters_are_replaced_once_each_and_counted() -> None:
    replacer = Replacer(
        (("…", "..."), ("...", "x"), ("b...", "y"), ("→", "to"), ("z", ""))
    )
    parts = [Part("a… b…c", 1), Part("…"), Part("..."), Part("z"), Part("z a")]
    assert replacer.parts(parts) == (
        Part("a... b...c", 1),
        Part("..."),
        Part("x"),
        Part("a"),
    )
    assert [each.count for each in replacer.counts] == [3, 1, 0, 0, 2]


def test_blanks_of_all_widths_are_one_blank(tmp_path: Path) -> None:
    path = tmp_path / "blanks.html"
    path.write_text(
        "<html><p>384&nbsp;400&thinsp;km\u200b\u2060 so\u00adft&#8232;a</html>"
    )
    assert read_manuscript(path).texts == ["384 400 km soft", "a"]


@pytest.mark.parametrize(
    "said, encoding",
    [
        ("<meta charset='windows-1252'>", "cp1252"),
        (
            "<meta http-equiv=Content-Type content='text/html; charset=ISO-8859-2'>",
            "latin2",
        ),
        ("<meta charset=none>", "utf-8"),
        ("<meta charset=utf-8>", "cp1252"),
        ("", "cp1252"),
        ("", "utf-8-sig"),
        ("<meta charset=undefined>", "utf-8"),
        ("<meta charset=undefined->", "utf-8"),
        ("<meta charset=-unicode_escape>", "utf-8"),
        ("<meta charset=unicode_escape>", "utf-8"),
        ("<meta charset=utf-16/>", "utf-8"),
        ("<meta charset=utf-16>", "utf-16"),
    ],
)
def test_pages_are_read_in_what_they_are_encoded(said: str, encoding: str) -> None:
    page = f"<html><head>{said}</head><p>Größe</p></html>".encode(encoding)
    assert read_document(page, ManuscriptKind.HTML).texts == ["Größe"]


@pytest.mark.parametrize(
    "said, page, text",
    [
        ("utf-8", "Größe ".encode() + b"\xa9", "Größe \ufffd"),
        ("none", "Größe ".encode() + b"\xa9", "Größe \ufffd"),
        ("windows-1251", "Луна ".encode("cp1251") + b"\x98", "Луна \ufffd"),
        # what says GB 2312 mostly is GBK
        ("gb2312", "月\N{EURO SIGN}镕".encode("gb18030"), "月\N{EURO SIGN}镕"),
        ("Shift_JIS", "月①".encode("cp932"), "月①"),
    ],
)
def test_a_byte_that_is_not_so_encoded_is_seen_and_changes_no_other_character(
    said: str, page: bytes, text: str
) -> None:
    head = f"<html><head><meta charset={said}></head><p>".encode()
    assert read_document(head + page, ManuscriptKind.HTML).texts == [text]


@pytest.mark.parametrize(
    "said, encoding, shown",
    [
        ("", "cp1251", ["Ëóíà é ñâåò"]),
        ("<meta charset=utf-8>", "cp1251", ["Ëóíà é ñâåò"]),
        ("<meta charset=none>", "cp1251", ["Ëóíà é ñâåò"]),
        ("<meta charset=windows-1251>", "cp1251", []),
        ("", "utf-8", []),
    ],
)
def test_a_page_whose_encoding_is_guessed_is_noted_by_words_that_may_be_others(
    tmp_path: Path, said: str, encoding: str, shown: list[str]
) -> None:
    body = "<title>Луна</title><p>The&nbsp;Moon</p><p>Луна <a href='#x'>&eacute;</a> свет</p>"
    page = f"<html><head>{said}</head><body>{body}</body></html>".encode(encoding)
    found = read_document(page, ManuscriptKind.HTML)
    assert lost(found, LossKind.GUESSED) == shown
    its = book_of(tmp_path / "moon.epub", "a b", {"a": page, "b": page})
    assert lost(read_manuscript(its), LossKind.GUESSED) == shown * 2
    if shown:
        lines = report_lines(tmp_path, Taken((), (), found))
        assert lines[1:3] == [
            "1 page is neither in UTF-8 nor in an encoding that it names, and is read as windows-1252: its letters may"
            " be others:",
            f"- “{shown[0]}”",
        ]


def test_no_encoding_of_a_page_is_noted_that_has_other_letters_in_no_print() -> None:
    page = "<html><title>Größe</title><!-- ü --><p>The moon</p></html>".encode("cp1252")
    assert read_document(page, ManuscriptKind.HTML).losses == ()


def test_a_container_of_epub_that_names_no_book_is_damaged(tmp_path: Path) -> None:
    parts = {"mimetype": EPUB, "META-INF/container.xml": NO_BOOK}
    with pytest.raises(NoDocument) as found:
        read_document(container_of(tmp_path / "moon", **parts), ManuscriptKind.EPUB)
    assert found.value.why is WhyNot.DAMAGED


@pytest.mark.parametrize("section", ["<![if !x]>", "<![endif]>", "<![foo>", "<![ >"])
def test_sections_of_a_page_that_nothing_knows_are_passed_over(section: str) -> None:
    page = f"<html><p>The {section}moon</p></html>".encode()
    found = read_document(page, ManuscriptKind.HTML)
    assert (found.texts, found.missing) == (["The moon"], ())


def test_a_picture_with_a_caption_has_its_description_too() -> None:
    picture = '<figure><img src="a.png" alt="A crater{}"><figcaption>Figure {}</figcaption></figure>'
    page = f"<html><body>{picture.format('', 1)}<p>{picture.format(' at noon', 2)}</p></body></html>"
    found = read_document(page.encode(), ManuscriptKind.HTML)
    assert found.texts == ["[A crater]", "Figure 1", "[A crater at noon]", "Figure 2"]
    assert found.missing == ()


def test_no_word_is_said_to_be_missing_since_it_is_parted_by_tags() -> None:
    names = "acronym strike nobr label time my-own marquee meter slot rt".split()
    inner = " ".join(f"<{name}>the</{name}>moon" for name in names)
    page = f'<html><p>{inner} a<img src="a.png" alt="old">moon</p></html>'
    found = read_document(page.encode(), ManuscriptKind.HTML)
    assert found.texts == [" ".join(["themoon"] * len(names)) + " a[old]moon"]
    assert found.missing == ()


def test_a_description_that_no_paragraph_has_is_a_word_that_is_missing() -> None:
    page = b'<html><p>The <img src="a.png" alt="old"> moon</p><pre><img alt="crater"/></pre></html>'
    found = read_document(page, ManuscriptKind.HTML)
    assert found.texts == ["The [old] moon"]
    assert found.missing == (Missing("crater", "", ""),)


@pytest.mark.parametrize("end", ["\n", "\r\n", "\r"])
@pytest.mark.parametrize(
    "kind, text",
    [
        (ManuscriptKind.MARKDOWN, "# The moon~~It is~far.~~Old.~"),
        (ManuscriptKind.HTML, "<html><h1>The moon</h1><p>It is~far.<p>Old.</html>"),
    ],
)
def test_a_line_ends_as_any_system_has_it(
    kind: ManuscriptKind, text: str, end: str
) -> None:
    found = read_document(text.replace("~", end).encode(), kind)
    assert found.texts == ["The moon", "It is far.", "Old."]


def test_a_large_first_letter_belongs_to_its_paragraph(tmp_path: Path) -> None:
    drop = '<w:p><w:pPr><w:framePr w:dropCap="drop" w:lines="3"/></w:pPr>{}</w:p>'
    body = drop.format(run("T")) + paragraph(run("wice a day.")) + paragraph(run("End"))
    found = read_manuscript(docx(tmp_path / "drop.docx", body))
    assert (found.texts, found.missing) == (["Twice a day.", "End"], ())


@pytest.mark.parametrize(
    "initial, rest, wanted",
    [
        ("I", " am here.", "I am here."),
        ("Once", " upon a time.", "Once upon a time."),
        ("A ", "man.", "A man."),
        ("“T", "he moon.", "“The moon."),
    ],
)
def test_a_drop_cap_is_one_word_with_what_follows_unless_a_blank_parts_them(
    tmp_path: Path, initial: str, rest: str, wanted: str
) -> None:
    frame = '<w:framePr w:dropCap="drop" w:lines="3"/>'
    body = paragraph(run(initial), properties=frame) + paragraph(run(rest))
    found = read_manuscript(docx(tmp_path / "a.docx", body + paragraph(run("End"))))
    assert (found.texts, found.missing) == ([wanted, "End"], ())
    assert found.losses == ()


@pytest.mark.parametrize(
    "initial, rest, words",
    [("Once", "upon a time.", ["Once"]), ("“I", "t rose.", []), ("“No”", "no.", [])],
)
def test_a_drop_cap_of_several_letters_without_a_blank_is_said_to_be_uncertain(
    tmp_path: Path, initial: str, rest: str, words: list[str]
) -> None:
    frame = '<w:framePr w:dropCap="margin" w:lines="2"/>'
    body = paragraph(run(initial), properties=frame) + paragraph(run(rest))
    found = read_manuscript(docx(tmp_path / "a.docx", body))
    assert (found.texts, found.missing) == ([f"{initial}{rest}"], ())
    assert lost(found, LossKind.INITIAL) == words


@pytest.mark.parametrize(
    "look, kind",
    [
        ("<w:b/>", LossKind.EMPHASIS),
        ("<w:vanish/>", LossKind.HIDDEN),
        ('<w:rStyle w:val="Big"/>', None),
    ],
)
def test_of_a_drop_cap_that_is_not_plain_it_is_said_that_it_may_be_a_word_of_its_own(
    tmp_path: Path, look: str, kind: LossKind | None
) -> None:
    frame = '<w:framePr w:dropCap="drop" w:lines="3"/>'
    body = paragraph(run("Egy ", look), properties=frame) + paragraph(run("nap."))
    found = read_manuscript(docx(tmp_path / "a.docx", body))
    assert found.texts == ["Egynap."]
    assert lost(found, LossKind.INITIAL) == ["Egy"]
    assert kind is None or len(lost(found, kind)) == 1


def test_a_drop_cap_that_is_a_word_stands_before_all_of_what_follows(
    tmp_path: Path,
) -> None:
    frame = '<w:framePr w:dropCap="drop" w:lines="3"/>'
    link = f'<w:hyperlink w:anchor="a">{run(" am")}</w:hyperlink>'
    gone = deleted(" was")
    for first, text in ((link, "I am here."), (gone, "I here.")):
        body = paragraph(run("I"), properties=frame)
        body += paragraph(first, run(" here."))
        found = read_manuscript(docx(tmp_path / "a.docx", body))
        assert (found.texts, found.missing) == ([text], ())


@pytest.mark.parametrize("initial", ["Zebra", "The end ", "Q"])
def test_a_drop_cap_after_which_nothing_comes_is_said_to_be_missing(
    tmp_path: Path, initial: str
) -> None:
    frame = '<w:framePr w:dropCap="drop" w:lines="3"/>'
    body = paragraph(run("The moon")) + paragraph(run(initial), properties=frame)
    found = read_manuscript(docx(tmp_path / "a.docx", body))
    assert found.texts == ["The moon"]
    assert [each.words for each in found.missing] == [initial.strip()]


def test_tags_of_a_page_are_no_print_that_is_lost(tmp_path: Path) -> None:
    path = tmp_path / "tags.md"
    path.write_text("<nav>\n\nThe moon\n\n</nav>\n\n\\newpage\n")
    found = read_manuscript(path)
    assert found.texts == ["The moon"]
    assert lost(found, LossKind.RAW) == ["\\newpage"]


PACKAGE = (
    '<package xmlns="http://www.idpf.org/2007/opf" version="3.0"><metadata/><manifest>'
    '<item id="a" href="a%20b.xhtml" media-type="application/xhtml+xml"/>'
    '<item id="n" href="nav.xhtml" media-type="application/xhtml+xml" properties="nav"/>'
    '<item id="z" href="z.xhtml" media-type="application/xhtml+xml"/></manifest>'
    '<spine><itemref idref="n" linear="no"/><itemref idref="a"/><itemref idref="z" linear="no"/></spine>'
    "</package>"
)
PAGE = (
    '<html xmlns="http://www.w3.org/1999/xhtml" xmlns:epub="http://www.idpf.org/2007/ops"><body>'
    "{}</body></html>"
)
ROOT = (
    '<container xmlns="urn:oasis:names:tc:opendocument:xmlns:container" version="1.0"><rootfiles>'
    '<rootfile full-path="in/book.opf" media-type="application/oebps-package+xml"/></rootfiles>'
    "</container>"
)


def test_a_book_in_epub_has_its_title_page_and_its_notes(tmp_path: Path) -> None:
    first = (
        '<section epub:type="frontmatter titlepage"><h1>The Moon</h1><p>Anna</p></section>'
        '<p>Far.<a epub:type="noteref" href="#n1">1</a> Old.<a href="#x" role="doc-noteref">2</a>'
        '</p><aside epub:type="footnote" id="n1"><p>Very far.</p></aside>'
    )
    parts = {
        "mimetype": EPUB,
        "META-INF/container.xml": ROOT,
        "in/book.opf": PACKAGE,
        "in/a b.xhtml": PAGE.format(first),
        "in/nav.xhtml": PAGE.format('<nav epub:type="toc"><ol><li>One</li></ol></nav>'),
        "in/z.xhtml": PAGE.format("<p>Aside</p>"),
    }
    container_of(tmp_path / "moon.epub", **parts)
    found = read_manuscript(tmp_path / "moon.epub")
    assert found.texts[:2] == ["The Moon", "Anna"]
    assert "Very far." in " ".join(found.texts)
    assert found.texts[-1] == "Aside"
    assert found.missing == ()
    assert lost(found, LossKind.CONTENTS) == ["One"]


@pytest.mark.parametrize("name", ["in/../off/a b.xhtml", "off/a b.xhtml"])
def test_a_book_in_epub_may_have_its_pages_beside_the_folder_of_its_list(
    tmp_path: Path, name: str
) -> None:
    parts = {
        "mimetype": EPUB,
        "META-INF/container.xml": ROOT,
        "in/book.opf": PACKAGE.replace("a%20b", "../off/a%20b").replace("z.x", "./z.x"),
        name: PAGE.format('<p>Far<a href="../in/z.xhtml#n" id="m">1</a>.</p>'),
        "in/nav.xhtml": PAGE.format("<nav/>"),
        "in/z.xhtml": PAGE.format(
            '<p id="n"><a href="../off/a%20b.xhtml#m">1</a> Very.</p>'
        ),
    }
    container_of(tmp_path / "moon.epub", **parts)
    found = read_manuscript(tmp_path / "moon.epub")
    assert (found.texts, found.missing) == (["Far[1].", "[1: Very.]"], ())


def test_pages_outside_of_the_order_of_reading_are_typed_and_named(
    tmp_path: Path,
) -> None:
    package = (
        '<o:package xmlns:o="http://www.idpf.org/2007/opf" version="3.0"><o:metadata/>'
        '<o:manifest><o:item id="a" href="a.xhtml" media-type="{0}"/>'
        '<o:item id="b" href="b.xhtml" media-type="{0}"/>'
        '<o:item id="n" href="notes/n.xhtml" media-type="{0}"/>'
        '<o:item id="t" href="t.xhtml" media-type="{0}" properties="nav"/>'
        '<o:item id="g" href="gone.xhtml" media-type="{0}"/></o:manifest>'
        '<o:spine><o:itemref idref="a"/><o:itemref idref="b" linear="no"/></o:spine></o:package>'
    ).format("application/xhtml+xml")
    parts = {
        "mimetype": EPUB,
        "META-INF/container.xml": ROOT,
        "in/book.opf": package,
        "in/a.xhtml": PAGE.format(
            '<p>Far.<a epub:type="noteref" href="notes/n.xhtml#n1">1</a> Old.</p>'
        ),
        "in/b.xhtml": PAGE.format("<p>The answers</p>"),
        "in/notes/n.xhtml": PAGE.format('<p id="n1">1. Very far.</p><p>More</p>'),
        "in/t.xhtml": PAGE.format('<nav epub:type="toc"><ol><li>One</li></ol></nav>'),
    }
    container_of(tmp_path / "moon.epub", **parts)
    found = read_manuscript(tmp_path / "moon.epub")
    assert found.texts == ["Far.[1] Old.", "[1: Very far.]", "The answers", "More"]
    assert found.missing == ()
    assert lost(found, LossKind.ASIDE) == ["The answers", "1. Very far. More"]
    assert lost(found, LossKind.CONTENTS) == ["One"]


def test_a_page_of_two_names_is_typed_once_and_no_link_leads_to_a_namesake(
    tmp_path: Path,
) -> None:
    item = '<item id="{0}" href="{1}.xhtml" media-type="application/xhtml+xml"/>'
    names = ["a x/a", "a2 x/a", "nx x/n", "nx2 x/n", "ny y/n"]
    package = (
        '<package xmlns="http://www.idpf.org/2007/opf" version="3.0"><metadata/><manifest>'
        + "".join(item.format(*name.split()) for name in names)
        + '</manifest><spine><itemref idref="a"/></spine></package>'
    )
    parts = {
        "mimetype": EPUB,
        "META-INF/container.xml": ROOT,
        "in/book.opf": package,
        "in/x/a.xhtml": PAGE.format(
            '<p>Far.<a epub:type="noteref" href="../y/n.xhtml#n1">1</a></p>'
        ),
        "in/x/n.xhtml": PAGE.format('<p id="n1">Of another</p>'),
        "in/y/n.xhtml": PAGE.format('<p id="n1">Very far.</p>'),
    }
    container_of(tmp_path / "moon.epub", **parts)
    found = read_manuscript(tmp_path / "moon.epub")
    assert "Far.[1]" not in found.texts
    assert found.texts[1:] == ["Of another", "Very far."]
    assert lost(found, LossKind.ASIDE) == ["Of another", "Very far."]


def book_of(path: Path, order: str, pages: dict[str, bytes], sheet: str = "") -> Path:
    """A book in EPUB of some pages, each with its name, an order of reading, and a style sheet."""
    items = "".join(
        f'<item id="{name}" href="{name}.xhtml" media-type="application/xhtml+xml"/>'
        for name in pages
    )
    references = "".join(f'<itemref idref="{name}"/>' for name in order.split())
    package = (
        '<package xmlns="http://www.idpf.org/2007/opf" version="3.0"><metadata/>'
        f"<manifest>{items}</manifest><spine>{references}</spine></package>"
    )
    with zipfile.ZipFile(path, "w") as container:
        container.writestr("mimetype", EPUB)
        container.writestr("META-INF/container.xml", ROOT)
        container.writestr("in/book.opf", package)
        for name, page in pages.items():
            container.writestr(f"in/{name}.xhtml", page)
        container.writestr("styles/a sheet.css", sheet)
    return path


def test_lists_of_a_book_whose_sheet_hides_their_numbers_are_noted(
    tmp_path: Path,
) -> None:
    link = '<link rel="stylesheet" href="../styles/a%20sheet.css"/>'
    page = PAGE.format("<ol><li>One</li></ol>")
    pages = {
        "a": page.replace("<body>", f"<head>{link}</head><body>").encode(),
        "b": page.replace("One", "Two").encode(),
        "c": page.replace("<body>", '<head><link rel="stylesheet" href="x"/></head>')
        .replace("One", "Three")
        .encode(),
    }
    sheet = "ol { list-style: none }"
    found = read_manuscript(book_of(tmp_path / "moon.epub", "a b c", pages, sheet))
    assert found.texts == ["1. One", "1. Two", "1. Three"]
    assert lost(found, LossKind.LIST) == ["One"]


def test_a_sheet_that_a_book_lacks_is_said_once_not_to_be_read(tmp_path: Path) -> None:
    link = '<head><link rel="stylesheet" href="{}"/></head><body>'
    page = PAGE.format("<p>One</p>")
    addresses = {"a": "x.css", "b": "./x.css", "c": "../styles/a%20sheet.css"}
    pages = {
        name: page.replace("<body>", link.format(address)).encode()
        for name, address in addresses.items()
    }
    found = read_manuscript(book_of(tmp_path / "moon.epub", "a b c", pages))
    assert lost(found, LossKind.STYLES) == ["x.css"]


def test_a_sheet_that_a_book_lacks_and_another_imports_is_said_not_to_be_read_beside_the_rules_that_are(
    tmp_path: Path,
) -> None:
    path = tmp_path / "moon.epub"
    fonts = "https://fonts.example/css?family=Moon"
    imports = f"@import url({fonts}); @import 'b/b.css'; @import 'x.css';"
    sheets = {"a.css": imports + NONE, "b/b.css": "@import '../x.css';"}
    link = "<link rel='stylesheet' href='{}'/>"
    found = of_sheets(path, sheets, link.format("a.css") + link.format("b/b.css"))
    assert lost(found, LossKind.STYLES) == [fonts, "../x.css"]
    assert lost(found, LossKind.LIST) == ["One"]
    # one to which a page leads as well is said as that names it
    found = of_sheets(path, sheets, link.format("a.css") + link.format("x.css"))
    assert lost(found, LossKind.STYLES) == ["x.css", fonts]


def test_a_sheet_to_which_many_pages_link_is_read_once(
    tmp_path: Path, monkeypatch: pytest.MonkeyPatch
) -> None:
    link = '<head><link rel="stylesheet" href="../styles/a%20sheet.css"/></head>'
    page = PAGE.format("<ol><li>One</li></ol>").replace("<body>", f"{link}<body>")
    pages = {name: page.encode() for name in "abc"}
    path = book_of(tmp_path / "moon.epub", "a b c", pages, "ol { list-style: none }")
    parts: list[str] = []

    def part_of(container: zipfile.ZipFile, name: str) -> bytes:
        parts.append(name)
        return container.read(name)

    monkeypatch.setattr(contents, "part_of", part_of)
    found = contents.contents_of(path.read_bytes(), ManuscriptKind.EPUB)
    assert [each.words for each in found.numbers] == ["One"] * 3
    assert parts.count("styles/a sheet.css") == 1


def test_the_rules_of_a_sheet_are_ordered_once_for_all_pages_and_as_far_as_a_limit(
    tmp_path: Path, monkeypatch: pytest.MonkeyPatch
) -> None:
    link = '<head><link rel="stylesheet" href="../styles/a%20sheet.css"/></head>'
    page = PAGE.format("<p><span class='c1'>One</span> two</p>")
    pages = {name: page.replace("<body>", f"{link}<body>").encode() for name in "abc"}
    sheet = "".join(f".c{number} {{ font-style: italic }} " for number in range(50))
    path = book_of(tmp_path / "moon.epub", "a b c", pages, sheet)
    ordered: list[int] = []
    add = style_sheets._Index.add

    def counted(
        index: style_sheets._Index, number: int, rule: style_sheets.Rule
    ) -> None:
        ordered.append(number)
        add(index, number, rule)

    monkeypatch.setattr(style_sheets._Index, "add", counted)
    data = path.read_bytes()
    found = contents.contents_of(data, ManuscriptKind.EPUB).losses
    assert [(each.what, each.words) for each in found] == [
        (LossKind.EMPHASIS, "One")
    ] * 3
    assert ordered == [*range(50)]
    monkeypatch.setattr(style_sheets, "_OF_ORDER", style_sheets._MOST_STEPS)
    ordered.clear()
    found = contents.contents_of(data, ManuscriptKind.EPUB).losses
    assert [each.what for each in found] == [LossKind.STYLES]
    assert ordered == []


def test_rules_of_sheets_and_of_a_page_go_before_each_other_as_they_stand_there(
    tmp_path: Path,
) -> None:
    path = tmp_path / "moon.epub"
    link, own = "<link rel='stylesheet' href='a.css'/>", "<style>{}</style>"
    plain, none = (
        own.format(f"ol {{{{ list-style: {each} }}}}") for each in ("decimal", "none")
    )
    for head, words in (
        (link + plain, []),
        (plain + link, ["One"]),
        (link + plain + link, ["One"]),
        (plain + link + plain, []),
        (link + plain + none, ["One"]),
    ):
        assert lost(of_sheets(path, {"a.css": NONE}, head), LossKind.LIST) == words


def test_what_a_text_in_odt_computes_is_typed_as_it_is_shown(tmp_path: Path) -> None:
    text = (
        "<text:p>On <text:date>3 May</text:date>, in “<text:chapter>The &amp; Sea"
        '</text:chapter>”, <text:variable-set text:display="none">7</text:variable-set> '
        "<text:expression>12</text:expression> of <text:page-count>9</text:page-count>.</text:p>"
    )
    found = read_manuscript(odt(tmp_path / "a.odt", text))
    assert found.texts == ["On 3 May, in “The & Sea”, 12 of 9."]
    assert [each.words for each in found.missing] == ["7"]


def test_places_of_a_text_in_odt_that_are_to_be_filled_in_are_typed_as_shown(
    tmp_path: Path,
) -> None:
    place = (
        '<text:placeholder text:placeholder-type="text">&lt;{}&gt;</text:placeholder>'
    )
    text = f"<text:p>Dear {place.format('Title')}{place.format('Name')},</text:p>"
    found = read_manuscript(odt(tmp_path / "a.odt", text))
    assert (found.texts, found.missing) == (["Dear <Title><Name>,"], ())


def test_formulas_of_an_odt_that_pandoc_wrote_are_typed(tmp_path: Path) -> None:
    path = tmp_path / "moon.odt"
    words = ["pandoc", "--from", "markdown", "--output", str(path)]
    subprocess.run(words, input=b"Near $x$ and $y + 1$.", check=True)
    found = read_manuscript(path)
    assert found.texts == ["Near x and y + 1."]
    assert lost(found, LossKind.MATHEMATICS) == ["x", "y + 1"]


def test_words_of_an_odt_that_stand_apart_are_no_part_of_others(
    tmp_path: Path, monkeypatch: pytest.MonkeyPatch
) -> None:
    # which would type some of them
    monkeypatch.setattr(pandoc, "office", lambda: None)
    picture = "<svg:title>A</svg:title><svg:desc>crater</svg:desc>"
    text = (
        f"<text:p>On<draw:frame>{picture}</draw:frame> or near<draw:frame>{picture}</draw:frame>"
        " the Moon</text:p>"
    )
    found = read_manuscript(odt(tmp_path / "a.odt", text))
    words = [*"".join(found.texts).split(), *(each.words for each in found.missing)]
    assert " ".join(words) == "On or near the Moon A crater A crater"


def test_readings_of_characters_in_an_odt_are_typed_in_brackets(
    tmp_path: Path, monkeypatch: pytest.MonkeyPatch
) -> None:
    # which would type them too
    monkeypatch.setattr(pandoc, "office", lambda: None)

    def ruby(base: str, reading: str) -> str:
        its = f"<text:ruby-base>{base}</text:ruby-base>{reading}"
        return f'<text:ruby text:style-name="Ru1">{its}</text:ruby>'

    reading = '<text:ruby-text text:style-name="Reading">{}</text:ruby-text>'
    bold = ruby("<text:span>a &amp; b</text:span>", reading.format(" c &lt; d "))
    text = (
        f"<text:p>One {ruby('kan', reading.format('ji'))}{ruby('far', reading.format(''))}"
        f" {bold}, two</text:p><text:h>{ruby('near', '')}</text:h>"
    )
    found = read_manuscript(odt(tmp_path / "a.odt", text))
    assert found.texts == ["One kan(ji)far a & b(c < d), two", "near"]
    assert found.missing == ()


def test_an_odt_may_have_no_styles(tmp_path: Path) -> None:
    whole = odt(tmp_path / "a.odt", "<text:h>One</text:h><text:p>Two</text:p>")
    with zipfile.ZipFile(whole) as container:
        parts = {name: container.read(name).decode() for name in container.namelist()}
    del parts["styles.xml"]
    container_of(tmp_path / "b.odt", **parts)
    assert read_manuscript(tmp_path / "b.odt").texts == ["One", "Two"]


def test_words_of_an_odt_that_a_condition_hides_are_missing(tmp_path: Path) -> None:
    hidden = '<text:hidden-text text:condition="ooow:" text:string-value="Not seen"'
    text = f"<text:p>Seen{hidden}/> or {hidden}>Not seen</text:hidden-text></text:p>"
    found = read_manuscript(odt(tmp_path / "a.odt", text))
    shown = "".join(found.texts)
    words = [each.words for each in found.missing]
    assert shown.count("Not seen") + words.count("Not seen") == 2


def test_a_picture_in_a_table_is_found_by_the_words_before_the_table() -> None:
    page = "<html><p>Near it.</p><table><tr><td><img src=a.png><td>x</table></html>"
    found = read_document(page.encode(), ManuscriptKind.HTML)
    around = [each.around for each in found.losses if each.what is LossKind.PICTURE]
    assert around == ["Near it."]


def test_words_in_odt_are_emphasized_by_what_their_style_is_based_on(
    tmp_path: Path,
) -> None:
    def style(name: str, base: str, said: str = "") -> str:
        properties = f"<style:text-properties {said}/>" if said else ""
        return (
            f'<style:style style:name="{name}" style:family="text"'
            f' style:parent-style-name="{base}">{properties}</style:style>'
        )

    named = style("Oblique", "Round", 'fo:font-style="italic"')
    named += style("Round", "Oblique") + style("Far", "Round") + style("Odd", "None")
    own = style("Red", "Far", 'fo:color="#ff0000"') + style("Bare", "Red")
    own += style("Upright", "Far", 'fo:font-style="normal"')
    own += style("Raised", "Far", 'style:text-position="super 58%"')
    text = "".join(
        f'<text:p><text:span text:style-name="{name}">{name}</text:span> end</text:p>'
        for name in ("Oblique", "Far", "Red", "Bare", "Upright", "Raised")
    )
    sloped = style("Sloped", "None", 'fo:font-style="italic"') + style(
        "Whole", "Sloped"
    )
    named += sloped.replace('"text"', '"paragraph"')
    text += '<text:p text:style-name="Whole">All of it</text:p>'
    text += '<text:h text:outline-level="1" text:style-name="Whole">A heading</text:h>'
    found = read_manuscript(odt(tmp_path / "a.odt", text, own, named))
    emphasized = ["Oblique", "Far", "Red", "Bare", "Raised", "All of it"]
    assert lost(found, LossKind.EMPHASIS) == emphasized
    assert lost(found, LossKind.SUPERSCRIPT) == ["Raised"]


def test_words_of_an_odt_in_the_letters_of_a_typewriter_are_not_said_to_be_emphasized(
    tmp_path: Path,
) -> None:
    style = '<style:style style:name="{}" style:family="text"><style:text-properties {}/></style:style>'
    pitch = 'style:font-pitch="fixed"'
    named = style.format("Source", pitch) + style.format("Font", 'style:font-name="M"')
    named += style.format("Bold", f'{pitch} fo:font-weight="bold"')
    text = "".join(
        f'<text:p>In <text:span text:style-name="{name}">{name}</text:span> end</text:p>'
        for name in ("Source", "Font", "Own", "Bold")
    )
    path = odt(tmp_path / "a.odt", text, style.format("Own", pitch), named)
    face = f'<office:font-face-decls><style:font-face style:name="M" {pitch}/></office:font-face-decls>'
    with zipfile.ZipFile(path) as container:
        parts = {each: container.read(each) for each in container.namelist()}
    front = b"<office:styles>"
    assert front in parts["styles.xml"]
    parts["styles.xml"] = parts["styles.xml"].replace(front, face.encode() + front)
    with zipfile.ZipFile(path, "w") as container:
        for each, part in parts.items():
            container.writestr(each, part)
    found = read_manuscript(path)
    assert found.texts == ["In Source end", "In Font end", "In Own end", "In Bold end"]
    assert lost(found, LossKind.EMPHASIS) == ["Bold"]


def test_a_paragraph_of_an_odt_is_noted_that_is_emphasized_by_its_style_but_headings(
    tmp_path: Path,
) -> None:
    def style(name: str, base: str, said: str = "") -> str:
        return (
            f'<style:style style:name="{name}" style:family="paragraph" style:parent-style-name="{base}">'
            f"<style:text-properties {said}/></style:style>"
        )

    bold, plain = 'fo:font-weight="bold"', 'fo:font-weight="normal"'
    styles = style("Warning", "Body", bold) + style("Calm", "Warning", plain)
    styles += style("Title", "Body", bold) + style("Table_20_Heading", "Body", bold)
    own = style("P1", "Warning") + style("P2", "Body", 'fo:font-weight="600"')
    own += style("P3", "Calm") + style("P4", "Body", 'fo:font-variant="small-caps"')
    own += style("P5", "Body", 'fo:text-transform="uppercase"')
    own += style("P6", "Body", 'style:text-underline-style="solid"')
    own += style("P7", "P6", 'style:text-underline-style="none"')
    own += style("P8", "Table_20_Heading") + style("P9", "Table_20_Heading", bold)
    own += style("P0", "Warning", 'text:display="true"')
    names = ("Calm", "Title", "Table_20_Heading", *(f"P{n}" for n in range(10)))
    text = "".join(
        f'<text:p text:style-name="{name}">In {name}</text:p>' for name in names
    )
    text += '<text:h text:outline-level="1" text:style-name="P1">A heading</text:h>'
    # one that is struck out is said, whatever else it is, but for words that aren't
    struck = 'style:text-line-through-style="{}"'
    own += style("H1", "Warning", struck.format("solid"))
    left = style("Left", "", struck.format("none")).replace('"paragraph"', '"text"')
    span = '<text:span text:style-name="Left"> left</text:span>'
    text += f'<text:h text:outline-level="1" text:style-name="H1">Struck{span}</text:h>'
    found = read_manuscript(odt(tmp_path / "a.odt", text, own + left, styles))
    emphasized = [f"In {name}" for name in "P0 P1 P2 P4 P5 P6 P9".split()]
    emphasized.append("Struck")
    assert lost(found, LossKind.EMPHASIS) == emphasized


def test_words_that_are_plain_in_an_emphasized_paragraph_of_an_odt_are_not_noted(
    tmp_path: Path,
) -> None:
    style = '<style:style style:name="{}" style:family="{}"><style:text-properties fo:font-weight="{}"/></style:style>'
    own = style.format("P1", "paragraph", "bold") + style.format(
        "Plain", "text", "normal"
    )
    own += style.format("Bold", "text", "bold")
    words = '<text:span text:style-name="{}">{}</text:span>'
    inner = "<text:note-citation>1</text:note-citation><text:note-body><text:p>A note</text:p></text:note-body>"
    text = (
        f"One<text:tab/>two{words.format('Plain', ' three ' + words.format('Bold', 'four') + ' five ')}six"
        f"<text:note>{inner}</text:note>{words.format('', ' seven')}"
    )
    text = f'<text:p text:style-name="P1">{text}</text:p>'
    found = read_manuscript(odt(tmp_path / "a.odt", text, own))
    assert found.texts[0] == "One two three four five six[1] seven"
    assert sorted(lost(found, LossKind.EMPHASIS)) == [
        "One two",
        "four",
        "four",
        "six seven",
    ]


def test_each_style_of_an_odt_is_looked_at_once_however_many_are_based_on_it(
    monkeypatch: pytest.MonkeyPatch,
) -> None:
    address = "urn:oasis:names:tc:opendocument:xmlns:style:1.0"
    styles = "".join(
        f'<s:style s:name="{n}" s:family="text" s:parent-style-name="{n + 1}"/>'
        for n in range(100)
    )
    root = ElementTree.fromstring(f'<r xmlns:s="{address}">{styles}</r>')
    looked_at: list[str | None] = []
    emphasis = styles_of_odt._emphasis

    def noted(style: ElementTree.Element) -> dict[str, str]:
        looked_at.append(style.get(f"{{{address}}}name"))
        return emphasis(style)

    monkeypatch.setattr(styles_of_odt, "_emphasis", noted)
    assert len(styles_of_odt.Styles("text", root).written(root)) == 100
    assert len(looked_at) == 100


def test_a_further_number_of_a_note_in_odt_is_that_of_the_note(tmp_path: Path) -> None:
    def noted(name: str, shown: str) -> str:
        inner = f"<text:note-citation>{shown}</text:note-citation><text:note-body><text:p>Of {name}."
        return (
            f'<text:note text:id="{name}">{inner}</text:p></text:note-body></text:note>'
        )

    def again(name: str, shown: str, form: str = "text") -> str:
        return (
            f'<text:note-ref text:reference-format="{form}" text:ref-name="{name}">{shown}'
            "</text:note-ref>"
        )

    text = (
        f"<text:p>A{noted('a', '1')} b{noted('b', 'i')} c{again('b', 'i')}, page"
        f" {again('a', '7', 'page')}.</text:p><text:p>d {again('x', '9')}</text:p>"
    )
    found = read_manuscript(odt(tmp_path / "a.odt", text))
    assert found.texts == [
        "A[1] b[2] c[2], page 7.",
        "[1: Of a.]",
        "[2: Of b.]",
        "d 9",
    ]
    assert found.missing == ()


def of_sheets(path: Path, sheets: dict[str, str], head: str = "") -> Manuscript:
    """A book of a page with two lists and a heading, of which ``a.css`` says something, and other sheets."""
    body = "<h2>Two</h2><ol class='x'><li>One</li></ol>"
    link = head or "<link rel='stylesheet' href='a.css'/>"
    page = PAGE.replace("<body>", f"<head>{link}</head><body>").format(body)
    book_of(path, "a", {"a": page.encode()})
    with zipfile.ZipFile(path, "a") as container:
        for name, sheet in sheets.items():
            container.writestr(f"in/{name}", sheet)
    return read_manuscript(path)


NONE = "ol { list-style: none }"
COUNT = "h2:before { content: counter(part) }"


@pytest.mark.parametrize(
    "sheets",
    [
        {"a.css": "@import 'b.css';", "b.css": NONE},
        {
            "a.css": "/* @import 'c.css'; */ @import url(\"b/b.css\") print;",
            "b/b.css": NONE,
        },
        {"a.css": "@IMPORT url( b%20c.css );@import 'x.css'", "b c.css": NONE},
        {
            "a.css": "@charset 'utf-8'; @import url(b/b.css) layer(old) ;",
            "b/b.css": "@import '../a.css'; @import 'c.css';",
            "b/c.css": "@import 'b.css'; " + NONE,
        },
        {
            "a.css": "@import 'b.css'; .x { list-style: none }",
            "b.css": ".x { list-style: decimal }",
        },
    ],
)
def test_lists_are_noted_whose_numbers_a_sheet_hides_that_another_imports(
    tmp_path: Path, sheets: dict[str, str]
) -> None:
    found = of_sheets(tmp_path / "moon.epub", sheets)
    assert lost(found, LossKind.LIST) == ["One"]
    assert lost(found, LossKind.SHEET) == []


def test_a_sheet_is_imported_for_print_before_its_own_rules_and_from_a_page(
    tmp_path: Path,
) -> None:
    path = tmp_path / "moon.epub"
    sheets = {"a.css": "@import 'b.css' screen; @import 'c.css';", "b.css": NONE}
    sheets |= {"c.css": "p { color: red } @import 'b.css';"}
    assert lost(of_sheets(path, sheets), LossKind.LIST) == []
    style = "<style>@import 'b.css'; @import 'd.css' all;</style>"
    found = of_sheets(path, {"b.css": NONE, "d.css": COUNT}, style)
    assert lost(found, LossKind.LIST) == ["One"]
    assert lost(found, LossKind.NUMBER) == ["Two"]


@pytest.mark.parametrize("media, words", [("screen", []), ("Print, tv", ["One"])])
def test_a_sheet_that_is_not_for_print_says_nothing_of_a_page_that_has_it_or_links_to_it(
    tmp_path: Path, media: str, words: list[str]
) -> None:
    path, its = tmp_path / "moon.epub", f"media='{media}'"
    link = f"<link rel='stylesheet' href='a.css' {its}/>"
    for head in (link, f"<style {its}>@import 'a.css';</style>"):
        assert lost(of_sheets(path, {"a.css": NONE}, head), LossKind.LIST) == words
        # nor is one missed that isn't there
        assert len(lost(of_sheets(path, {}, head), LossKind.STYLES)) == len(words)
    head = f"<style {its}>ol {{{{ list-style: none }}}}</style>"
    assert lost(of_sheets(path, {}, head), LossKind.LIST) == words


def test_sheets_that_import_others_without_end_or_have_too_many_rules_are_not_read(
    tmp_path: Path, monkeypatch: pytest.MonkeyPatch
) -> None:
    monkeypatch.setattr("braildesk.desk.documents.sheets._MOST_RULES", 2)
    path = tmp_path / "moon.epub"
    sheets = {f"{n}.css": f"@import '{n + 1}.css';" for n in range(9)}
    found = of_sheets(path, {"a.css": "@import '0.css';", "9.css": NONE, **sheets})
    assert (lost(found, LossKind.LIST), lost(found, LossKind.SHEET)) == ([], ["One"])
    sheets = {f"{n}.css": "" for n in range(99)}
    imported = "".join(f"@import '{name}';" for name in sheets)
    for more, why in (("", []), ("@import 'b.css';", ["One"])):
        found = of_sheets(path, {"a.css": imported + more, "b.css": NONE, **sheets})
        assert lost(found, LossKind.SHEET) == why
    found = of_sheets(path, {"a.css": "@import 'b.css';", "b.css": NONE * 3})
    assert (lost(found, LossKind.LIST), lost(found, LossKind.SHEET)) == ([], ["One"])


@pytest.mark.parametrize("name", ["iso-8859-1", "windows-1252", "utf-8"])
@pytest.mark.parametrize("is_so", [True, False])
def test_a_page_that_says_in_what_it_is_encoded_has_no_word_missing(
    tmp_path: Path, name: str, is_so: bool
) -> None:
    path = tmp_path / "a.html"
    page = f"<html><meta charset='{name}'><p>Größe</p></html>"
    path.write_bytes(page.encode(name if is_so else "utf-8"))
    found = read_manuscript(path)
    assert (found.texts, found.missing) == (["Größe"], ())


def test_a_note_within_one_word_leaves_no_word_missing(tmp_path: Path) -> None:
    body = paragraph(run("Sea"), note(1), run("side"))
    typed = ["Sea[1]side", "[1: A note.]"]
    found = read_manuscript(docx(tmp_path / "a.docx", body, [(1, "A note.")]))
    assert (found.texts, found.missing) == (typed, ())
    inner = "<text:note-citation>1</text:note-citation><text:note-body><text:p>A note."
    noted = f'<text:note text:note-class="footnote">{inner}</text:p></text:note-body>'
    path = odt(tmp_path / "a.odt", f"<text:p>Sea{noted}</text:note>side</text:p>")
    found = read_manuscript(path)
    assert (found.texts, found.missing) == (typed, ())


def test_pages_of_a_book_are_read_in_what_they_are_encoded(tmp_path: Path) -> None:
    said = "<?xml version='1.0' encoding='{}'?>" + PAGE.format("<p>Größe {}</p>")
    pages = {
        "a": said.format("utf-8", "a").encode(),
        "b": said.format("iso-8859-1", "b").encode("latin1"),
        "c": said.format("utf-16", "c").encode("utf-16"),
        "d": PAGE.format("<p>Größe d</p>").encode("cp1252"),
        "e": b"<html><p>\x81\x8d\xff</p></html>",
    }
    found = read_manuscript(book_of(tmp_path / "moon.epub", "a b", pages))
    assert found.texts == ["Größe a", "Größe b", "Größe c", "Größe d"]
    assert found.missing == ()
    assert lost(found, LossKind.ASIDE) == ["Größe c", "Größe d"]
    assert lost(found, LossKind.UNREAD) == ["in/e.xhtml"]


def test_a_page_that_the_order_of_reading_has_twice_is_typed_once(
    tmp_path: Path,
) -> None:
    pages = {
        name: PAGE.format(f"<p>The {name}</p>").encode()
        for name in ("moon", "sea", "tide")
    }
    path = book_of(tmp_path / "moon.epub", "moon sea gone moon tide", pages)
    found = read_manuscript(path)
    assert (found.texts, found.missing) == (["The moon", "The sea", "The tide"], ())
    assert lost(found, LossKind.REPEATED) == ["The moon"]


def test_a_book_may_name_places_of_its_pages_in_their_order(tmp_path: Path) -> None:
    pages = {
        name: PAGE.format(f"<p>The {name}</p>").encode() for name in ("moon", "sea")
    }
    path = book_of(tmp_path / "moon.epub", "moon moon2 sea", pages)
    with zipfile.ZipFile(path) as container:
        parts = {name: container.read(name) for name in container.namelist()}
    package = parts["in/book.opf"].decode()
    item = '<item id="moon2" href="moon.xhtml#b" media-type="application/xhtml+xml"/>'
    package = package.replace("<manifest>", f"<manifest>{item}")
    package = package.replace("moon.xhtml", "moon.xhtml#a", 2).replace("#a#b", "#b")
    parts["in/book.opf"] = package.encode()
    with zipfile.ZipFile(path, "w") as container:
        for name, part in parts.items():
            container.writestr(name, part)
    found = read_manuscript(path)
    assert (found.texts, found.missing) == (["The moon", "The sea"], ())
    assert lost(found, LossKind.REPEATED) == ["The moon"]


def test_attributes_of_a_page_may_have_the_signs_of_tags(tmp_path: Path) -> None:
    page = (
        '<p id="x" title="a>b">One</p><p title="<p id=\'y\'>">Two</p>'
        '<aside title="</aside>c>d"><p>Three</p></aside><!-- <p id="z"> --><p>Four</p>'
        '<p>Far<a title=">" epub:type="noteref" href="../x/b.xhtml#n">1</a></p>'
    )
    pages = {
        "a": PAGE.format(page).encode(),
        "b": PAGE.format('<p title=">" id="n">1. Very.</p>').encode(),
    }
    found = read_manuscript(book_of(tmp_path / "moon.epub", "a b", pages))
    assert found.texts == ["One", "Two", "Three", "Four", "Far[1]", "[1: Very.]"]
    assert found.missing == ()


def test_tags_with_their_signs_in_attributes_are_no_print(tmp_path: Path) -> None:
    path = tmp_path / "tags.md"
    path.write_text('<img alt="" title="a>b">\n\nThe moon\n')
    found = read_manuscript(path)
    assert (found.texts, lost(found, LossKind.RAW)) == (["The moon"], [])


def test_a_text_in_odt_that_is_hidden_or_deleted_or_at_the_edge_is_noted(
    tmp_path: Path,
) -> None:
    names = " ".join(
        f'xmlns:{name}="urn:oasis:names:tc:opendocument:xmlns:{name}:1.0"'
        for name in ("office", "style", "text")
    )
    content = (
        f"<office:document-content {names}><office:automatic-styles>"
        '<style:style style:name="H" style:family="text"><style:text-properties'
        ' text:display="none"/></style:style></office:automatic-styles><office:body><office:text>'
        '<text:tracked-changes><text:changed-region text:id="d"><text:deletion><text:p>Gone</text:p>'
        "</text:deletion></text:changed-region></text:tracked-changes>"
        '<text:p>Seen <text:span text:style-name="H">veiled</text:span> words'
        "<office:annotation><text:p>Check</text:p></office:annotation></text:p>"
        "loose<text:span>stray <text:span>word</text:span></text:span>"
        "</office:text></office:body></office:document-content>"
    )
    styles = (
        f"<office:document-styles {names}><office:master-styles><style:master-page><style:footer>"
        "<text:p>Foot</text:p><text:p>12</text:p></style:footer></style:master-page>"
        "</office:master-styles></office:document-styles>"
    )
    container_of(
        path := tmp_path / "moon.odt",
        **{"mimetype": ODT, "content.xml": content, "styles.xml": styles},
    )
    found = read_manuscript(path)
    assert found.texts[0].startswith("Seen veiled words")
    missing = ["loose", "stray word", "Foot"]
    assert [each.words for each in found.missing] == missing
    assert lost(found, LossKind.HIDDEN) == ["veiled"]
    assert lost(found, LossKind.DELETED) == ["Gone"]
    assert lost(found, LossKind.COMMENT) == ["Check"]


def program(folder: Path, name: str, *script: str) -> None:
    """Puts a program into a folder, of the lines of a script of the shell."""
    path = folder / name
    path.write_text("\n".join(("#!/bin/sh", *script, "")))
    path.chmod(0o755)


@pytest.fixture
def programs(tmp_path: Path, monkeypatch: pytest.MonkeyPatch) -> Path:
    """A folder of programs that are found before all others."""
    folder = tmp_path / "programs"
    folder.mkdir()
    monkeypatch.setenv("PATH", f"{folder}:{os.environ['PATH']}")
    return folder


def test_rtf_and_doc_are_what_libreoffice_makes_of_them(
    tmp_path: Path, programs: Path
) -> None:
    made = docx(
        tmp_path / "made.docx", paragraph(run("Made "), symbol("Wingdings", "1"))
    )
    program(programs, "soffice", 'mkdir -p "$6"', f'cp {made} "$6/manuscript.docx"')
    for data, kind in (
        (b"{\\rtf1 Made}", ManuscriptKind.RTF),
        (WORD, ManuscriptKind.DOC),
    ):
        found = read_document(data, kind)
        assert (found.kind, found.texts) == (kind, ["Made"])
        assert found.missing == (Missing("Wingdings_1", "Made", ""),)
    program(programs, "soffice", "echo It has no form. >&2", "exit 1")
    with pytest.raises(NotConverted, match="It has no form."):
        read_document(WORD, ManuscriptKind.DOC)
    program(programs, "soffice", "exit 0")
    with pytest.raises(NotConverted):
        read_document(WORD, ManuscriptKind.DOC)


def test_libreoffice_is_told_to_fetch_nothing_to_which_a_document_links(
    tmp_path: Path, programs: Path
) -> None:
    made = docx(tmp_path / "made.docx", paragraph(run("Made")))
    settings = '"${1#-env:UserInstallation=file://}/user/registrymodifications.xcu"'
    program(
        programs,
        "soffice",
        f"grep -q 'BlockUntrustedRefererLinks.*<value>true</value>' {settings} || exit 1",
        'mkdir -p "$6"',
        f'cp {made} "$6/manuscript.docx"',
    )
    assert read_document(WORD, ManuscriptKind.DOC).texts == ["Made"]


def test_a_field_with_the_name_of_a_document_has_that_and_not_that_of_its_copy(
    tmp_path: Path, programs: Path
) -> None:
    made = docx(tmp_path / "made.docx", paragraph(run("PATH, FILE and STEM, a moon")))
    program(
        programs,
        "soffice",
        'mkdir -p "$6"',
        'file="${7##*/}"',
        f'{sys.executable} - {made} "$7" "$file" "${{file%.doc}}" <<\'END\'',
        "import sys, zipfile",
        "path, *found = sys.argv[1:]",
        "parts = zipfile.ZipFile(path)",
        "read = {name: parts.read(name).decode() for name in parts.namelist()}",
        "with zipfile.ZipFile(path, 'w') as other:",
        "    for name, part in read.items():",
        "        for shown, own in zip(('PATH', 'FILE', 'STEM'), found):",
        "            part = part.replace(shown, own)",
        "        other.writestr(name, part)",
        "END",
        f'cp {made} "$6/$file.docx"',
    )
    path = tmp_path / "A & B\t.doc"
    path.write_bytes(WORD)
    name = "A & B\ufffd"
    texts = [f"{name}.doc, {name}.doc and {name}, a moon"]
    assert read_manuscript(path).texts == texts


@pytest.mark.parametrize(
    "code, kept",
    [
        (r"{\*\fldinst FILENAME \\p }", r"{\*\fldinsx FILENAME \\p }"),
        (
            r"{\*\fldinst {\rtlch\af0 \insrsid1  FILE}{\b0 NAME}}",
            r"{\*\fldinsx {\rtlch\af0 \insrsid1  FILE}{\b0 NAME}}",
        ),
        (
            r'{\fldinst{includepicture "/a/b.png" \\d}}',
            r'{\*\fldinsx{includepicture "/a/b.png" \\d}}',
        ),
        (r"\\\\{\*\fldinst DATE}", r"\\\\{\*\fldinsx DATE}"),
        (r'{\*\fldinst "DATE"}', r'{\*\fldinsx "DATE"}'),
        (
            rf"{{\*\fldinst {' ' * 3_000}DATE}}",
            rf"{{\*\fldinsx {' ' * 3_000}DATE}}",
        ),
        (r"{\*\fldinst PAGEREF a \\h}", r"{\*\fldinsx PAGEREF a \\h}"),
        (r"{\*\fldinst REF a \\r}", r"{\*\fldinsx REF a \\r}"),
        (r"{\*\fldinst DOCPROPERTY Title}", r"{\*\fldinsx DOCPROPERTY Title}"),
        (r"{\*\fldinst MERGEREC}", r"{\*\fldinsx MERGEREC}"),
        # it types what stands after another code in this one
        (
            r'{\*\fldinst IF {\field{\*\fldinst PAGE}{\fldrslt 3}} = 3 "y" "n"}',
            r'{\*\fldinsx IF {\field{\*\fldinsx PAGE}{\fldrslt 3}} = 3 "y" "n"}',
        ),
        # what LibreOffice knows better than the text, and print
        (r"{\*\fldinst HYPERLINK DATE}", r"{\*\fldinst HYPERLINK DATE}"),
        (r"{\*\fldinst SYMBOL 183}", r"{\*\fldinst SYMBOL 183}"),
        (r"\\fldinst DATE", r"\\fldinst DATE"),
        (r"\fldinsts DATE", r"\fldinsts DATE"),
    ],
)
def test_fields_of_rtf_that_say_something_of_a_file_are_typed_as_they_stand_there(
    tmp_path: Path, programs: Path, code: str, kept: str
) -> None:
    made = docx(tmp_path / "made.docx", paragraph(run("Made")))
    seen = tmp_path / "seen.rtf"
    program(
        programs,
        "soffice",
        f'cp "$7" {seen}',
        'mkdir -p "$6"',
        f'cp {made} "$6/manuscript.docx"',
    )
    text = r"{{\rtf1 {{\field{}{{\fldrslt moon.rtf}}}}}}"
    read_document(text.format(code).encode(), ManuscriptKind.RTF)
    assert seen.read_text() == text.format(kept)


@pytest.mark.parametrize(
    "story, kinds, shown",
    [
        ("On \x13 DATE \x14" + "7 May 1998\x15.", [31], [89]),
        ("\x13 REF a \x14one\x15, \x13 HYPERLINK b \x14two\x15", [3, 88], [89, 88]),
        ("\x13 QUOTE \x14" + "a \x13 SECTION \x14" + "3\x15\x15", [35, 65], [89, 89]),
        # with a field in its code another kind loses what is after it
        ("\x13 IF \x13 PAGE \x14" + "3\x15 = 3 \x14y\x15", [7, 33], [10, 89]),
        ("\x13 LINK \x13 a \x14" + "b\x15 c \x14" + "d\x15", [88, 59], [10, 89]),
        ("\x13 TC \x13 PAGE \x15\x15 \x15\x14 a", [9, 33], [9, 33]),
    ],
)
def test_fields_of_doc_are_typed_as_they_stand_there(
    programs: Path, tmp_path: Path, story: str, kinds: list[int], shown: list[int]
) -> None:
    made = docx(tmp_path / "made.docx", paragraph(run("Made")))
    seen = tmp_path / "seen.doc"
    program(
        programs,
        "soffice",
        f'cp "$7" {seen}',
        'mkdir -p "$6"',
        f'cp {made} "$6/manuscript.docx"',
    )
    read_document(doc(story, kinds), ManuscriptKind.DOC)
    assert seen.read_bytes() == doc(story, shown)


def test_a_text_in_doc_with_a_password_is_said_to_be_encrypted(
    programs: Path,
) -> None:
    program(programs, "soffice", "exit 1")
    plain = doc("One\r", [])
    front = b"\xec\xa5\xc1" + bytes(7)
    locked = plain.replace(front + b"\0\2", front + b"\0\3")
    assert locked != plain
    with pytest.raises(NoDocument) as found:
        read_document(locked, ManuscriptKind.DOC)
    assert found.value.why is WhyNot.ENCRYPTED
    with pytest.raises(NotConverted):
        read_document(plain, ManuscriptKind.DOC)


def test_words_of_doc_that_libreoffice_leaves_out_are_missing(
    tmp_path: Path, programs: Path
) -> None:
    letters = "".join(symbol("Wingdings", f"F0{ord(each):X}") for each in "abc")
    # each of these is a pair of signs in DOC, of which one may be parted
    pairs = "\U0001d400\U0001d401\U0001d402"
    one = paragraph(run(f"One {pairs} two ") + letters)
    made = docx(tmp_path / "made.docx", one)
    program(programs, "soffice", 'mkdir -p "$6"', f'cp {made} "$6/manuscript.docx"')
    story = (
        f"One {pairs}"
        " \x13 DATE \\@ d \x14two\x15 abc\x13 EQ \\f(x;\x13 REF a \x14six\x15) \x15\rand three\x07\x13 SET a four \x14"
        + "five\x15"
    )
    others = ("A note.\r", "An edge.\r", "", "", "", "In a box, na\u00efve.\r", "")
    read = read_document(doc(f"{story}\r", [31, 49, 3, 6], others), ManuscriptKind.DOC)
    assert [each.words for each in read.missing] == [
        "Wingdings_F061 Wingdings_F062 Wingdings_F063",
        "x six",
        "and three",
        "A note",
        "In a box na\u00efve",
    ]
    # of one that is damaged, or older, nothing else is known
    front = doc(story, [31, 49, 3, 6])
    older = front.replace(b"\xec\xa5", b"\xdc\xa5", 1)
    # its sectors name each other for ever
    round_ = front[:68] + bytes(8) + b"\xff" * (436 + 508) + bytes(4) + front[1_024:]
    cut = (front[:size] for size in (30, 600, 1_700, 4_000))
    deep = doc(101 * "\x13", 101 * [1])
    for data in (*cut, older, round_, deep):
        read = read_document(data, ManuscriptKind.DOC)
        assert (len(read.missing), lost(read, LossKind.UNSEEN)) == (1, [""])


@pytest.mark.parametrize(
    "text, whole",
    [
        (r"{\rtf1 {one}} two {three} four}", r"{\rtf1 {one} two {three} four}"),
        (r"{\rtf1 one}}} two {three", r"{\rtf1 one two {three}}"),
        (r"{\rtf1 one\}\bin3 }}} two}", r"{\rtf1 one\}\bin3 }}} two}"),
        ("{\\rtf1 one}\r\n\0", "{\\rtf1 one}\r\n\0"),
        (r"{\rtf1 one", r"{\rtf1 one"),
        # LibreOffice would type both of what is written twice
        (
            r"{\rtf1 {\upr{m?n}{\*\ud{moon}}} \\upr{a}}",
            r"{\rtf1 {\upr{\*\uprx m?n}{\*\ud{moon}}} \\upr{a}}",
        ),
        # and what parts notes from the text
        (
            r"{\rtf1 {\ftnsep sea}{\*\ftnsep\pard sea}{\ftnsepc sea} \\{ftnsep}}",
            r"{\rtf1 {\*\ftnsepx sea}{\*\ftnsepx\pard sea}{\ftnsepc sea} \\{ftnsep}}",
        ),
    ],
)
def test_what_stands_in_rtf_after_the_end_of_its_group_is_read(
    tmp_path: Path, programs: Path, text: str, whole: str
) -> None:
    made = docx(tmp_path / "made.docx", paragraph(run("Made")))
    seen = tmp_path / "seen.rtf"
    program(
        programs,
        "soffice",
        f'cp "$7" {seen}',
        'mkdir -p "$6"',
        f'cp {made} "$6/manuscript.docx"',
    )
    read_document(text.encode(), ManuscriptKind.RTF)
    assert seen.read_bytes() == whole.encode()


@pytest.mark.parametrize(
    "text, missing",
    [
        (r"{\rtf1 one {\b t}wo\par three}", ["three"]),
        (r"{\rtf1\ansicpg1251 one two \'ec\'ee\'f0\'e5}", ["\u043c\u043e\u0440\u0435"]),
        (r"{\rtf1\uc2 one {\uc1 \u945 ?}\u946 \'bfb two}", ["\u03b1\u03b2"]),
        (r"{\rtf1\ansicpg9 one two \u-10179?\u-8704? don\rquote t}", ["don\u2019t"]),
        (
            r"{\rtf1{\fonttbl{\f1\fcharset2 Symbol;}{\f2\fcharset161 Sea;}}one {\f1 abc} two {\f2\'e1}}",
            ["\u03b1"],
        ),
        (r"{\rtf1 one{\footnote sea}two {\upr{moo?n}{\*\ud{moon}}}}", ["sea", "moon"]),
        (
            r"{\rtf1{\info{\title sea}}{\*\moon sea}{\header sea}{\pict 00\bin3 }a}}one"
            r"{\field{\*\fldinst SEA}{\fldrslt  two}}{\listtext 1.}{\*\shpinst{\sp{\sv sea}}{\shptxt moon}}}",
            ["moon"],
        ),
        (
            r"{\rtf1 one\~two \{moon\_sea\}\line far\
off}",
            ["moon\u2011sea", "far", "off"],
        ),
        (
            r"{\rtf1{\info{\upr{\title sea}{\*\ud{\title se\u228 ?}}}}one {\upr{tw?}{\*\ud{two}}}}",
            [],
        ),
        (r"{\rtf1\mac one two it\'d5s}", ["it\u2019s"]),
        (r"{\rtf1\pc one two \'82}", ["\xe9"]),
        (r"{\rtf1\pca one two \'b5}", ["\xc1"]),
        (
            r"{\rtf1 one{\field{\*\fldinst EQ \\f(moon;se\u228 ?a)\par}{\fldrslt }} two{\field{\*\fldinst {HYPERLINK}\~a}}}",
            ["moon se\u00e4a"],
        ),
        (
            r"{\rtf1 one{\pict{\*\picprop{\sp{\sn wzName}{\sv sea}}{\sp{\sn wzDescription}{\sv moon}}}89} two"
            r"{\header{\pict{\sp{\sn wzDescription}{\sv sea}}}}}",
            ["moon"],
        ),
        (
            r"{\rtf1 one{\shp{\*\shpinst{\sp{\sn a}{\sv 1}}{\sp{\sn wzName}{\sv A m\'f6on}}{\sp{\sn wzDescription}{\sv }}}} two"
            r"{\shp{\*\shpinst{\sp{\sn wzName}{\sv Text Box 2}}}}{\shp{\*\shpinst{\sp{\sn wzName}{\sv Object35}}}}"
            r"{\pict{\sp{\sn wzDescription}{\sv far}}{\sp{\sn wzName}{\sv sea}}}{\header{\pict{\sp{\sn wzName}{\sv sea}}}}}",
            ["A m\u00f6on", "far"],
        ),
        (
            r"{\rtf1 one t{\revised w}{\deleted s\u228 ?a\rquote\_}o \deleted far\deleted0  {\deleted m\plain sea}}",
            ["sea"],
        ),
    ],
)
def test_words_of_rtf_that_libreoffice_leaves_out_are_missing(
    tmp_path: Path, programs: Path, text: str, missing: list[str]
) -> None:
    made = docx(tmp_path / "made.docx", paragraph(run("one two")))
    program(programs, "soffice", 'mkdir -p "$6"', f'cp {made} "$6/manuscript.docx"')
    found = read_document(text.encode(), ManuscriptKind.RTF)
    assert found.texts == ["one two"]
    assert [each.words for each in found.missing] == missing


@pytest.mark.parametrize(
    "name, what",
    [
        ("A moon", LossKind.DESCRIBED),
        ("Caf\\u233\\'e9", LossKind.DESCRIBED),
        ("Picture 1", LossKind.PICTURE),
        ("", LossKind.PICTURE),
    ],
)
def test_a_picture_of_rtf_with_a_name_that_says_more_than_its_number_may_be_described(
    tmp_path: Path, programs: Path, name: str, what: LossKind
) -> None:
    drawing = "<w:r><w:drawing><wp:inline><a:graphic><a:graphicData><a:blip r:link='rId9'/></a:graphicData></a:graphic></wp:inline></w:drawing></w:r>"
    relations = "http://schemas.openxmlformats.org/officeDocument/2006/relationships"
    drawing = drawing.replace("<a:blip", f"<a:blip xmlns:r='{relations}'")
    made = docx(tmp_path / "made.docx", paragraph(run("One") + drawing))
    program(programs, "soffice", 'mkdir -p "$6"', f'cp {made} "$6/manuscript.docx"')
    its = r"{\*\picprop{\sp{\sn wzDescription}{\sv }}{\sp{\sn wzName}{\sv %s}}}" % name
    text = r"{\rtf1 One {\pict%s89}}" % its
    found = read_document(text.encode(), ManuscriptKind.RTF)
    assert [each.what for each in found.losses] == [what]


def test_pictures_of_rtf_of_which_one_is_described_are_not_said_to_have_no_description(
    tmp_path: Path, programs: Path
) -> None:
    made, dots = tmp_path / "made.docx", tmp_path / "dots.png"
    dots.write_bytes(b"\x89PNG\r\n\x1a\n")
    words = ["pandoc", "--from", "markdown", "--to", "docx", "--output", str(made)]
    subprocess.run(words, input=f"One ![]({dots})".encode(), check=True)
    program(programs, "soffice", 'mkdir -p "$6"', f'cp {made} "$6/manuscript.docx"')
    text = r"{\rtf1 One {\pict{\*\picprop{\sp{\sn wzDescription}{\sv %s}}}89}}"
    said = []
    for description in ("A moon", ""):
        found = read_document((text % description).encode(), ManuscriptKind.RTF)
        _, *lines = report_lines(Path("a.rtf"), Taken((), (), found))
        said.append(lines)
    place = "- at “One”"
    assert said == [
        [
            "2 words of the file will be in no paragraph:",
            "- “A moon”, after “One”",
            "1 picture is left out, with its description if it has one:",
            place,
        ],
        ["1 picture without a description is left out:", place],
    ]


def test_odt_is_taken_as_it_loses_fewer_words(tmp_path: Path, programs: Path) -> None:
    made = docx(tmp_path / "made.docx", paragraph(run("One two")))
    program(programs, "soffice", 'mkdir -p "$6"', f'cp {made} "$6/manuscript.docx"')
    path = tmp_path / "moon.odt"
    words = ["pandoc", "--from", "markdown", "--to", "odt", "--output", str(path)]
    subprocess.run(words, input=b"One", check=True)
    with zipfile.ZipFile(path) as whole:
        names = [each for each in whole.namelist() if not each.endswith(".png")]
        parts = {name: whole.read(name).decode() for name in names}
    content = parts["content.xml"]
    # pandoc leaves out what it doesn't know
    for lost_by_pandoc, wanted in ((" two", "One two"), ("", "One")):
        computed = f"One<text:unknown>{lost_by_pandoc}</text:unknown>"
        parts["content.xml"] = content.replace("One", computed)
        found = read_document(container_of(path, **parts), ManuscriptKind.ODT)
        assert (found.kind, found.texts) == (ManuscriptKind.ODT, [wanted])


def test_a_program_that_takes_too_long_is_given_up(
    programs: Path, monkeypatch: pytest.MonkeyPatch
) -> None:
    def given_up(*lines: str) -> str:
        program(programs, "pandoc", *lines)
        with pytest.raises(UnreadableText) as found:
            read_document(b"a", ManuscriptKind.MARKDOWN)
        return unreadable(found.value)

    with monkeypatch.context() as patched:
        patched.setattr(pandoc, "_IDLE_SECONDS", 0.3)
        assert given_up("exec sleep 60").startswith("takes pandoc more time than any")
    with monkeypatch.context() as patched:
        patched.setattr(pandoc, "_LEAST_SECONDS", 1)
        assert given_up("while :; do :; done").startswith("takes pandoc more time than")
    # as LibreOffice, which takes the signal
    ended = given_up("echo Fatal exception: Signal 24 >&2; exit 152")
    assert ended.startswith("takes pandoc more time than any")
    ended = given_up("echo pandoc: out of memory >&2; exit 251")
    assert ended.startswith("takes pandoc more memory than any book")
    assert given_up("kill -KILL $$").startswith(
        "can't be read by pandoc: it was ended by signal 9, as by a system that has run out of memory."
    )
    assert given_up("kill -TERM $$") == (
        "can't be read by pandoc: it was ended by signal 15"
    )
    assert "nested" in given_up("echo pandoc: stack overflow >&2; exit 2")
    assert given_up("echo none") == "can't be read by pandoc, which doesn't say why"


def test_a_program_that_works_is_waited_for_however_slow_it_is(
    programs: Path, monkeypatch: pytest.MonkeyPatch
) -> None:
    monkeypatch.setattr(pandoc, "_IDLE_SECONDS", 0.5)
    # also where another program does the work
    busy = "import time\nwhile time.process_time() < 0.8: pass"
    works = f"{sys.executable} -I -S -c '{busy}'"
    program(programs, "pandoc", works, "echo slow >&2; exit 1")
    began = time.monotonic()
    with pytest.raises(UnreadableText) as found:
        read_document(b"a", ManuscriptKind.MARKDOWN)
    assert unreadable(found.value) == "can't be read by pandoc: slow"
    assert time.monotonic() - began > 0.5


@pytest.mark.parametrize(
    "tags", [("<div>", "</div>"), ("<blockquote>", "</blockquote>")]
)
def test_a_page_that_is_nested_too_deeply_is_refused_before_it_is_read(
    tmp_path: Path, programs: Path, tags: tuple[str, str]
) -> None:
    program(programs, "pandoc", "exit 3")
    front, end = tags
    page = PAGE.format(f"{front * 2_000}x{end * 2_000}").encode()
    book = book_of(tmp_path / "moon.epub", "a", {"a": page}).read_bytes()
    for data, kind in ((page, ManuscriptKind.HTML), (book, ManuscriptKind.EPUB)):
        with pytest.raises(NoDocument) as found:
            read_document(data, kind)
        assert found.value.why is WhyNot.TOO_DEEP


@pytest.mark.parametrize("front", ["<!--", "<!x", "<?x", "</x", "<p a", '<p a=">'])
def test_words_after_a_tag_that_nothing_ends_are_said_to_be_missing(front: str) -> None:
    page = f"<html><body><p>The moon</p>{front} is far away."
    found = read_document(page.encode(), ManuscriptKind.HTML)
    assert found.texts[0] == "The moon"
    missing = " ".join(each.words for each in found.missing).split()
    assert {"is", "far", "away"} <= {*missing, *found.texts[-1].split()}


@pytest.mark.parametrize("front", ["<!--", "<![CDATA[", "<!x", "<?", "</", '<p a=">"'])
def test_a_page_is_refused_in_which_nothing_ends_many_tags(front: str) -> None:
    def page(count: int) -> bytes:
        return f"<html><body><p>The moon</p>{front * count}".encode()

    # each is looked for up to the end of the page
    with pytest.raises(NoDocument) as found:
        read_document(page(1_000), ManuscriptKind.HTML)
    assert found.value.why is WhyNot.DAMAGED
    assert read_document(page(3), ManuscriptKind.HTML).texts[0] == "The moon"


#: A document of 50,000 words takes 2 seconds, nearly all of a processor, where nothing else runs. The
#: processor's seconds are counted, since those of the clock are other programs' too; where there is much
#: other work they are three times as many.
SECONDS = 12


def of_processor() -> float:
    """The seconds of a processor that this process has taken, and those that it waited for."""
    kinds = (resource.RUSAGE_SELF, resource.RUSAGE_CHILDREN)
    return sum(used.ru_utime + used.ru_stime for used in map(resource.getrusage, kinds))


def test_a_document_of_fifty_thousand_words_is_read_in_a_few_seconds(
    tmp_path: Path,
) -> None:
    words = [f"{a}{b}ly" for a in ("sea", "moon", "tide") for b in range(70)]
    body, wanted = "", []
    for n in range(2_500):
        text = " ".join(words[(7 * n + k * (3 * k + n)) % 210] for k in range(20))
        # each other paragraph has a note, so that it doesn't read as in the file
        nth = n // 2 + 1
        noted = run(text) + (note(nth) if n % 2 == 0 else "")
        body += paragraph(noted)
        its = [f"{text}[{nth}]", f"[{nth}: Nearly.]"] if n % 2 == 0 else [text]
        wanted += its
    notes = [(nth, "Nearly.") for nth in range(1, 1_251)]
    path = docx(tmp_path / "long.docx", body, notes)
    began = of_processor()
    found = read_manuscript(path)
    assert of_processor() - began < SECONDS
    assert found.texts == wanted and not found.missing


def test_very_many_blanks_after_the_key_of_a_link_take_no_time() -> None:
    began = of_processor()
    assert contents.addresses_of(f"[moon]:{' ' * 100_000}x y z\n\n[moon]\n")
    assert of_processor() - began < SECONDS


@pytest.mark.parametrize(
    "line",
    [
        # what is indented, and no front of a note
        " " * 200_000 + "x",
        # what ends no address, and no emphasis
        "[sea]: " + "](" * 100_000,
        "[sea]: x" + "_" * 200_000 + "y",
        # a rule of many columns with many lines that have few
        "- " * 50_000 + "\n" + "-\n" * 50_000,
        "ab\n" * 50_000 + "- " * 50_000,
    ],
    ids=["blanks", "addresses", "emphasis", "rows", "rows above"],
)
def test_signs_of_markdown_that_are_very_many_take_little_time(line: str) -> None:
    text = f"{line}\n\nThe moon[^1] and[^1]\n\n[^1]: The sea\n"
    began = of_processor()
    with_marks(text)
    contents.keys_in_notes(text)
    contents.addresses_of(text)
    contents.rows_of(text)
    [*markdown_words.lines_of(text, [text])]
    assert of_processor() - began < SECONDS


def test_very_many_lines_like_notes_that_are_repeated_take_little_time() -> None:
    notes = [
        {"t": "Note", "c": [{"t": "Str", "c": f"moon{n // 2}"}]} for n in range(40_000)
    ]
    lines = [
        Loss(LossKind.NOTE_AGAIN, f"[^{n}]: {word}{n}", "")
        for n in range(20_000)
        for word in ("moon", "sea")
    ]
    began = of_processor()
    assert repeated({"blocks": notes}, lines) == lines[::2]
    assert of_processor() - began < SECONDS


READS = """
from braildesk.desk.documents.document import read_document
from braildesk.desk.documents.kinds import ManuscriptKind
read_document(b"a", ManuscriptKind.MARKDOWN)
"""


def test_what_reads_a_document_ends_with_the_one_that_started_it(
    tmp_path: Path, programs: Path
) -> None:
    number = tmp_path / "number"
    program(programs, "pandoc", f"echo $$ > {number}.new", f"mv {number}.new {number}")
    with (programs / "pandoc").open("a") as script:
        script.write(f"exec sleep {WAIT_SECONDS}\n")
    starter = subprocess.Popen([sys.executable, "-c", READS], env=environment())
    end = time.monotonic() + WAIT_SECONDS
    while not number.exists() and time.monotonic() < end:
        time.sleep(0.02)
    running = Path("/proc", number.read_text().strip())
    assert running.exists()
    starter.kill()
    starter.wait()
    while running.exists() and time.monotonic() < end:
        time.sleep(0.02)
    assert not running.exists()


def test_a_table_is_made_for_the_words_of_a_document(tmp_path: Path) -> None:
    path = docx(
        tmp_path / "moon.docx", paragraph(run("The moon")) + paragraph(run("far"))
    )
    assert read_manuscript(path).texts == ["The moon", "far"]


@pytest.mark.parametrize(
    "page, text",
    [
        (
            "One <ruby>漢<rt>kan</rt>字<rt><b>j</b>i</rt></ruby>two",
            "One 漢(kan)字(ji)two",
        ),
        ("<ruby>漢<RT>kan<rt>zwei</ruby>two", "漢(kan)(zwei)two"),
        ("<ruby>漢<rp>[</rp><rt>kan</rt><rp>]</rp></ruby>two", "漢[kan]two"),
        ("<ruby>漢<rt></rt>字</ruby>two<ruby>a</ruby>b", "漢字twoab"),
    ],
)
def test_readings_on_a_page_stand_in_brackets(page: str, text: str) -> None:
    data = f"<html><p>{page}</p></html>".encode()
    found = read_document(data, ManuscriptKind.HTML)
    assert (found.texts, found.missing) == ([text], ())


def test_readings_stand_in_brackets_after_signs_that_begin_no_character() -> None:
    page = "<p>Q&#A; R&#65bc &#;</p><p><ruby>漢<rt>kan</rt></ruby></p>"
    found = read_document(f"<html><body>{page}".encode(), ManuscriptKind.HTML)
    assert found.texts == ["Q&#A; RAbc &#;", "漢(kan)"]
    assert not found.missing


def test_a_reading_that_nothing_ends_ends_with_its_paragraph() -> None:
    page = (
        "<html><p>A <ruby>漢<rt>kan far</p><p>b <ruby>字<rt>ji</rt></ruby></ruby></p><table><tr>"
        "<td><ruby>漢<rt>kan<td>c</table><ul><li>d <ruby>漢<rt>ka<br>n<li>e <ruby>漢<rt>kan</ul>f"
        "<ruby>漢<rt>kan"
    )
    found = read_document(page.encode(), ManuscriptKind.HTML)
    assert found.texts == [
        "A 漢(kan far)",
        "b 字(ji)",
        "漢(kan); c",
        "\u2022 d 漢(ka",
        "n)",
        "\u2022 e 漢(kan)",
        "f漢(kan)",
    ]
    assert found.missing == ()


def test_templates_on_a_page_are_no_print() -> None:
    page = (
        "<html><p id=a>One</p><template><aside><template>inner</template>Not <b>seen</b></aside>"
        "</template ><p>two</p><template>left open</html>"
    )
    found = read_document(page.encode(), ManuscriptKind.HTML)
    assert found.texts == ["One", "two", "left open"]
    assert (found.missing, found.losses) == ((), ())


@pytest.mark.parametrize("tag", ["dfn", "kbd", "mark"])
def test_a_page_is_read_on_which_a_paragraph_ends_what_is_open_in_it(tag: str) -> None:
    page = f"<html><p>Press <{tag}>Enter</p><p>or <{tag}>Tab<div>twice</div> here</p></html>"
    found = read_document(page.encode(), ManuscriptKind.HTML)
    assert " ".join(found.texts) == "Press Enter or Tab twice here"
    assert found.missing == ()


def test_what_fields_of_a_form_on_a_page_show_is_print() -> None:
    page = (
        "<html><form><p>Name <input value='Anna &amp; Ben'>, <input type=hidden value=no>"
        "<input type=checkbox value=no><input type=submit value=Go /></p></form>"
        "<pre><code>x = 1\ny = x</code><button>Copy</button></pre></html>"
    )
    found = read_document(page.encode(), ManuscriptKind.HTML)
    assert found.texts == ["Name Anna & Ben , Go", "x = 1", "y = x", "Copy"]
    assert found.missing == ()


def test_quotations_on_a_page_have_their_marks_whatever_ends_them() -> None:
    page = (
        "<html><p>He <q>said <q>go</q></q></p><p>She <q>said <q>no</p><p>They <q cite=x>left</q>"
        "</p><q><p>At once</p></q><p>or </q>not</p></html>"
    )
    found = read_document(page.encode(), ManuscriptKind.HTML)
    assert " ".join(found.texts) == (
        "He \u201csaid \u2018go\u2019\u201d She \u201csaid \u2018no\u2019\u201d"
        " They \u201cleft\u201d \u201cAt once\u201d or not"
    )
    assert found.missing == ()


@pytest.mark.parametrize(
    "body, texts",
    [
        ("<q><p>One</p><p>Two</p></q><p>on", ["\u201cOne", "Two\u201d", "on"]),
        ("<div><q>\n<div>One\n</div></q></div>on", ["\u201cOne\u201d", "on"]),
        (
            "<blockquote><q><p>&#79;ne <q>t<b>w</b>&ouml;</q></p><ul><li>On</li></ul></q></blockquote>",
            ["\u201cOne \u2018tw\u00f6\u2019", "\u2022 On\u201d"],
        ),
        ("<p>He <q>said<p>One</p>two</q>", ["He \u201csaid\u201d", "One", "two"]),
        (
            "<q><p>One<p>Two <q>three<p>on</q>",
            ["\u201cOne", "Two \u2018three\u2019", "on\u201d"],
        ),
        ("<p>One <q><b>two</b></q> <q></q>", ["One \u201ctwo\u201d \u201c\u201d"]),
        (
            "<q><p>&nbsp;</p><p><img alt=A></p><p><br></p></q>on",
            ["\u201c[A]\u201d", "on"],
        ),
        ("<template><q>One</template><p>on</q>", ["on"]),
        (
            "<p>L\u2019<q>ami</q><q>of</q>one",
            ["L\u2019\u201cami\u201d\u201cof\u201done"],
        ),
        ("<q><script>one</script><style>i{}</style>One</q>", ["\u201cOne\u201d"]),
    ],
)
def test_a_quotation_of_paragraphs_has_its_marks_beside_its_words(
    body: str, texts: list[str]
) -> None:
    page = f"<html><body>{body}</body></html>"
    found = read_document(page.encode(), ManuscriptKind.HTML)
    assert found.texts == texts
    assert found.missing == ()


def test_titles_and_what_there_is_to_choose_from_in_a_form_are_parted() -> None:
    page = (
        "<html><fieldset><legend>Language</legend>In <select><option>Danish</option><option selected>Dutch<optgroup>"
        "<option>English</optgroup></select>!</fieldset></html>"
    )
    found = read_document(page.encode(), ManuscriptKind.HTML)
    texts = ["Language In Danish Dutch English !"]
    assert (found.texts, found.missing) == (texts, ())


def test_words_that_a_style_alone_parts_are_noted() -> None:
    page = (
        "<html><style>.no { display: block } li i { display: Flex } b { display: inline }</style>"
        "<p><span class=no>1</span><a href='#a'>The <b>mo</b>on</a><span style='display:table-cell'>2"
        "</span>sea <span class=no>3</span> sand</p><ul><li>tide<i>s</i> <i>4</i></ul><p class=no>5</p>6"
    )
    found = read_document(page.encode(), ManuscriptKind.HTML)
    assert found.texts[0] == "1The moon2sea 3 sand"
    assert lost(found, LossKind.JOINED) == ["1The", "moon2sea", "moon2sea", "tides"]


def test_the_end_of_a_line_parts_words_however_it_is_written() -> None:
    page = "<html><p>One<br>two<br/>three</br>four</BR >five<p>six</br></p></html>"
    found = read_document(page.encode(), ManuscriptKind.HTML)
    assert found.texts == ["One", "two", "three", "four", "five", "six"]
    assert found.missing == ()


def test_pictures_without_an_address_are_described_too() -> None:
    page = (
        "<html><p>One <img alt='A crater'> two <img data-src=x alt=Sea /> three <img>"
        " <img srcset=y alt=''> <img src=z alt=End></p></html>"
    )
    found = read_document(page.encode(), ManuscriptKind.HTML)
    assert found.texts == ["One [A crater] two [Sea] three [End]"]
    assert found.missing == ()
    assert len(lost(found, LossKind.PICTURE)) == 1


def test_a_picture_without_a_description_of_its_own_is_described_by_its_title() -> None:
    page = (
        "<html><p>One <img src=x title='A crater'> two <img title=Sea> three <img src=x alt=Sun title=No>"
        " four<q><img src=y title=End></q></p><p><img src=z alt=' ' title='Far off'></p>"
        "<pre><img src=y title=Moon></pre></html>"
    )
    found = read_document(page.encode(), ManuscriptKind.HTML)
    first = "One [A crater] two [Sea] three [Sun] four\u201c[End]\u201d"
    assert found.texts == [first, "[Far off]"]
    assert [each.words for each in found.missing] == ["Moon"]
    assert lost(found, LossKind.PICTURE) == []


@pytest.mark.parametrize(
    "said, title, text",
    [("", "Sea", "[Sea]"), ("", "fig:", ""), ("Sun", "fig:No", "[Sun]"), (" ", "", "")],
)
def test_a_picture_of_a_tree_is_described_by_its_title_if_nothing_else_does(
    said: str, title: str, text: str
) -> None:
    words: list[Node] = [{"t": "Str", "c": said}]
    picture: Node = {"t": "Image", "c": [["", [], []], words, ["a.png", title]]}
    found = document({"blocks": [{"t": "Para", "c": [picture]}]})
    assert [part.text for part in found.parts] == [text] * bool(text)
    assert [loss.what for loss in found.losses] == [LossKind.PICTURE] * (not text)


def test_paragraphs_of_a_list_beside_its_items_are_typed_without_bullets() -> None:
    body = (
        "<ul class=x><p>one</p><li>two</li><p>three<p>four</p><li>five<ul><p>six</p></ul></li><h2>seven</h2></ul>"
        "<ol start=2><pre>eight</pre><li>nine<p>ten<li>eleven</li>\n<p>twelve</p></ol><q>thirteen<ul><p>fourteen</p></ul></q>"
        "<template><ul><p>no</p></ul></template><ul><ul><li>fifteen</li></ul></ul><p>sixteen"
    )
    found = read_document(f"<html>{body}</html>".encode(), ManuscriptKind.HTML)
    texts = "one|\u2022 two|three|four|\u2022 five|six|seven|eight|2. nine|ten|3. eleven|twelve|\u201cthirteen|fourteen\u201d"
    assert found.texts == [*texts.split("|"), "\u2022 fifteen", "sixteen"]
    assert found.missing == ()


def test_items_keep_their_marks_around_a_list_that_stands_beside_them() -> None:
    body = (
        "<ul><ul><li>one</ul><li>two</ul><ol start=3><li>three</li><ol><li>four</li></ol><li>five</ol>"
        "<ul><li>six</li><dl><dt>seven<dd>eight</dl><li>nine</ul>"
    )
    found = read_document(f"<html>{body}</html>".encode(), ManuscriptKind.HTML)
    texts = "\u2022 one|\u2022 two|3. three|1. four|4. five|\u2022 six|seven|eight|\u2022 nine"
    assert found.texts == texts.split("|")
    assert (found.missing, found.losses) == ((), ())


def test_text_and_tables_that_stand_in_a_list_beside_its_items_are_typed() -> None:
    body = (
        "<div>one<ul>two <b>three</b><p>four</p>five<li>six</li>seven<li>eight</li><table><tr><td>nine<td>ten</table></ul>eleven</div>"
        "<ol start=2><li>a</li>&eacute;b&nbsp;<li>c</li>&nbsp; &#160;<li>d<p>e</p></li><div>f</div>g<img src=x alt=h></ol>"
        "<div>i<ul>j</ul>k</div><ul><form><li>l</li><input value=m></form><li>n</ul><ul><ul>o<li>p</ul>q</ul>r"
        "<ul><table><tr><td>s<ul><li>t</ul><td>u</table><li>v</ul><template><ul>no</ul></template>"
        "<q>w<ul>x<li>y</li>z</ul></q>"
    )
    found = read_document(f"<html>{body}</html>".encode(), ManuscriptKind.HTML)
    texts = (
        "one|two three|four|five|• six|seven|• eight|nine; ten|eleven|2. a|éb|3. c|4. d|e|f|g[h]|i|j|k"
        "|• l|m|• n|o|• p|q|r|s • t; u|• v|“w|x|• y|z”"
    )
    assert found.texts == texts.split("|")
    assert found.missing == ()


def test_an_item_of_a_list_keeps_its_number_whatever_it_begins_with() -> None:
    page = (
        "<html><ol><li><table><tr><td>a<td>b<tr><td>c<td>d</table><li><h2>Head</h2>"
        "<li><hr>rule<li><table><caption>Title</caption><tr><td>e</table>"
        "<li><ul><li>f<li>g</ul></ol></html>"
    )
    found = read_document(page.encode(), ManuscriptKind.HTML)
    texts = ["1. a; b", "c; d", "2. Head", "3. rule", "4. Title", "e"]
    assert found.texts == [*texts, "5. \u2022 f", "\u2022 g"]


@pytest.mark.parametrize(
    "renamed",
    [
        "book/{}".format,
        "./{}".format,
        lambda name: name.replace("/", "\\"),
        lambda name: f"a/b/{name.replace('/', chr(92))}",
    ],
    ids=["folder", "dots", "strokes", "both"],
)
def test_a_book_is_read_that_is_packed_otherwise(
    tmp_path: Path, renamed: Callable[[str], str]
) -> None:
    pages = {"a": PAGE.format("<p>The moon</p>").encode()}
    path = book_of(tmp_path / "moon.epub", "a", pages)
    with zipfile.ZipFile(path) as container:
        parts = {name: container.read(name) for name in container.namelist()}
    with zipfile.ZipFile(path, "w") as container:
        container.writestr("book/", "")
        for name, part in reversed(parts.items()):
            entry = zipfile.ZipInfo("x")
            entry.filename = renamed(name)
            container.writestr(entry, part)
    found = read_manuscript(path)
    assert (found.kind, found.texts) == (ManuscriptKind.EPUB, ["The moon"])


def test_a_book_is_read_whose_names_are_not_said_to_be_in_utf_8(tmp_path: Path) -> None:
    pages = {"größe": PAGE.format("<p>The moon</p>").encode()}
    path = book_of(tmp_path / "moon.epub", "größe", pages)
    said, name = b"\x14\x00\x00\x08", "größe".encode()
    data = path.read_bytes()
    assert said in data and name in data
    # in the heads of parts and in the list of them
    data = data.replace(b"PK\x03\x04" + said, b"PK\x03\x04\x14\x00\x00\x00")
    data = data.replace(
        b"PK\x01\x02\x14\x03" + said, b"PK\x01\x02\x14\x03\x14\x00\x00\x00"
    )
    path.write_bytes(data)
    found = read_manuscript(path)
    assert (found.texts, found.missing) == (["The moon"], ())


def test_a_book_is_read_without_pages_that_its_file_lacks(tmp_path: Path) -> None:
    page = PAGE.format("<p>The moon</p>").encode()
    path = book_of(tmp_path / "moon.epub", "b a b", {"a": page, "b": b"", "c": b""})
    with zipfile.ZipFile(path) as container:
        names = ["mimetype", "META-INF/container.xml", "in/book.opf", "in/a.xhtml"]
        parts = {name: container.read(name).decode() for name in names}
    found = read_document(container_of(path, **parts), ManuscriptKind.EPUB)
    assert (found.texts, found.missing) == (["The moon"], ())
    assert lost(found, LossKind.ABSENT) == ["in/b.xhtml"]


@pytest.mark.parametrize("folder", ["", "book/"])
def test_of_parts_with_one_name_the_last_is_read(tmp_path: Path, folder: str) -> None:
    pages = {"a": PAGE.format("<p>The moon</p>").encode()}
    path = book_of(tmp_path / "moon.epub", "a", pages)
    with zipfile.ZipFile(path) as container:
        parts = {name: container.read(name) for name in container.namelist()}
    with zipfile.ZipFile(path, "w") as container, pytest.warns(UserWarning):
        for name, part in (("in/a.xhtml", b"<p>No</p>"), *parts.items()):
            container.writestr(folder + name, part)
    with warnings.catch_warnings():
        warnings.simplefilter("error")
        assert read_manuscript(path).texts == ["The moon"]


def test_no_picture_is_unpacked_for_the_name_that_it_gets() -> None:
    made = BytesIO()
    with zipfile.ZipFile(made, "w") as container:
        container.writestr("word\\.png", bytes(1_000))
        container.writestr("word\\document.xml", "<none/>")
    with unpacked(repacked(made.getvalue())) as found:
        sizes = {each.filename: each.file_size for each in found.infolist()}
    assert sizes == {"word/.png": 0, "word/document.xml": 7}


def test_a_known_part_of_a_container_within_it_is_no_sign_of_a_folder(
    tmp_path: Path,
) -> None:
    pages = {"a": PAGE.format("<p>The moon</p>").encode()}
    path = book_of(tmp_path / "moon.epub", "a", pages)
    with zipfile.ZipFile(path, "a") as container:
        container.writestr("in/[Content_Types].xml", "<Types/>")
    assert read_manuscript(path).texts == ["The moon"]


def test_what_is_nested_too_deeply_is_refused_for_that(tmp_path: Path) -> None:
    front, end = "<text:list><text:list-item>", "</text:list-item></text:list>"
    text = odt(tmp_path / "a.odt", front * 700 + "<text:p>x</text:p>" + end * 700)
    tree: Node = {"t": "Plain", "c": []}
    for _ in range(700):
        tree = {"t": "BulletList", "c": [[tree]]}

    def read_text() -> object:
        return read_document(text.read_bytes(), ManuscriptKind.ODT)

    def read_tree() -> object:
        return document({"blocks": [tree]})

    for read in (read_text, read_tree):
        with pytest.raises(NoDocument) as found:
            read()
        assert found.value.why is WhyNot.TOO_DEEP
        assert "nested" in unreadable(found.value)


def test_what_a_page_says_that_it_does_not_show_is_typed_and_noted() -> None:
    page = (
        "<html><p>One<span hidden> two <b style='display:none'>three</b></span> four<div style='x:y; Display : NONE'>"
        "<p>five<p>six</div><div hidden><img src=a></div><input type=hidden value=no hidden><p>seven"
        "<table><tr><td hidden>eight<td>nine</table>"
    )
    found = read_document(page.encode(), ManuscriptKind.HTML)
    assert found.texts == ["One two three four", "five", "six", "seven", "eight; nine"]
    assert lost(found, LossKind.HIDDEN) == ["two three", "five six", "eight"]


def test_what_a_sheet_does_not_show_is_typed_and_noted() -> None:
    sheet = (
        ".far, nav.sea { display: none !important } p { display: block } #moon .near { Display:none }"
        " @media screen { .one { display: none } } @media print { b.two { display: none } }"
        " div .far { display: inline } .sea::before { display: none }"
    )
    body = (
        "<p>One <i class=far>two</i> three</p><nav class='x sea'>four <p>five</nav><div><p class=far>six</p></div>"
        "<p class=near>seven <b class=one>eight</b> <b class=two>nine</b></p><div id=moon><p class=near>ten</div>"
        "<p style='display:block' class=far>eleven</p><p class=sea>twelve</p>"
    )
    page = f"<html><head><style>{sheet}</style></head><body>{body}</body></html>"
    found = read_document(page.encode(), ManuscriptKind.HTML)
    hidden = ["two", "four five", "six", "nine", "ten", "eleven"]
    assert lost(found, LossKind.HIDDEN) == hidden
    assert "ten" in found.texts


def test_sheets_for_print_to_which_a_page_alone_leads_are_said_not_to_be_read() -> None:
    head = (
        "<link rel=stylesheet href=a.css><link rel='Stylesheet' href=a.css media=print><link rel=stylesheet href=b.css"
        " media=screen><link rel='alternate stylesheet' href=c.css><link rel=stylesheet><style>@import 'd.css';</style>"
    )
    page = f"<html><head>{head}</head><body><p class=h>Hidden</p></body></html>"
    found = read_document(page.encode(), ManuscriptKind.HTML)
    assert lost(found, LossKind.STYLES) == ["a.css", "d.css"]
    lines = report_lines(Path("a.html"), Taken((), (), found))
    assert lines[1:] == [
        "2 style sheets that pages use aren't read: words that they may hide are typed, and emphasis by them isn't noted:",
        "- “a.css”",
        "- “d.css”",
    ]


def test_words_that_a_sheet_emphasizes_are_noted_with_those_around_them() -> None:
    body = f"<p>The moon <span class=a>is far</span> away tonight<p class=a>{'Whole ' * 20}"
    page = f"<html><style>.a {{ font-variant: small-caps; font-style: italic }}</style>{body}</html>"
    found = read_document(page.encode(), ManuscriptKind.HTML)
    around = {each.words: each.around for each in found.losses}
    assert around["is far"] == "The moon is far away tonight"


def test_a_choice_that_shows_a_label_has_that_too_unless_it_is_the_same() -> None:
    choices = "<option label='One &amp; two'>x<option label='Four'> Four </option><option label=Five></option>"
    page = f"<html><p>In <select>{choices}</select></html>"
    found = read_document(page.encode(), ManuscriptKind.HTML)
    assert found.texts == ["In One & two x Four Five"]
    assert not found.missing


def test_a_template_without_a_text_is_not_said_to_be_damaged() -> None:
    made = BytesIO()
    with zipfile.ZipFile(made, "w") as container:
        container.writestr("mimetype", f"{ODT}-template")
        container.writestr("styles.xml", "<styles/>")
    with pytest.raises(NoDocument) as found:
        kind_of("a.ott", made.getvalue())
    assert unreadable(found.value) == "is a template that has styles and no text"


def test_what_is_important_goes_before_all_that_is_not() -> None:
    sheet = (
        "p { display: none ! important } #a { display: block } i { display: none }"
        " ol { list-style: none !important } #b { list-style: decimal }"
    )
    body = (
        "<p id=a>one</p><p style='display:block'>two</p><p style='display:block !important'>three</p>"
        "<div><i style='display:inline'>four</i></div><ol id=b style='list-style:decimal'><li>five</ol>"
    )
    page = f"<html><head><style>{sheet}</style></head><body>{body}</body></html>"
    found = read_document(page.encode(), ManuscriptKind.HTML)
    assert lost(found, LossKind.HIDDEN) == ["one", "two"]
    assert lost(found, LossKind.LIST) == ["five"]


def test_what_fields_and_parts_of_a_page_show_is_print_or_missing() -> None:
    body = (
        "<p>In <input placeholder='Your name'><input value=Ann placeholder=no><input type=password placeholder=Secret>"
        "<input type=image alt='To go'><select><optgroup label='From &amp; to'><option>One</select>"
        "<p>At <map><area alt='North land'></map> sea<textarea placeholder='Say it'></textarea>"
        "<iframe srcdoc='&lt;p&gt;Far&lt;b&gt;away'></iframe>"
    )
    found = read_document(f"<html>{body}</html>".encode(), ManuscriptKind.HTML)
    choice = "In Your name Ann Secret To go From & to One"
    assert found.texts == [choice, "At", "sea"]
    missing = [each.words for each in found.missing]
    assert missing == ["North land", "Say it", "Far away"]


def test_boxes_that_open_and_parts_to_search_are_paragraphs() -> None:
    body = "<p>one<dialog>two</dialog><dialog open>three</dialog><search>four</search><search>five</search>"
    found = read_document(f"<html>{body}</html>".encode(), ManuscriptKind.HTML)
    assert found.texts == ["one", "two", "three", "four", "five"]
    assert found.missing == ()
    assert lost(found, LossKind.HIDDEN) == ["two"]


def test_words_that_a_sheet_alone_emphasizes_or_raises_are_noted() -> None:
    sheet = (
        ".it { font-style: italic } .bold { font: bold 12px/1 serif } .up { vertical-align: super }"
        " .low { vertical-align: sub } .caps { text-transform: uppercase } .sc { font-variant: small-caps }"
        " .line, a { text-decoration: underline } h2 { font-style: italic; font-weight: 700 }"
    )
    body = (
        "<p><span class=it>one</span> <span class='bold it'>two</span> 3<span class=up>4</span>"
        " 5<span class=low>6</span> <cite class=caps>seven</cite> <span class=sc>eight</span>"
        " <span style='font-style: italic'>nine</span> <span class=line>ten</span>"
        " <span class=it style='font-style: normal'>eleven</span> <a href=x>twelve</a></p><p class=it>thirteen</p>"
        " <h2>Fourteen</h2><p>fifteen<a href='#n'><span class=up>1</span></a>"
        "<span class=up><a href='#n'>2</a></span> <i class=it>six</i><div id=n class=it></div>"
    )
    page = f"<html><head><style>{sheet}</style></head><body>{body}</body></html>"
    found = read_document(page.encode(), ManuscriptKind.HTML)
    by_sheet = contents.contents_of(page.encode(), ManuscriptKind.HTML).losses
    emphases = [e.words for e in by_sheet if e.what is LossKind.EMPHASIS]
    assert emphases == "one two seven eight nine ten thirteen".split()
    assert lost(found, LossKind.SUPERSCRIPT) == ["4"]
    assert lost(found, LossKind.SUBSCRIPT) == ["6"]
    assert found.missing == ()


def test_a_paragraph_of_a_page_is_noted_that_a_sheet_alone_emphasizes_but_headings() -> (
    None
):
    sheet = (
        ".bold, th p, h2 p { font-weight: bold } .line { text-decoration: line-through } .up { text-transform: uppercase }"
        " .smallcaps, em { font-variant: small-caps } .light { font-weight: 400; text-decoration: none }"
    )
    body = (
        "<p class=bold>One</p><p class=light>two</p><p class=line>three</p><p class=up>four</p>"
        "<p class=smallcaps>five</p><p style='font: bold 1em serif'>six</p><p class=bold style='font-weight: 400'>seven"
        "<h2 class=bold>Eight</h2><h3 class=line>zero</h3><h2><p>Nine</p></h2><table><tr><th><p>ten</p><th class=bold>eleven</table>"
        "<p>a <span class=bold>twelve</span> <b>thirteen</b></p>"
    )
    page = f"<html><head><style>{sheet}</style></head><body>{body}</body></html>"
    found = read_document(page.encode(), ManuscriptKind.HTML)
    emphasized = "One three four five six twelve thirteen zero".split()
    assert sorted(lost(found, LossKind.EMPHASIS)) == sorted(emphasized)


def test_a_block_of_a_page_that_is_emphasized_is_noted_by_its_first_words_but_headings() -> (
    None
):
    sheet = (
        ".bold { font-weight: bold } .it { font-style: italic } .line { text-decoration: line-through }"
        " .plain { font-weight: 400; font-style: normal }"
    )
    body = (
        "<div class=bold>One <i>two</i><p>three</p></div><div class=it><h2>Four</h2><p> &nbsp;</p><p>five</p><p>six</p></div>"
        "<ul><li style='font-style: italic'>seven<li>eight<li class=line><p>nine</ul><div class=line><h3>Ten</h3></div>"
        "<table><tr><td style='font-weight:700'>eleven<td class=bold><tr><td>twelve<td class=it><p>thirteen</table>"
        "<div class=bold><p class=plain>fourteen<p>fifteen</p><div class='it' style='font-weight:400'>sixteen</div>seventeen</div>"
        "<blockquote class=it><div class=plain>x</div></blockquote><div class=it><span class=plain>y</span></div>"
        "<div class=bold></div><div>eighteen</div><table><tr><th class=it>nineteen<th class=bold>z</table>"
    )
    page = f"<html><head><style>{sheet}</style></head><body>{body}</body></html>"
    found = contents.contents_of(page.encode(), ManuscriptKind.HTML).losses
    emphases = [each.words for each in found if each.what is LossKind.EMPHASIS]
    assert emphases == (
        "One two|five|seven|nine|Ten|eleven|thirteen|fifteen|sixteen|seventeen"
    ).split("|")


def test_what_is_lost_within_words_that_are_shown_as_they_are_written_is_noted_as_elsewhere() -> (
    None
):
    body = (
        "<pre>a <b>bold</b> <a href='http://x.example#y'>there</a> H<sub>2</sub>O\nin 10<sup><a href='#n'>3</a></sup> <img"
        " src=x.png>, <img src=y.png alt=Moon> <img> <i></i><a href='http://z.example'>z.example</a>\n<a href='#n'>up</a></pre>"
        "<p>By <code>the <em>line <u>below</u></em><img src=z.png/></code>, <samp><s>old</s></samp> <kbd><b>key</b></kbd>"
    )
    found = read_document(f"<html>{body}</html>".encode(), ManuscriptKind.HTML)
    emphasized = ["below", "bold", "key", "line below", "old"]
    assert sorted(lost(found, LossKind.EMPHASIS)) == emphasized
    assert lost(found, LossKind.LINK) == ["there"]
    assert lost(found, LossKind.SUBSCRIPT) == ["2"]
    assert lost(found, LossKind.SUPERSCRIPT) == ["3"]
    around = [each.around for each in found.losses if each.what is LossKind.PICTURE]
    assert around == [
        "a bold there H2O in 103 , Moon z.example up",
        "By the line below , old key",
    ]
    assert [each.words for each in found.missing] == ["Moon"]


def test_words_that_are_plain_in_what_a_sheet_emphasizes_on_a_page_are_not_noted() -> (
    None
):
    sheet = ".bold { font-weight: bold } .it { font-style: italic } .line { text-decoration: underline }"
    sheet += " .plain { font-weight: normal; text-decoration: none }"
    body = (
        "<p class=bold>one<span class=plain> two </span>three<p class='bold it'>four <span class=plain>five</span>"
        "<p class=bold><span class=plain>six <i>seven</i></span><p class=line>eight <span class=plain>nine</span>"
        "<p class=bold>ten <span class=bold>eleven <span class=plain>twelve <em class=plain>thirteen</em></span></span>"
        "<span class=plain>x<p class=bold>fourteen <span class=plain>y"
    )
    page = f"<html><head><style>{sheet}</style></head><body>{body}</body></html>"
    found = read_document(page.encode(), ManuscriptKind.HTML)
    emphasized = (
        "one|three|four five|seven|eight nine|ten eleven|eleven|fourteen|thirteen"
    )
    assert sorted(lost(found, LossKind.EMPHASIS)) == sorted(emphasized.split("|"))
    around = {each.words: each.around for each in found.losses}
    assert around["three"] == "one two three"


def test_a_page_with_very_many_plain_words_in_what_is_emphasized_takes_little_time() -> (
    None
):
    bold, plain = "<span style=font-weight:bold>", "<span style=font-weight:400>"
    page = f"<html><p>{f'{bold}a{plain}b' * 5_000}{bold * 5_000}{(plain + 'c</span>') * 5_000}</html>"
    start = time.process_time()
    contents.contents_of(page.encode(), ManuscriptKind.HTML)
    assert time.process_time() - start < WAIT_SECONDS


@pytest.mark.parametrize(
    "properties, plain",
    [
        ('fo:font-variant="small-caps"', 'fo:font-variant="normal"'),
        ('fo:text-transform="uppercase"', 'fo:text-transform="none"'),
        ('fo:background-color="#ffff00"', 'fo:background-color="transparent"'),
        ('style:text-emphasize="dot above"', 'style:text-emphasize="none"'),
        ('style:text-overline-style="solid"', 'style:text-overline-style="none"'),
    ],
)
def test_words_in_odt_that_are_emphasized_in_other_ways_are_noted(
    tmp_path: Path, properties: str, plain: str
) -> None:
    named = '<style:style style:name="{}" style:family="text"{}><style:text-properties {}/></style:style>'
    based = ' style:parent-style-name="A"'
    styles = named.format("A", "", properties)
    automatic = named.format("B", based, "") + named.format("C", based, plain)
    automatic += named.format("D", "", plain)
    words = "".join(
        f'<text:span text:style-name="{name}">{name}</text:span> ' for name in "ABCD"
    )
    path = odt(tmp_path / "a.odt", f"<text:p>{words}</text:p>", automatic, styles)
    found = read_manuscript(path)
    assert found.texts == ["A B C D"]
    assert lost(found, LossKind.EMPHASIS) == ["A", "B"]


def test_words_in_odt_that_a_style_hides_are_noted_unless_they_are_shown_again(
    tmp_path: Path,
) -> None:
    named = '<style:style style:name="{}" style:family="text"{}><style:text-properties {}/></style:style>'
    based = ' style:parent-style-name="{}"'
    styles = named.format("A", "", 'text:display="none"')
    automatic = named.format("B", based.format("A"), "")
    automatic += named.format("C", based.format("A"), 'text:display="true"')
    automatic += named.format("D", based.format("D"), "")
    words = "".join(
        f'<text:span text:style-name="{name}">{name}</text:span> ' for name in "ABCD"
    )
    path = odt(tmp_path / "a.odt", f"<text:p>{words}</text:p>", automatic, styles)
    found = read_manuscript(path)
    assert found.texts == ["A B C D"]
    assert lost(found, LossKind.HIDDEN) == ["A", "B"]
