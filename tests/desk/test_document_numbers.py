"""The numbers and bullets that Word shows before paragraphs, as they are in print."""

import re
import zipfile
from pathlib import Path

import pytest

from braildesk.desk.documents.document import read_document
from braildesk.desk.documents.kinds import ManuscriptKind
from braildesk.desk.documents.options import ReadingOptions
from braildesk.desk.documents.reading import LossKind
from braildesk.desk.manuscripts import read_manuscript

from handmade import deleted, docx, in_list, level, lists, note, odt, paragraph, run

LEGAL = level(0, "decimal", "\u00a7 %1") + level(1, "lowerLetter", "(%2)")
PARTS = level(0, "upperRoman", "Part %1:") + level(1, "decimal", "%1.%2")


def item(text: str, number: int, place: int = 0) -> str:
    return paragraph(run(text), properties=in_list(number, place))


def texts(folder: Path, body: str, numbering: str, styles: str = "") -> list[str]:
    path = docx(folder / "lists.docx", body, numbering=numbering, styles=styles)
    found = read_manuscript(path)
    assert found.missing == ()
    return found.texts


def test_items_have_the_numbers_that_their_list_gives_them(tmp_path: Path) -> None:
    body = (
        item("Tides", 1)
        + item("The sea", 1, 1)
        + item("The moon", 1, 1)
        + paragraph(run("Between"))
        + item("Stars", 1)
        + item("The sun", 1, 1)
    )
    assert texts(tmp_path, body, lists(LEGAL)) == [
        "\u00a7 1 Tides",
        "(a) The sea",
        "(b) The moon",
        "Between",
        "\u00a7 2 Stars",
        "(a) The sun",
    ]


def test_headings_have_the_numbers_of_their_styles(tmp_path: Path) -> None:
    styles = (
        '<w:style w:type="paragraph" w:styleId="Part"><w:name w:val="heading 1"/>'
        f"<w:pPr>{in_list(1)}</w:pPr></w:style>"
        '<w:style w:type="paragraph" w:styleId="Own"><w:basedOn w:val="Part"/>'
        '<w:pPr><w:numPr><w:ilvl w:val="1"/></w:numPr></w:pPr></w:style>'
    )
    body = (
        paragraph(run("Water"), style="Part")
        + paragraph(run("Rain"), style="Own")
        + paragraph(run("None"), style="Part", properties=in_list(0))
        + paragraph(run("Air"), style="Part")
        + paragraph(style="Part")
    )
    assert texts(tmp_path, body, lists(PARTS), styles) == [
        "Part I: Water",
        "I.1 Rain",
        "None",
        "Part II: Air",
        "Part III:",
    ]


@pytest.mark.parametrize(
    "form, start, shown",
    [
        ("decimal", 7, "7 a"),
        ("decimalZero", 7, "07 a"),
        ("upperRoman", 14, "XIV a"),
        ("lowerRoman", 9, "ix a"),
        ("upperLetter", 26, "Z a"),
        ("lowerLetter", 27, "aa a"),
        ("lowerLetter", 28, "bb a"),
        ("none", 5, "a"),
    ],
)
def test_a_number_has_the_form_of_its_level(
    tmp_path: Path, form: str, start: int, shown: str
) -> None:
    numbering = lists(level(0, form, "%1", start=start))
    assert texts(tmp_path, item("a", 1), numbering) == [shown]


def test_a_list_that_is_said_to_begin_anew_does(tmp_path: Path) -> None:
    also = (
        '<w:num w:numId="2"><w:abstractNumId w:val="1"/></w:num>'
        '<w:num w:numId="3"><w:abstractNumId w:val="1"/>'
        '<w:lvlOverride w:ilvl="0"><w:startOverride w:val="5"/></w:lvlOverride></w:num>'
    )
    body = "".join(item("a", number) for number in (1, 2, 3, 3, 1))
    numbering = lists(level(0, "decimal", "%1)"), also=also)
    assert texts(tmp_path, body, numbering) == ["1) a", "2) a", "5) a", "6) a", "7) a"]


def test_a_level_goes_on_where_it_is_said_to(tmp_path: Path) -> None:
    going_on = level(0, "decimal", "Part %1") + level(
        1, "decimal", "Chapter %2", '<w:lvlRestart w:val="0"/>'
    )
    body = item("a", 1) + item("b", 1, 1) + item("c", 1) + item("d", 1, 1)
    assert texts(tmp_path, body, lists(going_on)) == [
        "Part 1 a",
        "Chapter 1 b",
        "Part 2 c",
        "Chapter 2 d",
    ]


def test_legal_numbers_are_in_digits_and_nothing_may_part_them(tmp_path: Path) -> None:
    legal = level(0, "upperRoman", "%1") + level(
        1, "decimal", "%1.%2:", "<w:isLgl/>", '<w:suff w:val="nothing"/>'
    )
    body = item("a", 1) + item("b", 1, 1)
    assert texts(tmp_path, body, lists(legal)) == ["I a", "1.1:b"]


def test_a_number_may_be_one_word_with_what_it_stands_before(tmp_path: Path) -> None:
    joined = level(0, "decimal", "%1", '<w:suff w:val="nothing"/>')
    body = item("apple tart", 1) + item("pear tart", 1)
    assert texts(tmp_path, body, lists(joined)) == ["1apple tart", "2pear tart"]


LATER = (
    '<mc:AlternateContent><mc:Choice Requires="w14"><w:numFmt w:val="custom" w:format="{}"/>'
    '</mc:Choice><mc:Fallback><w:numFmt w:val="decimal"/></mc:Fallback></mc:AlternateContent>'
)


@pytest.mark.parametrize(
    ("form", "shown", "noted"),
    [
        ("001, 002, 003, ...", "§ 007 a", []),
        ("0001, 0002, 0003, ...", "§ 0007 a", []),
        ("α, β, γ, ...", "§ 7 a", ["§ 7"]),
    ],
)
def test_numbers_have_the_form_that_word_gives_them_in_its_later_versions(
    tmp_path: Path, form: str, shown: str, noted: list[str]
) -> None:
    padded = level(0, "decimal", "§ %1", start=7).replace(
        '<w:numFmt w:val="decimal"/>', LATER.format(form)
    )
    path = docx(tmp_path / "a.docx", item("a", 1), numbering=lists(padded))
    found = read_manuscript(path)
    assert found.texts == [shown]
    assert [loss.words for loss in found.losses] == noted


def test_an_attribute_may_have_the_sign_with_which_a_tag_ends(tmp_path: Path) -> None:
    numbering = lists(level(0, "decimal", "%1."))
    odd = paragraph(run("a > b"), properties=in_list(1))
    odd = odd.replace("<w:p>", '<w:p w:rsidR=\'a>"b\' w:rsidP="/>">')
    empty = paragraph(properties=in_list(1)).replace("<w:p>", '<w:p w:rsidR="/>">')
    assert texts(tmp_path, odd + empty + item("c", 1), numbering) == [
        "1. a > b",
        "2.",
        "3. c",
    ]


def test_bullets_are_those_of_the_book_and_a_blank_one_is_none(tmp_path: Path) -> None:
    numbering = lists(level(0, "bullet", "\uf0b7") + level(1, "bullet", " "))
    path = docx(
        tmp_path / "a.docx", item("a", 1) + item("b", 1, 1), numbering=numbering
    )
    assert read_manuscript(path).texts == ["\u2022 a", "b"]
    assert read_manuscript(path, ReadingOptions(bullet="-")).texts == ["- a", "b"]


def test_a_deleted_paragraph_has_no_number(tmp_path: Path) -> None:
    gone = in_list(1) + '<w:rPr><w:del w:id="1" w:author="A"/></w:rPr>'
    body = item("a", 1) + paragraph(properties=gone) + item("b", 1)
    numbering = lists(level(0, "decimal", "%1."))
    assert texts(tmp_path, body, numbering) == ["1. a", "2. b"]


def test_a_number_that_is_otherwise_in_print_is_noted(tmp_path: Path) -> None:
    numbering = lists(level(0, "cardinalText", "Chapter %1"))
    path = docx(tmp_path / "words.docx", item("The sea", 1), numbering=numbering)
    found = read_manuscript(path)
    assert found.texts == ["Chapter 1 The sea"]
    (loss,) = found.losses
    assert (loss.what, loss.words, loss.around) == (
        LossKind.NUMBER,
        "Chapter 1",
        "Chapter 1 The sea",
    )


NUMBER = '<text:list-level-style-number text:level="{}" style:num-format="{}" {}/>'
ALIGNED = (
    '<text:list-level-style-number text:level="1" style:num-format="1">'
    "<style:list-level-properties><style:list-level-label-alignment"
    ' text:label-followed-by="nothing"/></style:list-level-properties>'
    "</text:list-level-style-number>"
)
#: Styles of lists, by their names.
FORMS = {
    "L": NUMBER.format(1, "1", 'style:num-suffix="."')
    + NUMBER.format(2, "a", 'style:num-suffix=")"')
    + NUMBER.format(3, "i", 'style:num-suffix="." text:display-levels="3"'),
    "M": NUMBER.format(
        1,
        "A",
        'style:num-prefix="Art. " style:num-suffix=":" text:start-value="26"',
    ),
    "N": ALIGNED + '<text:list-level-style-bullet text:level="2" text:bullet-char="-"/>'
    # its third level says nothing, and its fourth has no number
    + NUMBER.format(4, "", ""),
    "P": NUMBER.format(1, "1", 'loext:num-list-format="(%1%)"')
    + NUMBER.format(2, "1", 'loext:num-list-format="\u00a7 %1%/%2%:"'),
    "U": NUMBER.format(1, "\u4e00, \u4e8c, \u4e09, ...", ""),
    "S": NUMBER.format(1, "A", 'style:num-letter-sync="true" text:start-value="27"'),
}
OWN = (
    '<style:style style:name="Own" style:family="paragraph" style:list-style-name=""/>'
)
STYLES_OF_LISTS = (
    OWN
    + "".join(
        f'<text:list-style style:name="{name}">{levels}</text:list-style>'
        for name, levels in FORMS.items()
    )
    + (
        '<text:list-style style:name="C" text:consecutive-numbering="true">'
        f"{NUMBER.format(1, '1', '')}{NUMBER.format(2, '1', '')}</text:list-style>"
    )
)
OUTLINE = (
    '<text:outline-style style:name="Outline">{}{}{}</text:outline-style>'
    '<style:style style:name="Usual" style:family="paragraph" style:list-style-name=""/>'
).format(
    '<text:outline-level-style text:level="1" style:num-format="I" style:num-suffix="."/>',
    '<text:outline-level-style text:level="2" style:num-format="1" text:display-levels="2"/>',
    '<text:outline-level-style text:level="3" style:num-format=""/>',
)


def items(*texts: str, **said: str) -> str:
    """A list of items, of which those that are lists stand in the item before them."""
    attributes = "".join(
        f' {name.replace("__", ":").replace("_", "-")}="{value}"'
        for name, value in said.items()
    )
    inner = "".join(
        each
        if each.startswith("<text:list-")
        else f"<text:list-item>{each}</text:list-item>"
        for each in (
            text if text.startswith("<") else f"<text:p>{text}</text:p>"
            for text in texts
        )
    )
    return f"<text:list{attributes}>{inner}</text:list>"


def listed(style: str, *texts: str, **said: str) -> str:
    return items(*texts, text__style_name=style, **said)


def from_start(number: int, text: str, more: str = "") -> str:
    return (
        f'<text:list-item text:start-value="{number}" {more}><text:p>{text}</text:p>'
        "</text:list-item>"
    )


def headed(level: int, text: str, more: str = "") -> str:
    return f'<text:h text:outline-level="{level}" {more}>{text}</text:h>'


BETWEEN = "<text:p>x</text:p>"
GOING_ON = {"text__continue_numbering": "true"}


# as LibreOffice 7.4 writes each of these as plain text, but for its bullets and a blank after each number
@pytest.mark.parametrize(
    ("text", "shown"),
    [
        (
            listed("L", "a", "b")
            + BETWEEN
            + listed("L", "c", **GOING_ON)
            + listed("L", "d"),
            ["1. a", "2. b", "x", "3. c", "1. d"],
        ),
        (
            listed("L", "a", xml__id="l")
            + listed("M", "q", xml__id="m")
            + listed("L", "b", text__continue_list="l")
            + listed("M", "r", text__continue_list="m"),
            ["1. a", "Art. Z: q", "2. b", "Art. AA: r"],
        ),
        (
            listed("L", "a") + listed("M", "q") + listed("L", "b", **GOING_ON),
            ["1. a", "Art. Z: q", "1. b"],
        ),
        (
            listed("L", "a", from_start(7, "b"), "c") + listed("L", "d", **GOING_ON),
            ["1. a", "7. b", "8. c", "9. d"],
        ),
        (
            listed("L", "<text:p>a</text:p>" + items("b", "c") + items("d"), "e"),
            ["1. a", "a) b", "b) c", "a) d", "2. e"],
        ),
        (
            listed(
                "L",
                "<text:p>a</text:p>" + items("b") + items("c", **GOING_ON),
                items("d"),
            ),
            ["1. a", "a) b", "b) c", "c) d"],
        ),
        (
            listed("L", items("a", items("b", "c")) + "<text:p>d</text:p>", "e"),
            ["a) a", "1.a.i. b", "1.a.ii. c", "d", "2. e"],
        ),
        (
            listed(
                "L",
                "<text:list-header><text:p>a</text:p></text:list-header>",
                "<text:p>b</text:p><text:p>c</text:p>",
                "<text:p/>",
                "d",
            ),
            ["a", "1. b", "c", "2.", "3. d"],
        ),
        (
            listed("N", "a apple", items("b", items("c", items("d")))),
            ["1a apple", "\u2022 b", "1. c", "d"],
        ),
        (
            listed("P", "a", items("b", "c")),
            ["(1) a", "\u00a7 1/1: b", "\u00a7 1/2: c"],
        ),
        (items("a") + listed("none", "b"), ["\u2022 a", "\u2022 b"]),
        (
            listed("L", "a", from_start(2, "b", 'text:style-override="S"'), "c"),
            ["1. a", "B b", "3. c"],
        ),
        (listed("S", "a", "b"), ["AA a", "BB b"]),
        (listed("C", "a", items("b", "c"), "d"), ["1 a", "2 b", "3 c", "4 d"]),
        (
            headed(1, "a")
            + headed(2, "b")
            + headed(2, "c")
            + headed(3, "d")
            + headed(1, "e", 'text:is-list-header="true"')
            + headed(1, "f", 'text:style-name="Own"')
            + headed(1, "g", 'text:style-name="Usual"')
            + headed(2, "h"),
            ["I. a", "I.1 b", "I.2 c", "d", "e", "f", "II. g", "II.1 h"],
        ),
        (
            headed(1, "a")
            + headed(1, "b", 'text:restart-numbering="true" text:start-value="9"')
            + listed("L", headed(1, "c"))
            + headed(1, "d"),
            ["I. a", "IX. b", "1. c", "X. d"],
        ),
        (
            '<text:section text:name="s">'
            + listed("L", "a")
            + "</text:section>"
            + listed("L", "b", **GOING_ON),
            ["1. a", "2. b"],
        ),
        (
            '<text:numbered-paragraph text:list-id="q" text:style-name="L"><text:p>a</text:p>'
            '</text:numbered-paragraph><text:numbered-paragraph text:list-id="q" text:level="2"'
            ' text:style-name="L"><text:p>b</text:p></text:numbered-paragraph>',
            ["1. a", "a) b"],
        ),
    ],
)
def test_numbers_of_odt_are_those_that_libreoffice_shows(
    tmp_path: Path, text: str, shown: list[str]
) -> None:
    found = read_manuscript(odt(tmp_path / "lists.odt", text, STYLES_OF_LISTS, OUTLINE))
    assert (found.texts, found.missing) == (shown, ())
    assert not [loss for loss in found.losses if loss.what is LossKind.NUMBER]


def noted(text: str) -> str:
    """A paragraph with a note."""
    inner = f"<text:note-citation>1</text:note-citation><text:note-body>{text}</text:note-body>"
    return (
        f'<text:p>x<text:note text:note-class="footnote">{inner}</text:note></text:p>'
    )


def test_no_list_of_a_text_in_odt_goes_on_with_one_in_a_note(tmp_path: Path) -> None:
    text = noted(listed("L", "n")) + listed("L", "a", **GOING_ON)
    text += noted(listed("L", "m", **GOING_ON)) + listed("L", "b", **GOING_ON)
    found = read_manuscript(odt(tmp_path / "lists.odt", text, STYLES_OF_LISTS, OUTLINE))
    assert found.texts == ["x[1]", "[1: 1. n]", "1. a", "x[2]", "[2: 2. m]", "2. b"]


@pytest.mark.parametrize("joined", ["", ' text:consecutive-numbering="true"'])
def test_a_heading_of_odt_may_begin_its_numbers_anew(
    tmp_path: Path, joined: str
) -> None:
    outline = OUTLINE.replace("<text:outline-style", f"<text:outline-style{joined}")
    text = headed(1, "a") + headed(1, "b", 'text:restart-numbering="true"')
    found = read_manuscript(
        odt(tmp_path / "a.odt", text + headed(1, "c"), styles=outline)
    )
    assert found.texts == ["I. a", "I. b", "II. c"]


def test_numbers_of_odt_that_are_otherwise_in_print_are_noted(tmp_path: Path) -> None:
    path = odt(tmp_path / "lists.odt", listed("U", "Tides"), STYLES_OF_LISTS)
    found = read_manuscript(path)
    assert found.texts == ["1 Tides"]
    assert [(loss.what, loss.words, loss.around) for loss in found.losses] == [
        (LossKind.NUMBER, "1", "1 Tides")
    ]


def test_numbers_that_a_page_gives_its_items_itself_are_noted(tmp_path: Path) -> None:
    path = tmp_path / "items.html"
    path.write_text(
        "<html><ol start=3><li>a<li value=4>b<li value=9>c<ul><li>d</ul><li>e</ol>"
        "<ul><li value=7>f</ul><ol><li value=x>g</ol></html>"
    )
    found = read_manuscript(path)
    assert [(each.what, each.words) for each in found.losses] == [
        (LossKind.NUMBER, "9"),
        (LossKind.NUMBER, "10"),
    ]


def test_a_number_stands_before_all_that_a_deleted_end_joins(tmp_path: Path) -> None:
    gone = '<w:rPr><w:del w:id="1" w:author="A"/></w:rPr>'
    body = paragraph(run("a"), properties=gone) + item("b", 1) + item("c", 1)
    numbering = lists(level(0, "decimal", "%1."))
    assert texts(tmp_path, body, numbering) == ["1. a b", "2. c"]


def test_lists_that_no_program_writes_keep_no_document_from_being_read(
    tmp_path: Path,
) -> None:
    body = item("a", 1, 5_000_000) + item("b", 1)
    numbering = (
        lists(level(0, "upperLetter", "%1.") + level(5_000_000, "decimal", "%1."))
        .replace('"1"/><w:numFmt', '"no"/><w:numFmt', 1)
        .replace("<w:lvlText", '<w:lvlRestart w:val="no"/><w:lvlText')
    )
    assert texts(tmp_path, body, numbering) == ["A. a", "B. b"]


def test_nothing_is_counted_by_a_letter_before_the_first(tmp_path: Path) -> None:
    numbering = lists(level(0, "upperLetter", "%1.", start=0))
    body = item("a", 1) + item("b", 1)
    assert texts(tmp_path, body, numbering) == [". a", "A. b"]


@pytest.mark.parametrize(
    "part, old, new",
    [
        ("document", "<w:body>", "<w:body><!-- <w:p> -->"),
        ("document", "openxmlformats.org/wordprocessingml/2006", "other.org"),
        ("styles", "</w:styles>", ""),
    ],
)
def test_what_no_word_writes_is_read_as_it_is(
    tmp_path: Path, part: str, old: str, new: str
) -> None:
    numbering = lists(level(0, "decimal", "%1."))
    path = docx(tmp_path / "a.docx", item("a", 1) + item("b", 1), numbering=numbering)
    with zipfile.ZipFile(path) as container:
        parts = {name: container.read(name) for name in container.namelist()}
    name = f"word/{part}.xml"
    assert old.encode() in parts[name]
    parts[name] = parts[name].replace(old.encode(), new.encode())
    with zipfile.ZipFile(path, "w") as container:
        for name, whole in parts.items():
            container.writestr(name, whole)
    assert read_manuscript(path).texts == ["1. a", "2. b"]


CODE, RESULT, END = (
    f'<w:r><w:fldChar w:fldCharType="{each}"/></w:r>'
    for each in ("begin", "separate", "end")
)


@pytest.mark.parametrize(
    "inner, shown",
    [
        (run("a ") + CODE + CODE + RESULT + run("9") + END + RESULT + run("b"), "a b"),
        (CODE + f"<w:fldSimple>{run('9')}</w:fldSimple>" + RESULT + run("b"), "b"),
        (CODE + RESULT + run("a") + CODE + RESULT + run(" 9") + END, "a 9"),
        (CODE + CODE + RESULT + run("9") + END + END + run(" b"), "9 b"),
        (CODE + CODE + RESULT + run("9") + END + run(" b"), "9 b"),
        (run("a") + END + RESULT + run(" b"), "a b"),
    ],
)
def test_what_a_field_has_within_its_code_is_no_print(
    tmp_path: Path, inner: str, shown: str
) -> None:
    body = paragraph(inner, END, run(" c")) + paragraph(run("d"))
    assert texts(tmp_path, body, "") == [f"{shown} c", "d"]


def code(text: str) -> str:
    return f'<w:r><w:instrText xml:space="preserve">{text}</w:instrText></w:r>'


def shown(text: str, address: str = "") -> str:
    """A field that shows a text, which may be a link."""
    its = f' HYPERLINK "{address}" ' if address else " REF b "
    return CODE + code(its) + RESULT + run(text) + END


ONE = CODE + code(" GOTOBUTTON a Go ") + shown("one") + END
IN_A_RUN = "<w:r>{}</w:r>".format(
    '<w:fldChar w:fldCharType="begin"/><w:instrText>DATE</w:instrText><w:fldChar w:fldCharType="end"/>'
)


@pytest.mark.parametrize(
    "inner",
    [
        ONE + CODE + END,
        ONE + IN_A_RUN,
        ONE + '<w:fldSimple w:instr="MACROBUTTON Run Press"/>',
        CODE + shown("one") + END,
        CODE + RESULT + run("one") + END + CODE + code("DATE") + END,
        CODE + code("IF ") + CODE + code("DATE") + RESULT + run("9") + END + RESULT
        + run("one") + END,
        CODE + code("EQ ") + CODE + code("REF b") + RESULT + run("o")
        + CODE + code("EQ ") + shown("ne") + END + END + END + CODE + END,
        CODE + code("DATE") + RESULT + run("one"),
    ],
    ids="empty run simple coded half choice nested open".split(),
)  # fmt: skip
@pytest.mark.parametrize("is_in_others", [True, False])
def test_what_stands_after_a_field_keeps_its_place_and_is_no_link(
    tmp_path: Path, inner: str, is_in_others: bool
) -> None:
    if is_in_others:
        inner = CODE + code(" REF c ") + RESULT + inner + END
    body = paragraph(run("At "), inner, run(" two "), shown("three", "http://x.org"))
    body = body.replace("</w:p>", run(" four") + "</w:p>") + paragraph(run("five"))
    found = read_manuscript(docx(tmp_path / "a.docx", body))
    assert found.texts == ["At one two three four", "five"]
    links = [loss.words for loss in found.losses if loss.what is LossKind.LINK]
    assert links == ["three"]


def test_words_of_fields_that_lead_astray_are_said_to_be_missing(
    tmp_path: Path,
) -> None:
    button = CODE + code(" MACROBUTTON Run Go ") + shown("one") + code(" now ") + END
    choice = '<w:fldChar w:fldCharType="begin"><w:ffData><w:ddList><w:listEntry w:val="Yes"/></w:ddList></w:ffData></w:fldChar>'
    form = f"<w:r>{choice}</w:r>{code('FORMDROPDOWN')}{END}"
    found = read_manuscript(docx(tmp_path / "a.docx", paragraph(button, form)))
    assert found.texts == ["one"]
    assert [each.words for each in found.missing] == ["Yes", "Go now"]


@pytest.mark.parametrize("is_whole", [True, False])
def test_a_document_in_the_strict_form_is_read_as_any_other(
    tmp_path: Path, is_whole: bool
) -> None:
    address = "http://purl.oclc.org/ooxml/wordprocessingml/main"
    body = item("a", 1) + paragraph(run(f'w="{address}"'), deleted("gone"))
    body += paragraph(run("unseen", "<w:vanish/>"), run("."), note(1))
    numbering = lists(level(0, "upperLetter", "%1)"))
    path = docx(tmp_path / "a.docx", body, [(1, "A note.")], numbering=numbering)
    with zipfile.ZipFile(path) as container:
        parts = {name: container.read(name) for name in container.namelist()}
    usual = rb"http://schemas\.openxmlformats\.org/(\w+)/2006/"
    with zipfile.ZipFile(path, "w") as container:
        for name, whole in parts.items():
            if is_whole or not name.endswith(".rels"):
                own = rb"http://purl.oclc.org/ooxml/\1/"
                whole = re.sub(
                    usual.replace(rb"\w+", rb"word\w+|office\w+"), own, whole
                )
            container.writestr(name, whole)
    found = read_manuscript(path)
    texts = ["A) a", f'w="{address}"', "unseen.[1]", "[1: A note.]"]
    assert (found.texts, found.missing) == (texts, ())
    assert {(each.what, each.words) for each in found.losses} == {
        (LossKind.DELETED, "gone"),
        (LossKind.HIDDEN, "unseen"),
    }


def test_numbers_of_a_list_that_a_page_counts_downwards_are_noted(
    tmp_path: Path,
) -> None:
    path = tmp_path / "items.html"
    path.write_text(
        "<html><ol reversed><li>a<ul><li>b</ul><li>c<li value=8>d<li>e</ol>"
        "<ol reversed start=6><li>f<li>g</ol></html>"
    )
    noted = [each.words for each in read_manuscript(path).losses]
    assert noted == ["4", "3", "8", "7", "5"]


@pytest.mark.parametrize(
    ("style", "page", "noted"),
    [
        ("", "<ol><li>a</ol><ul><li>b</ul>", []),
        ("ol { list-style: none }", "<ol><li>a<li>b</ol><ul><li>c</ul>", ["a"]),
        ("", "<ol style='list-style-type:none'><li><p>a</p></li></ol>", ["a"]),
        ("", "<ol style='list-style-type: lower-alpha'><li>a</ol>", []),
        ("ol { list-style: lower-alpha inside }", "<ol><li>a</ol>", ["a"]),
        ("ol { list-style: lower-alpha }", "<ol type=a><li>a</ol>", []),
        ("ol { list-style: inherit; color: red }", "<ol><li>a</ol>", []),
        ("li { display: inline }", "<ul><li>a</ul><ol><li>b</ol>", ["a", "b"]),
        ("li.x { list-style: none }", "<ol><li>a<li class='y x'>b</ol>", ["b"]),
        ("ul { list-style: square }", "<ul><li>a</ul>", []),
        ("ul { list-style: decimal }", "<ul><li>a</ul>", ["a"]),
        (
            "nav ol, .x > ol, #q.z ol { list-style: none }",
            "<nav><div><ol><li>a</ol></div></nav><div class=x><ol><li>b<ol><li>c</ol></ol></div>"
            "<div class=z><ol><li>d</ol></div><div id=q class=z><ol><li>e</ol></div>",
            ["a", "b", "e"],
        ),
        (
            "ol { list-style: none } .x { list-style: decimal } ol { color: red }",
            "<ol class=x><li>a</ol><ol><li>b</ol>",
            ["b"],
        ),
        (
            "@charset 'x'; @media screen { ol { list-style: none } } /* ol { */"
            "@media print { ul { list-style: none } } ol:first-child { list-style: none }",
            "<ol><li>a</ol><ul><li>b</ul>",
            ["b"],
        ),
    ],
)
def test_lists_of_a_page_whose_style_hides_or_changes_their_numbers_are_noted(
    tmp_path: Path, style: str, page: str, noted: list[str]
) -> None:
    path = tmp_path / "items.html"
    head = f"<html><head><style>{style}</style></head>" if style else "<html>"
    path.write_text(f"{head}<body>{page}</body></html>")
    losses = read_manuscript(path).losses
    assert [loss.words for loss in losses if loss.what is LossKind.LIST] == noted


LINK = "<link rel=stylesheet {} href=a.css>"


@pytest.mark.parametrize(
    "head, words",
    [
        ("", []),
        (LINK.format(""), ["One"]),
        (LINK.format("media='screen, print'"), ["One"]),
        (LINK.format("media=screen"), []),
        (LINK.format("media=screen") + '<style>@import "x.css";</style>', ["One"]),
    ],
)
def test_lists_are_noted_whose_numbers_a_sheet_may_say_that_is_not_read(
    head: str, words: list[str]
) -> None:
    page = (
        f"<html><head>{head}<style>.own {{list-style: decimal}}</style></head>"
        "<ol class='loweralpha simple'><li>One</li></ol><ol><li>Two</li></ol>"
        "<ol class='arabic simple'><li>Three</li></ol><ol class=own><li>Four</li></ol>"
        "<ol class=x type=a><li>Five</li></ol><ul class=x><li>Six</li></ul></html>"
    )
    found = read_document(page.encode(), ManuscriptKind.HTML)
    assert [loss.words for loss in found.losses if loss.what is LossKind.SHEET] == words
    assert not [loss for loss in found.losses if loss.what is LossKind.LIST]


@pytest.mark.parametrize(
    "attributes, typed, is_so",
    [
        ("style='list-style-type: lower-roman'", "i. x", True),
        ("style='color: red; list-style:lower-roman'", "i. x", True),
        ("class=x style='list-style:lower-roman'", "1. x", False),
        ("style='list-style: lower-roman inside'", "1. x", False),
        ("class=lower-roman", "i. x", False),
        ("class='x lower-roman'", "1. x", True),
    ],
)
def test_numbers_of_a_page_are_judged_by_what_is_typed(
    attributes: str, typed: str, is_so: bool
) -> None:
    page = f"<html><ol {attributes}><li>x</li></ol></html>"
    found = read_document(page.encode(), ManuscriptKind.HTML)
    assert found.texts == [typed]
    noted = [loss.words for loss in found.losses if loss.what is LossKind.LIST]
    assert noted == ([] if is_so else ["x"])


COUNTED = 'h2::before, li.x:before { content: counter(a) ". "; color: red }'


@pytest.mark.parametrize(
    "sheet, words",
    [
        (COUNTED, ["Tides", "One"]),
        ("div > h2::before { content: 'x' counters(a, '.') }", []),
        (COUNTED + "h2:before { content: none }", ["One"]),
        ("@page { h2::before { content: counter(page) } }", []),
        ("h2::before { counter-increment: a }", []),
        ("h2::after { content: counter(a) }", []),
    ],
)
def test_numbers_that_a_sheet_counts_are_noted(sheet: str, words: list[str]) -> None:
    page = (
        f"<html><style>{sheet}</style><section><h2><i>Tides</i></h2></section>"
        "<ul><li class=x>One</li><li>Two</li></ul></html>"
    )
    found = read_document(page.encode(), ManuscriptKind.HTML)
    noted = [loss.words for loss in found.losses if loss.what is LossKind.NUMBER]
    assert noted == words


def test_a_number_within_a_line_is_noted_with_the_words_of_that_line() -> None:
    page = (
        "<html><style>.n::before { content: counter(a) }</style><p>One <b class=n>b</b></p>"
        "<p>Two</p></html>"
    )
    found = read_document(page.encode(), ManuscriptKind.HTML)
    noted = [loss.words for loss in found.losses if loss.what is LossKind.NUMBER]
    assert noted == ["One b"]
