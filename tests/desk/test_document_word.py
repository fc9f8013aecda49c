"""What Word has in a DOCX beside plain paragraphs: other prefixes, merged cells, boxes and readings."""

import re
import zipfile
from pathlib import Path

import pytest

from braildesk.desk.documents.kinds import NoDocument, WhyNot
from braildesk.desk.documents.reading import Loss, LossKind, Missing
from braildesk.desk.manuscripts import read_manuscript

from handmade import (
    docx,
    in_list,
    inserted,
    level,
    lists,
    note,
    paragraph,
    run,
    symbol,
    table,
    text_box,
)

_W = "http://schemas.openxmlformats.org/wordprocessingml/2006/main"
#: Prefixes in place of Word's: another one, none, and those that Word has for other names.
PREFIXES = [{"w": "x"}, {"w": ""}, {"w": "v", "v": "w", "mc": "a", "a": "mc"}]


def renamed(text: str, prefixes: dict[str, str]) -> str:
    """A part with other prefixes; names of attributes always have one."""
    usual = "|".join(prefixes)
    text = re.sub(
        rf"(?<=xmlns:)({usual})(?==)", lambda name: prefixes[name[1]] or "y", text
    )
    text = re.sub(
        rf"(</?)({usual}):",
        lambda name: name[1] + (prefixes[name[2]] and f"{prefixes[name[2]]}:"),
        text,
    )
    text = re.sub(
        rf"(\s)({usual}):", lambda name: f"{name[1]}{prefixes[name[2]] or 'y'}:", text
    )
    return text.replace("xmlns:y=", f'xmlns="{_W}" xmlns:y=')


_A = "http://schemas.openxmlformats.org/drawingml/2006/main"
_C = "http://schemas.openxmlformats.org/drawingml/2006/chart"


def cached(what: str, *names: str) -> str:
    """What a chart keeps of the cells of its sheet."""
    points = "".join(f"<c:pt><c:v>{name}</c:v></c:pt>" for name in names)
    return f"<c:{what}Ref><c:{what}Cache>{points}</c:{what}Cache></c:{what}Ref>"


def test_words_of_charts_are_missing_each_once(tmp_path: Path) -> None:
    path = docx(tmp_path / "chart.docx", paragraph(run("One")))
    categories = f"<c:cat>{cached('str', 'Spring tide', 'Neap tide')}</c:cat>"
    series = "".join(
        f"<c:ser><c:tx>{cached('str', name)}</c:tx>{categories}<c:val>{cached('num', '7')}</c:val></c:ser>"
        for name in ("Moon", "Sun")
    )
    series += "<c:ser><c:tx><c:v>Planet</c:v></c:tx></c:ser>"
    title = "<c:title><c:tx><c:rich><a:p><a:r><a:t>Tides</a:t></a:r></a:p></c:rich></c:tx></c:title>"
    with zipfile.ZipFile(path, "a") as container:
        chart = f'<c:chartSpace xmlns:c="{_C}" xmlns:a="{_A}">{title}{series}</c:chartSpace>'
        container.writestr("word/charts/chart1.xml", chart)
    found = read_manuscript(path)
    words = [each.words for each in found.missing]
    assert words == ["Tides", "Moon", "Sun", "Planet", "Spring tide", "Neap tide"]


def test_words_of_drawings_that_are_in_no_text_box_are_missing(tmp_path: Path) -> None:
    shape = f'<a:txSp xmlns:a="{_A}"><a:txBody><a:p><a:r><a:t>High </a:t></a:r><a:r><a:t>water</a:t></a:r></a:p></a:txBody></a:txSp>'
    drawing = f"<w:r><w:drawing><wp:inline>{shape}</wp:inline></w:drawing></w:r>"
    body = paragraph(run("One"), drawing)
    found = read_manuscript(docx(tmp_path / "drawing.docx", body))
    assert found.texts == ["One"]
    assert found.missing == (Missing("High water", "", ""),)


def test_a_line_that_ends_by_hand_has_none_of_its_words_missing_for_those_of_a_box(
    tmp_path: Path,
) -> None:
    body = paragraph(run("One"), text_box("the moon"))
    body += paragraph(run("See"), "<w:r><w:br/></w:r>", run("the moon"))
    found = read_manuscript(docx(tmp_path / "lines.docx", body))
    assert found.texts == ["One", "See", "the moon"]
    assert found.missing == (Missing("the moon", "", ""),)


@pytest.mark.parametrize("prefixes", PREFIXES, ids=["other", "none", "swapped"])
def test_a_document_is_read_whichever_prefixes_its_parts_have(
    tmp_path: Path, prefixes: dict[str, str]
) -> None:
    body = paragraph(run("Tides"), style="Heading1")
    body += paragraph(run("One"), note(1), properties=in_list(1))
    numbering = lists(level(0, "decimal", "%1."))
    path = docx(tmp_path / "a.docx", body, [(1, "A note.")], numbering=numbering)
    with zipfile.ZipFile(path) as container:
        parts = {name: container.read(name).decode() for name in container.namelist()}
    with zipfile.ZipFile(path, "w") as container:
        for name, part in parts.items():
            is_text = name.startswith("word/") and name.endswith(".xml")
            container.writestr(name, renamed(part, prefixes) if is_text else part)
    found = read_manuscript(path)
    shown = [(part.text, part.level) for part in found.parts]
    assert shown == [("Tides", 1), ("1. One[1]", None), ("[1: A note.]", None)]
    assert found.missing == ()


def cell(text: str, properties: str = "") -> str:
    """A cell of a table with properties."""
    return f"<w:tcPr>{properties}</w:tcPr>{paragraph(run(text))}"


def test_a_cell_that_goes_on_over_rows_has_an_empty_place_in_those_below(
    tmp_path: Path,
) -> None:
    first, more = '<w:vMerge w:val="restart"/>', "<w:vMerge/>"
    wide = '<w:gridSpan w:val="2"/>'
    body = table(
        (cell("a"), cell("b", first + wide), cell("c")),
        (cell("d"), cell("", more + wide), cell("e")),
        (cell("f", first), cell("g"), cell("h"), cell("i")),
        (cell("", more), cell("j"), cell("k"), cell("l")),
    )
    found = read_manuscript(docx(tmp_path / "a.docx", body))
    assert found.texts == ["a; b; c", "d; ; e", "f; g; h; i", "; j; k; l"]
    assert (found.losses, found.missing) == (
        (
            Loss(LossKind.SPAN, "b", "b"),
            Loss(LossKind.SPAN, "f", "f"),
            Loss(LossKind.TABLE, "a; b; c", "a; b; c"),
        ),
        (),
    )


def later(column: int) -> str:
    """What says of a row that it begins at a later column, counted from 0."""
    return f'<w:trPr><w:gridBefore w:val="{column}"/></w:trPr>'


def with_rows(tables: str) -> str:
    """Tables in which what is said of a row at the front of its first cell stands before that."""
    return re.sub("<w:tc>(<w:trPr>.*?</w:trPr>)", r"\1<w:tc>", tables)


def test_rows_of_a_table_keep_their_order_whichever_is_said_to_be_its_head(
    tmp_path: Path,
) -> None:
    head, first = "<w:trPr><w:tblHeader/></w:trPr>", '<w:vMerge w:val="restart"/>'
    body = table(
        (cell("a"), cell("b", first)),
        (head + cell("c"), cell("", "<w:vMerge/>")),
        (cell("d"), cell("e")),
        (head + cell("f"), cell("g")),
    )
    found = read_manuscript(docx(tmp_path / "a.docx", with_rows(body)))
    assert (found.texts, found.missing) == (["a; b", "c;", "d; e", "f; g"], ())


def test_a_row_that_begins_at_a_later_column_has_a_place_for_each_cell_before(
    tmp_path: Path,
) -> None:
    wide, first = '<w:gridSpan w:val="2"/>', '<w:vMerge w:val="restart"/>'
    body = table(
        (cell("a"), cell("b"), cell("c")),
        (later(1) + cell("d", first), cell("e")),
        (later(1) + cell("", "<w:vMerge/>"), cell("f")),
        (later(2) + cell("g"),),
    )
    # where a row begins somewhat further on than others, it has all the cells that they have
    body += table((cell("h", wide), cell("i")), (later(1) + cell("j"), cell("k")))
    body += table((cell("l", wide), cell("m")), (later(2) + cell("n"),))
    body += table((later(1) + cell("o"), cell("p")))
    found = read_manuscript(docx(tmp_path / "a.docx", with_rows(body)))
    assert [each.rstrip("; ") for each in found.texts] == [
        *("a; b; c", "; d; e", "; ; f", "; ; g"),
        *("h; i", "j; k", "l; m", "; n", "o; p"),
    ]
    assert found.missing == ()


def test_a_document_in_which_many_rows_begin_far_from_the_front_is_refused(
    tmp_path: Path,
) -> None:
    rows = [[cell("a")] * 1_000, *[[later(999) + cell("b")]] * 1_000]
    with pytest.raises(NoDocument) as found:
        read_manuscript(docx(tmp_path / "a.docx", with_rows(table(*rows))))
    assert found.value.why is WhyNot.TABLES


@pytest.mark.parametrize("grid", ["", "<w:tblGrid><w:gridCol/></w:tblGrid>"])
def test_a_table_keeps_its_cells_whatever_is_said_of_its_columns(
    tmp_path: Path, grid: str
) -> None:
    inner = table((cell("f"), cell("g"), cell("h"), cell("i")))
    body = table(
        (cell("a"), cell("b"), cell("c")),
        (cell("d", '<w:gridSpan w:val="2"/>'), cell("e") + inner + paragraph()),
    )
    # what describes a table isn't typed again if it is print before it
    described = f'<w:tblPr><w:tblCaption w:val="Letters"/></w:tblPr>{grid}'
    body = re.sub("<w:tblGrid>.*?</w:tblGrid>", described, body)
    found = read_manuscript(docx(tmp_path / "a.docx", paragraph(run("Letters")) + body))
    assert found.texts == ["Letters", "a; b; c", "d; e f; g; h; i"]
    assert found.missing == ()


def box(*properties: str) -> str:
    """A box of an older form."""
    data = f"<w:ffData><w:checkBox>{''.join(properties)}</w:checkBox></w:ffData>"
    return (
        f'<w:r><w:fldChar w:fldCharType="begin">{data}</w:fldChar></w:r>'
        "<w:r><w:instrText> FORMCHECKBOX </w:instrText></w:r>"
        '<w:r><w:fldChar w:fldCharType="separate"/></w:r>'
        '<w:r><w:fldChar w:fldCharType="end"/></w:r>'
    )


@pytest.mark.parametrize(
    "properties, sign",
    [
        ((), "\u2610"),
        (('<w:default w:val="0"/>',), "\u2610"),
        (('<w:default w:val="1"/>',), "\u2612"),
        (('<w:default w:val="1"/>', '<w:checked w:val="0"/>'), "\u2610"),
        (('<w:default w:val="0"/>', "<w:checked/>"), "\u2612"),
    ],
)
def test_a_box_of_a_form_is_typed_as_a_sign(
    tmp_path: Path, properties: tuple[str, ...], sign: str
) -> None:
    gone = f'<w:del w:id="1">{box()}</w:del>'
    body = paragraph(run("Tides "), box(*properties), run(" yes"), gone)
    found = read_manuscript(docx(tmp_path / "a.docx", body))
    assert found.texts == [f"Tides {sign} yes"]
    boxes = [loss for loss in found.losses if loss.what is LossKind.BOX]
    assert boxes == [Loss(LossKind.BOX, sign, "Tides yes")]


def test_a_newer_box_is_its_sign_or_a_symbol_that_is_typed_as_one(
    tmp_path: Path,
) -> None:
    properties = (
        '<w14:checkbox xmlns:w14="http://schemas.microsoft.com/office/word/2010/wordml">'
        '<w14:checked w14:val="{}"/></w14:checkbox>'
    )
    body = "".join(
        paragraph(
            f"<w:sdt><w:sdtPr>{properties.format(value)}</w:sdtPr>"
            f"<w:sdtContent>{sign}</w:sdtContent></w:sdt>",
            run(" yes"),
        )
        for value, sign in (
            (1, run("\u2612")),
            (1, symbol("Wingdings", "F0FE")),
            (0, symbol("Wingdings", "F0A8")),
        )
    )
    found = read_manuscript(docx(tmp_path / "a.docx", body))
    assert found.texts == ["\u2612 yes", "\u2612 yes", "\u2610 yes"]
    assert found.missing == ()
    assert found.losses == (
        Loss(LossKind.BOX, "\u2612", "yes"),
        Loss(LossKind.BOX, "\u2610", "yes"),
    )


def test_a_box_of_a_form_in_a_text_box_is_not_said_to_be_typed(tmp_path: Path) -> None:
    inner = text_box("yes").replace(run("yes"), box() + run("yes"))
    body = paragraph(run("Tides"), inner)
    found = read_manuscript(docx(tmp_path / "a.docx", body))
    assert found.texts == ["Tides"]
    assert [each.words for each in found.missing] == ["yes"]
    assert found.losses == ()


def test_characters_of_a_font_of_symbols_are_symbols(tmp_path: Path) -> None:
    def lettered(font: str, text: str) -> str:
        return run(text, f'<w:rFonts w:ascii="{font}" w:hAnsi="{font}"/>')

    body = paragraph(
        run("One "),
        lettered("Symbol", "a\uf062 \xb3"),
        run(" two "),
        lettered("Wingdings", "\xfc\uf078"),
        run("three "),
        lettered("Sea Symbol", "a"),
    )
    found = read_manuscript(docx(tmp_path / "a.docx", body))
    assert found.texts == ["One \u03b1\u03b2 \u2265 two three a"]
    assert found.missing == (
        Missing("Wingdings_F0FC Wingdings_F078", "One \u03b1\u03b2 two", "three a"),
    )


def test_a_letter_of_the_font_symbol_is_one_word_with_what_stands_beside_it(
    tmp_path: Path,
) -> None:
    def lettered(text: str) -> str:
        return run(text, '<w:rFonts w:ascii="Symbol" w:hAnsi="Symbol"/>')

    body = paragraph(
        run("The "),
        symbol("Symbol", "F061"),
        run("-particle, 5"),
        lettered("\uf06d"),
        run("m, x"),
        symbol("Symbol", "f032"),
        run(" and R"),
        lettered("W"),
    )
    found = read_manuscript(docx(tmp_path / "a.docx", body))
    assert found.texts == ["The \u03b1-particle, 5\u03bcm, x2 and R\u03a9"]
    assert found.missing == ()


def ruby(base: str, reading: str) -> str:
    """Characters with their reading, which stands first in the file."""
    return (
        f"<w:r><w:rPr/><w:ruby><w:rubyPr/><w:rt>{reading}</w:rt>"
        f"<w:rubyBase>{base}</w:rubyBase></w:ruby></w:r>"
    )


def test_the_reading_of_characters_stands_in_brackets_after_them(
    tmp_path: Path,
) -> None:
    body = paragraph(
        run("One "), ruby(run("漢", "<w:b/>"), run("kan")), ruby(run("字"), ""), run(".")
    )
    body += paragraph(ruby(symbol("Wingdings", "F04A"), run("sun")), run("two"))
    found = read_manuscript(docx(tmp_path / "a.docx", body))
    assert found.texts == ["One 漢(kan)字.", "two"]
    assert found.missing == (Missing("sun Wingdings_F04A", "", "two"),)


def field(code: str, shown: str) -> str:
    """A field that shows some text, by its code."""

    def mark(kind: str) -> str:
        return f'<w:r><w:fldChar w:fldCharType="{kind}"/></w:r>'

    coded = f'<w:r><w:instrText xml:space="preserve">{code}</w:instrText></w:r>'
    return f"{mark('begin')}{coded}{mark('separate')}{run(shown)}{mark('end')}"


def test_a_note_of_two_numbers_and_a_number_in_a_field_are_noted(
    tmp_path: Path,
) -> None:
    simple = f'<w:fldSimple w:instr="NOTEREF _Ref1 \\h">{run("3")}</w:fldSimple>'
    gone = f"<w:del>{note(2)}</w:del>"
    body = paragraph(run("One"), note(1), run(" and"), note(1), gone)
    body += paragraph(run("Two"), field(" NOTEREF _Ref1 \\h ", "1"), run(" pages"))
    body += paragraph(run("Three"), field(" PAGEREF _Ref1 ", "7"), note(2), simple)
    notes = [(1, "A note."), (2, "Another.")]
    found = read_manuscript(docx(tmp_path / "a.docx", body, notes))
    assert (found.texts, found.missing) == (
        ["One[1] and[2]", "[1: A note.]", "[2: A note.]"]
        + ["Two1 pages", "Three7[3]3", "[3: Another.]"],
        (),
    )
    assert [(loss.what, loss.words) for loss in found.losses] == [
        (LossKind.NOTE_AGAIN, "A note."),
        (LossKind.NOTE_NUMBER, "Two1 pages"),
        (LossKind.NOTE_NUMBER, "Three73"),
    ]


def style(name: str, base: str, inner: str = "") -> str:
    """A style of paragraphs, whose identity has no blanks, based on another."""
    identity = name.replace(" ", "")
    return (
        f'<w:style w:type="paragraph" w:styleId="{identity}"><w:name w:val="{name}"/>'
        f'<w:basedOn w:val="{base}"/><w:rPr>{inner}</w:rPr></w:style>'
    )


def test_a_paragraph_is_noted_that_is_bold_or_in_capitals_by_its_style(
    tmp_path: Path,
) -> None:
    styles = style("Warning", "Body", "<w:b/>") + style("Loud", "Body", "<w:caps/>")
    styles += style("Small", "Loud", '<w:caps w:val="0"/><w:smallCaps/>')
    styles += style("Calm", "Warning", '<w:b w:val="0"/>') + style("Soft", "Calm")
    for name in ("Title", "heading 2", "Table Heading"):
        styles += style(name, "Body", "<w:b/>")
    names = ("Warning", "Loud", "Small", "Calm", "Soft", "Title", "heading2")
    body = "".join(
        paragraph(run(f"In {name}"), style=name) for name in (*names, "TableHeading")
    )
    found = read_manuscript(docx(tmp_path / "a.docx", body, styles=styles))
    assert [loss.words for loss in found.losses if loss.what is LossKind.EMPHASIS] == [
        "In Warning",
        "In Loud",
        "In Small",
    ]


def test_a_paragraph_is_noted_that_is_in_italics_by_its_style(tmp_path: Path) -> None:
    styles = style("Letter", "Body", "<w:i/>") + style("Letter End", "Letter")
    styles += style("Plain", "Letter", '<w:i w:val="0"/>') + style("Round", "Round")
    styles += style("heading 4", "Letter", "<w:i/>")
    names = ("Letter", "LetterEnd", "Plain", "Round", "heading4", "Absent")
    body = "".join(paragraph(run(f"In {name}"), style=name) for name in names)
    found = read_manuscript(docx(tmp_path / "a.docx", body, styles=styles))
    assert [loss.words for loss in found.losses if loss.what is LossKind.EMPHASIS] == [
        "In Letter",
        "In LetterEnd",
    ]


def test_words_that_are_plain_in_an_emphasized_paragraph_are_not_noted_and_tabs_part_the_others(
    tmp_path: Path,
) -> None:
    off, tab = '<w:b w:val="0"/>', "<w:r><w:tab/></w:r>"
    body = paragraph(
        run("One"), tab, run("two "), run("three ", off), run("four", '<w:b w:val="1"/>'),
        "<w:r><w:br/><w:t>five</w:t></w:r>", text_box(paragraph(run("six"))), inserted("seven"),
        f"<w:moveFrom>{run('eight')}</w:moveFrom>", style="Warning",
    )  # fmt: skip
    body += paragraph(run("Nine", off), style="Warning")
    body += paragraph(run("Ten", f"{off}<w:i/>"), run("eleven", off), style="Both")
    styles = style("Warning", "Body", "<w:b/>") + style("Both", "Warning", "<w:caps/>")
    found = read_manuscript(docx(tmp_path / "a.docx", body, styles=styles))
    losses = [loss.words for loss in found.losses if loss.what is LossKind.EMPHASIS]
    assert sorted(losses) == ["One two", "Ten", "Teneleven", "four", "four fiveseven"]


def test_words_at_the_edges_of_pages_are_missing_there_and_not_in_the_text(
    tmp_path: Path,
) -> None:
    body = paragraph(run("The moon is far "), symbol("Wingdings", "F04A"))
    found = read_manuscript(docx(tmp_path / "a.docx", body, header="The moon"))
    assert found.missing == (
        Missing("Wingdings_F04A", "The moon is far", ""),
        Missing("The moon", "", ""),
    )


def test_fields_that_lead_elsewhere_are_links_wherever_their_signs_stand(
    tmp_path: Path,
) -> None:
    def in_one_run(code: str, shown: str) -> str:
        return re.sub("</w:r><w:r>(<w:rPr></w:rPr>)?", "", field(code, shown))

    far = 'HYPERLINK "http://moon.example/a"'
    simple = f"<w:fldSimple w:instr='{far}'>{{}}</w:fldSimple>"
    inner = simple.format(run("three ") + in_one_run("DATE", "four"))
    fallback = f"<mc:AlternateContent><mc:Choice>{in_one_run(far, 'five')}</mc:Choice><mc:Fallback>{in_one_run(far, 'no')}</mc:Fallback></mc:AlternateContent>"
    body = paragraph(field(far, "one"), in_one_run(far, "two"), inner, fallback)
    body += paragraph(
        in_one_run('HYPERLINK \\l "a"', "here"), simple.format(run("moon.example/a"))
    )
    body += paragraph(
        in_one_run(" hyperlink http://sea.example", "six"),
        f"<w:del>{in_one_run(far, 'no')}</w:del>",
    )
    body += paragraph(field(f"IF {in_one_run(far, 'no')}", "seven"))
    found = read_manuscript(docx(tmp_path / "a.docx", body))
    links = [each.words for each in found.losses if each.what is LossKind.LINK]
    assert links == ["one", "two", "five", "six", "three four"]
    assert found.texts == ["onetwothree fourfive", "heremoon.example/a", "six", "seven"]


def test_what_is_shown_of_the_code_of_a_field_is_missing_if_it_has_no_result(
    tmp_path: Path,
) -> None:
    def field(code: str, *result: str) -> str:
        signs = [f'<w:fldChar w:fldCharType="{each}"/>' for each in ("begin", "end")]
        codes = (f"<w:instrText>{each}</w:instrText>" for each in code.split("|"))
        pieces = [f"<w:r>{each}</w:r>" for each in (signs[0], *codes)]
        return "".join((*pieces, *result, f"<w:r>{signs[1]}</w:r>"))

    middle = '<w:r><w:fldChar w:fldCharType="separate"/></w:r>'
    body = paragraph(
        run("Half is "),
        field("EQ |\\* hps10 \\f(1a;2b\\, c)"),
        field(" MACROBUTTON Run Press here", middle),
        field("MACROBUTTON Run Not here", middle, run("pressed")),
        field("DATE"),
        field(" GOTOBUTTON a Go there ", field("REF b", middle, run(" now"))),
        field("MACROBUTTON Run No", middle, field("REF b", middle, run(" or"))),
    )
    body += paragraph(
        '<w:fldSimple w:instr="MACROBUTTON Run Press &amp; hold"/>',
        '<w:fldSimple w:instr="DATE"/>',
        f'<w:fldSimple w:instr="MACROBUTTON Run No">{run("so")}</w:fldSimple>',
    )
    found = read_manuscript(docx(tmp_path / "a.docx", body))
    assert found.texts == ["Half is pressed now or", "so"]
    missing = [each.words for each in found.missing]
    assert missing == ["1a 2b c", "Press here", "Go there", "Press hold"]


@pytest.mark.parametrize(
    "properties, what",
    [
        ('<w:position w:val="8"/>', LossKind.SUPERSCRIPT),
        ('<w:position w:val="-2"/>', LossKind.SUBSCRIPT),
        (
            '<w:position w:val="6"/><w:vertAlign w:val="baseline"/>',
            LossKind.SUPERSCRIPT,
        ),
        (
            '<w:position w:val="-4"/><w:vertAlign w:val="superscript"/>',
            LossKind.SUPERSCRIPT,
        ),
        ("<w:dstrike/>", LossKind.EMPHASIS),
        ('<w:u w:val="double"/>', LossKind.EMPHASIS),
        ('<w:u w:val="words"/>', LossKind.EMPHASIS),
        ('<w:em w:val="dot"/>', LossKind.EMPHASIS),
        ("<w:caps/>", LossKind.EMPHASIS),
        ('<w:smallCaps w:val="0"/><w:caps/>', LossKind.EMPHASIS),
        ('<w:highlight w:val="yellow"/>', LossKind.EMPHASIS),
        ('<w:bdr w:val="single"/>', LossKind.EMPHASIS),
    ],
)
def test_what_is_raised_or_emphasized_in_other_ways_is_noted(
    tmp_path: Path, properties: str, what: LossKind
) -> None:
    own = paragraph(run("At "), run("two", properties), run(" in the night"))
    by_style = paragraph(run("At "), run("two", '<w:rStyle w:val="A"/>'))
    its = (
        '<w:style w:type="character" w:styleId="A"><w:name w:val="A"/>'
        f"<w:rPr>{properties}</w:rPr></w:style>"
    )
    path = docx(tmp_path / "a.docx", own + by_style, styles=its)
    found = read_manuscript(path)
    assert found.texts == ["At two in the night", "At two"]
    assert found.losses == (
        Loss(what, "two", "At two in the night"),
        Loss(what, "two", "At two"),
    )


@pytest.mark.parametrize(
    "properties",
    [
        '<w:position w:val="0"/>',
        '<w:dstrike w:val="0"/>',
        '<w:u w:val="none"/>',
        '<w:em w:val="none"/>',
        '<w:caps w:val="false"/>',
        '<w:highlight w:val="none"/>',
        '<w:bdr w:val="nil"/>',
    ],
)
def test_what_says_that_words_are_plain_is_no_emphasis(
    tmp_path: Path, properties: str
) -> None:
    body = paragraph(run("At "), run("two", properties))
    assert read_manuscript(docx(tmp_path / "a.docx", body)).losses == ()


def test_a_large_first_letter_and_what_has_no_text_are_not_said_to_be_lowered(
    tmp_path: Path,
) -> None:
    lowered = '<w:position w:val="-10"/>'
    frame = '<w:framePr w:dropCap="drop" w:lines="2"/>'
    tab = f"<w:r><w:rPr>{lowered}</w:rPr><w:tab/></w:r>"
    body = paragraph(run("T", lowered), properties=frame)
    body += paragraph(run("he night"), tab, run("fell"), run(" ", lowered))
    found = read_manuscript(docx(tmp_path / "a.docx", body))
    assert (found.texts, found.losses) == (["The night fell"], ())


def test_text_that_a_style_hides_is_noted_unless_it_is_shown_again(
    tmp_path: Path,
) -> None:
    styles = "".join(
        f'<w:style w:type="{kind}" w:styleId="{name}"><w:name w:val="{name}"/>'
        f'<w:basedOn w:val="{base}"/><w:rPr>{inner}</w:rPr></w:style>'
        for kind, name, base, inner in (
            ("character", "A", "", "<w:vanish/>"),
            ("character", "B", "A", ""),
            ("character", "C", "A", '<w:vanish w:val="0"/>'),
            ("paragraph", "P", "", "<w:vanish/>"),
            ("paragraph", "Q", "R", ""),
            ("paragraph", "R", "Q", ""),
        )
    )
    its = (run(text, f'<w:rStyle w:val="{text}"/>') for text in "ABC")
    shown = run("shown", '<w:vanish w:val="0"/>')
    body = paragraph(*its) + paragraph(run("hidden "), shown, style="P")
    body += paragraph(run("Plain"), style="Q")
    found = read_manuscript(docx(tmp_path / "a.docx", body, styles=styles))
    assert found.texts == ["ABC", "hidden shown", "Plain"]
    assert [(each.what, each.words) for each in found.losses] == [
        (LossKind.HIDDEN, "A"),
        (LossKind.HIDDEN, "B"),
        (LossKind.HIDDEN, "hidden"),
    ]


def test_words_of_rows_that_are_hidden_are_noted_once(tmp_path: Path) -> None:
    hidden = run("far", "<w:vanish/>")
    rows = "".join(
        f"<w:tr><w:trPr><w:hidden{value}/></w:trPr><w:tc>{paragraph(*runs)}</w:tc></w:tr>"
        for value, *runs in (
            ("", run("The moon is "), hidden),
            (' w:val="0"', run("Shown "), hidden),
        )
    )
    found = read_manuscript(docx(tmp_path / "a.docx", f"<w:tbl>{rows}</w:tbl>"))
    assert [each.words for each in found.losses if each.what is LossKind.HIDDEN] == [
        "The moon is far",
        "far",
    ]


def test_what_a_program_computes_or_another_file_has_is_said_not_to_be_typed(
    tmp_path: Path,
) -> None:
    address = "http://schemas.openxmlformats.org/officeDocument/2006/relationships"
    body = paragraph(run("Page "), "<w:r><w:pgNum/></w:r>", run(" of a book"))
    body += paragraph(run("On "), "<w:r><w:dayLong/></w:r><w:r><w:yearShort/></w:r>")
    body += f'<w:subDoc xmlns:r="{address}" r:id="far"/>'
    found = read_manuscript(docx(tmp_path / "a.docx", body))
    assert [(each.what, each.words, each.around) for each in found.losses] == [
        (LossKind.COMPUTED, "", "Page of a book"),
        (LossKind.COMPUTED, "", "On"),
        (LossKind.COMPUTED, "", "On"),
        (LossKind.OTHER_FILE, "far", "far"),
    ]


def test_what_is_for_older_programs_is_typed_where_nothing_is_for_newer_ones(
    tmp_path: Path,
) -> None:
    def alternate(*parts: str) -> str:
        return f"<mc:AlternateContent>{''.join(parts)}</mc:AlternateContent>"

    newer = f"<mc:Choice Requires='wps'>{run('new')}</mc:Choice>"
    older = f"<mc:Fallback>{run('old')}</mc:Fallback>"
    text = "<mc:Fallback><w:t>within</w:t></mc:Fallback>"
    body = paragraph(run("One "), alternate(older), run(" two"))
    body += paragraph(run("Three "), alternate(newer, older))
    body += paragraph(f"<w:r>{alternate(text)}</w:r>")
    found = read_manuscript(docx(tmp_path / "a.docx", body))
    assert found.texts == ["One old two", "Three new", "within"]
    assert not found.missing


def test_a_table_without_words_is_not_said_to_be_typed(tmp_path: Path) -> None:
    body = table((cell("a"),)) + table((cell(""), cell("")))
    found = read_manuscript(docx(tmp_path / "a.docx", body))
    tables = [each.words for each in found.losses if each.what is LossKind.TABLE]
    assert tables == ["a"]


def test_the_title_of_a_table_is_parted_from_its_description(tmp_path: Path) -> None:
    described = (
        '<w:tblCaption w:val="Tides"/><w:tblDescription w:val="High, &amp; low"/>'
    )
    body = table((cell("a"),)).replace(
        "<w:tblGrid>", f"<w:tblPr>{described}</w:tblPr><w:tblGrid>"
    )
    found = read_manuscript(docx(tmp_path / "a.docx", body))
    assert found.texts == ["Tides High, & low", "a"]
