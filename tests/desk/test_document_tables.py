"""Tables of pages and of texts in ODT, whose cells may go on over rows and columns."""

import zipfile
from io import BytesIO
from pathlib import Path

import pytest

from braildesk.desk.documents.document import read_document
from braildesk.desk.documents.kinds import ManuscriptKind, NoDocument, WhyNot
from braildesk.desk.documents.numbers_of_odt import with_odt_numbers
from braildesk.desk.documents.reading import LossKind, Manuscript
from braildesk.desk.documents.table_places import MOST_EMPTY, Places, TableSize
from braildesk.desk.manuscripts import read_manuscript

from handmade import odt

#: A table in which h, b, g and n go on over two rows, and i and b are of two columns.
SHOWN = ["h; i; j", "; k; l; m", "a; b; d", "e; ; f", "g; n; o; p", "; ; q; r"]


def spans(found: Manuscript) -> list[str]:
    return [loss.words for loss in found.losses if loss.what is LossKind.SPAN]


def test_cells_of_a_page_that_go_on_over_rows_have_a_place_in_each() -> None:
    heads = "<tr><th rowspan=2>h</th><th colspan=2>i</th><th>j</th></tr>"
    heads += "<tr><th>k</th><th>l</th><th>m</th></tr>"
    rows = "<tr><td>a</td><td rowspan=2 colspan=2>b</td><td>d</td></tr>"
    rows += "<tr><td>e</td><td>f</td></tr><tr><td rowspan=2>g</td>"
    rows += "<td rowspan=2>n</td><td>o</td><td>p</td></tr><tr><td>q</td><td>r</td></tr>"
    page = f"<html><table><thead>{heads}</thead>{rows}</table></html>"
    found = read_document(page.encode(), ManuscriptKind.HTML)
    assert (found.texts, found.missing) == (SHOWN, ())
    assert spans(found) == ["h", "b", "g", "n"]


@pytest.mark.parametrize(
    "page, texts",
    [
        ("<table><tr><td>a<td>b<tr><td>c<td>d</table>e", ["a; b", "c; d", "e"]),
        (
            "<table><thead><tr><th>a<th>b<tbody><tr><td>c</td><td>d</table>",
            ["a; b", "c; d"],
        ),
        (
            "<TABLE><TR><TD><p>a<TD><table><tr><td>x<td>y</table><TR><TD>c<TD>d</TABLE>",
            ["a; x; y", "c; d"],
        ),
        ("<td>a<table><tr><td>b</td><td>c</table>", ["a", "b; c"]),
        ("<table><tr><td>a<td>b", ["a", "b"]),
        ("<table><col><tr><td>a</td><td>b</td></tr></table>", ["a; b"]),
        (
            "<table><colgroup><col></colgroup><colgroup/><tr><td>a</td><td>b</td></tr></table>",
            ["a; b"],
        ),
    ],
)
def test_a_table_of_a_page_may_leave_out_its_columns_and_where_its_cells_end(
    page: str, texts: list[str]
) -> None:
    found = read_document(f"<html>{page}</html>".encode(), ManuscriptKind.HTML)
    assert (found.texts, found.missing) == (texts, ())


def row(*cells: str) -> str:
    return f"<table:table-row>{''.join(cells)}</table:table-row>"


def cell(text: str, rows: int = 1, columns: int = 1) -> str:
    """A cell that is of some rows and columns."""
    size = (
        f'table:number-rows-spanned="{rows}" table:number-columns-spanned="{columns}"'
    )
    return f"<table:table-cell {size}><text:p>{text}</text:p></table:table-cell>"


def covered(count: int = 1) -> str:
    """What stands in place of cells that another one covers."""
    return f'<table:covered-table-cell table:number-columns-repeated="{count}"/>'


def test_cells_of_a_text_in_odt_that_go_on_over_rows_have_a_place_in_each(
    tmp_path: Path,
) -> None:
    head = row(cell("h", 2), cell("i", 1, 2), covered(), cell("j"))
    head += row(covered(), cell("k"), cell("l"), cell("m"))
    rows = row(cell("a"), cell("b", 2, 2), covered(), cell("d"))
    rows += row(cell("e"), covered(2), cell("f"))
    rows += row(cell("g", 2), cell("n", 2), cell("o"), cell("p"))
    rows += row(covered(2), cell("q"), cell("r"))
    text = (
        '<table:table><table:table-column table:number-columns-repeated="4"/>'
        f"<table:table-header-rows>{head}</table:table-header-rows>{rows}</table:table>"
    )
    found = read_manuscript(odt(tmp_path / "a.odt", text))
    # pandoc fills up rows that have fewer cells than others
    assert [each.rstrip("; ") for each in found.texts] == SHOWN
    assert found.missing == ()
    assert spans(found) == ["h", "b", "g", "n"]


def test_a_row_and_a_cell_of_a_text_in_odt_that_stand_for_several_are_noted(
    tmp_path: Path,
) -> None:
    several = 'table:table-cell table:number-columns-repeated="3"'
    text = row(cell("a").replace("table:table-cell", several, 1), cell("b"))
    text += row(cell("c"), f"<{several}/>", cell("d")).replace(
        "<table:table-row", '<table:table-row table:number-rows-repeated="2"'
    )
    found = read_manuscript(
        odt(tmp_path / "a.odt", f"<table:table>{text}</table:table>")
    )
    same = [loss.words for loss in found.losses if loss.what is LossKind.SAME]
    assert (same, found.missing) == (["a", "c d"], ())


def empty(count: int, inner: str = "<text:p/>") -> str:
    """An empty cell that stands for several."""
    several = f'table:number-columns-repeated="{count}"'
    return f"<table:table-cell {several}>{inner}</table:table-cell>"


def test_empty_cells_of_a_text_in_odt_that_are_written_once_have_a_place_each(
    tmp_path: Path,
) -> None:
    rows = row(cell("a"), cell("b"), cell("c", 2), cell("d"))
    rows += row(empty(2, ""), covered(), cell("e"))
    rows += row(cell("f"), empty(2), cell("g"), empty(9)) + row(empty(4))
    # such cells at the end of many rows are too many for no reader
    rows += row(cell("h"), empty(1_000)) * 200
    found = read_manuscript(
        odt(tmp_path / "a.odt", f"<table:table>{rows}</table:table>")
    )
    texts = ["a; b; c; d", "; ; ; e", "f; ; ; g", *["h"] * 200]
    assert [each.rstrip("; ") for each in found.texts] == texts
    assert found.missing == ()


#: Tables of few characters that have a million places.
HUGE_TABLES = [
    row(*[cell("a", 1_000)] * 1_000) + row(covered(1_000)) * 999,
    row(*[cell("a")] * 1_000) + row(cell("b")) * 1_000,
    row(empty(1_000), cell("a")) * 200,
]


@pytest.mark.parametrize("text", HUGE_TABLES)
def test_a_text_in_odt_of_tables_with_far_more_places_than_cells_is_refused(
    tmp_path: Path, text: str
) -> None:
    path = odt(tmp_path / "a.odt", f"<table:table>{text}</table:table>")
    with pytest.raises(NoDocument) as found:
        read_manuscript(path)
    assert found.value.why is WhyNot.TABLES


@pytest.mark.parametrize(
    "rows",
    [
        f"<tr>{'<td rowspan=1000>x' * 1_000}" + "<tr><td>y" * 999,
        f"<tr>{'<td colspan=1000>x' * 1_000}",
        f"<td colspan=1000>x{'<tr><td>y' * 1_000}",
        f"<tr>{'<td>x' * 1_000}<td><table><td>z</table>{'<tr><td>y' * 1_000}",
    ],
)
def test_a_page_of_tables_with_far_more_places_than_cells_is_refused(rows: str) -> None:
    with pytest.raises(NoDocument) as found:
        page = f"<html><table>{rows}</table></html>"
        read_document(page.encode(), ManuscriptKind.HTML)
    assert found.value.why is WhyNot.TABLES


def rules(count: int) -> str:
    """A line of dashes, which says how many columns there are."""
    return "- " * count + "\n"


@pytest.mark.parametrize(
    "text",
    [
        f"{'a|' * 400}\n{'-|' * 400}\n" + "a|\n" * 400,
        f"{'a ' * 400}\n{rules(400)}" + "a\n" * 400,
        f"> +{'-+' * 400}\n" + "> |\n> +-+\n" * 400,
        f"1. {'-' * 800}\n   {'a ' * 400}\n   {rules(400)}"
        + "   a\n\n" * 400
        + "   -\n",
        rules(400) + "a\n\n" * 400 + rules(400),
    ],
    ids=["strokes", "simple", "grid", "parted", "without a head"],
)
def test_a_text_in_markdown_of_tables_with_far_more_places_than_cells_is_refused(
    text: str,
) -> None:
    with pytest.raises(NoDocument) as found:
        read_document(f"One\n\n{text}\n".encode(), ManuscriptKind.MARKDOWN)
    assert found.value.why is WhyNot.TABLES


def test_cells_of_a_row_in_markdown_beyond_the_columns_of_its_table_are_missing() -> (
    None
):
    text = (
        "| a | b | *c* |\n|---|:-:|\n| d | `e | f` |\n| g \\| h | i |\n| j | k | l m |\n\n"
        "> n | o\n> --|--\n> p | q | r\n\nGo s | t | u\nfor it.\n"
    )
    found = read_document(text.encode(), ManuscriptKind.MARKDOWN)
    rows = [
        "a; b",
        "d; e | f",
        "g | h; i",
        "j; k",
        "n; o",
        "p; q",
        "Go s | t | u for it.",
    ]
    assert found.texts == rows
    assert [each.words for each in found.missing] == ["c", "l m", "r"]


def test_words_in_markdown_across_the_front_of_a_column_are_missing() -> None:
    text = "Far    Near\n-----  -----\non     off\nfar and near\n\nTo be or\n--- ---\nx   y\n"
    found = read_document(text.encode(), ManuscriptKind.MARKDOWN)
    assert found.texts == [
        "Far; Near",
        "on; off",
        "far and; near",
        "To b; e or",
        "x; y",
    ]
    assert [each.words for each in found.missing] == ["be"]


def test_columns_of_a_table_in_markdown_are_not_counted_after_it() -> None:
    text = f"{'a|' * 400}\n{'-|' * 400}\n\n" + "a\n\n" * 400 + f"{rules(400)}\nb\n"
    found = read_document(text.encode(), ManuscriptKind.MARKDOWN)
    assert found.texts[1:] == ["a"] * 400 + ["b"]


@pytest.mark.parametrize(
    "width",
    [
        "COLSPAN = '100000'",
        "colspan=100000 colspan=2",
        "colspan=' 100000'",
        "colspan=&#49;00000",
        'colspan="100000"title="x"',
    ],
)
def test_a_cell_of_a_page_has_no_more_columns_than_where_pages_are_shown(
    width: str,
) -> None:
    page = f"<html><table><tr><td {width}>x<tr><td>y</table></html>"
    found = read_document(page.encode(), ManuscriptKind.HTML)
    assert [each.rstrip("; ") for each in found.texts] == ["x", "y"]


def test_all_tables_of_a_document_have_so_many_empty_places_and_any_cells() -> None:
    places = Places()
    for _ in range(2):
        size = TableSize(places)
        for _ in range(500):
            size.begin_row()
            for _ in range(500):
                size.add_cell()
        size.begin_row()
        size.add_empty(500)
    size = TableSize(places)
    size.add_cell(MOST_EMPTY - 999)
    with pytest.raises(NoDocument):
        size.add_cell(2)


def test_pandoc_gets_no_cells_that_others_cover(tmp_path: Path) -> None:
    # it leaves them out itself, in a time that grows far faster than their number
    text = row(cell("a"), *[covered(1_000)] * 1_000)
    path = odt(tmp_path / "a.odt", f"<table:table>{text}</table:table>")
    written, _ = with_odt_numbers(path.read_bytes(), "-", "[]")
    with zipfile.ZipFile(BytesIO(written)) as container:
        assert b"covered" not in container.read("content.xml")
