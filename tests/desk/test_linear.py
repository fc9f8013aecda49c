"""What takes time that grows with a file, and not with its square: steps are counted."""

import time
import unicodedata
from collections.abc import (
    Callable,
    ItemsView,
    Iterable,
    Iterator,
    Sequence,
    ValuesView,
)
from dataclasses import replace
from io import BytesIO
from pathlib import Path
from typing import Any, cast
from zipfile import ZipFile

import pytest

from braildesk import Mark, Paragraph, Session, Style, Table
from braildesk.desk.compare import OtherWords, differences
from braildesk.desk.documents import contents, doc_text, rtf_words
from braildesk.desk.documents.contents import contents_of, missing
from braildesk.desk.documents.kinds import ManuscriptKind, NoDocument, WhyNot
from braildesk.desk.documents.numbers import with_numbers
from braildesk.desk.documents.numbers_of_odt import with_odt_numbers
from braildesk.desk.documents.pages import readable_page
from braildesk.desk.documents.reading import LossKind, Missing
from braildesk.desk.documents.rtf_fields import as_shown
from braildesk.desk.documents.tree import Node, document
from braildesk.desk.find import Hit
from braildesk.desk.kept_lines import overlap
from braildesk.desk.layout import PageSize
from braildesk.desk.manuscript import Position, passages
from braildesk.desk.proof import proof_pages
from braildesk.desk.validation import faults
from braildesk.protocol import requests
from braildesk.tables import read, warnings
from braildesk.tables.convert.shipped import head_of
from braildesk.text import sequences
from braildesk.text.sequences import belongs, composed
from braildesk.text.spans import find_spans
from braildesk.text.wrapping import wrap
from scribe.words.find import word_lines

from handmade import doc, docx, odt, paragraph, run

# of a processor: far more than what is wanted takes on a busy machine, and far less than its square
SECONDS = 20


def test_each_character_that_a_table_lacks_is_found_in_one_walk_along_its_line() -> (
    None
):
    lacking = "".join(chr(0x4E00 + n) for n in range(2_000))
    before = belongs.cache_info()
    found = faults(passages(lacking.encode(), False), Table("en", b"letter a 1\n"))
    after = belongs.cache_info()
    assert [fault.position.column for fault in found] == list(range(1, 2_001))
    steps = after.hits + after.misses - before.hits - before.misses
    assert steps < 4 * len(lacking)


def test_a_result_of_a_field_in_doc_that_begins_many_times_begins_once(
    monkeypatch: pytest.MonkeyPatch,
) -> None:
    story = "\x13 IF \x13 PAGE " + 100_000 * "\x14" + "a"
    stories = "braildesk.desk.documents.doc_text._File.stories"
    monkeypatch.setattr(stories, lambda _: [story])
    started = time.process_time()
    assert doc_text.passages_of(doc("a", [])) == []
    assert time.process_time() - started < SECONDS


def test_a_name_in_rtf_that_has_many_lines_is_read_once() -> None:
    lines = 30_000 * (1_000 * b"a" + b"\n")
    data = rb"{\rtf1 {\*\shpinst{\sp{\sn " + lines + rb"}{\sv x}}}One}"
    started = time.process_time()
    assert rtf_words.passages_of(data) == ["One"]
    assert time.process_time() - started < SECONDS


def test_styles_that_are_based_on_each_other_are_gone_through_once(
    tmp_path: Path,
) -> None:
    count = 1_000
    styles = "".join(
        f'<w:style w:type="paragraph" w:styleId="s{n}"><w:basedOn w:val="s{n + 1}"/></w:style>'
        for n in range(count)
    )
    path = docx(
        tmp_path / "moon.docx",
        paragraph(run("moon"), style="s0") * count,
        styles=styles,
    )
    started = time.process_time()
    assert with_numbers(path.read_bytes(), "*")[1] == []
    assert time.process_time() - started < SECONDS


def test_codes_of_fields_within_each_other_are_looked_at_once() -> None:
    text = rb"{\rtf1 " + rb"{\fldinst DATE" * 200_000
    started = time.process_time()
    assert as_shown(text).count(rb"\fldinsx") == 200_000
    assert time.process_time() - started < SECONDS


def test_the_cells_of_tables_within_each_other_are_counted_once(tmp_path: Path) -> None:
    cell = f"<w:tc>{paragraph(run('moon'))}</w:tc>"
    front = "<w:tbl><w:tr><w:tc>" * 60
    end = "<w:p/></w:tc></w:tr></w:tbl>" * 60
    body = f"{front}<w:tbl><w:tr>{cell * 5_000}</w:tr></w:tbl>{end}"
    data = docx(tmp_path / "moon.docx", body).read_bytes()
    started = time.process_time()
    made, _ = with_numbers(data, "*")
    assert time.process_time() - started < SECONDS
    with ZipFile(BytesIO(made)) as container:
        tables = container.read("word/document.xml").decode().split("<w:tblGrid>")
    assert [table.count("<w:gridCol") for table in tables] == [0, *[1] * 60, 1_000]


def test_of_italics_that_stand_within_each_other_the_front_is_read(
    tmp_path: Path,
) -> None:
    slanted = '<style:text-properties fo:font-style="italic"/>'
    style = (
        f'<style:style style:name="s" style:family="paragraph">{slanted}</style:style>'
    )
    front = '<text:p text:style-name="s">moon<text:note>' * 90
    inner = f'<text:p text:style-name="s">{"moon " * 800_000}</text:p>'
    text = f"{front}{inner}{'</text:note></text:p>' * 90}"
    data = odt(tmp_path / "moon.odt", text, style).read_bytes()
    started = time.process_time()
    _, losses = with_odt_numbers(data, "*", "[]")
    assert time.process_time() - started < SECONDS
    # those of a note are its own
    assert sorted(len(each.words) for each in losses) == [*[4] * 90, 60]


def test_elements_that_stand_within_each_other_without_end_are_refused(
    tmp_path: Path,
) -> None:
    body = "<w:p>" * 20_000 + "</w:p>" * 20_000
    path = docx(tmp_path / "moon.docx", body)
    started = time.process_time()
    with pytest.raises(NoDocument) as found:
        with_numbers(path.read_bytes(), "*")
    assert found.value.why is WhyNot.TOO_DEEP
    assert time.process_time() - started < SECONDS


@pytest.mark.parametrize(
    "page",
    [
        f"<style>{'/* ' * 20_000}</style><ol><li>a</ol>",
        f"<style>.x {'div ' * 7} li {{ display: none }}</style>{'<div>' * 36}<ul><li>a</ul>",
        "<style>ol.x li { list-style: none }</style>" * 1_500 + "<ol><li>a</ol>",
        f"<style>{'@media print {' * 3_000 + '}' * 3_000}</style><ol><li>a</ol>",
    ],
    ids=["comments", "selectors", "sheets", "media"],
)
def test_what_style_sheets_say_of_a_page_is_found_in_one_walk(page: str) -> None:
    started = time.process_time()
    assert contents_of(page.encode(), ManuscriptKind.HTML).losses == []
    assert time.process_time() - started < SECONDS


@pytest.mark.parametrize(
    "body, styles",
    [
        ("<w:p>" + "<w:r><w:t>a </w:t></w:r>" * 10_000 + "</w:p>", ""),
        (
            "<w:p>"
            + "<w:r><w:instrText>NOTEREF a</w:instrText><w:t>b</w:t></w:r>" * 10_000
            + "</w:p>",
            "",
        ),
        ("<w:p>" + "<w:r><w:pgNum/><w:t>a </w:t></w:r>" * 10_000 + "</w:p>", ""),
        (
            "<w:p><w:r><w:t>a</w:t></w:r></w:p>",
            '<w:style w:type="paragraph" w:styleId="a">'
            + "<w:rPr/>" * 10_000
            + "</w:style>"
            + "".join(
                f'<w:style w:type="paragraph" w:styleId="b{n}"><w:basedOn w:val="a"/></w:style>'
                for n in range(10_000)
            ),
        ),
    ],
    ids=["runs", "fields", "computed", "styles"],
)
def test_runs_and_styles_of_a_document_are_each_looked_through_once(
    tmp_path: Path, body: str, styles: str
) -> None:
    data = docx(tmp_path / "moon.docx", body, styles=styles).read_bytes()
    started = time.process_time()
    numbered, _ = with_numbers(data, "*")
    contents_of(numbered, ManuscriptKind.DOCX)
    assert time.process_time() - started < SECONDS


def rules(selectors: str, count: int = 10_000) -> str:
    """A style sheet of rules that hide what selectors name, each by its number."""
    numbered = (selectors.format(number) for number in range(count))
    return f"<style>{''.join(f'{each}{{display:none}}' for each in numbered)}</style>"


@pytest.mark.parametrize(
    "page, is_whole",
    [
        (rules(".a{} .b") + "<i class=b>a</i>" * 10_000, True),
        (rules("#a{} > .b") + "<i class=b id=c>a</i>" * 10_000, True),
        (rules(".a{} li") + "<ol>" + "<li>a" * 10_000, True),
        (rules("i.b.c{}") + "<i class=b>a</i>" * 10_000, False),
        (
            f"{rules('.x > .y .b')}<p class=x><b><b class=y>{'<i class=b>a</i>' * 10_000}",
            False,
        ),
        (rules("i,i", 5_001) + "<p>a", False),
    ],
    ids=["around", "names", "items", "last", "steps", "rules"],
)
def test_a_page_of_many_rules_and_elements_is_read_as_far_as_a_limit_and_that_is_noted(
    page: str, is_whole: bool
) -> None:
    started = time.process_time()
    found = contents_of(page.encode(), ManuscriptKind.HTML)
    assert time.process_time() - started < SECONDS
    assert (LossKind.RULES in [each.what for each in found.losses]) is not is_whole


@pytest.mark.parametrize(
    "page",
    [
        f"<p>{'<ruby>a<rt>b' * 15_000}",
        f"<p>{'<rt>a' * 50_000}",
        f"<p>{'a' * 4_000_000}{'<b>a</b>' * 15_000}",
        f"<style>li::before {{ content: counter(a) }}</style><ol>{'<li>' * 30_000}",
        f"<style>div div::before {{ content: counter(a) }}</style>{('<div>' * 990 + '</div>' * 990) * 4}",
        ("<ol><li>" * 990 + "</li></ol>" * 990) * 3,
        f"{'<b>' * 30_000}{'</i>' * 30_000}",
    ],
    ids=["ruby", "readings", "pieces", "counted", "deep", "lists", "ends"],
)
def test_a_page_is_compared_and_written_in_one_walk(page: str) -> None:
    started = time.process_time()
    contents_of(page.encode(), ManuscriptKind.HTML)
    readable_page(page)
    assert time.process_time() - started < SECONDS


def test_the_links_of_a_paragraph_are_written_in_one_walk() -> None:
    def link(word: str) -> Node:
        return {"t": "Link", "c": [["", [], []], [{"t": "Str", "c": word}], ["a", ""]]}

    links = [link("tide") for _ in range(60_000)]
    started = time.process_time()
    found = document({"blocks": [{"t": "Para", "c": links}]})
    assert time.process_time() - started < SECONDS
    assert (len(found.losses), len(found.parts)) == (60_000, 1)


def test_passages_of_one_word_are_looked_for_in_few_places() -> None:
    started = time.process_time()
    found = missing(["a " * 300] * 300, ["a " * 299] * 300)
    assert sum(len(each.words.split()) for each in found) == 300
    assert time.process_time() - started < SECONDS


class Compared(str):
    """A text that counts how often one is compared with another."""

    compared = 0

    def __eq__(self, other: object) -> bool:
        Compared.compared += 1
        return str(self) == str(other)

    def __ne__(self, other: object) -> bool:
        return not self == other

    def __hash__(self) -> int:
        return hash(str(self))


def comparisons(run: Callable[[], object]) -> int:
    """How many texts are compared while something runs."""
    before = Compared.compared
    run()
    return Compared.compared - before


@pytest.mark.parametrize("end", ["{} is", "is {}", "is", "is {} or"])
def test_passages_that_begin_alike_are_found_in_one_walk(
    monkeypatch: pytest.MonkeyPatch, end: str
) -> None:
    monkeypatch.setattr(
        contents, "words_of", lambda text: [*map(Compared, text.split())]
    )

    def steps(count: int) -> int:
        passages = [f"This moon {end.format(n)}" for n in range(count)]
        # each text has a word more than the passage, so that none of them is one
        texts = [f"[1] {passage}" for passage in passages]
        return comparisons(lambda: missing([*passages, "This moon"], texts))

    assert steps(800) < 3 * steps(400)
    assert missing(["a b c", "a b d", "b c"], ["x a b d", "a b c b"]) == [
        Missing("c", "b", "")
    ]


def test_paragraphs_that_are_the_same_at_both_ends_are_compared_in_one_walk() -> None:
    alike = ["The moon"] * 7_000
    started = time.process_time()
    book = enumerate([*alike, "is a", *alike])
    found = differences([*book], [*alike, "is b", *alike])
    assert [*found] == [OtherWords(7_000, 3, "a", "b")]
    # where both ends differ too, and what stands between them
    names = ["moon", "sun", *["moon"] * 18]
    its = [f"{n} {names[n % 20]}" if n % 2 else "* * *" for n in range(20_000)]
    found = differences([*enumerate(its)], [each.replace("sun", "sea") for each in its])
    assert [
        (each.words, each.others) for each in found if isinstance(each, OtherWords)
    ] == [("sun", "sea")] * 1_000
    book = enumerate(["is a", *alike[:2_000], "is a"])
    found = differences([*book], ["is b", *alike[:2_000], "is b"])
    assert [*found] == [OtherWords(n, 3, "a", "b") for n in (0, 2_001)]
    # where no paragraph stands once, and no words do
    kinds = ["The moon is far.", "The Tides", "Twice a day the sea comes up."]
    its = [kinds[n % 3] for n in range(50_000)]
    others = [kinds[(n + (n % 7 > 0)) % 3] for n in range(50_000)]
    assert len([*differences([*enumerate(its)], others)]) > 1_000
    assert time.process_time() - started < SECONDS


@pytest.mark.parametrize(
    "last, first, count",
    [
        ("a b a b", "a b c", 2),
        ("a a b", "a a b a a c", 3),
        ("a a b a a", "a a b a a c", 5),
        ("a a b a a b", "a a b a a c", 3),
        ("a b", "b", 1),
        ("a b b", "b", 1),
        ("a", "b", 0),
        ("", "b", 0),
    ],
)
def test_texts_that_end_one_list_and_begin_another_are_counted(
    last: str, first: str, count: int
) -> None:
    assert overlap(last.split(), first.split()) == count


def test_texts_that_end_one_list_and_begin_another_are_found_in_one_walk() -> None:
    def steps(count: int) -> int:
        texts = [Compared("a") for _ in range(count)]
        return comparisons(lambda: overlap([*texts, Compared("b")], [*texts]))

    assert steps(800) < 3 * steps(400)


def test_places_are_found_in_combining_sequences_over_lines() -> None:
    (passage,) = passages("e\u0301a\nbe\u0301\n".encode(), False)
    assert passage.text == "\u00e9a b\u00e9"
    assert list(passage.positions([0, 1, 2, 3, 4, 5])) == [
        Position(1, 1),
        Position(1, 3),
        Position(1, 4),
        Position(2, 1),
        Position(2, 2),
        Position(2, 4),
    ]


def test_marks_without_end_on_one_letter_are_judged_in_one_walk() -> None:
    marks = "a" + "\u0301\u0323" * 60_000
    began = time.process_time()
    (passage,) = passages(f"the moon\n{marks}\n".encode(), False)
    assert len(passage.text) == len("the moon ") + len(marks)
    assert passage.position(4_000) == Position(2, 1)
    assert time.process_time() - began < SECONDS


@pytest.mark.parametrize("length", [3_990, 4_010])
def test_a_long_text_is_composed_as_a_short_one(length: int) -> None:
    text = "e\u0301 a\u0301\u0323 \u1100\u1161\u11a8 " * (length // 10)
    assert len(text) > length - 10
    assert composed(text) == unicodedata.normalize("NFC", text)


class Counted(dict[str, str]):
    """A mapping that counts how often all of it is gone through."""

    walks = 0

    def values(self) -> "ValuesView[str]":  # type: ignore[override]
        self.walks += 1
        return super().values()

    def items(self) -> "ItemsView[str, str]":  # type: ignore[override]
        self.walks += 1
        return super().items()


def test_the_pairs_of_a_table_are_gone_through_once_for_all_its_warnings() -> None:
    capitals = [chr(0x0391 + n) for n in range(10)]
    lines = [f"uplow {upper}{upper.lower()} 1" for upper in capitals]
    lines += [f"letter {chr(0x0410 + n)} 1" for n in range(20)]
    lines += [f"always {upper.lower()}{capitals[0].lower()} 1" for upper in capitals]
    reading = read("\n".join(lines).encode())
    assert not reading.faults
    lower = Counted(reading.table.lower)
    assert warnings(replace(reading.table, lower=lower), True) == []
    assert lower.walks <= 1


def test_a_head_of_blanks_takes_no_more_time_than_one_of_letters(
    tmp_path: Path,
) -> None:
    table = tmp_path / "blanks.utb"
    blanks = " " * 60_000
    table.write_text(f"#-license: x{blanks}y\n", encoding="utf-8")
    began = time.process_time()
    assert head_of(table) == {"license": f"x{blanks}y"}
    assert time.process_time() - began < SECONDS


def test_lines_of_blanks_are_wrapped_in_one_walk() -> None:
    blanks = " " * 100_000
    began = time.process_time()
    assert wrap(f"the moon{blanks}", 40) == ["the moon"]
    assert wrap(blanks, 40) == [""]
    assert time.process_time() - began < SECONDS


def test_of_a_line_without_end_the_characters_are_looked_at_where_it_matters(
    monkeypatch: pytest.MonkeyPatch,
) -> None:
    looked: list[int] = []
    of_text = sequences.seams

    def seams(text: str) -> Sequence[int]:
        looked.append(len(text))
        return of_text(text)

    monkeypatch.setattr(sequences, "seams", seams)
    for text in ("The moon is far. ", "La lune était là. ", "e\u0301a "):
        looked.clear()
        (passage,) = passages((text * 20_000).encode(), False)
        place = len(passage.text) - 1
        assert len(passage.text) == len(
            unicodedata.normalize("NFC", passage.lines[0].text)
        )
        assert passage.position(place).column == len(passage.lines[0].text)
        assert passage.position(4_000) < passage.position(place)
        assert sum(looked) < 10_000


def test_a_text_is_measured_once_for_all_places_that_are_found_in_it(
    monkeypatch: pytest.MonkeyPatch,
) -> None:
    measured: list[int] = []
    of_text = sequences.is_plain

    def is_plain(text: str) -> bool:
        measured.append(len(text))
        return of_text(text)

    monkeypatch.setattr("braildesk.text.excerpt.is_plain", is_plain)
    text = "the moon " * 1_000
    its = Paragraph(1, "en", Style.BODY, False, False, len(text))
    lines = list(word_lines(Hit(its, text, find_spans(text, "moon")), 80))
    assert len(lines) == 1_000
    assert measured == [len(text)]


class OfOneParagraph:
    """What a session answers of a book with one paragraph, which has very many marks."""

    def __init__(self, words: int, marks: Iterable[Mark]) -> None:
        self._words = words
        self._marks = tuple(marks)

    def paragraphs(self) -> tuple[Paragraph, ...]:
        its = Paragraph(1, "en", Style.BODY, False, False, 2 * self._words - 1)
        return (its,)

    def each(self, asked: Iterable[Any], _: object) -> Iterator[object]:
        for request in asked:
            match request:
                case requests.Print():
                    yield " ".join("a" * self._words)
                case requests.Braille():
                    yield "\u2800".join("\u2801" * self._words)
                case requests.Marks():
                    yield self._marks
                case requests.Where(place=place) | requests.Whence(cell=place):
                    yield place


def test_the_marks_of_a_paragraph_are_gone_through_once_for_all_its_words() -> None:
    # on the words at even places: 20,000 marks, of which those of each tenth word are resolved
    marks = (
        Mark(n + 1, n % 2_000 // 2 * 4, n % 2_000 // 2 * 4 + 1, n % 20 == 0, False, "")
        for n in range(20_000)
    )
    session = cast(Session, OfOneParagraph(2_000, marks))
    began = time.process_time()
    pages = list(proof_pages(session, PageSize(40, 25)))
    assert time.process_time() - began < SECONDS
    lines = [line for page in pages for line in page.lines]
    words = [word for line in lines for word in line.words]
    assert [word.is_marked for word in words] == [True, False] * 1_000
    assert sum(len(line.marks) for line in lines) == 20_000
    for line in lines:
        numbers = [mark.id for mark in line.marks]
        assert numbers == sorted(numbers)
