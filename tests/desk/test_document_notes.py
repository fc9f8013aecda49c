"""Notes of pages of HTML, as the programs that make such pages write them."""

from dataclasses import dataclass
from itertools import takewhile

import pytest

from braildesk.desk.documents.document import read_document
from braildesk.desk.documents.kinds import ManuscriptKind
from braildesk.desk.documents.reading import LossKind, Manuscript
from braildesk.desk.manuscripts import read_manuscript


@dataclass(frozen=True)
class Case:
    """A way in which a page has notes, and the paragraphs that come of it."""

    name: str
    page: str
    texts: tuple[str, ...]


CASES = (
    Case(
        "Sphinx",
        '<p>Far.<a class="footnote-reference brackets" href="#s2" id="s1" role="doc-noteref">'
        '<span class="fn-bracket">[</span>1<span class="fn-bracket">]</span></a> Near.</p>'
        '<p>After it.</p><aside class="footnote-list brackets">'
        '<aside class="footnote brackets" id="s2" role="note"><span class="label">'
        '<span class="fn-bracket">[</span><a role="doc-backlink" href="#s1">1</a>'
        '<span class="fn-bracket">]</span></span><p>Very.</p><p>Indeed.</p></aside></aside>'
        "<p>The rest.</p>",
        ("Far.[1] Near.", "[1: Very. Indeed.]", "After it.", "The rest."),
    ),
    Case(
        "older Sphinx, with a note to which two numbers lead",
        '<p>Far <a class="footnote-reference brackets" href="#d7" id="d5">4</a>, so'
        ' far <a class="footnote-reference brackets" href="#d7" id="d6">4</a>.</p>'
        '<p>And near <a class="footnote-reference brackets" href="#d8" id="d9">5</a>.</p>'
        '<dl class="footnote brackets"><dt class="label" id="d7"><span class="brackets">4</span>'
        '<span class="fn-backref">(<a href="#d5">1</a>,<a href="#d6">2</a>)</span></dt>'
        '<dd><p>Very.</p></dd><dt class="label" id="d8"><span class="brackets">'
        '<a class="fn-backref" href="#d9">5</a></span></dt><dd><p><code>Quite</code> so.</p>'
        "</dd></dl>",
        ("Far [4], so far [4].", "[4: Very.]", "And near [5].", "[5: Quite so.]"),
    ),
    Case(
        "DocBook",
        '<p>Far.<a href="#ftn.b1" class="footnote" name="b1"><sup class="footnote">[1]</sup></a>'
        '</p><div class="footnotes"><br /><hr /><div id="ftn.b1" class="footnote"><p>'
        '<a href="#b1" class="para"><sup class="para">[1] </sup></a> see the Moon</p></div></div>',
        ("Far.[1]", "[1: see the Moon]"),
    ),
    Case(
        "AsciiDoc",
        '<p>Far <span class="footnote" id="_footnote_a"><br />[<em>Very</em> far.]<br /></span>,'
        ' and far<span class="footnoteref"><br /><a href="#_footnote_a">[a]</a><br /></span>.</p>',
        ("Far [1], and far[1].", "[1: Very far.]"),
    ),
    Case(
        "Asciidoctor",
        '<p>Far<sup class="footnote">[<a id="_footnoteref_1" class="footnote"'
        ' href="#_footnotedef_1" title="View footnote.">1</a>]</sup>.</p><div id="footnotes"><hr />'
        '<div class="footnote" id="_footnotedef_1"><a href="#_footnoteref_1">1</a>. Very.</div>'
        "</div>",
        ("Far[1].", "[1: Very.]"),
    ),
    Case(
        "EPUB",
        '<p>Far<a epub:type="noteref" href="#e9">9</a>.</p>'
        '<aside epub:type="footnote" id="e9"><p>9. Very.</p></aside>',
        ("Far[9].", "[9: Very.]"),
    ),
    Case(
        "Project Gutenberg",
        '<p>Far.<a id="FNanchor_1" href="#Footnote_1" class="fnanchor">[A]</a></p>'
        '<div class="footnote"><p><a id="Footnote_1" href="#FNanchor_1"><span class="label">[A]'
        "</span></a> Very.</p><p>Indeed.</p></div>",
        ("Far.[A]", "[A: Very. Indeed.]"),
    ),
    Case(
        "Texinfo",
        '<p>Far<a id="DOCF1" href="#FOOT1"><sup>1</sup></a>, near<a class="footnote" id="DOCF2"'
        ' href="#FOOT2"><sup>2</sup></a> or here<a id="DOCF3" href="#FOOT3"><sup>3</sup></a>.</p>'
        '<div class="footnotes-segment"><hr><h4 class="footnotes-heading">Footnotes</h4>'
        '<h5><a id="FOOT1" href="#DOCF1">(1)</a></h5><p>Very.</p><ul><li>Indeed.</li></ul>'
        '<h5 class="footnote-body-heading"><a id="FOOT2" href="#DOCF2">(2)</a></h5><p>Quite.</p>'
        '<h5><a id="FOOT3" href="#DOCF3">(3)</a></h3><p>So.</p><hr><p>The rest.</p></div>'
        '<p>Or<a id="DOCF4" href="#FOOT4"><sup>4</sup></a>.</p><hr>'
        '<h5><a id="FOOT4" href="#DOCF4">(4)</a></h3><p>Or not.</p>',
        (
            "Far[1], near[2] or here[3].",
            "[1: Very. • Indeed.]",
            "[2: Quite.]",
            "[3: So.]",
            "Footnotes",
            "The rest.",
            "Or[4].",
            "[4: Or not.]",
        ),
    ),
    Case(
        "Org",
        '<p>Far<sup><a id="fnr.1" class="footref" href="#fn.1" role="doc-backlink">1</a></sup>.</p>'
        '<div id="footnotes"><h2 class="footnotes">Footnotes: </h2><div id="text-footnotes">'
        '<div class="footdef"><sup><a id="fn.1" class="footnum" href="#fnr.1"'
        ' role="doc-backlink">1</a></sup> <div class="footpara" role="doc-footnote">'
        '<p class="footpara">Very.</p></div></div></div></div>',
        ("Far[1].", "[1: Very.]", "Footnotes:"),
    ),
    Case(
        "Word and LibreOffice",
        '<p>Far<a href="#_ftn1" name="_ftnref1"><span class=MsoFootnoteReference>[1]</span></a>,'
        ' near<a class="sdendnoteanc" name="sdendnote1anc" href="#sdendnote1sym"><sup>i</sup></a>'
        ' or so.</p><div><hr><div id=ftn1><p><a href="#_ftnref1" name="_ftn1"><span>[1]</span></a>'
        ' Very.</p><p>Indeed.</p></div></div><div id="sdendnote1"><p class="sdendnote"><a'
        ' class="sdendnotesym" name="sdendnote1sym" href="#sdendnote1anc">i</a>Quite.</p><p>So.</p>'
        "</div>",
        ("Far[1], near[i] or so.", "[1: Very. Indeed.]", "[i: Quite. So.]"),
    ),
    Case(
        "numbers of which nothing says that they are notes",
        '<p>Far<sup><a href="#n1" id="m1">1</a></sup> or near<a href="#n3" id="m3">*</a>.</p>'
        '<ol><li id="n1"><a href="#m1">1</a> Very. <a href="#m1">↩</a></li><li>Two</li>'
        '<li>Three</li></ol><p id="n3"><a href="#m3">*</a> Quite.</p>',
        ("Far[1] or near[*].", "[1: Very.]", "[*: Quite.]", "2. Two", "3. Three"),
    ),
    Case(
        "MediaWiki, with a note that has a note and one to which two numbers lead",
        '<p>Far<sup id="w-r1" class="reference"><a href="#w-n1"><span>[</span>note 1<span>]</span>'
        '</a></sup> or<sup id="w-r2-0" class="reference"><a href="#w-n2">[1]</a></sup> near'
        '<sup id="w-r2-1" class="reference"><a href="#w-n2">[1]</a></sup>.</p><p>After it.</p>'
        '<ol class="references"><li id="w-n1"><span><b><a href="#w-r1">^</a></b></span> <span>Very'
        '<sup id="w-r3"><a href="#w-n3">[2]</a></sup>.</span></li></ol><ol class="references">'
        '<li id="w-n2"><span>^ <a href="#w-r2-0"><i><b>a</b></i></a> <a href="#w-r2-1">'
        "<i><b>b</b></i></a></span> <span>Quite.</span></li>"
        '<li id="w-n3"><b><a href="#w-r3">^</a></b> Indeed.</li><li id="w-n4">So.</li></ol>',
        (
            "Far[note 1] or[1] near[1].",
            "[note 1: Very[2].]",
            "[1: ^ a b Quite.]",
            "[2: Indeed.]",
            "After it.",
            "3. So.",
        ),
    ),
    Case(
        "GitHub",
        '<p>Far<sup><a href="#user-content-fn-1-ab" id="user-content-fnref-1-ab"'
        ' data-footnote-ref="" aria-describedby="footnote-label">1</a></sup>.</p><p>After it.</p>'
        '<section data-footnotes="" class="footnotes"><ol dir="auto"><li id="user-content-fn-1-ab">'
        '<p>Very. <a href="#user-content-fnref-1-ab" data-footnote-backref="" class='
        '"data-footnote-backref" aria-label="Back to reference 1">\u21a9</a></p></li></ol></section>',
        ("Far[1].", "[1: Very.]", "After it."),
    ),
    Case(
        "WordPress, older and newer",
        '<p>Far<sup id="fnref-12-1"><a href="#fn-12-1" class="jetpack-footnote" title="Read'
        ' footnote.">1</a></sup>, near<sup data-fn="u-7" class="fn"><a href="#u-7" id="u-7-link">2'
        '</a></sup>.</p><p>After it.</p><div class="footnotes"><hr><ol><li id="fn-12-1">Very. '
        '<a href="#fnref-12-1" title="Return">\u21a9</a></li></ol></div><ol class="wp-block-footnotes">'
        '<li id="u-7"><p>Quite.</p><p>So. <a href="#u-7-link">\u21a9\ufe0e</a></p></li></ol>',
        ("Far[1], near[2].", "[1: Very.]", "[2: Quite. So.]", "After it."),
    ),
    Case(
        "Pressbooks and Substack",
        '<p>Far<a id="return-footnote-9-1" href="#footnote-9-1"><sup>[1]</sup></a>, near<a id='
        '"footnote-anchor-2" href="#footnote-2" class="footnote-anchor">2</a>.</p><p>After it.</p>'
        '<div><div id="footnote-9-1">Very. <a href="#return-footnote-9-1">\u21b5</a></div></div>'
        '<div class="footnote"><a id="footnote-2" href="#footnote-anchor-2" class='
        '"footnote-number">2</a><div class="footnote-content"><p>Quite.</p><p>So.</p></div></div>',
        ("Far[1], near[2].", "[1: Very.]", "[2: Quite. So.]", "After it."),
    ),
    Case(
        "a note that leads to itself by another",
        '<p>Far<sup><a id="l1" href="#o1">1</a></sup>.</p><p>After it.</p><p id="o1">Very<sup>'
        '<a id="l2" href="#o2">2</a></sup>. <a href="#l1">\u21a9</a></p><p id="o2">Quite '
        '<a href="#o1">1</a>. <a href="#l2">\u21a9</a></p>',
        ("Far[1].", "[1: Very[2].]", "[2: Quite 1.]", "After it."),
    ),
    Case(
        "parts that lead back to the words before them",
        '<p id="v1">The <a href="#v2">Moon</a> and <a href="#v3">2</a>.</p><p id="v2">Moon: far.'
        ' <a href="#v1">\u21a9</a></p><div id="v3"><h2>Two</h2><p>Far. <a href="#v1">\u21a9</a></p>'
        "</div>",
        ("The Moon and 2.", "Moon: far. \u21a9", "Two", "Far. \u21a9"),
    ),
    Case(
        "notes that nothing but notes lead to, and chapters that lead back to their list",
        '<p id="g">Chapters: <a href="#g1">1</a> or <a href="#g2">2</a>.</p><div id="g1"><p>Far.'
        ' <a href="#g">Top</a></p></div><div id="g2"><p>Near. <a href="#g">Top</a></p></div>'
        '<p id="h1">One<a id="h3" class="noteref" href="#h2">7</a>.</p><p id="h2">Two<a id="h4"'
        ' class="noteref" href="#h1">8</a>.</p><p id="g3"><a href="#g4">3</a></p><div id="g4"><p>Off.'
        ' <a href="#g3">Up</a></p></div>',
        (
            "Chapters: 1 or 2.",
            "Far. Top",
            "Near. Top",
            "One7.",
            "Two8.",
            "3",
            "Off. Up",
        ),
    ),
    Case(
        "numbers of pages and chapters, which are words of their texts",
        '<p>The moon, page <a id="k1" href="#p12">12</a>; chapter\n<a id="k2" href="#d2">2</a>;'
        ' see&nbsp;<a id="k3" href="#d3">3</a>, far <a id="k4" href="#d4">*</a> <a id="k5"'
        ' href="#d5"><sup>5</sup></a>.</p><p id="p12">The'
        ' moon. <a href="#k1">Up</a></p><div id="d2"><p>Two.</p><p><a href="#k2">Up</a></p></div>'
        '<p id="d3">Three. <a href="#k3">Up</a></p><p id="d4">Very. <a href="#k4">\u21a9</a></p>'
        '<p id="d5">Quite. <a href="#k5">\u21a9</a></p>',
        (
            "The moon, page 12; chapter 2; see 3, far [*] [5].",
            "[*: Very.]",
            "[5: Quite.]",
            "The moon. Up",
            "Two.",
            "Up",
            "Three. Up",
        ),
    ),
    Case(
        "numbers that lead to parts of the book",
        '<p>See <a href="#c1">1</a> and <a href="#c2">2</a>.</p>'
        '<p id="c1">1 moon</p><div id="c2"><p><a href="#c1">2</a> moons</p><h2>A part</h2></div>'
        '<p><a id="b3" href="#c3">3</a></p><h2><a id="c3" href="#b3">3</a></h2><p>moons</p>',
        ("See 1 and 2.", "1 moon", "2 moons", "A part", "3", "3", "moons"),
    ),
    Case(
        "a number without its note",
        '<p>Far<a role="doc-noteref" href="#nowhere">7</a>.</p>',
        ("Far[7].",),
    ),
    Case(
        "numbers that lead to the front of the page",
        '<p>Off<a class="footnote-ref" href="#">9</a>, <a href="#">1</a>.</p><div><p>After.</p></div>',
        ("Off[9], 1.", "After."),
    ),
)


@pytest.fixture(scope="module")
def found(tmp_path_factory: pytest.TempPathFactory) -> Manuscript:
    """A page with all these notes, which is read once."""
    path = tmp_path_factory.mktemp("notes") / "moon.html"
    cases = "".join(f"<h1>{case.name}</h1>{case.page}" for case in CASES)
    path.write_text(f"<html><body>{cases}</body></html>", encoding="utf-8")
    return read_manuscript(path)


@pytest.mark.parametrize("case", CASES, ids=[case.name for case in CASES])
def test_a_note_stands_in_brackets_after_its_paragraph(
    found: Manuscript, case: Case
) -> None:
    texts = found.texts
    after = found.parts[texts.index(case.name) + 1 :]
    section = takewhile(lambda part: part.level != 1, after)
    assert tuple(part.text for part in section) == case.texts


def test_no_word_of_the_notes_is_lost_and_a_note_that_is_not_there_is_noted(
    found: Manuscript,
) -> None:
    assert [each.words for each in found.missing] == ["a"]
    assert [each.around for each in found.losses if each.what is LossKind.NOTE] == [
        "Far[7].",
        "Off[9], 1.",
    ]
    assert all(each.what is not LossKind.SUPERSCRIPT for each in found.losses)


@pytest.mark.parametrize(
    "said",
    [
        "<!-- saved from url=(0022)https://a.example/x?y#z -->",
        "<!--\n Page saved with SingleFile \n url: https://a.example/x?y \n-->",
        '<link rel="canonical" href="https://a.example/x?y">',
    ],
)
def test_links_of_a_saved_page_that_lead_to_it_by_its_address_lead_to_its_notes(
    said: str,
) -> None:
    page = (
        f"<!DOCTYPE html>\n{said}\n<html><!-- url: https://a.example/x -->"
        '<p>Far<sup><a id="m1" href="https://a.example/x?y#n1">1</a></sup>. <a'
        ' href="https://a.example/x#n1">More</a>.</p><p>After it.</p><ol><li id="n1">Very. <a'
        " href='https://a.example/x?y#m1'>\u21a9</a></li></ol></html>"
    )
    found = read_document(page.encode(), ManuscriptKind.HTML)
    assert found.texts == ["Far[1]. More.", "[1: Very.]", "After it."]
    assert [each.words for each in found.losses] == ["More"]


def test_the_number_of_a_note_is_no_part_of_the_word_before_it() -> None:
    numbers = "".join(
        f'<p>{word}<a href="#n{n}" id="m{n}"><sup>{n}</sup></a>{end}.</p>'
        for n, (word, end) in enumerate(
            [("UCS-2", ""), ("7", ""), ("\u2018far\u2019", ""), ("\u6708", "\u306f")], 1
        )
    )
    notes = "".join(
        f'<p id="n{n}"><a href="#m{n}">{n}</a> near</p>' for n in range(1, 5)
    )
    page = f'<html>{numbers}<p>w<a href="#n9">as i</a>s</p>{notes}</html>'
    found = read_document(page.encode(), ManuscriptKind.HTML)
    assert found.texts[::2] == [
        *("UCS-2[1].", "7[2].", "\u2018far\u2019[3].", "\u6708[4]\u306f.", "was is")
    ]
    assert not found.missing
