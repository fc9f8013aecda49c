"""The tags of HTML that stand in a text in Markdown, which pandoc hands on as they are."""

import re
from collections.abc import Mapping
from dataclasses import dataclass, field

from braildesk.desk.documents.markup import Tags

#: The elements that a page may have. What else is written so may be meant as text.
_ELEMENTS = frozenset(
    "a abbr acronym address applet area article aside audio b base basefont bdi bdo big blink blockquote"
    " body br button canvas caption center cite code col colgroup data datalist dd del details dfn dialog"
    " dir div dl dt em embed fieldset figcaption figure font footer form frame frameset h1 h2 h3 h4 h5 h6"
    " head header hgroup hr html i iframe img input ins kbd label legend li link main map mark marquee"
    " menu meta meter nav nobr noframes noscript object ol optgroup option output p param picture plaintext"
    " pre progress q rb rp rt rtc ruby s samp script section select slot small source span strike strong"
    " style sub summary sup table tbody td template textarea tfoot th thead time title tr track tt u ul"
    " var video wbr".split()
)
#: Attributes that have no value.
_SWITCHES = frozenset(
    "allowfullscreen async autofocus autoplay checked compact controls default defer disabled download"
    " formnovalidate hidden ismap itemscope loop multiple muted nohref nomodule noresize noshade"
    " novalidate nowrap open playsinline readonly required reversed selected".split()
)
#: The end of an element with words after its name.
_WORDY_END = re.compile(r"</[A-Za-z][^\s<>]*\s+[^\s>]")


@dataclass(frozen=True, slots=True)
class RawTag:
    """A tag by its name, with its attributes."""

    name: str
    is_end: bool
    attributes: Mapping[str, str | None] = field(default_factory=dict)

    @property
    def is_known(self) -> bool:
        """Whether it is one of HTML, and has no words of a text where attributes stand."""
        bare = {name for name, value in self.attributes.items() if value is None}
        return self.name in _ELEMENTS and bare <= _SWITCHES


class RawHtml(Tags):
    """A piece of HTML: its tags, and whether it has print between or in them."""

    def __init__(self, text: str) -> None:
        super().__init__()
        self.tags: list[RawTag] = []
        self.has_print = False
        self.feed(text)
        self.close()

    def handle_starttag(self, tag: str, attrs: list[tuple[str, str | None]]) -> None:
        self.tags.append(RawTag(tag, False, dict(attrs)))

    def handle_endtag(self, tag: str) -> None:
        self.tags.append(RawTag(tag, True))

    def parse_endtag(self, i: int) -> int:
        # the reader of the library passes over what the end of an element has beside its name
        self.has_print |= _WORDY_END.match(self.rawdata, i) is not None
        return super().parse_endtag(i)

    def handle_data(self, data: str) -> None:
        self.has_print |= bool(data.strip())

    @property
    def is_left_out(self) -> bool:
        """Whether more of it is left out than tags of HTML."""
        is_known = all(each.is_known for each in self.tags)
        return self.has_print or not is_known
