"""Values that were kept as JSON, read back by their types: nothing of them is taken on trust."""

import json
import re

from braildesk.text import limits

_SURROGATE = re.compile("[\ud800-\udfff]")


class NotSuch(ValueError):
    """What was read isn't what was kept."""


class Record:
    """The named values of a JSON object."""

    def __init__(self, values: object) -> None:
        if not isinstance(values, dict):
            raise NotSuch("an object")
        self._values: dict[str, object] = values

    @classmethod
    def of(cls, data: bytes) -> "Record":
        """The object that these bytes are in JSON."""
        try:
            return cls(json.loads(data))
        except (ValueError, RecursionError) as cause:
            raise NotSuch("JSON") from cause

    def without(self, *names: str) -> dict[str, object]:
        """All values but those of some names, as they were read."""
        return {key: self._values[key] for key in self._values if key not in names}

    def has(self, name: str) -> bool:
        """Whether there is a value of this name, and not null."""
        return self._values.get(name) is not None

    def is_equal(self, name: str, value: object) -> bool:
        """Whether the value of this name is a given one."""
        return self._values.get(name) == value

    def text(self, name: str) -> str:
        """A text that can be written as UTF-8."""
        value = self._values.get(name)
        if not isinstance(value, str) or _SURROGATE.search(value):
            raise NotSuch(name)
        return value

    def text_or_none(self, name: str) -> str | None:
        """A text, or null."""
        return self.text(name) if self.has(name) else None

    def texts(self, name: str) -> dict[str, str]:
        """Texts by their names."""
        its = self.record(name)
        return {each: its.text(each) for each in its._values}

    def path(self, name: str) -> str:
        """The path of a file, whose bytes needn't be UTF-8."""
        value = self._values.get(name)
        if not isinstance(value, str) or "\0" in value:
            raise NotSuch(name)
        try:
            value.encode("utf-8", "surrogateescape")
        except UnicodeEncodeError as cause:
            raise NotSuch(name) from cause
        return value

    def is_number(self, name: str) -> bool:
        """Whether the value of this name is a whole number."""
        return type(self._values.get(name)) is int

    def number(self, name: str, least: int = 0) -> int:
        """A whole number, within what a request can have."""
        return _number(self._values.get(name), name, least)

    def number_or_none(self, name: str, least: int = 0) -> int | None:
        """A whole number, or null."""
        return self.number(name, least) if self.has(name) else None

    def numbers(self, name: str) -> list[int]:
        """Whole numbers."""
        return [_number(each, name, 0) for each in self._list(name)]

    def truth(self, name: str) -> bool:
        """True or false."""
        value = self._values.get(name)
        if not isinstance(value, bool):
            raise NotSuch(name)
        return value

    def record(self, name: str) -> "Record":
        """An object within this one."""
        return Record(self._values.get(name))

    def records(self, name: str) -> list["Record"]:
        """Objects within this one."""
        return [Record(each) for each in self._list(name)]

    def _list(self, name: str) -> list[object]:
        value = self._values.get(name)
        if not isinstance(value, list):
            raise NotSuch(name)
        return value


def _number(value: object, name: str, least: int) -> int:
    # True is an int of Python, and no number here
    if type(value) is not int or not least <= value <= limits.NUMBER:
        raise NotSuch(name)
    return value
