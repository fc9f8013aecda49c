"""What dataclasses that never change have in common: by what two are equal, and how one is shown."""

from dataclasses import Field
from typing import Any


class Value:
    """What is equal to another one of its kind with the same fields."""

    __slots__ = ()

    # once for all values, since each is made as a class whenever a command is run
    def __eq__(self, other: object) -> bool:
        if not isinstance(other, Value):
            return False
        return type(other) is type(self) and _fields(other) == _fields(self)

    def __hash__(self) -> int:
        return hash((type(self), *_fields(self).values()))

    def __repr__(self) -> str:
        given = ", ".join(f"{key}={value!r}" for key, value in _fields(self).items())
        return f"{type(self).__qualname__}({given})"


def _fields(value: Value) -> dict[str, object]:
    its: dict[str, Field[Any]] = getattr(value, "__dataclass_fields__")
    return {name: getattr(value, name) for name, each in its.items() if each.compare}
