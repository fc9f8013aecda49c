"""The exceptions of the client: each travels between processes, and has its kind."""

import errno
import importlib
import inspect
import pickle
import pkgutil
from typing import Any

import pytest

import braildesk
from braildesk import (
    BadTable,
    CannotOpen,
    Full,
    NotFound,
    OutOfRange,
    Refused,
    TooLong,
    Undefined,
    VersionConflict,
    Why,
    requests,
)
from braildesk.protocol.asked import Refusal
from braildesk.protocol.codes import Code
from braildesk.refusals import refused


def kinds() -> list[type[BaseException]]:
    """Each exception of the client and of its tables, wherever it is defined."""
    found = []
    for module in pkgutil.walk_packages(braildesk.__path__, "braildesk."):
        if module.name.startswith("braildesk.desk"):
            continue
        for each in vars(importlib.import_module(module.name)).values():
            if isinstance(each, type) and issubclass(each, BaseException):
                if each.__module__ == module.name:
                    found.append(each)
    return found


#: An argument of an exception, by what it is annotated with.
ARGUMENTS: dict[object, object] = {
    str: "The moon didn’t rise.",
    int: 7,
    bytes: b"hello",
    Code: Code.BAD_TABLE,
    int | None: 3,
    Refusal: Refusal(
        Code.UNDEFINED,
        requests.Type("end", "en", "to the end…"),
        place=10,
        why=Why.DENIED,
    ),
    requests.Request[Any] | None: requests.Print(1),
    tuple[requests.Request[Any], ...]: (requests.Strike(1),),
}


def made(kind: type[BaseException]) -> BaseException:
    """An exception with arguments that its kind takes."""
    if not inspect.isfunction(kind.__init__):
        text = "The moon didn’t rise."
        return kind(errno.EIO, text) if issubclass(kind, OSError) else kind(text)
    # which the exceptions import for the checking of types alone
    names = {"Request": requests.Request}
    parameters = inspect.signature(kind, locals=names, eval_str=True).parameters
    return kind(*(ARGUMENTS[each.annotation] for each in parameters.values()))


@pytest.mark.parametrize("kind", kinds(), ids=lambda kind: str(kind.__name__))
def test_an_exception_is_the_same_after_it_was_pickled(
    kind: type[BaseException],
) -> None:
    error = made(kind)
    assert str(error)
    again = pickle.loads(pickle.dumps(error))
    assert (type(again), str(again)) == (kind, str(error))
    assert vars(again) == vars(error)


@pytest.mark.parametrize(
    ("code", "kind"),
    [
        (Code.NO_PARAGRAPH, NotFound),
        (Code.NO_TABLE, NotFound),
        (Code.NO_MARK, NotFound),
        (Code.NO_VOLUME, NotFound),
        (Code.OUT_OF_RANGE, OutOfRange),
        (Code.UNDEFINED, Undefined),
        (Code.UNDEFINED_IN_PRINT, Undefined),
        (Code.BAD_TABLE, BadTable),
        (Code.TOO_LONG, TooLong),
        (Code.FULL, Full),
        (Code.VERSION_CONFLICT, VersionConflict),
        (Code.STRUCK, Refused),
        (Code.CANNOT_OPEN, CannotOpen),
    ],
)
def test_a_code_has_its_exception(code: Code, kind: type[Refused]) -> None:
    error = refused(code, requests.Print(1))
    assert type(error) is kind
    assert error.code is code


def test_a_code_that_is_not_known_here_is_a_number() -> None:
    error = refused(77, requests.Print(1))
    assert (type(error), error.code, isinstance(error.code, Code)) == (
        Refused,
        77,
        False,
    )
    assert "77" in error.sentence
