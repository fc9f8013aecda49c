"""The streams of a container of older programs, as a text in DOC is: pieces that stand in any order in it."""

import struct
from collections.abc import Collection, Iterator, Sequence
from dataclasses import dataclass
from itertools import islice

#: What is raised where a container is damaged.
DAMAGED = (struct.error, LookupError, ValueError, OverflowError)

#: Where the front of a container says what its sectors are, and how many of the sectors of their table it names.
_SECTORS, _FIRST_SECTORS = 30, 109
#: How long a stream is at least that has sectors of its own, and how long those of others are.
_LEAST, _SMALL_STEP = 4_096, 64
#: From here on a number is that of no sector.
_NONE = 0xFFFF_FFFA
#: How long an entry of the directory is, and its name at most; where in it its kind is, which entries are beside it
#: and in it, and its place; and the kind of a stream.
_ENTRY, _NAME, _KIND, _BESIDE, _WITHIN, _PLACE, _STREAM = 128, 64, 66, 68, 76, 116, 2


@dataclass(frozen=True, slots=True)
class Stream:
    """Where in a container the pieces of a stream begin, which are as long as each other."""

    fronts: Sequence[int]
    step: int

    def place(self, offset: int) -> int:
        """Where in the container a byte is."""
        number, rest = divmod(offset, self.step)
        return self.fronts[number] + rest

    def of(self, data: bytes) -> bytes:
        """The bytes of it in a container, with what is after its end in its last piece."""
        return b"".join(data[front : front + self.step] for front in self.fronts)


def streams_of(data: bytes, names: Collection[str]) -> dict[str, Stream]:
    """Those streams of a container that have some names; raises what `DAMAGED` has.

    Those of documents that stand in it, as in a folder, are none of them.
    """
    reader = _Reader(data)
    directory = reader.stream(reader.first_of_directory).of(data)
    wanted = {f"{name}\0".encode("utf-16-le"): name for name in names}
    found: dict[str, tuple[int, int]] = {}
    for front in _outermost(directory):
        (length,) = struct.unpack_from("<H", directory, front + _NAME)
        name = wanted.get(directory[front : front + min(length, _NAME)])
        if name is not None and directory[front + _KIND] == _STREAM:
            first, size = struct.unpack_from("<II", directory, front + _PLACE)
            found[name] = first, size
    (inner,) = struct.unpack_from("<I", directory, _PLACE)
    return {
        name: reader.small_stream(first, reader.stream(inner))
        if size < _LEAST
        else reader.stream(first)
        for name, (first, size) in found.items()
    }


def _outermost(directory: bytes) -> Iterator[int]:
    """Where in a directory the entries are that stand in no other but the first one."""
    numbers: list[int] = [*struct.unpack_from("<I", directory, _WITHIN)]
    seen: set[int] = set()
    while numbers:
        number = numbers.pop()
        if number < _NONE and number not in seen:
            seen.add(number)
            yield number * _ENTRY
            numbers += struct.unpack_from("<II", directory, number * _ENTRY + _BESIDE)


class _Reader:
    """What follows the sectors of a container."""

    def __init__(self, data: bytes) -> None:
        self._data = data
        shift, small_shift = struct.unpack_from("<HH", data, _SECTORS)
        if shift not in (9, 12) or small_shift != 6:
            raise ValueError(shift, small_shift)
        self.step = 1 << shift
        (self.first_of_directory,) = struct.unpack_from("<I", data, 48)
        (first_of_small,) = struct.unpack_from("<I", data, 60)
        # a table may name one sector many times: no more of it is read than there are sectors
        numbers = islice(self._numbers(), -(-len(data) // (self.step * self.step // 4)))
        self._table = [each for number in numbers for each in self._sector(number)]
        self._small_table = self.stream(first_of_small).of(data)

    def stream(self, first: int) -> Stream:
        """A stream of sectors, from the first one on."""
        fronts: list[int] = []
        while first < _NONE and len(fronts) < len(self._table):
            fronts.append((first + 1) * self.step)
            first = self._table[first]
        return Stream(fronts, self.step)

    def small_stream(self, first: int, inner: Stream) -> Stream:
        """A stream of smaller sectors, which stand in another stream."""
        fronts: list[int] = []
        while first < _NONE and len(fronts) < _LEAST // _SMALL_STEP:
            fronts.append(inner.place(first * _SMALL_STEP))
            (first,) = struct.unpack_from("<I", self._small_table, 4 * first)
        return Stream(fronts, _SMALL_STEP)

    def _numbers(self) -> Iterator[int]:
        """The sectors in which it stands which sector follows each."""
        (following,) = struct.unpack_from("<I", self._data, 68)
        numbers: Sequence[int] = struct.unpack_from(
            f"<{_FIRST_SECTORS}I", self._data, 76
        )
        # what names them may go round
        for _ in range(len(self._data) // self.step + 1):
            yield from (each for each in numbers if each < _NONE)
            if following >= _NONE:
                return
            *numbers, following = self._sector(following)

    def _sector(self, number: int) -> tuple[int, ...]:
        count, front = self.step // 4, (number + 1) * self.step
        return struct.unpack_from(f"<{count}I", self._data, front)
