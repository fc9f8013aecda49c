"""By what a file is known again where it was moved to, and a later one isn't taken for it."""

import fcntl
import os
import struct
import sys
from dataclasses import dataclass
from pathlib import Path
from stat import S_ISREG

from braildesk.desk.record import Record

_READ = os.O_RDONLY | os.O_NOFOLLOW | os.O_NONBLOCK | os.O_NOCTTY | os.O_CLOEXEC
#: The request `FS_IOC_GETVERSION` of Linux, by the size of what it was meant to give.
_GET_GENERATION = 2 << 30 | struct.calcsize("l") << 16 | ord("v") << 8 | 1


@dataclass(frozen=True)
class Identity:
    """The device and the inode of a file, and which of the files it is that had this inode."""

    device: int
    inode: int
    #: None if the file system doesn't say it.
    generation: int | None

    def values(self) -> dict[str, object]:
        """What is kept of it as JSON."""
        return {"file": [self.device, self.inode], "generation": self.generation}

    def is_in(self, kept: Record) -> bool:
        """Whether something was kept for this file, as far as that is known."""
        is_known = self.generation is not None and kept.has("generation")
        is_same = not is_known or kept.is_equal("generation", self.generation)
        return is_same and kept.is_equal("file", [self.device, self.inode])


def identity_of(path: Path) -> Identity | None:
    """The identity of a file, none if it isn't there."""
    try:
        found = os.stat(path)
    except OSError:
        return None
    is_file = S_ISREG(found.st_mode)
    return Identity(
        found.st_dev, found.st_ino, generation_of(path) if is_file else None
    )


def generation_of(path: Path) -> int | None:
    """The number by which files differ that have an inode one after the other, if there is one."""
    try:
        file = os.open(path, _READ)
        try:
            found: bytes = fcntl.ioctl(file, _GET_GENERATION, bytes(8))
        finally:
            os.close(file)
    except OSError:
        return None
    return int.from_bytes(found[:4], sys.byteorder)
