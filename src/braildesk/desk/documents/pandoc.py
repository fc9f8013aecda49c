"""Documents read by pandoc, and turned by LibreOffice into what pandoc reads without a loss.

Both are processes of their own with limits on time and memory. pandoc opens no other file
(``--sandbox``), and LibreOffice has a profile of its own, which is gone afterwards.
"""

import errno
import json
import os
import re
import resource
import shutil
import signal
import subprocess
import tempfile
import time
from collections.abc import Callable, Iterator, Sequence
from contextlib import contextmanager, suppress
from io import BytesIO
from pathlib import Path, PurePath
from typing import IO, Any
from xml.sax.saxutils import escape
from zipfile import ZipFile

from braildesk.confined import Limits, confined
from braildesk.desk.documents import doc_text, rtf_fields
from braildesk.desk.documents.kinds import (
    BrokenOff,
    ManuscriptKind,
    NoConverter,
    NoDocument,
    NotConverted,
    Spent,
    WhyNot,
    is_media,
    part_of,
    unpacked,
)
from braildesk.desk.documents.rtf_groups import (
    as_one_group,
    without_older,
    without_parting,
)
from braildesk.desk.manuscript import UnreadableText
from braildesk.protocol.sentences import ENDED_BY, of_failure

#: Raises what ends the reading of a document, and is called while a program reads it.
Check = Callable[[], None]
#: How many seconds go by between two calls of that.
_CHECK_SECONDS = 0.2
#: How many seconds a program is waited for that has less than a hundredth of them of a processor: it waits for
#: something that never comes, since one that works has more, even where two dozen others want it too.
_IDLE_SECONDS, _SHARE = 120.0, 100
#: How many seconds of a processor a document may take at most; and pandoc for a small one, and for how many
#: bytes one more: it takes hours for a few brackets that nothing closes.
_MOST_SECONDS, _LEAST_SECONDS, _BYTES_A_SECOND = 120, 20, 10_000
#: How much pandoc may answer; the tree of a book is some fifty times as long as its print.
_TREE_BYTES = 512 << 20
_MEMORY = 4 << 30
#: What pandoc calls a kind where it isn't the name of it alone: its own reading of notes drops numbers,
#: and elements that it doesn't know would be no more than their tags.
_FROM = {ManuscriptKind.EPUB: "epub-epub_html_exts-raw_html"}
#: A text in Markdown that begins otherwise says nothing about itself: what stands between lines of
#: hyphens further on is print, as what two speak between two scenes.
_FRONT = b"---"
_WITHOUT_FRONT = "markdown-yaml_metadata_block"
_OFFICE = ("soffice", "libreoffice")
#: What LibreOffice is told of itself: pictures to which a document links, in other files or on the network,
#: aren't fetched.
_NO_LINKS = """\
<?xml version="1.0" encoding="UTF-8"?>
<oor:items xmlns:oor="http://openoffice.org/2001/registry">
<item oor:path="/org.openoffice.Office.Common/Security/Scripting">
<prop oor:name="BlockUntrustedRefererLinks" oor:op="fuse"><value>true</value></prop>
</item>
</oor:items>
"""
#: What pandoc says of the key of a note that it leaves out, or of one that two notes have.
_LEFT_OUT = re.compile(
    r"(?:Note with key|Duplicate note reference) '(.+?)' (?:defined )?at "
)
#: Where the system says of a process of which session it is, and how long it and those that it waited for had a
#: processor.
_SESSION, _TIMES = 3, slice(11, 15)
#: The status by which programs made by GHC, as pandoc is, end where they get no more memory.
_NO_MEMORY = 251
#: The least share of a limit on time that the system reports to be spent by it: for the limit it counts by
#: ticks, each of which is wholly of the program that it finds, so that of two busy ones one may have more.
_LEAST_SHARE = 0.75
#: What LibreOffice says where it gets no more time of a processor: it ends otherwise than others by that.
_NO_TIME = b"Fatal exception: Signal %d" % signal.SIGXCPU
#: What they say where something is nested too deeply for them.
_STACK = b"stack overflow"
#: What is said where the limit on the size of files is lower than what they write, or that on processor time
#: than what they take.
_LIMITED, _TIME_LIMITED = (
    f"{ENDED_BY[each]} is too low. Set a higher one, and try again"
    for each in (signal.SIGXFSZ, signal.SIGXCPU)
)
#: What the system says where a disk has no room, or none for this user.
_FULL = (errno.ENOSPC, errno.EDQUOT)
#: What is said where one was killed, by whomever: a system that runs out of memory ends what takes most of it.
_KILLED = (
    "it was ended by signal 9, as by a system that has run out of memory. Close other programs, or take"
    " the document apart, and try again"
)
#: How much of what a program says beside its answer is read.
_SAID_BYTES = 1 << 20


@contextmanager
def _limit_named(name: str) -> Iterator[None]:
    """Where a file can't be written for a program, names the limit on the size of files, or the full disk."""
    try:
        yield
    except OSError as fault:
        if fault.errno == errno.EFBIG:
            raise NotConverted(name, _LIMITED) from fault
        if fault.errno not in _FULL:
            raise
        said = (
            f"its temporary files are in “{tempfile.gettempdir()}”, and {of_failure(fault)}. Let TMPDIR"
            " name a folder with room"
        )
        raise NotConverted(name, said) from fault


@_limit_named("pandoc")
def tree(
    data: bytes, kind: ManuscriptKind, check: Check = lambda: None
) -> tuple[dict[str, Any], frozenset[str]]:
    """The tree that pandoc makes of the bytes of a file, and the keys of notes that it may lack."""
    pandoc = shutil.which("pandoc")
    if pandoc is None:
        raise NoConverter(kind, "pandoc", "pandoc")
    words = [pandoc, "--sandbox", "--from", _form(data, kind), "--to", "json"]
    seconds = min(_LEAST_SECONDS + len(data) // _BYTES_A_SECOND, _MOST_SECONDS)
    with tempfile.TemporaryFile() as source:
        source.write(data)
        source.seek(0)
        answered, said = _run("pandoc", words, source, seconds, check)
    try:
        found = json.loads(answered)
    except RecursionError as fault:
        raise NoDocument(WhyNot.TOO_DEEP) from fault
    except ValueError as fault:
        raise NotConverted("pandoc", "") from fault
    if not isinstance(found, dict):
        raise NotConverted("pandoc", "")
    return found, frozenset(_LEFT_OUT.findall(said.decode(errors="replace")))


def _form(data: bytes, kind: ManuscriptKind) -> str:
    """What pandoc calls the form that a file has."""
    if kind is ManuscriptKind.MARKDOWN and not data.lstrip().startswith(_FRONT):
        return _WITHOUT_FRONT
    return _FROM.get(kind, kind.value)


def office() -> str | None:
    """The path of LibreOffice, if it is installed."""
    return next(filter(None, map(shutil.which, _OFFICE)), None)


@_limit_named("LibreOffice")
def as_docx(data: bytes, kind: ManuscriptKind, name: str, check: Check) -> bytes:
    """A document as LibreOffice writes it in DOCX, with its name where fields show that."""
    program = office()
    if program is None:
        raise NoConverter(kind, "LibreOffice", "libreoffice-writer-nogui")
    with tempfile.TemporaryDirectory() as folder:
        # no text has that name, nor the folder's
        source = Path(folder, f"{Path(folder).name}.{kind.value}")
        source.write_bytes(_as_shown(data, kind))
        profile = Path(folder, "profile")
        settings = profile / "user" / "registrymodifications.xcu"
        settings.parent.mkdir(parents=True)
        settings.write_text(_NO_LINKS, encoding="utf-8")
        words = [program, f"-env:UserInstallation={profile.as_uri()}", "--headless"]
        words += ["--convert-to", "docx", "--outdir", f"{folder}/made", str(source)]
        _run("LibreOffice", words, None, _MOST_SECONDS, check)
        made = next(Path(folder, "made").glob("*.docx"), None)
        if made is None:
            raise NotConverted("LibreOffice", "")
        return _named(made.read_bytes(), source, name)


def _as_shown(data: bytes, kind: ManuscriptKind) -> bytes:
    """A document all of which LibreOffice reads, with the results of its fields."""
    if kind is ManuscriptKind.RTF:
        its = without_parting(without_older(as_one_group(data)))
        return rtf_fields.as_shown(its)
    return doc_text.as_shown(data) if kind is ManuscriptKind.DOC else data


def _named(data: bytes, source: Path, name: str) -> bytes:
    """A document in DOCX that has the name of another file in place of that from which it was made."""
    shown = "".join(sign if sign.isprintable() else "\ufffd" for sign in name)
    names = {
        f"{source.parent.as_uri()}/": "",
        f"{source.parent}/": "",
        source.name: shown,
        source.stem: PurePath(shown).stem,
    }
    with unpacked(data) as container:
        parts = {
            each: b"" if is_media(each) else part_of(container, each)
            for each in container.namelist()
        }
    if not any(source.stem.encode() in part for part in parts.values()):
        return data
    made = BytesIO()
    with ZipFile(made, "w") as other:
        for key, part in parts.items():
            for found, own in names.items():
                part = part.replace(escape(found).encode(), escape(own).encode())
            other.writestr(key, part)
    return made.getvalue()


def _run(
    name: str,
    words: Sequence[str],
    source: IO[bytes] | None,
    seconds: int,
    check: Check,
) -> tuple[bytes, bytes]:
    """What a program answers, and says beside it, by so many seconds of a processor.

    ``UnreadableText`` if it fails, or is too slow or too large. What the check raises ends it.
    """
    limits = Limits(memory=_MEMORY, seconds=seconds, written=_TREE_BYTES)
    before = _spent_by_ended()
    try:
        with tempfile.TemporaryFile() as output, tempfile.TemporaryFile() as errors:
            with subprocess.Popen(
                confined(words, limits),
                stdin=subprocess.DEVNULL if source is None else source,
                stdout=output,
                stderr=errors,
                start_new_session=True,
            ) as process:
                _wait(name, process, check)
            output.seek(0)
            errors.seek(0)
            if process.returncode == -signal.SIGKILL:
                spent = _spent_by_ended() - before
                raise NotConverted(name, _TIME_LIMITED if _is_over(spent) else _KILLED)
            if process.returncode:
                said = errors.read(2000)
                if not said and not os.fstatvfs(errors.fileno()).f_bavail:
                    # not even that could be written
                    raise OSError(errno.ENOSPC, os.strerror(errno.ENOSPC))
                raise _failure(name, process.returncode, said)
            return output.read(), errors.read(_SAID_BYTES)
    except OSError as fault:
        if fault.errno in _FULL:
            raise
        raise NotConverted(name, fault.strerror or str(fault)) from fault


def _wait(name: str, process: subprocess.Popen[bytes], check: Check) -> None:
    """Waits for a program to end. If it does nothing any more, or this one is stopped, it is ended."""
    spent, until = 0.0, time.monotonic() + _IDLE_SECONDS
    try:
        while True:
            with suppress(subprocess.TimeoutExpired):
                process.wait(_CHECK_SECONDS)
                return
            check()
            if time.monotonic() < until:
                continue
            until += _IDLE_SECONDS
            before, spent = spent, _spent(process.pid)
            if spent - before < _IDLE_SECONDS / _SHARE:
                raise BrokenOff(name, Spent.TIME)
    finally:
        if process.poll() is None:
            os.killpg(process.pid, signal.SIGKILL)


def _spent(session: int) -> float:
    """How many seconds of a processor the programs of a session have had that are running."""
    ticks = 0
    for each in Path("/proc").glob("[0-9]*/stat"):
        with suppress(OSError):
            # the name of a program may have anything
            fields = each.read_text(errors="replace").rpartition(")")[2].split()
            if int(fields[_SESSION]) == session:
                ticks += sum(map(int, fields[_TIMES]))
    return ticks / os.sysconf("SC_CLK_TCK")


def _spent_by_ended() -> float:
    """How many seconds of a processor the programs have had that this process waited for."""
    found = resource.getrusage(resource.RUSAGE_CHILDREN)
    return found.ru_utime + found.ru_stime


def _is_over(spent: float) -> bool:
    """Whether so many seconds of a processor are all that the limit of this process gives to one."""
    _, most = resource.getrlimit(resource.RLIMIT_CPU)
    return most != resource.RLIM_INFINITY and spent > most * _LEAST_SHARE


def _failure(name: str, status: int, errors: bytes) -> UnreadableText:
    """Why a program failed: by a limit, or by what it said, in one line."""
    if status == -signal.SIGXCPU or _NO_TIME in errors:
        return BrokenOff(name, Spent.TIME)
    if status == _NO_MEMORY:
        return BrokenOff(name, Spent.MEMORY)
    if _STACK in errors:
        return NoDocument(WhyNot.TOO_DEEP)
    if status == -signal.SIGXFSZ:
        # without one of the process, it is that which is set for all
        _, most = resource.getrlimit(resource.RLIMIT_FSIZE)
        is_own = most == resource.RLIM_INFINITY or most >= _TREE_BYTES
        return NoDocument(WhyNot.TOO_LARGE) if is_own else NotConverted(name, _LIMITED)
    said = " ".join(errors.decode(errors="replace").split())
    if status < 0 and not said:
        said = f"it was ended by signal {-status}"
    return NotConverted(name, said)
