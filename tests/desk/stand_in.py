#!/usr/bin/env -S python3 -IS
"""Stands in the place of the program, passes on what goes to it and back, and stops at a moment.

The environment says which program it is (`STAND_IN_FOR`) and when what is done (`STAND_IN_AT`): the
number of a command of the session, how far that has come, and a deed with its words. All else is
as the program does it.
"""

import os
import signal
import subprocess
import sys
from subprocess import PIPE
from typing import IO

#: How far a command has come when the deed is done: it was read here; half of its line was passed
#: on; its reply was read here; its reply was passed back.
READ, HALF, KEPT, ANSWERED = "read", "half", "kept", "answered"
#: The deeds: the program, scribe or both are killed; scribe gets a signal; all waits until a queue of
#: the file system was read and then written; the program isn't asked, and the words are the reply;
#: the words are a request that goes before.
KILL_PROGRAM, KILL_SCRIBE, KILL_BOTH = "kill-program", "kill-scribe", "kill-both"
SIGNAL = "signal"
WAIT, REPLY, SEND = "wait", "reply", "send"
_QUERIES = frozenset(b"print braille history marks where whence list version".split())


def stand_in(words: list[str], number: int, far: str, deed: list[str]) -> int:
    """Passes lines on until the end, and does the deed at its moment."""
    program = subprocess.Popen(words, bufsize=0, stdin=PIPE, stdout=PIPE)
    assert program.stdin is not None and program.stdout is not None
    commands = 0
    while line := _request(sys.stdin.buffer):
        is_command = _is_command(line)
        commands += is_command
        is_moment = is_command and commands == number
        passed = line
        if is_moment and far == HALF:
            program.stdin.write(line[: len(line) // 2])
            passed = line[len(line) // 2 :]
        if is_moment and far in (READ, HALF):
            reply = _do(program, deed)
            if reply is not None:
                _back(reply)
                continue
        program.stdin.write(passed)
        reply = _reply(program.stdout)
        if not reply:
            break
        if is_moment and far == KEPT:
            _do(program, deed)
        _back(reply)
        if is_moment and far == ANSWERED:
            _do(program, deed)
    program.stdin.close()
    return program.wait()


def _do(program: subprocess.Popen[bytes], deed: list[str]) -> bytes | None:
    """Does the deed; the reply, where there is one in place of the program's."""
    match deed:
        case ["kill-program"]:
            program.kill()
            program.wait()
            os.kill(os.getpid(), signal.SIGKILL)
        case ["kill-scribe"]:
            os.kill(os.getppid(), signal.SIGKILL)
        case ["kill-both"]:
            program.kill()
            program.wait()
            os.kill(os.getppid(), signal.SIGKILL)
            os.kill(os.getpid(), signal.SIGKILL)
        case ["signal", name]:
            os.kill(os.getppid(), signal.Signals[name])
        case ["wait", path]:
            # each end waits for the other
            with open(path, "wb"):
                pass
            with open(path, "rb") as queue:
                queue.read()
        case ["reply", *words]:
            return (" ".join(words) + "\n").encode()
        case ["send", *words]:
            assert program.stdin is not None and program.stdout is not None
            program.stdin.write((" ".join(words) + "\n").encode())
            _reply(program.stdout)
    return None


def _is_command(line: bytes) -> bool:
    """Whether a request may make a version of the book."""
    words = line.split(b" ")
    return words[0].startswith(b"@") or words[0].strip() not in _QUERIES


def _request(source: IO[bytes]) -> bytes:
    """The line of a request, with those of its block; nothing at the end."""
    line = source.readline()
    words = line.split(b" ")
    head = words[1:] if words[0].startswith(b"@") else words
    count = int(head[2]) if head[0] == b"table" else 0
    return line + b"".join(source.readline() for _ in range(count))


def _reply(source: IO[bytes]) -> bytes:
    """The lines of a reply, up to the one that doesn't begin with a bar."""
    lines = [source.readline()]
    while lines[-1].startswith(b"|"):
        lines.append(source.readline())
    return b"".join(lines)


def _back(reply: bytes) -> None:
    try:
        os.write(1, reply)
    except BrokenPipeError:
        pass


def main() -> int:
    """Stands in for a session, and is the program itself for all else."""
    words = [os.environ["STAND_IN_FOR"], *sys.argv[1:]]
    moment = os.environ.get("STAND_IN_AT", "").split()
    if sys.argv[1] != "session" or not moment:
        os.execv(words[0], words)
    number, far, *deed = moment
    return stand_in(words, int(number), far, deed)


if __name__ == "__main__":
    sys.exit(main())
