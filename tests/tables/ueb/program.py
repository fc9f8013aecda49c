"""The built program, asked for the braille of lines, and for a book."""

import dataclasses
import pathlib
import subprocess


class ProgramFailed(Exception):
    """The program ended with another status than 0."""


@dataclasses.dataclass(frozen=True)
class Program:
    """The program, and the table that it translates by."""

    path: pathlib.Path
    table: pathlib.Path

    def run(self, words: list[str], given: str = "") -> str:
        """What the program writes to standard output."""
        ran = subprocess.run(
            [str(self.path), *words], input=given.encode(), capture_output=True
        )
        if ran.returncode != 0:
            said = ran.stderr.decode().strip()
            raise ProgramFailed(f"{words} ended with status {ran.returncode}: {said}")
        return ran.stdout.decode()

    def translate(self, lines: list[str]) -> list[str]:
        """The answer to each line: its cells, or `no` and a code."""
        given = "".join(f"{line}\n" for line in lines)
        answers = self.run(["translate", str(self.table)], given).split("\n")[:-1]
        if len(answers) != len(lines):
            raise ProgramFailed(f"{len(lines)} lines have {len(answers)} answers")
        return answers
