"""What bash completes of the words of scribe and of braildesk."""

import argparse
import re
import subprocess

import braildesk
import pytest

from braildesk.protocol.requests import BY_NAME, fields_of
from scribe.cli import make_parser
from scribe.cli.commands import COMMANDS
from tool import ROOT

PARSER, NAMES = make_parser(), list(COMMANDS)


def completed(*words: str) -> list[str]:
    """What bash offers for the last of these words."""
    script = (
        f"source '{ROOT}/completions/{words[0]}.bash'; COMP_WORDS=(\"$@\");"
        f' COMP_CWORD=$(($# - 1)); _{words[0]}; printf "%s\\n" "${{COMPREPLY[@]}}"'
    )
    done = subprocess.run(
        ["bash", "-c", script, "bash", *words], capture_output=True, check=True
    )
    assert not done.stderr
    return done.stdout.decode().split()


def options(name: str) -> set[str]:
    """The long options that a command takes."""
    (commands,) = (
        action
        for action in PARSER._actions
        if isinstance(action, argparse._SubParsersAction)
    )
    parser = commands.choices[name]
    return {word for action in parser._actions for word in action.option_strings} - {
        "-h"
    }


def test_each_command_is_offered() -> None:
    assert completed("scribe", "") == [*NAMES, "--help", "--version"]


@pytest.mark.parametrize("name", NAMES)
def test_each_option_of_a_command_is_offered(name: str) -> None:
    assert set(completed("scribe", name, "book", "--")) == options(name)


@pytest.mark.parametrize("name", [name for name in NAMES if name in BY_NAME])
def test_each_word_of_the_second_field_of_a_request_is_offered(name: str) -> None:
    second = list(fields_of(BY_NAME[name]).values())[1:2]
    words = [word for field in second for word in field.words]
    assert completed("scribe", name, "book", "2", "") == words


def test_words_are_offered_by_what_was_typed() -> None:
    assert completed("scribe", "re") == ["resolve", "restore", "retable"]
    assert completed("scribe", "volume", "book", "2", "of") == ["off"]
    assert completed("scribe", "move", "book", "2", "f") == ["front"]


def test_files_are_left_to_bash() -> None:
    assert completed("scribe", "show", "") == []


def program_help(*words: str) -> str:
    """The help of the program."""
    done = subprocess.run(
        [braildesk.find(), *words, "--help"], capture_output=True, check=True
    )
    return done.stdout.decode()


def test_each_command_of_the_program_is_offered() -> None:
    _, _, listed = program_help().partition("Commands:\n")
    names = re.findall(r"^  ([a-z]+) ", listed.partition("\n\n")[0], re.MULTILINE)
    assert len(names) == 5
    assert set(completed("braildesk", "")) == {*names, "--help"}


@pytest.mark.parametrize("name", ["new", "session", "export", "translate", "check"])
def test_each_option_of_a_command_of_the_program_is_offered(name: str) -> None:
    long_options = re.findall(r"^ +(?:-[a-z], +)?(--[a-z]+)", program_help(name), re.M)
    assert set(completed("braildesk", name, "--")) == set(long_options)


def test_the_supplied_table_is_offered() -> None:
    assert completed("braildesk", "translate", "@") == ["@en"]
