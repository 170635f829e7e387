"""Reads the transcripts of tests/worked and the help texts of tests/help.

A transcript shows a command at work. A case is a command after `$ `, with `> ` before its further lines. Below it is
what it prints, what it reports, each line after `! `, and the status in brackets if it is not 0. An empty line ends the
case. A line after `# ` is a comment.

man/make writes the help texts, and tests/run compares them with the program's. A report of clap repeats parts of them.
A transcript has a name for each of these parts: `{usage of NAME}` is the usage in tests/help/NAME.txt, and `{commands}`
are the names of all commands. So a new command, format or option changes no transcript but those that try it."""
import os
import re
from typing import Iterator, List, NamedTuple

HERE = os.path.dirname(os.path.abspath(__file__))


class Case(NamedTuple):
    """What the shell runs, what it prints and reports, and its status."""

    script: str
    printed: str
    reported: str
    status: int


def read_text(path: str) -> str:
    """Returns the text of a file below tests/."""
    with open(f"{HERE}/{path}", encoding="utf-8") as file:
        return file.read()


def commands() -> List[str]:
    """Returns the names of the commands, in the order of the program's help."""
    return re.findall(r"^  (?!help )([a-z]+) +[A-Z]", read_text("help/squitter.txt").partition("\nOptions:")[0], re.M)


def usage(command: str) -> str:
    """Returns the usage of a command, or of `squitter`: the lines from `Usage:` to the next empty line."""
    text = read_text(f"help/{command}.txt")
    return text[text.index("Usage: "):].partition("\n\n")[0]


def choices(command: str, option: str) -> List[str]:
    """Returns the words that an option of a command takes, as its usage lists them."""
    return re.findall(rf"--{option}=<([^>]*)>", usage(command))[0].split("|")


def filled(text: str) -> str:
    """Returns a text with the named parts of the help texts."""
    text = re.sub(r"\{usage of (\w+)\}", lambda found: usage(found[1]), text)
    return text.replace("{commands}", ", ".join(commands()))


def cases_of(transcript: str) -> Iterator[Case]:
    """Yields the cases of a transcript. Raises ValueError for an output without a command."""
    for case in re.split(r"\n\n+", transcript):
        script = printed = reported = ""
        status = 0
        for line in case.splitlines():
            mark, _, rest = line.partition(" ")
            if mark in ("$", ">"):
                script += f"{rest}\n"
            elif mark == "!":
                reported += f"{rest}\n"
            elif re.fullmatch(r"\[\d+\]", line):
                status = int(line[1:-1])
            elif mark != "#":
                printed += f"{line}\n"
        if script:
            yield Case(script, printed, filled(reported), status)
        elif printed or reported:
            raise ValueError(f"an output without a command: {case}")


def cases(command: str) -> List[Case]:
    """Returns the cases of the transcript of a command, or of `squitter`."""
    return list(cases_of(read_text(f"worked/{command}.txt")))


def columns(command: str) -> List[str]:
    """Returns the columns of a command's rows: the header in its first worked case of CSV."""
    script = f"squitter {command} --format=csv"
    printed = next(case.printed for case in cases(command) if case.script.startswith(script))
    return printed.partition("\n")[0].split(",")
