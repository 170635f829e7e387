"""Takes pages of Markdown and man pages apart: commands with their output, sentences, and headings."""
import re
from typing import List, Optional, Set, Tuple

Block = Tuple[str, Optional[str], bool]
"""A command, what it prints if the page says so, and whether it takes long."""


def blocks_of_page(text: str) -> List[Block]:
    """Returns the commands of a page of Markdown."""
    blocks: List[Block] = []
    for info, body in re.findall(r"^```([^\n]*)\n(.*?)^```$", text, re.M | re.S):
        if info in ("sh", "sh long"):
            blocks.append((body, None, info == "sh long"))
        elif info == "text" and blocks and blocks[-1][1] is None:
            blocks[-1] = blocks[-1][0], body, blocks[-1][2]
    return blocks


def blocks_of_manual(text: str) -> List[Block]:
    """Returns the commands of a man page: they follow a prompt, and their output is below."""
    blocks: List[List[str]] = []
    for body in re.findall(r"^\.EX\n(.*?)^\.EE$", text, re.M | re.S):
        going_on = False
        for line in body.replace("\\-", "-").replace("\\e", "\\").splitlines(keepends=True):
            if line.startswith("$ "):
                blocks.append([line[2:], ""])
            elif going_on:
                blocks[-1][0] += line
            else:
                blocks[-1][1] += line
                continue
            going_on = line.endswith("\\\n")
    return [(command, printed or None, False) for command, printed in blocks]


def prose_of(text: str) -> List[List[str]]:
    """Returns the sentences of a page, each as its words. It skips commands, tables, headings, pictures and quotes."""
    text = re.sub(r"^```.*?^```$", "", text, flags=re.M | re.S)
    text = re.sub(r"^(?:[>|#]|!\[).*$", "\n", text, flags=re.M)
    text = re.sub(r"\[([^\]]*)\]\([^)]*\)", r"\1", text)
    text = re.sub(r"^(?:- |\d+\. )", "\n", text, flags=re.M)
    return [part.split() for block in re.split(r"\n\s*\n", text)
            for part in re.split(r"(?<=[.!?])\s+(?=[A-Z`\[0-9])", block) if part.strip()]


def headings(path: str) -> Set[str]:
    """Returns the headings of a page, as links name them."""
    with open(path, encoding="utf-8") as file:
        lines = [line.lstrip("# ").strip().lower() for line in file if line.startswith("#")]
    return {re.sub(r"[^\w\- ]", "", line).replace(" ", "-") for line in lines}
