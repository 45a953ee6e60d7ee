"""The worked files and the refused rows of docs/FORMATS.md."""
import re

from common import content


class Worked:
    """A worked file: its bytes, and its report or the line that refuses it."""

    def __init__(self, name, data, report=None, refusal=None):
        self.name, self.data, self.report, self.refusal = name, data, report, refusal


def worked():
    """The worked files and the refused rows."""
    text = content("docs", "FORMATS.md").decode()
    for number, item in enumerate(re.split(r"(?m)^\d+\. ", text.split("\n## Worked files\n")[1])[1:], 1):
        yield worked_file(str(number), item)
    refusals = text.split("\n### Refusals\n")[1].split("\n## ")[0]
    for row, refusal in re.findall(r"(?m)^\| `([^`]+)` \| `(hm: text 1 1 [a-z]+)` \|", refusals):
        yield Worked(row, row.encode() + b"\n", refusal=refusal)


def worked_file(name, item):
    """The file of an item of the list: its rows, an empty line, and its report, or the refusal in its sentences."""
    rows, report = [], []
    for line in item.split("\n"):
        if line.startswith(" " * 7) or not line:
            (report if report or line.strip().startswith(("order ", "board ")) else rows).append(line.strip())
    data = "\n".join(rows).strip("\n")
    data += "\n" if data and "has no line\n   feed" not in item else ""
    if report:
        return Worked(name, data.encode(), report="".join(line + "\n" for line in report if line).encode())
    return Worked(name, data.encode(), refusal=re.search(r"`(hm: [^`]+)`", item)[1])


def worked_limits():
    """The words, the rows and the report of the worked file with limits."""
    text = content("docs", "FORMATS.md").decode().split("## A worked file with limits\n")[1].split("\n## ")[0]
    words = re.search("`hm replay (--[^`]+) FILE`", text)[1].split()
    data, report = blocks_of(text)
    return words, data, report


def blocks_of(text):
    """The bytes of the indented blocks of a text."""
    return [re.sub("(?m)^    ", "", block).encode() for block in re.findall(r"(?m)(?:^    .+\n)+", text)]


def worked_pair():
    """The two worked files that are replayed together, and the two reports that this may print."""
    text = content("docs", "FORMATS.md").decode().split("## Two worked files together\n")[1].split("\n## ")[0]
    first, second, *reports = blocks_of(text)
    return (first, second), reports
