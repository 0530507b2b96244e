"""docs/CLAIMS.md as tables: each row with the headings that it stands under, its columns' names and its cells."""
import collections
import functools
import re

Row = collections.namedtuple("Row", "part section head cells")


def rows(text):
    """The rows of all tables; a table's first row has the columns' names."""
    part = section = ""
    head = None
    for line in text.split("\n"):
        if line.startswith("## "):
            part, section = line[3:], ""
        elif line.startswith("### "):
            section = line[4:]
        if not line.startswith("|"):
            head = None
        elif head is None:
            head = cells(line)
        elif not line.startswith("|---"):
            yield Row(part, section, head, cells(line))


@functools.lru_cache(maxsize=None)
def cells(line):
    """A row's cells: what stands between two bars, of which none in backquotes counts."""
    found = [""]
    for piece in re.findall(r"`[^`]*`|\||[^`|]+|`", line.strip().strip("|")):
        if piece == "|":
            found.append("")
        else:
            found[-1] += piece
    return tuple(cell.strip() for cell in found)


def codes(text):
    """What stands in backquotes."""
    return re.findall(r"`([^`]+)`", text)


def called(row):
    """A row's name in a message: its first two cells, or their beginnings."""
    return "'" + " | ".join(cell if len(cell) <= 60 else cell[:60] + ".." for cell in row.cells[:2]) + "'"
