"""docs/CLAIMS.md held to the repository: the index (index.py), the clauses behind it (clauses.py), the must-fail edits (edits.py)."""
import os
import re
import subprocess

from .clauses import Clauses
from .edits import Edits
from .index import Index
from .page import called, rows
from .specs import Specs

ROOT = os.path.join(os.path.dirname(os.path.abspath(__file__)), "..", "..")


class Claims:
    """The repository; each text is held to it by itself."""

    def __init__(self):
        said = subprocess.run([os.path.join(ROOT, "tools/refusals")], capture_output=True, text=True, check=True).stdout
        self.index = Index(Specs(ROOT), dict(line.split("\t") for line in said.strip().split("\n")))
        self.clauses = Clauses(ROOT)
        self.edits = Edits(ROOT)

    def wrong(self, text):
        """What is wrong with a text, a line each."""
        table = list(rows(text))
        found = [f"{called(row)} has {len(row.cells)} cells, not {len(row.head)}" for row in table if len(row.cells) != len(row.head)]
        if found:
            return found
        index = [row for row in table if row.part == "Index"]
        behind = [row for row in table if row.part != "Index"]
        found = wrong_count(text, len(index), len(behind)) + self.index.wrong(index)
        return found + self.clauses.wrong(behind) + self.clauses.wrong_text(text) + self.edits.wrong(behind, text)


def wrong_count(text, index, behind):
    """The page says how many rows it has, so that none is lost unseen."""
    said = re.findall(r"has (\d+) rows, and (\d+) stand behind it", text)
    if said != [(str(index), str(behind))]:
        return [f"the index has {index} rows, and {behind} stand behind it: the page says {said}"]
    return []
