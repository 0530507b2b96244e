"""Holds the must-fail edits that docs/CLAIMS.md names to those that are there, and the mark ° to those that change a definition."""
import glob
import os
import re

NAMED = re.compile(r"\b([a-z_0-9]+): ((?:[a-z_0-9]+°?(?:, )?)+)")


class Edits:
    def __init__(self, root):
        """Each edit, crate/name, and whether it changes a file of specs/."""
        self.crates = os.listdir(os.path.join(root, "crates"))
        self.there = {}
        for path in glob.glob(os.path.join(root, "crates/*/must-fail/*.edit")):
            crate, _, name = os.path.relpath(path, os.path.join(root, "crates")).split(os.sep)
            with open(path, encoding="utf-8") as file:
                self.there[f"{crate}/{name.removesuffix('.edit')}"] = re.search(r"^file: specs/", file.read(), re.M) is not None

    def wrong(self, rows, text):
        """An edit is named as "crate: edit, edit°; crate: edit" in a row's last cell, or behind "Must-fail:" in the text."""
        named = {}
        for cell in [row.cells[-1] for row in rows] + re.findall(r"Must-fail: (.*)", text):
            for crate, edits in NAMED.findall(re.sub(r"\(.*?\)", "", cell)):
                named.update({f"{crate}/{edit.rstrip('°')}": edit.endswith("°") for edit in edits.rstrip(", ").split(", ") if crate in self.crates})
        found = [f"the edit {edit} is not named" for edit in sorted(set(self.there) - set(named))]
        found += [f"there is no edit {edit}" for edit in sorted(set(named) - set(self.there))]
        for edit in sorted(set(named) & set(self.there)):
            if named[edit] != self.there[edit]:
                found.append(f"{edit} changes a {'definition' if self.there[edit] else 'program'}")
        return found
