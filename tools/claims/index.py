"""Holds the index of docs/CLAIMS.md to specs/: what each row names is defined in the file that it names, and decides what the row says.

Refusals: the numbers and words are those of include/worgesli.h; a definition gives the refusal, asks for it, or is what its test rests on.
Answers: of each answer the rows name the definitions that give it, all of them and no other.
The tables behind them: a definition is one that the row's phase rests on; and each public definition of the files named there stands in just one row."""
import re

from .decided import Answers, Refusals
from .page import called, codes

# what each phase, and what else stands in a table's first column, is decided by
ROOTS = {
    "the step": ("step_of",),
    "opening": ("opened_with", "opened_raw"),
    "packet": ("packet_of",),
    "response": ("response_of", "switched_of"),
    "table": ("table_of",),
    "between": ("between_of",),
    "region": ("region_of",),
    "ended": ("is_ended", "ended"),
    "all": ("answer_told", "limit_of", "needs_bytes", "wanted_raw", "waits_at", "raw_of", "Within"),
    "the channel's end": ("closed_of", "closed_raw"),
    "plain host": ("plain",),
    "device": ("next", "Fair"),
    "demand 3": ("Demand",),
    "the sheet": ("sheet_of",),
    "a line": ("line_of",),
    "the page": ("sheet_of", "sheet_raw"),
    "the forecast": ("forecast_of", "forecast_raw"),
    "a session": ("Foretells", "Decodes"),
    "a slot": ("content_of",),
    "a bundle that is written": ("bundle_bytes",),
    "the tidy form": ("tidy_of",),
    "the buffer": ("tidy_of",),
    "two sets": ("EqualExactly", "SameImages", "TwiceIsOnce"),
    "two runs": ("ServesAlike",),
}
# the last of these tables, of definitions that no row of the others names
REST = "Below these"
# the one row of the answers that names no definition
ABOVE = ("8", "refused", "", "the table above")


class Index:
    def __init__(self, specs, header):
        """Header: the words of each refusal's number."""
        self.specs = specs
        self.header = header
        self.refusals = Refusals(specs)
        self.answers = Answers(specs, specs.only("step_of"))
        self.roots = {of: specs.reach(*[specs.only(name) for name in names]) for of, names in ROOTS.items()}

    def wrong(self, rows):
        """What is wrong with the rows of the index, a line each."""
        found, tables = [], {"Refusals": [], "Answers": [], REST: [], "": []}
        for row in rows:
            names, wrong = ([], []) if row.cells == ABOVE else self._named(row)
            found += wrong
            tables[row.section if row.section in tables else ""].append((row, names))
        found += self._wrong_refusals(tables["Refusals"]) + self._wrong_answers(tables["Answers"])
        found += self._wrong_roots([pair for table in tables.values() for pair in table])
        return found + self._wrong_phases(tables[""]) + self._wrong_files(tables[""] + tables[REST])

    def _named(self, row):
        """The definitions that a row names, in its last cell but one; each stands in one of the files of its last cell, and each file has one of them."""
        names, wrong = [], []
        paths = row.cells[-1].split(", ")
        for name in codes(row.cells[-2]):
            there = [d for path in paths for d in self.specs.files.get(path, {}).values() if d == (path, name)][:1]
            names += there
            if not there:
                wrong.append(f"{called(row)}: {name} is not defined in {row.cells[-1]}")
        for path in paths:
            if path not in self.specs.files:
                wrong.append(f"{called(row)} names no file of specs/: '{path}'")
            elif path not in [d.path for d in names]:
                wrong.append(f"{called(row)} names no definition of {path}")
        return names, wrong

    def _wrong_refusals(self, pairs):
        found, here = [], {}
        for row, names in pairs:
            number = row.cells[0]
            if number in here:
                found.append(f"refusal {number} has two rows")
            here[number] = row.cells[1]
            decide = self.refusals.decide(int(number)) if number.isdigit() else set()
            found += [f"refusal {number} is not decided by {d.name}" for d in names if d not in decide]
        for number in sorted(set(here) | set(self.header)):
            if here.get(number) != self.header.get(number):
                found.append(f"refusal {number}: '{here.get(number)}' here, '{self.header.get(number)}' in the header")
        return found

    def _wrong_answers(self, pairs):
        """The rows of an answer, those of `finished` by its number, together name just the definitions that give it."""
        found, here = [], {}
        numbers = self.answers.numbers
        for row, names in pairs:
            answer = next((a for a in numbers if row.cells[0] == str(numbers[a]) and row.cells[1].startswith(spoken(a))), None)
            how = re.match(r"finished (\d+)", row.cells[1])
            here.setdefault((answer, int(how[1]) if how else None), set()).update(names)
            if answer is None:
                found.append(f"{called(row)}: this is not an answer with its number")
        if ("Refused", None) not in here:
            found.append(f"answer {numbers['Refused']}, refused, has no row")
        given = {key: names for key, names in self.answers.givers.items() if key[0] != "Refused"}
        for key in sorted(set(given) | {key for key in here if key[0] not in (None, "Refused")}, key=str):
            title = f"answer {numbers[key[0]]}, {spoken(key[0])}{'' if key[1] is None else f' {key[1]}'}"
            found += [f"{title}: no row names {d.name}, which gives it" for d in sorted(given.get(key, set()) - here.get(key, set()))]
            found += [f"{title}: {d.name} does not give it" for d in sorted(here.get(key, set()) - given.get(key, set()))]
        return found

    def _wrong_phases(self, pairs):
        """A row's definitions are among those that its phase, in its first cell, rests on; and each phase has a row."""
        found = []
        for row, names in pairs:
            of = row.cells[0]
            if of not in self.roots:
                found.append(f"{called(row)}: '{of}' is no phase, and nothing else that the index is of")
            found += [f"{called(row)}: {d.name} is not among what '{of}' rests on" for d in names if d not in self.roots.get(of, set())]
            found += self._wrong_numbers(row, set(names))
        here = {row.cells[0] for row, _ in pairs}
        return found + [f"'{of}' has no row" for of in self.roots if of not in here]

    def _wrong_roots(self, pairs):
        """What a phase is decided by stands in some row."""
        here = {d.name for _, names in pairs for d in names}
        return [f"{name}, which decides '{of}', stands in no row" for of, names in ROOTS.items() for name in names if name not in here]

    def _wrong_numbers(self, row, names):
        """A sentence that says "refused (n)", "finishes (n)" or "(18)" is of a definition that decides this refusal, or gives this end."""
        for how, number in re.findall(r"(refused |finishes |)\((\d+)\)", row.cells[1]):
            if how == "finishes " and not names & self.answers.givers.get(("Finished", int(number)), set()):
                yield f"{called(row)}: none of what it names finishes with {number}"
            if (how == "refused " or number == "18") and not names & self.refusals.decide(int(number)):
                yield f"{called(row)}: none of what it names decides refusal {number}"

    def _wrong_files(self, pairs):
        """Each public definition of a file that is named stands in one row."""
        found, here = [], {}
        for row, names in pairs:
            for d in names:
                if d in here:
                    found.append(f"{d.name} of {d.path} stands in two rows: {called(here[d])} and {called(row)}")
                here[d] = row
        for path in sorted({d.path for d in here}):
            left = set(self.specs.files[path].values()) - set(here)
            found += [f"{d.name} of {path} stands in no row behind the answers" for d in sorted(left)]
        return found


def spoken(answer):
    """EmptyRead is 'empty read'."""
    return re.sub(r"(?<!^)([A-Z])", r" \1", answer).lower()
