"""The definitions of crates/NAME/specs/FILE.antt: where each stands, what it says, and which others it uses, by its file's own `use` lines."""
import collections
import functools
import glob
import os
import re

# a definition's file, as crates/NAME/specs/FILE.antt, and its name
Definition = collections.namedtuple("Definition", "path name")
# a case of an enum of src/: the enum's name, the case's, and the number that it is given where that is written there, or a case that has one
Case = collections.namedtuple("Case", "enum name number")
# an equation of a definition: both sides as nested lists of words, a list for each parenthesis
Equation = collections.namedtuple("Equation", "left right")

BEGINS = re.compile(r"^ *(?:(?:abbrev|unfoldable) pub (\S+) :|pub (record|data) ([^\s:]+))")
USES = re.compile(r"^(?:pub )?use Rattle\.(\w+)\.specs\.(declared\.)?(\w+)(\.TheVariants)?(?:\.\{([^}]*)\}| as (\w+))", re.M)
WORDS = re.compile(r"[()]|[^\s(){};,]+")
# the enums whose cases have numbers, each with the definition that gives them
NUMBERED = {"Refusal": "refusal_number", "Finish": "finish_number"}


class Specs:
    def __init__(self, root):
        self.text = {}  # of each definition its lines, without comments
        self.files = {}  # of each file its names; a constructor's is its data type's
        self.imported = {}  # of each file what its `use` lines name
        for path in sorted(glob.glob(os.path.join(root, "crates/*/specs/*.antt"))):
            with open(path, encoding="utf-8") as file:
                self._read(os.path.relpath(path, root), file.read())
        self.uses = {d: {self.stands(d.path, word) for word in WORDS.findall(text)} - {d, None} for d, text in self.text.items()}
        self.users = collections.defaultdict(set)
        for d, used in self.uses.items():
            for other in used:
                self.users[other].add(d)

    def _read(self, path, text):
        here = self.files[path] = {}
        self.imported[path] = imported(text)
        now, is_data = None, False
        for line in text.split("\n"):
            begins = BEGINS.match(line)
            constructor = re.match(r" +([^\s:]+) :", line)
            if begins:
                now, is_data = Definition(path, begins[1] or begins[3]), begins[2] == "data"
                here[now.name] = now
                self.text[now] = ""
            elif line.startswith(("use ", "pub use ", "module ", "pub mod ")):
                now = None
            elif now and is_data and constructor:
                here.setdefault(constructor[1], now)
            if now and not line.lstrip().startswith("--"):
                self.text[now] += line + "\n"

    def stands(self, path, word):
        """The definition that a word of a file stands for, if it is one; of `name.field`, with nothing between, that of the name."""
        head = word.split(".")[0]
        if head in self.files[path]:
            return self.files[path][head]
        kind, place, name = self.imported[path].get(head, ("", "", ""))
        if kind == "definition":
            return self.files.get(place, {}).get(name)
        return self.files.get(place, {}).get(word.partition(".")[2]) if kind == "file" else None

    def case(self, path, word, behind=None):
        """The case of an enum that a word of a file stands for, if it is one, with the number behind it."""
        kind, enum, name = self.imported[path].get(word.split(".")[0], ("", "", ""))
        if kind not in ("case", "enum") or kind == "enum" and "." not in word:
            return None
        number = None
        if isinstance(behind, str):
            number = int(behind) if behind.isdigit() else self.number(self.case(path, behind))
        return Case(enum, name or word.partition(".")[2], number)

    def number(self, case):
        """The number of a case, where its enum has numbers."""
        return self._numbers(NUMBERED[case.enum]).get(case.name) if case and case.enum in NUMBERED else None

    @functools.lru_cache(maxsize=None)
    def _numbers(self, name):
        d = self.only(name)
        return {self.case(d.path, equation.left[1]).name: int(equation.right[0]) for equation in self.equations(d)}

    @functools.lru_cache(maxsize=None)
    def reach(self, *roots):
        """The definitions that these rest on, themselves among them."""
        found, todo = set(), list(roots)
        while todo:
            d = todo.pop()
            if d not in found:
                found.add(d)
                todo += self.uses[d]
        return found

    def only(self, name):
        """The one definition of this name."""
        found = [d for d in self.text if d.name == name]
        if len(found) != 1:
            raise SystemExit(f"test-claims: {len(found)} definitions of specs/ are named {name}, not one")
        return found[0]

    @functools.lru_cache(maxsize=None)
    def type_of(self, d):
        """A definition's type, its arguments' and its result's, each as nested words."""
        parts = [[]]
        for word in nested(re.split(rf"\n *{re.escape(d.name)}(?= |$)", self.text[d], maxsplit=1)[0].partition(" : ")[2]):
            if word == "→":
                parts.append([])
            else:
                parts[-1].append(word)
        return parts

    @functools.lru_cache(maxsize=None)
    def equations(self, d):
        """A definition's equations. What stands in a `where` is of the right side."""
        lines = self.text[d].split("\n")[1:]
        starts = [i for i, line in enumerate(lines) if re.match(rf" *{re.escape(d.name)}(?= |$)", line)]
        sides = [" ".join(" ".join(lines[start:end]).split()).partition(" = ") for start, end in zip(starts, starts[1:] + [len(lines)])]
        return [Equation(nested(left), nested(right)) for left, equal, right in sides if equal]


def imported(text):
    """What a file's `use` lines name: ("definition", its file, its name), ("file", its path, ""), ("case", its enum, its name) or ("enum", its name, "")."""
    found = {}
    for crate, declared, file, cases, names, short in USES.findall(text):
        place = file if declared else f"crates/{crate}/specs/{file}.antt"
        if short:
            found[short] = ("enum" if declared else "file", place, "")
        for name in names.replace(",", " ").split():
            found[name] = ("case", place, name) if cases else ("enum", place, "") if declared else ("definition", place, name)
    return found


def nested(text):
    """A term's words, each parenthesis a list of its own."""
    stack = [[]]
    for word in WORDS.findall(text):
        if word == "(":
            stack.append([])
        elif word == ")":
            inner = stack.pop()
            stack[-1].append(inner)
        else:
            stack[-1].append(word)
    return stack[0]


def words(term):
    """All words of a nested term."""
    for part in term:
        if isinstance(part, list):
            yield from words(part)
        else:
            yield part
