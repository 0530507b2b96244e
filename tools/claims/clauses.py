"""Holds what stands behind the index to the crates: each name in backquotes is declared where its row says.

Where that is: the file that stands next behind the name, as `name` of crate/specs/File; else the one before it, as crate/proofs/File: `name`; both within a
piece of the cell, which a semicolon ends. A piece without a file means any of the crates that the row names, by a file or as `crate::function`. A function's
name is one of src/ of these crates. What has a blank in it is a term: each of its words stands in one of these crates."""
import functools
import glob
import os
import re

from .page import called, codes

FILE = re.compile(r"(?<![\w/])(?:crates/)?([a-z0-9_]+)/(specs|proofs|src)(?:/(\w+))?(?:\.antt|\.rt)?(?![\w/])")
TOKEN = re.compile(r"`[^`]+`|;|" + FILE.pattern)
GROUP = re.compile(r"((?:`[^`]+`(?:, and | and |, )?)+) of (" + FILE.pattern + ")")
FUNCTION = re.compile(r"(?:([a-z0-9_]+)::)?(\w+)(?:\(([^)]*)\))?")
WORD = re.compile(r"[^\W\d][\w·-]*")
DECLARED = {
    "specs": re.compile(r"^ *(?:(?:abbrev|unfoldable|pub|record|data) )*([^\s:(]+)(?: [^=\n]*)? :", re.M),
    "src": re.compile(r"\b(?:fn|struct|enum|const) (\w+)|^ +pub (\w+):", re.M),
}
DECLARED["proofs"] = DECLARED["specs"]
COLUMNS = ("definition", "function: contract", "laws", "proof", "where")


class Crates:
    """The names that each file of a crate declares, and the words of the whole crate, comments aside."""

    def __init__(self, root):
        self.declared, self.words = {}, {}
        for path in (path for kind in DECLARED for path in glob.glob(os.path.join(root, f"crates/*/{kind}/**/*.*t"), recursive=True)):
            _, crate, kind, *rest = os.path.relpath(path, root).split(os.sep)
            with open(path, encoding="utf-8") as file:
                self._read(crate, kind, rest[0], file.read())

    def _read(self, crate, kind, name, text):
        """A file is crate/kind/File; the proof of a function, the files of proofs/function/, is crate/proofs/function. All of src/ is one."""
        code = "\n".join(line for line in text.split("\n") if not line.lstrip().startswith(("--", "//")))
        names = self.declared.setdefault((crate, kind, "" if kind == "src" else name.removesuffix(".antt")), set())
        for match in DECLARED[kind].finditer(code):
            names.update(set(match.groups()) - {None})
        self.words.setdefault(crate, set()).update(WORD.findall(code))

    def stands(self, name, *places):
        """Whether a name is declared at one of these places: (crate, kind, file), or less of it."""
        return any(name in names for file, names in self.declared.items() for place in places if file[:len(place)] == place)


def place(path):
    crate, kind, name = FILE.fullmatch(path).groups()
    return crate, kind, "" if kind == "src" else name


def pieces(cell):
    """A cell's names and files, in pieces that semicolons end."""
    found = [[]]
    for match in TOKEN.finditer(cell):
        if match[0] == ";":
            found.append([])
        else:
            found[-1].append(match[0])
    return found


def beside(piece, at):
    """The file that the name at a place of a piece goes with: the next behind it, else the one before it."""
    files = [token for token in piece[at + 1:] + piece[:at][::-1] if not token.startswith("`")]
    return files[0] if files else None


class Clauses:
    def __init__(self, root):
        self.crates = Crates(root)

    def wrong(self, rows):
        """What is wrong with the rows of the tables, a line each."""
        return [f"{called(row)}: {what}" for row in rows for what in self._wrong_row(row)]

    def wrong_text(self, text):
        """What is wrong outside the tables: files that are not there, and `name` of crate/specs/File that does not stand there."""
        return [what for line in text.split("\n") if not line.startswith("|") for what in self._wrong_line(line)]

    @functools.lru_cache(maxsize=None)
    def _wrong_line(self, line):
        found = [f"there is no {match[0]}" for match in FILE.finditer(line) if not self._is_file(match[0])]
        for group in GROUP.finditer(line):
            found += [f"{name} is not declared in {group[2]}" for name in codes(group[1]) if self._is_absent(name, group[2])]
        return found

    @functools.lru_cache(maxsize=None)
    def _wrong_row(self, row):
        cells = [(column, cell) for column, cell in zip(row.head, row.cells) if column in COLUMNS]
        crates = self._crates_of(" ".join(cell for _, cell in cells))
        return [what for column, cell in cells for what in self._wrong_cell(column, cell, crates)]

    def _crates_of(self, text):
        """The crates that a row names, by a file or by a function."""
        found = {match[1] for match in FILE.finditer(text)}
        for code in codes(text):
            function = FUNCTION.fullmatch(code)
            if function and function[1]:
                found.add(function[1])
            if code.startswith("worgesli_"):
                found.add("worgesli")
        return sorted(found & set(self.crates.words))

    def _wrong_cell(self, column, cell, crates):
        for piece in pieces(cell):
            for at, token in enumerate(piece):
                code = token.strip("`")
                if code == token:
                    if not self._is_file(token):
                        yield f"there is no {token}"
                elif FUNCTION.fullmatch(code) and column == "function: contract":
                    yield from self._wrong_function(code, beside(piece, at), crates)
                elif " " in code:
                    yield from self._wrong_term(code, crates)
                else:
                    yield from self._wrong_name(code, beside(piece, at), crates)

    def _wrong_function(self, code, path, crates):
        crate, name, arguments = FUNCTION.fullmatch(code).groups()
        yield from self._wrong_term(arguments or "", crates)
        if crate:
            if not self.crates.stands(name, (crate, "src")):
                yield f"{crate} has no function {name}"
        elif not self.crates.stands(name, *[(crate, "src") for crate in crates]):
            yield from self._wrong_name(code, path, crates)

    def _wrong_term(self, code, crates):
        known = set().union(*(self.crates.words[crate] for crate in crates))
        for word in WORD.findall(code):
            if word not in known and len(word) > 1:
                yield f"`{code}`: {word} is no word of {', '.join(crates) or 'any crate, since the row names none'}"

    def _wrong_name(self, name, path, crates):
        if path:
            if self._is_absent(name, path):
                yield f"{name} is not declared in {path}"
        elif name not in self.crates.words and not self.crates.stands(name, *[(crate,) for crate in crates]):
            yield f"{name} is declared in none of the row's crates ({', '.join(crates) or 'it names none'})"

    def _is_file(self, path):
        return place(path) in self.crates.declared

    def _is_absent(self, name, path):
        """Of `name : type` the name is meant."""
        name = name.split(" : ")[0]
        return self._is_file(path) and not self.crates.stands(name, place(path))
