"""What the text of a definition decides: which refusals it gives and by which test, and which of a step's answers."""
import functools

from .specs import Case, words


def choices(term, test=None):
    """Each level of a nested term, with the innermost test of a `pick` on which it is given."""
    if "pick" in term:
        at = term.index("pick")
        yield from choices(term[:at], test)
        for part in term[at + 2:]:
            yield from choices(part if isinstance(part, list) else [part], term[at + 1])
    else:
        yield term, test
        for part in term:
            if isinstance(part, list):
                yield from choices(part, test)


class Refusals:
    """Which definitions give which refusal: those whose right side has its case of the enum `Refusal`, outside of a test. Not counted is the file that gives
    the cases their numbers."""

    def __init__(self, specs):
        self.specs = specs
        self.givers = {}
        numbers = specs.only("refusal_number").path
        for d in specs.text:
            for level, test in self._levels(d) if d.path != numbers else ():
                for case in [specs.case(d.path, word) for word in level if isinstance(word, str)]:
                    if case and case.enum == "Refusal":
                        self.givers.setdefault(specs.number(case), []).append((d, test))

    def _levels(self, d):
        return [found for equation in self.specs.equations(d) for found in choices(equation.right)]

    @functools.lru_cache(maxsize=None)
    def decide(self, number):
        """The definitions that decide a refusal: those that give it, those that use these directly, and what the test rests on. Where it is given by a case,
        without a test, what the arguments rest on decides which case it is."""
        found = set()
        for d, test in self.givers.get(number, []):
            found |= {d} | self.specs.users[d] | self._below(d, words(test or []))
            for user in self.specs.users[d] if test is None else ():
                found |= self._below(user, self._arguments(user, d))
        return found

    def _below(self, d, names):
        return self.specs.reach(*{self.specs.stands(d.path, name) for name in names} - {None})

    def _arguments(self, user, d):
        for level, _ in self._levels(user):
            for at, word in enumerate(level):
                if isinstance(word, str) and self.specs.stands(user.path, word) == d:
                    yield from words(level[at + 1:])


class Answers:
    """Which definitions give which answer of a step. A range becomes a verdict and a verdict an answer, each by a definition (`image_for`, `acted`) that goes by
    its cases; these give the answer too."""
    RANGE = ["Result", ["ℕ", "×", "ℕ"], "Refusal"]
    BETWEEN = ("Verdict", "a range")

    def __init__(self, specs, step):
        self.specs = specs
        self.becomes = {}
        sides = [(d, *self._cases_of(d, equation)) for d in specs.reach(step) for equation in specs.equations(d)]
        for d, left, right in sides:
            for case in left:
                if case.enum in self.BETWEEN:
                    self.becomes.setdefault(case[:2], []).extend((then, d) for then in right)
        givers = {}
        for d, _, right in sides:
            for case in right:
                for answer, through in self._answers(case):
                    givers.setdefault((answer.name, answer.number), set()).update({d} | through)
        numbered = {name for name, number in givers if number is not None}
        # of (answer, number), of an answer that is never given a number (answer, None)
        self.givers = {key: found for key, found in givers.items() if key[1] is not None or key[0] not in numbered}

    def _cases_of(self, d, equation):
        """The cases of enums that the two sides of an equation name, a range's `Ok` among them: what it is of, the definition's type says."""
        left, right = list(self._cases(d, equation.left)), list(self._cases(d, equation.right))
        *arguments, result = self.specs.type_of(d)
        a_range = Case("a range", "Ok", None)
        left += [a_range for of, term in zip(arguments, equation.left[1:]) if of == self.RANGE and term[0] == "Ok"]
        right += [a_range for level, _ in choices(equation.right) if result == self.RANGE and level[:1] == ["Ok"]]
        return left, right

    def _cases(self, d, term):
        """The cases of enums that a term names, at any depth."""
        for at, part in enumerate(term):
            if isinstance(part, list):
                yield from self._cases(d, part)
            else:
                case = self.specs.case(d.path, part, (term[at + 1:] or [None])[0])
                if case:
                    yield case

    def _answers(self, case):
        """The answers that a case comes to, each with the definitions by which it does; a number that it is given goes with it."""
        if case.enum == "Answer":
            yield case, set()
        for then, by in self.becomes.get(case[:2], ()):
            for answer, through in self._answers(then):
                yield Case(answer.enum, answer.name, case.number if answer.number is None else answer.number), through | {by}

    @functools.cached_property
    def numbers(self):
        """The number of each answer, by `answer_told`."""
        found = {}
        told = self.specs.only("answer_told")
        for equation in self.specs.equations(told):
            by = self.specs.stands(told.path, equation.right[0])
            found[next(self._cases(told, equation.left)).name] = int(self.specs.equations(by)[0].right[1])
        return found
