"""Definition files of a wanted size, with every form of the grammar, from a seed."""

import random

WORDS = set(
    "signature sorts constructors rules strategies id fail where not if then else end all one some"
    " rec let in prim module imports overlays with switch case otherwise external".split()
)
SMALL = "abcdefghijklmnopqrstuvwxyz"
INNER = SMALL + SMALL + "ABCDEFGHIJKLMNOPQRSTUVWXYZ0123456789_--"
LENGTHS = [1, 2, 3, 4, 5, 6, 7, 8, 9, 10, 11, 12, 13, 14]
WEIGHTS = [8, 5, 8, 10, 10, 9, 8, 7, 6, 5, 4, 3, 2, 2]
ESCAPES = ["\\n", "\\t", '\\"', "\\\\", "\\101"]


class Source:
    """Names and phrases. Depth counts down: at 0 a phrase has no parts."""

    signatures = 0.1

    def __init__(self, seed):
        self.random = random.Random(seed)
        self.names = [self.new_name() for _ in range(400)]
        self.variables = [name for name in self.names if len(name) < 6]
        self.constructors = [name[0].upper() + name[1:].replace("'", "_") for name in self.names]

    def new_name(self):
        while True:
            size = self.random.choices(LENGTHS, WEIGHTS)[0]
            name = self.random.choice(SMALL) + "".join(self.random.choices(INNER, k=size - 1))
            name = name.rstrip("-") + ("'" if self.random.random() < 0.05 else "")
            if name not in WORDS:
                return name

    def pick(self, choices):
        """What one of these functions gives, each as likely as its number says."""
        functions = [function for function, _ in choices]
        return self.random.choices(functions, [weight for _, weight in choices])[0]()

    def name(self):
        return self.random.choice(self.names)

    def variable(self):
        return self.random.choice(self.variables)

    def constructor(self):
        return self.random.choice(self.constructors)

    def integer(self):
        return str(self.random.choice([self.random.randint(0, 99), self.random.randint(-(2**31), 2**31 - 1)]))

    def quoted(self):
        letters = INNER + " ,.;"
        words = "".join(self.random.choices(letters, k=self.random.randint(0, 16)))
        if self.random.random() < 0.25:
            words += self.random.choice(ESCAPES)
        return f'"{words}"'

    def some(self, make, least, most):
        """Some phrases with commas between."""
        return ", ".join(make() for _ in range(self.random.randint(least, most)))

    def pattern(self, in_match, depth):
        part = lambda: self.pattern(in_match, depth - 1)
        strategy = lambda: self.strategy(depth - 1)
        if depth == 0:
            return self.pick([(self.variable, 6), (self.integer, 1), (lambda: self.constructor() + "()", 1)])
        forms = [
            (self.variable, 30),
            (lambda: "_" if in_match else self.variable(), 4),
            (self.integer, 5),
            (self.quoted, 4),
            (lambda: f"{self.constructor()}({self.some(part, 0, 3)})", 40),
            (lambda: f"({self.some(part, 2, 3)})", 5),
            (lambda: f"({part()})", 1),
            (lambda: "()", 1),
            (lambda: f"[{self.some(part, 0, 3)}]", 4),
            (lambda: f"[{self.some(part, 1, 2)} | {part()}]", 3),
        ]
        if in_match:
            forms.append((lambda: f"{self.variable()}@{part()}", 3))
        else:
            forms.append((lambda: f"({self.variable()}, <{strategy()}>)", 2))
            forms.append((lambda: f"<{strategy()}> {part()}", 4))
        return self.pick(forms)

    def strategy(self, depth):
        """Choices of sequences."""
        left = self.sequence(depth)
        chance = self.random.random()
        if depth == 0 or chance < 0.8:
            return left
        if chance < 0.95:
            return f"{left} <+ {self.strategy(depth - 1)}"
        return f"{left} < {self.strategy(depth - 1)} + {self.strategy(depth - 1)}"

    def sequence(self, depth):
        steps = [self.step(depth)]
        while depth > 0 and self.random.random() < 0.3:
            steps.append(self.step(depth - 1))
        return "; ".join(steps)

    def step(self, depth):
        made = self.primary(depth)
        if depth > 0 and self.random.random() < 0.06:
            return f"{made} => {self.pattern(True, depth - 1)}"
        return made

    def primary(self, depth):
        part = lambda: self.strategy(depth - 1)
        match = lambda: self.pattern(True, depth - 1)
        build = lambda: self.pattern(False, depth - 1)
        if depth == 0:
            return self.pick([(self.name, 6), (lambda: "id", 1), (lambda: "fail", 1)])
        operator = self.random.choice(["where", "not", "all", "one", "some"])
        return self.pick(
            [
                (self.name, 20),
                (lambda: "id", 3),
                (lambda: "fail", 2),
                (lambda: f"?{match()}", 10),
                (lambda: f"!{build()}", 10),
                (lambda: f"<{part()}> {build()}", 8),
                (lambda: f"({part()})", 4),
                (lambda: self.scope(depth), 4),
                (lambda: f"{operator}({part()})", 8),
                (lambda: f"if {part()} then {part()} end", 1),
                (lambda: f"if {part()} then {part()} else {part()} end", 2),
                (lambda: f"rec {self.variable()}({part()})", 2),
                (lambda: self.local(depth), 2),
                (lambda: f"prim({self.quoted()})", 1),
                (lambda: f"prim({self.quoted()}, {self.some(build, 1, 2)})", 2),
                (lambda: f"\\ {self.rule(depth - 1)} \\", 2),
                (lambda: f"{self.name()}({self.some(part, 0, 3)})", 16),
                (lambda: f"{self.name()}({self.some(part, 0, 2)} | {self.some(build, 0, 2)})", 4),
                (lambda: f"({self.some(part, 2, 3)})", 2),
                (lambda: "()", 1),
                (lambda: f"[{self.some(part, 0, 2)}]", 2),
                (lambda: f"[{self.some(part, 1, 2)} | {part()}]", 1),
            ]
        )

    def scope(self, depth):
        return f"{{{self.some(self.variable, 1, 3)}: {self.strategy(depth - 1)}}}"

    def local(self, depth):
        """A let of one definition or two."""
        made = [f"{self.name()}{self.parameters()} = {self.strategy(depth - 1)}"]
        if self.random.random() < 0.3:
            made.append(f"{self.name()}{self.parameters()} = {self.strategy(depth - 1)}")
        return f"let {' '.join(made)} in {self.strategy(depth - 1)} end"

    def rule(self, depth):
        """The sides of a rule and its condition."""
        made = f"{self.pattern(True, depth)} -> {self.pattern(False, depth)}"
        if depth > 0 and self.random.random() < 0.4:
            return f"{made} where {self.strategy(depth - 1)}"
        return made

    def parameters(self):
        chance = self.random.random()
        if chance < 0.6:
            return ""
        if chance < 0.9:
            return f"({self.some(self.variable, 0, 2)})"
        return f"({self.some(self.variable, 0, 2)} | {self.some(self.variable, 0, 2)})"

    def definition(self):
        """A rule or a strategy definition, with a comment now and then."""
        lines = []
        if self.random.random() < 0.15:
            words = " ".join(self.name() for _ in range(self.random.randint(2, 8)))
            lines.append(f"  // {words}\n" if self.random.random() < 0.7 else f"  /* {words} */\n")
        head = f"  {self.name()}{self.parameters()}"
        if self.random.random() < 0.6:
            lines.append(f"{head} :\n    {self.rule(3)}\n")
        else:
            lines.append(f"{head} =\n    {self.strategy(4)}\n")
        return "".join(lines)

    def sort(self):
        if self.random.random() < 0.2:
            return f"{self.constructor()}({self.some(self.constructor, 1, 2)})"
        return self.constructor()

    def declaration(self):
        factors = " * ".join(self.sort() for _ in range(self.random.randint(1, 3)))
        return self.pick(
            [
                (lambda: f"    {self.constructor()} : {self.sort()}\n", 2),
                (lambda: f"    {self.constructor()} : {factors} -> {self.sort()}\n", 6),
                (lambda: f"    : {factors} -> {self.sort()}\n", 1),
            ]
        )

    def section(self):
        """The lines of a section, first its head."""
        chance = self.random.random()
        if chance < self.signatures:
            yield "signature\n"
            yield f"  sorts {' '.join(self.sort() for _ in range(6))}\n"
            yield "  constructors\n"
            for _ in range(20):
                yield self.declaration()
            return
        yield "rules\n" if chance < 0.6 else "strategies\n"
        for _ in range(self.random.randint(10, 40)):
            yield self.definition()


class Sound(Source):
    """Files in which the checks find no fault: whatever is called is defined, and whatever is matched or built is declared."""

    signatures = 0

    def __init__(self, seed):
        super().__init__(seed)
        self.names = sorted(set(self.names))
        self.constructors = sorted(set(self.constructors))
        self.variables = sorted(set(self.variables))
        numbers = [(strategies, 0) for strategies in range(4)]
        numbers += [(strategies, terms) for strategies in range(3) for terms in (1, 2)]
        self.heads = [self.head(name, *number) for name in self.names for number in numbers]
        self.defined = 0

    def distinct(self, number):
        return ", ".join(self.random.sample(self.variables, number))

    def head(self, name, strategies, terms):
        names = self.random.sample(self.variables, strategies + terms)
        if terms:
            return f"{name}({', '.join(names[:strategies])} | {', '.join(names[strategies:])})"
        return f"{name}({', '.join(names)})" if names else name

    def primary(self, depth):
        while True:
            made = super().primary(depth)
            if not made.startswith("prim("):
                return made

    def parameters(self):
        return f"({self.distinct(2)})" if self.random.random() < 0.4 else ""

    def scope(self, depth):
        return f"{{{self.distinct(self.random.randint(1, 3))}: {self.strategy(depth - 1)}}}"

    def local(self, depth):
        names = self.random.sample(self.names, self.random.randint(1, 2))
        made = [f"{name}{self.parameters()} = {self.strategy(depth - 1)}" for name in names]
        return f"let {' '.join(made)} in {self.strategy(depth - 1)} end"

    def definition(self):
        """The next head with a body; after the last head come further alternatives of the first ones."""
        head = self.heads[self.defined % len(self.heads)]
        self.defined += 1
        if self.random.random() < 0.6:
            return f"  {head} :\n    {self.rule(2)}\n"
        return f"  {head} =\n    {self.strategy(3)}\n"

    def section(self):
        """The lines of a section: declarations first, then definitions."""
        if self.defined == 0:
            yield f"signature\n  sorts {' '.join(self.constructors[:20])}\n  constructors\n"
            for constructor in self.constructors:
                yield f"    {constructor} : {self.sort()}\n"
                for parts in range(1, 4):
                    yield f"    {constructor} : {' * '.join(self.sort() for _ in range(parts))} -> {self.sort()}\n"
            yield "strategies\n  main = id\n"
        yield from super().section()


def file_of(source, size):
    """A file of this many bytes: as many lines as fit, then a comment."""
    lines = []
    left = size - 4
    while True:
        for line in source.section():
            if len(line) > left:
                return "".join(lines) + "//" + "." * (left + 1) + "\n"
            lines.append(line)
            left -= len(line)
