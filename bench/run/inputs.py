"""The definitions and the terms of bench/run: text that is the same in each run, and how many nodes it has."""

import random
import sys
from pathlib import Path

HERE = Path(__file__).resolve().parent
RULES = 1000
# The constructor C<i> of rdispatch has i % WIDTHS parts.
WIDTHS = 4


class Out:
    """The pieces of a term's text, and how many nodes they are."""

    def __init__(self, name):
        self.source = random.Random(f"{name} 1")
        self.pieces = []
        self.nodes = 0

    def leaf(self, text):
        self.nodes += 1
        self.pieces.append(text)

    def begin(self, name):
        self.nodes += 1
        self.pieces.append(f"{name}(")

    def put(self, text):
        self.pieces.append(text)


def parted(source, size, count):
    """The sizes of so many parts, each 2 or more, which are `size` together where that is enough."""
    spare = max(0, size - 2 * count)
    cuts = sorted(source.randint(0, spare) for _ in range(count - 1))
    return [2 + high - low for low, high in zip([0] + cuts, cuts + [spare])]


def apply(out, name, parts):
    """An application of the name to what each of the parts writes."""
    out.begin(name)
    for index, part in enumerate(parts):
        if index > 0:
            out.put(",")
        part()
    out.put(")")


def elements(out, count, write):
    """A list of so many elements; `write` writes the one of each index."""
    out.leaf("[")
    for index in range(count):
        out.put("," if index > 0 else "")
        write(index)
    out.put("]")


def written(out, term):
    """A term given as text without parts, as a list, or as a name and parts: `("Plus", "1", "2")` is `Plus(1,2)`."""
    if isinstance(term, str):
        out.leaf(term)
    elif isinstance(term, list):
        elements(out, len(term), lambda index: written(out, term[index]))
    else:
        name, *parts = term
        apply(out, name, [lambda part=part: written(out, part) for part in parts])


def word(out, letter, count):
    """One of so many strings."""
    out.leaf(f'"{letter}{out.source.randrange(count)}"')


def leaf_of(out, name, least, most):
    """An application of the name to one number."""
    apply(out, name, [lambda: out.leaf(str(out.source.randint(least, most)))])


def sum_or_product(out, size):
    """For simplify: a third of the applications can be simplified, few of them to 0."""
    source = out.source
    if size < 5:
        if source.random() < 0.5:
            apply(out, "Var", [lambda: word(out, "v", 100)])
        else:
            leaf_of(out, "Num", 2, 99)
        return
    chance = source.random()
    if chance < 0.33:
        # 0 + e or 1 * e, and now and then 0 * e, of a small e.
        name, number = source.choice([("Plus", 0), ("Times", 1)])
        if size < 12 and source.random() < 0.03:
            name, number = "Times", 0
        parts = [lambda: leaf_of(out, "Num", number, number), lambda: sum_or_product(out, size - 3)]
        source.shuffle(parts)
        apply(out, name, parts)
        return
    left, right = parted(source, size - 1, 2)
    name = source.choice(["Plus", "Times"])
    apply(out, name, [lambda: sum_or_product(out, left), lambda: sum_or_product(out, right)])


def scope(out, size):
    """For rename: one in four occurrences is of the variable that is renamed, and one in a hundred binders binds it."""
    source = out.source

    def binder():
        out.leaf('"a"') if source.random() < 0.01 else word(out, "b", 30)

    def occurrence():
        out.leaf('"a"') if source.random() < 0.25 else word(out, "b", 30)

    if size < 5:
        if source.random() < 0.2:
            leaf_of(out, "Num", 0, 99)
        else:
            apply(out, "Var", [occurrence])
        return
    chance = source.random()
    if chance < 0.3:
        apply(out, "Lam", [binder, lambda: scope(out, size - 2)])
        return
    left, right = parted(source, size - (1 if chance < 0.7 else 2), 2)
    parts = [lambda: scope(out, left), lambda: scope(out, right)]
    if chance < 0.7:
        apply(out, "App", parts)
    else:
        apply(out, "Let", [binder] + parts)


def expression(out, size):
    """For codegen, and in the statements for desugar."""
    source = out.source
    if size < 5:
        if source.random() < 0.5:
            apply(out, "Var", [lambda: word(out, "x", 40)])
        else:
            leaf_of(out, "Num", 0, 99)
        return
    left, right = parted(source, size - 1, 2)
    name = source.choice(["Plus", "Minus", "Leq", "Geq"])
    apply(out, name, [lambda: expression(out, left), lambda: expression(out, right)])


def statement(out, size):
    """For desugar."""
    source = out.source

    def small():
        expression(out, source.randint(2, 11))

    def name():
        word(out, "x", 40)

    if size < 16:
        kind = source.choice(["Skip", "Set", "Set", "Add", "Sub", "Inc", "Swap"])
        if kind == "Skip":
            out.leaf(kind)
        else:
            apply(out, kind, {"Inc": [name], "Swap": [name, name]}.get(kind, [name, small]))
        return
    kind = source.choice(["Seq", "Seq", "Both", "If", "While", "When", "Unless", "Until", "For"])
    before = {"Seq": [], "Both": [], "For": [name, small, small]}.get(kind, [small])
    count = {"Seq": 2, "Both": 3, "If": 2}.get(kind, 1)
    sizes = parted(source, size - 1 - 6 * len(before), count)
    apply(out, kind, before + [lambda size=size: statement(out, size) for size in sizes])


def formula(out, size):
    """For normal."""
    source = out.source
    if size < 5:
        apply(out, "Atom", [lambda: word(out, "p", 100)])
        return
    kind = source.choice(["Not", "And", "And", "Or", "Or", "Implies"])
    if kind == "Not":
        apply(out, kind, [lambda: formula(out, size - 1)])
        return
    left, right = parted(source, size - 1, 2)
    apply(out, kind, [lambda: formula(out, left), lambda: formula(out, right)])


def clause(source):
    """A disjunction of two literals, or the negation of a conjunction of two."""
    atoms = [("Atom", f'"p{source.randrange(100)}"') for _ in range(2)]
    literals = [("Not", atom) if source.random() < 0.5 else atom for atom in atoms]
    return ("Or", *literals) if source.random() < 0.5 else ("Not", ("And", *literals))


def clauses(out, count):
    """For bool_dnf and bool_oncetd: a conjunction of so many clauses."""
    if count == 1:
        written(out, clause(out.source))
        return
    left = out.source.randint(1, count - 1)
    apply(out, "And", [lambda: clauses(out, left), lambda: clauses(out, count - left)])


def rows(out, count):
    """A tree of so many rows, in each of which only the last number does not ascend."""
    source = out.source
    if count > 1:
        left = source.randint(1, count - 1)
        apply(out, "Node", [lambda: rows(out, left), lambda: rows(out, count - left)])
        return
    numbers = sorted(source.sample(range(10_000), 8))
    numbers[-1] = numbers[-2] - 1
    apply(out, "Row", [lambda: listed(out, numbers)])


def listed(out, numbers):
    out.leaf("[")
    out.put(",".join(map(str, numbers)))
    out.put("]")
    out.nodes += len(numbers)


def backtrack(out, count):
    """For backtrack and rbacktrack: the row that is found is the last one."""
    apply(out, "Node", [lambda: rows(out, count - 1), lambda: apply(out, "Row", [lambda: listed(out, range(8))])])


def dispatch(out, count):
    """A list of applications of a thousand constructors."""
    elements(out, count, lambda index: written(out, (f"C{out.source.randrange(RULES)}", str(index))))


def rdispatch(out, size):
    """A tree of applications of a thousand constructors."""
    count = out.source.randint(1, min(WIDTHS - 1, (size - 1) // 2)) if size > 2 else 0
    name = f"C{WIDTHS * out.source.randrange(RULES // WIDTHS) + count}"
    if count == 0:
        out.leaf(name)
    else:
        apply(out, name, [lambda part=part: rdispatch(out, part) for part in parted(out.source, size - 1, count)])


def numbers(out, count):
    """For map."""
    listed(out, [out.source.randint(-1_000_000, 1_000_000) for _ in range(count)])


def pair(out):
    """A string and a number."""
    apply(out, "", [lambda: word(out, "k", 100), lambda: out.leaf(str(out.source.randint(0, 999)))])


def lists(out, size):
    """For maplist: lists of up to 20 pairs, with some 31 nodes each."""
    elements(out, size // 31, lambda _: elements(out, out.source.randint(0, 20), lambda _: pair(out)))


def unary(out, number):
    out.put("Succ(" * number + "Zero" + ")" * number)
    out.nodes += number + 1


def naturals(out, count):
    """For peano: numbers from 12 to 16 in unary."""
    elements(out, count, lambda index: unary(out, 12 + index % 5))


def fibonacci(out, count):
    """For peano_fib: the Fibonacci numbers of 10 to 14 in unary."""
    elements(out, count, lambda index: apply(out, "Fib", [lambda: unary(out, 10 + index % 5)]))


def board(out, count):
    """For queens: the columns of a board."""
    listed(out, range(1, count + 1))


def doublings(out, count):
    """For sharing: a small tree, and how many times it is doubled."""
    written(out, ("", str(count), ("Node", ("Leaf", "1"), ("Leaf", "2"))))


def countdown(out, count):
    """For loop: a number to count down from, and a total."""
    written(out, ("", str(count), "0"))


def program(out, rounds):
    """For interp: a program with a loop of so many rounds, and an empty memory."""

    def add(variable, value):
        return ("Assign", variable, ("Add", ("Var", variable), value))

    n, total, threes = '"n"', '"total"', '"threes"'
    is_three = ("Less", ("Mod", ("Var", n), ("Num", "3")), ("Num", "1"))
    choice = ("If", is_three, add(threes, ("Num", "1")), add(total, ("Var", n)))
    less = ("Assign", n, ("Sub", ("Var", n), ("Num", "1")))
    loop = ("While", ("Less", ("Num", "0"), ("Var", n)), ("Seq", [choice, less]))
    begin = [("Assign", variable, ("Num", str(value))) for variable, value in [(total, 0), (threes, 0), (n, rounds)]]
    written(out, ("", ("Seq", [*begin, loop]), []))


# What makes the term of each program, and how much more than its nodes it has to be asked for.
TERMS = {
    # The size is about the number of nodes.
    "simplify": (sum_or_product, 1.156),
    "rename": (scope, 1.149),
    "desugar": (statement, 1.371),
    "normal": (formula, 1.215),
    "rdispatch": (rdispatch, 1.364),
    "codegen": (expression, 1.216),
    "maplist": (lists, 1),
    # It is the number of elements of a list.
    "dispatch": (dispatch, 1),
    "map": (numbers, 1),
    "peano": (naturals, 1),
    "peano_fib": (fibonacci, 1),
    # It is the number of rows, of clauses, of columns, of doublings, or of rounds.
    "backtrack": (backtrack, 1),
    "rbacktrack": (backtrack, 1),
    "bool_dnf": (clauses, 1),
    "bool_oncetd": (clauses, 1),
    "queens": (board, 1),
    "sharing": (doublings, 1),
    "interp": (program, 1),
    "loop": (countdown, 1),
}


def term_of(name, size):
    """The text of the program's term of this size, and its number of nodes. TERMS says what the size is the number of."""
    out = Out(name)
    write, more = TERMS[name]
    write(out, int(more * size))
    return "".join(out.pieces), out.nodes


def thousand_rules(declared, rule, strategy):
    """Definitions with declarations and a rule for each number below RULES, as `declared` and `rule` write them."""
    lines = ["signature", "  sorts S T", "  constructors"]
    lines += [f"    {declaration}" for i in range(RULES) for declaration in declared(i)]
    lines += ["", "rules"]
    lines += [f"  {rule(i)}" for i in range(RULES)]
    lines += ["", "strategies", f"  main = {strategy}", "  keep = id"]
    return "\n".join(lines) + "\n"


def definitions_of_dispatch():
    def declared(i):
        return [f"C{i} : S -> T", f"D{i} : S -> T"]

    return thousand_rules(declared, lambda i: f"replace : C{i}(x) -> D{i}(x)", "map(replace)")


def definitions_of_rdispatch():
    def declared(i):
        sorts = " * ".join(["T"] * (i % WIDTHS))
        return [f"{letter}{i} : {sorts}{' -> ' if sorts else ''}T" for letter in "CD"]

    def rule(i):
        parts = ["x", "y", "z"][: i % WIDTHS]
        replaced = [f"<replace> {part}" for part in reversed(parts)]
        return f"replace : C{i}({', '.join(parts)}) -> D{i}({', '.join(replaced)})"

    return thousand_rules(declared, rule, "replace")


def definitions_of(name):
    """The definitions of the program."""
    if name == "dispatch":
        return definitions_of_dispatch()
    if name == "rdispatch":
        return definitions_of_rdispatch()
    return (HERE / "definitions" / f"{name}.str").read_text(encoding="ascii")


def main():
    """Writes the definitions and the term of a program into two files, and prints how many nodes the term has:

    python3 bench/run/inputs.py PROGRAM SIZE DEFINITIONS TERM
    """
    name, size, definitions, term = sys.argv[1:]
    text, nodes = term_of(name, int(size))
    Path(definitions).write_text(definitions_of(name), encoding="ascii")
    Path(term).write_text(text, encoding="ascii")
    print(nodes)


if __name__ == "__main__":
    main()
