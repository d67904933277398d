"""Which function a must-fail edit changes, how a check names this function, and what a check says against it: for tools/edits."""

import re
from pathlib import Path

HEAD = re.compile(r"^(\s*)(?:pub(?:\([^)]*\))?\s+)?(?:const\s+)?(?:unsafe\s+)?fn\s+(\w+)")
BLOCK = re.compile(r"^impl\b(?P<rest>.*)$|^(?:pub(?:\([^)]*\))?\s+)?trait\s+(?P<trait>\w+)")
CYCLE = re.compile(r"#\[cycle\((\w+)\)\]")
WORD = re.compile(r"(?<!')\b[A-Za-z_][\w:]*")
LINE = re.compile(r"^fn (\S+): (.*)$", re.M)
UNPROVED = ("no proof", "not proved")
# What is said of an answer that names what an edit took away: that shows little of a contract.
GONE = re.compile(r"has no field|is not in scope|has no `|was not admitted")
GONE_NOTE = "only because an answer names what the edit took away, so change a value and keep the names: "


def lines_of(said):
    """What a check says of each function: its full name and the rest of its line."""
    return dict(LINE.findall(said))


def split_parameters(head):
    """The parameters of a block, and the rest of its head: `T` and `Show for List<T>` of `<T: Copy> Show for List<T>`."""
    if not head.startswith("<"):
        return set(), head
    depth = 0
    for at, character in enumerate(head):
        depth += (character == "<") - (character == ">" and head[at - 1] not in "-=")
        if depth == 0:
            return set(re.findall(r"(?:^|,|<)\s*(\w+)", head[:at])), head[at + 1 :]
    return set(), head


def block_name(head):
    """The name of an `impl` block in what a check prints: its type and its trait, each with its arguments but the block's own parameters, as in
    `FaultFromAllocError`, `BlockU32Hash` and `WalkIterator`."""
    own, rest = split_parameters(head.strip())
    rest = re.split(r"\bwhere\b|\{", rest)[0]
    trait, _, kind = rest.rpartition(" for ")
    words = [it.rpartition("::")[2] for part in (kind, trait) for it in WORD.findall(re.sub(r"'\w+", "", part))]
    return "".join(it[0].upper() + it[1:] for it in words if it not in own)


class Place:
    """The function that a pair of texts of an edit changes. `end` is the end of its name in what a check prints, `cycle` the name of the cycle of
    calls that it belongs to, if any. A text outside of functions, of a table or a constant, is no place of a function: its `end` is its module."""

    def __init__(self, crate, file, text, old):
        rows = text.split("\n")
        # The text of an edit may begin above the head of its function.
        line = text[: text.find(old)].count("\n") + old[: len(old) - len(old.lstrip())].count("\n")
        module = "::".join(it for it in Path(file).with_suffix("").parts[1:] if it not in ("lib", "main")) or crate
        self.file, self.end, self.cycle, self.is_function = file, module, None, False
        at = next((it for it in range(line, -1, -1) if HEAD.match(rows[it])), None)
        if at is None or (HEAD.match(rows[at])[1] == "" and "}" in rows[at:line]):
            return
        indentation, name = HEAD.match(rows[at]).groups()
        above = self.block_above(rows, at) if indentation else module.rpartition("::")[2]
        self.end, self.is_function = f"{above}::{name}", True
        self.cycle = self.cycle_above(rows, at)

    @staticmethod
    def block_above(rows, at):
        """The name of the block that a method stands in."""
        found = next(match for it in range(at, -1, -1) if (match := BLOCK.match(rows[it])))
        return found["trait"] or block_name(found["rest"])

    @staticmethod
    def cycle_above(rows, at):
        """The cycle that an attribute above the head of a function names."""
        for row in reversed(rows[:at]):
            if found := CYCLE.search(row):
                return found[1]
            if not row.strip().startswith(("#", "//")):
                return None
        return None

    def reasons(self, said, lines):
        """What a check says against the function itself: goals of its own that are not proved, and refused answers of its own. The lines of a cycle
        stand together, each with the name of its function."""
        names = [it for it in lines if f"::{it}".endswith(f"::{self.end}")]
        if not self.is_function or len(names) != 1 or not lines[names[0]].startswith(UNPROVED):
            return []
        # After `; in` come the reasons of a closure of the function, and others' in the end.
        own = lines[names[0]].partition("; in `")[0]
        goals = [goal for part in re.findall(r"`search` did not prove ([^;]*)", own) for goal in re.findall(r"`([^`]+)`", part)]
        folder = rf"(?:\S+/)?\+{self.cycle}" if self.cycle else re.escape("/".join(names[0].split("::")[1:]))
        errors = re.findall(rf"^(?:\./)?proofs/{folder}/\w+\.antt:\d+:\d+: error: (.*)", said, re.M)
        if not self.cycle:
            return self.told(goals + errors)
        notes = re.findall(rf"^note: {re.escape(self.file)}:\d+:\d+: it is not proved that [^`]*\(`([^`]+)`\)", said, re.M)
        return self.told([it for it in [*goals, *notes, *errors] if self.is_named(it, names[0])])

    @staticmethod
    def told(reasons):
        """The reasons, those that show something of a contract first; where there are none, with a note."""
        telling = [it for it in reasons if not GONE.search(it)]
        return telling or [GONE_NOTE + it for it in reasons]

    @staticmethod
    def is_named(reason, name):
        """Whether a reason of a cycle is that of the function of this full name: it begins with the end of the name and a `-`."""
        return f"::{name}".endswith("::" + reason.lstrip("`").partition("-")[0])
