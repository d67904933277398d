"""The record of the crates whose must-fail edits were all refused: for tools/edits."""

import fcntl
import hashlib
import re
from pathlib import Path

FILE = Path("edits_tried")
TITLE = "# The crates whose edits were all refused, each with a sum of what that rests on: written by tools/edits --record.\n"
HEAD = re.compile(r"^(\s*)(?:pub(?:\([^)]*\))?\s+)?(?:const\s+)?(?:unsafe\s+)?fn\s")


def without_bodies(text):
    """The text of a source without comments and the bodies of functions: no proof of another crate rests on these. In the form of `rt fmt` a body
    begins after a row that ends with a brace and is as far to the right as its head, and ends with such a brace alone; other forms are kept."""
    kept, indentation, is_in_body = [], None, False
    for row in text.split("\n"):
        if is_in_body:
            if row == f"{indentation}}}":
                indentation, is_in_body = None, False
            continue
        if row.strip().startswith("//"):
            continue
        kept.append(row)
        if found := HEAD.match(row):
            indentation = found[1]
        elif not row.strip():
            # The head of a function has no empty row: this one had no body.
            indentation = None
        is_in_body = indentation is not None and re.match(rf"{indentation}(?:\S.* )?\{{$", row) is not None
    return "\n".join(kept)


def statements(folder):
    """What proofs of other crates rest on: the sources without bodies, the definitions and the lemmas of a crate."""
    for file in sorted(Path(folder, "src").rglob("*.rt")):
        yield file, without_bodies(file.read_text(encoding="utf-8")).encode()
    for part in ("specs", "proofs"):
        yield from whole(folder, part)


def whole(folder, part):
    """The files of a part of a crate."""
    for file in sorted(it for it in Path(folder, part).rglob("*") if it.is_file()):
        yield file, file.read_bytes()


def sum_of(crate, folder, kit_name):
    """A sum of all that the verdicts on the edits of a crate rest on: the kit by its name, the files of the crate with its edits, and the statements
    of the crates below."""
    total, top = hashlib.sha256(kit_name), Path(crate.folder).parent
    found = [it for part in ("src", "specs", "proofs", folder) for it in whole(crate.folder, part)]
    found += [it for below in sorted(crate.below(), key=lambda it: it.name) for it in statements(below.folder)]
    for file, text in found:
        total.update(repr((str(file.relative_to(top)), text)).encode())
    return total.hexdigest()[:32]


def rows_of(text):
    """The crates of a record and their sums."""
    return dict(row.split(maxsplit=1) for row in text.splitlines() if " " in row and not row.startswith("#"))


class Record:
    """The sums of the record and those of the crates as they are."""

    def __init__(self, crates, folder, kit_name):
        self.recorded = rows_of(FILE.read_text(encoding="utf-8")) if FILE.is_file() else {}
        self.sums = {name: sum_of(it, folder, kit_name) for name, it in crates.items()}

    def has(self, name):
        """Whether the record has the crate as it is."""
        return self.recorded.get(name) == self.sums[name]

    def add(self, name):
        """Writes a crate, as it was when the sums were made, into the file, which other processes may write at the same time."""
        with open(FILE, "a+", encoding="utf-8") as file:
            fcntl.flock(file, fcntl.LOCK_EX)
            file.seek(0)
            found = {**rows_of(file.read()), name: self.sums[name]}
            file.truncate(0)
            file.write(TITLE + "".join(f"{it} {found[it]}\n" for it in sorted(found) if it in self.sums))
