"""An edit: a small change of a crate's code or statements, and what must fail with it."""
import re
from dataclasses import dataclass

LINE = re.compile(r"(file|old|new|fails|says): ?(.*)")


class BadEdit(Exception):
    """Why an edit can't be tried."""


@dataclass(frozen=True)
class Replacement:
    file: str
    old: str
    new: str


@dataclass(frozen=True)
class Edit:
    crate: str
    name: str
    replacements: tuple
    fails: str  # the function or law that must fail first; empty where none is named

    def edited(self, crate_folder):
        """The new text of each file that the edit changes."""
        before, after = {}, {}
        for one in self.replacements:
            if one.file not in after:
                before[one.file] = after[one.file] = text_of(crate_folder, one.file)
            count = after[one.file].count(one.old)
            if count != 1:
                raise BadEdit(f"its old text stands {count} times in {one.file}")
            after[one.file] = after[one.file].replace(one.old, one.new)
        if before == after:
            raise BadEdit("it changes nothing")
        return after


def text_of(crate_folder, file):
    # an edit of a proof would show nothing, since any proof can be spoiled; the statement of a law is none
    if not re.match(r"(src|specs|proofs/laws)/", file) or ".." in file.split("/"):
        raise BadEdit(f"{file} is not below src/, specs/ or proofs/laws/")
    path = crate_folder / file
    if not path.is_file():
        raise BadEdit(f"{file} is not there")
    return path.read_text(encoding="utf-8")


def read(path):
    """The edit that a file holds. A line 'file:' holds for the pairs of 'old:' and 'new:' behind it."""
    file, old, fails, replacements = "", "", "", []
    for line in path.read_text(encoding="utf-8").splitlines():
        found = LINE.fullmatch(line)
        if not found:
            if line and not line.startswith("#"):
                raise BadEdit(f"a line that is none of an edit's: {line}")
            continue
        word, rest = found.groups()
        if word == "file":
            file = rest
        elif word == "old":
            old = rest
        elif word == "fails":
            fails = rest
        elif word == "new":
            if not file or not old:
                raise BadEdit("a line 'new:' without 'file:' or 'old:' before it")
            replacements.append(Replacement(file, old, rest))
            old = ""
    if not replacements:
        raise BadEdit("it replaces nothing")
    return Edit(path.parent.parent.name, path.stem, tuple(replacements), fails)
