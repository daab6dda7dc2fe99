"""Spoilt edits, made here: the test has to find the fault of each."""
from dataclasses import dataclass, replace

from edit import Edit, Replacement

CRATE = "answer"  # the quickest to check
CODE, STATEMENTS = "src/lib.rt", "specs/Rules.antt"


@dataclass(frozen=True)
class Spoilt:
    edit: Edit
    fault: str  # how what is found begins


def spoilt_edits(crates, edits):
    """crates: the folder of the crates; edits: good ones, of which one is taken and misnamed."""
    folder = crates / CRATE
    good = next(edit for edit in edits if edit.crate == CRATE)
    return [
        Spoilt(behind(folder, "a comment", CODE, "// says nothing\n"), "NOT REFUSED"),
        Spoilt(replace(good, name="another function named", fails="answer::another"), "REFUSED ELSEWHERE"),
        Spoilt(behind(folder, "code that does not parse", CODE, "fn {\n"), "NO VERDICT"),
        Spoilt(behind(folder, "a statement that does not parse", STATEMENTS, "pub = =\n"), "NOT FOR A PROOF"),
        Spoilt(Edit(CRATE, "the same, under another name", (Replacement(CODE, "if kept {", "if kept == true {"),), ""), "FOR A NAME ONLY"),
        Spoilt(behind(folder, "a name that is nowhere", STATEMENTS, "pub one : nowhere\none = 1\n"), "NOT FOR A PROOF"),
    ]


def behind(folder, name, file, more):
    """An edit that sets something behind a file's text."""
    text = (folder / file).read_text(encoding="utf-8")
    return Edit(CRATE, name, (Replacement(file, text, text + more),), "")
