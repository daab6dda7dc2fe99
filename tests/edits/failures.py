"""What fails in a check, read from what the check said.

A function is named as the check names it, `answer::room`; a law by its file and its name,
`proofs.laws.Order.one_answer`. What only follows from another failure is not counted: a law that cites one that has
fallen, a function that calls one that is not proved. Nor is it counted that a proof names a goal or a fact which the
edit took away: that shows nothing of the contract.
"""
import re
from dataclasses import dataclass
from pathlib import Path

ERROR = re.compile(r"(?:\./)?(?P<file>\S+?\.(?:rt|antt))(?::\d+:\d+)?: error(?:\[\S+\])?: (?P<said>.*)")
DECLARED = re.compile(r"`(?P<name>[^`]+)`: (?P<said>.*)")
VERDICT = re.compile(r"(?:fn|struct|enum|trait|impl|const) (?P<name>\S+): (?P<said>.*)")
OPEN_GOAL = re.compile(r"note: src/\S+: it is not proved that .*")
FALSE = "the facts known there allow values at which this goal is false"
# it fails by itself: its proof falls, or what the check tries without one
BY_ITSELF = re.compile(r"not proved|no proof: expected answers in .*")
FOLLOWS = re.compile(r".*, which was (rejected|not admitted), w(as|ere) not checked.*|`[^`]+` (was not admitted|cannot be unfolded because it was not admitted).*")
NO_NAME = re.compile(r".*(is not in scope|has no field|has no `[^`]+` that can be named|was not admitted).*")


class NoProofFailure(Exception):
    """The check stopped at something that has nothing to do with a proof."""


@dataclass
class Failure:
    name: str
    lacks_names: bool = False  # its proof names what isn't there
    is_shown: bool = False  # something else than that is wrong with it


def failures(said, changed):
    """What fails by itself, in the order in which the check said so. changed: the files that the edit changes."""
    lines = said.splitlines()
    verdicts = {found["name"]: found["said"] for found in map(VERDICT.fullmatch, lines) if found}
    found, goals = {}, []
    for line in lines:
        error, verdict = ERROR.fullmatch(line), VERDICT.fullmatch(line)
        if OPEN_GOAL.fullmatch(line):
            goals.append(line)
        elif error:
            note_error(found, error, verdicts, changed, line)
        elif verdict:
            note_verdict(found, verdict, goals)
            goals = []
    return [one for one in found.values() if BY_ITSELF.fullmatch(verdicts.get(one.name, "not proved"))]


def note_error(found, error, verdicts, changed, line):
    """An error in a file of statements or proofs."""
    declared = DECLARED.fullmatch(error["said"])
    said = declared["said"] if declared else error["said"]
    if FOLLOWS.fullmatch(said):
        return
    module = Path(error["file"]).with_suffix("")
    lacks_names = bool(NO_NAME.fullmatch(said))
    if module.parts[0] != "proofs" or error["file"] in changed:
        # the edited text has to be read and to have its names, or no statement was tried
        if module.parts[0] == "src" or not declared or lacks_names:
            raise NoProofFailure(line)
    function = function_of(module, verdicts)
    if not function and not declared:
        raise NoProofFailure(line)
    note(found, function or ".".join(module.parts + (declared["name"],)), lacks_names, not lacks_names)


def note_verdict(found, verdict, goals):
    """What the check came to for a function, and the goals of it that stay open."""
    if not BY_ITSELF.fullmatch(verdict["said"]):
        return
    name = verdict["name"]
    is_open = bool(goals) and not (name in found and found[name].lacks_names)
    note(found, name, False, is_open or any(FALSE in goal for goal in goals))


def note(found, name, lacks_names, is_shown):
    one = found.setdefault(name, Failure(name))
    one.lacks_names |= lacks_names
    one.is_shown |= is_shown


def function_of(module, functions):
    """The function whose proof a module is part of: that of a::B::c stands in proofs/B/c/, below what stands for a::B."""
    inside = [name for name in functions if Path("proofs", *name.split("::")[1:]) in module.parents]
    return max(inside, key=len, default=None)
