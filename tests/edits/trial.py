"""Trials: an edit checked on top of its crate's finished check, and what came of it."""
from dataclasses import dataclass

from edit import BadEdit
from failures import NoProofFailure, failures


@dataclass(frozen=True)
class Outcome:
    """What came of an edit: what fails, the first first, or why nothing can be said of that."""
    seconds: float
    fails: tuple = ()
    fault: str = ""

    def fault_of(self, edit):
        """What is wrong; nothing where the edit is refused at what it names."""
        if self.fault or self.fails[0] == edit.fails:
            return self.fault
        return f"REFUSED ELSEWHERE: at {self.fails[0]}, and its line 'fails:' says {edit.fails or 'nothing'}"


def try_edit(desk, edit):
    """The desk's crate is finished."""
    try:
        texts = edit.edited(desk.crate_folder)
    except BadEdit as why:
        return Outcome(0, fault=f"NOT TRIED: {why}")
    return outcome(desk.check_edited(texts), texts)


def outcome(check, changed):
    """changed: the files that the edit changes."""
    if check.proved():
        return Outcome(check.seconds, fault="NOT REFUSED: the crate is still proved")
    if not check.refused():
        return Outcome(check.seconds, fault=f"NO VERDICT: the prover was not reached\n{check.trouble()}")
    try:
        fails = failures(check.said, changed)
    except NoProofFailure as why:
        return Outcome(check.seconds, fault=f"NOT FOR A PROOF: {str(why)[:300]}")
    if not fails:
        return Outcome(check.seconds, fault=f"NOTHING FAILS BY ITSELF\n{check.trouble()}")
    if not fails[0].is_shown:
        return Outcome(check.seconds, fault=f"FOR A NAME ONLY: what proves {fails[0].name} names what is not there\n{check.trouble()}")
    return Outcome(check.seconds, tuple(one.name for one in fails))
