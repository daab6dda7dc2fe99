"""The edits of the crates, each refused at the function or law that it names. See tests/edits.test."""
import argparse
import os
import shutil
import sys
import tempfile
import time
from concurrent.futures import ThreadPoolExecutor
from pathlib import Path

from desk import Desk
from edit import BadEdit, read
from self_check import CRATE, spoilt_edits
from trial import Outcome, try_edit

CRATES = Path("crates")
REFUSED = ("must-fail", "must-fail-at")  # the folders of edits that the prover must refuse


def main():
    asked = words()
    if asked.apply_only:
        return apply_only(paths(("*",), asked))
    edits = [read_or_stop(path) for path in paths(REFUSED, asked)]
    if asked.what_fails:
        return try_all(edits, [], what_fails)
    spoilt = spoilt_edits(CRATES, edits) if asked.crate in (None, CRATE) and not asked.edits else []
    return try_all(edits, spoilt, verdict)


def words():
    parser = argparse.ArgumentParser(prog="edits.test")
    mode = parser.add_mutually_exclusive_group()
    mode.add_argument("--apply-only", action="store_true")
    mode.add_argument("--what-fails", action="store_true")
    parser.add_argument("crate", nargs="?")
    parser.add_argument("edits", nargs="*")
    return parser.parse_args()


def paths(folders, asked):
    """The files of the edits that are asked for; one that is not there is a fault."""
    found = sorted(path for folder in folders for name in asked.edits or ["*"]
                   for path in CRATES.glob(f"{asked.crate or '*'}/{folder}/{name}.edit"))
    missing = set(asked.edits) - {path.stem for path in found}
    if missing or not found:
        sys.exit(f"no such edit: {asked.crate} {' '.join(sorted(missing))}")
    return found


def read_or_stop(path):
    try:
        return read(path)
    except BadEdit as why:
        sys.exit(f"{path}: {why}")


def apply_only(files):
    bad = 0
    for path in files:
        try:
            read(path).edited(path.parent.parent)
        except BadEdit as why:
            print(f"{path}: {why}")
            bad += 1
    print(f"{len(files) - bad} edits apply, {bad} do not")
    return bad > 0


def try_all(edits, spoilt, say_of):
    """Tries the edits and the spoilt ones, crate by crate, and says of each what came of it; whether there is a fault."""
    began = time.monotonic()
    crates = longest_first({edit.crate for edit in edits})
    room = Path(tempfile.mkdtemp(prefix="edits-")).resolve()

    def try_crate(crate):
        own = [edit for edit in edits if edit.crate == crate]
        return tried(room / crate, crate, own, spoilt if crate == CRATE else [], say_of)

    with ThreadPoolExecutor(jobs()) as pool:
        try:
            bad = sum(pool.map(try_crate, crates))
        finally:
            pool.shutdown(cancel_futures=True)
            shutil.rmtree(room)
    print(f"{len(edits)} edits of {len(crates)} crates, {bad} at fault ({time.monotonic() - began:.0f} s)")
    return bad > 0


def tried(root, crate, edits, spoilt, say_of):
    """Tries the edits of a crate on a desk of its own; how many faults there are."""
    desk = Desk(root, crate)
    check = desk.finish()
    proved = check.proved()
    say(f"{crate}, unedited: {'proved' if proved else 'NOT PROVED'}", check)
    if not proved:
        print(check.trouble())
    untried = Outcome(0, fault="NOT TRIED: its crate, unedited, is not proved")
    bad = sum(told_spoilt(one, try_edit(desk, one.edit) if proved else untried) for one in spoilt)
    bad += sum(told(edit, try_edit(desk, edit) if proved else untried, say_of) for edit in edits)
    shutil.rmtree(root)
    return bad + (not proved)


def told(edit, outcome, say_of):
    fault, well = say_of(edit, outcome)
    say(f"{edit.crate}, {edit.name}: {fault or well}", outcome)
    return fault != ""


def verdict(edit, outcome):
    return outcome.fault_of(edit), f"refused at {edit.fails}"


def what_fails(_, outcome):
    return outcome.fault, ", ".join(outcome.fails)


def told_spoilt(one, outcome):
    """Of a spoilt edit: the fault is that none is found."""
    fault = outcome.fault_of(one.edit)
    seen = fault.startswith(one.fault)
    say(f"{one.edit.name}: {'seen' if seen else 'NOT SEEN'}: {fault or 'refused where it says'}", outcome)
    return not seen


def say(words, took):
    """The seconds stand at the end of the first line; what the check said may follow."""
    first, *more = words.split("\n")
    print("\n    ".join([f"{first} ({took.seconds:.0f} s)", *more]), flush=True)


def longest_first(crates):
    """By the size of what is to be proved, so that no long check comes last."""
    return sorted(crates, key=lambda crate: -sum(path.stat().st_size for path in (CRATES / crate).rglob("*.antt")))


def jobs():
    """Crates that are tried at a time, each with one job: a check takes a gigabyte or two."""
    return min(len(os.sched_getaffinity(0)), 4)


sys.exit(main())
