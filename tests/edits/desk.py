"""A repository of its own, outside this one, in which a crate is checked with an edit or without one."""
import os
import re
import shutil
import signal
import subprocess
import time
from dataclasses import dataclass
from pathlib import Path

HERE = Path.cwd()
PARTS = ("src", "specs", "proofs")  # what a check reads of a crate
AN_EDIT = 900  # seconds: a check of an edit that takes longer is broken
A_CRATE = 7200  # a crate unedited may be proved from nothing, with all that it stands on


@dataclass(frozen=True)
class Check:
    status: int
    said: str
    seconds: float

    def proved(self):
        return self.status == 0 and self.verdict().startswith("logic=proved ")

    def refused(self):
        """Whether the prover was reached, and refused."""
        return self.status == 1 and self.verdict() == "logic=not-proved"

    def verdict(self):
        return next((line for line in self.said.splitlines() if line.startswith("logic=")), "")

    def trouble(self):
        """The first lines that say anything but how far it is and 'proved'."""
        lines = [line for line in self.said.splitlines() if not re.match("checked |rt: ", line) and not line.endswith(": proved")]
        return "\n".join(line[:200] for line in lines[:5])


class Desk:
    """A copy of one crate and of those that it stands on."""

    def __init__(self, root, crate):
        self.crate_folder = root / "crates" / crate
        self.kept = self.crate_folder / "out" / "incremental"  # what rt keeps of its last check
        self.finished = root / "finished"
        lines = crate_lines()
        crates = with_below(crate, lines)
        for name in crates:
            copy_parts(HERE / "crates" / name, root / "crates" / name)
        (root / "crates.txt").write_text("".join(lines[name] for name in crates), encoding="utf-8")
        if (HERE / "HANDLES").exists():
            shutil.copy(HERE / "HANDLES", root)

    def finish(self):
        """Checks the crate as it stands, and keeps what that check leaves."""
        check = self.check(A_CRATE)
        if check.proved():
            copy_kept(self.kept, self.finished)
        return check

    def check_edited(self, texts):
        """Checks the crate with other texts in these files, on top of its finished check, and puts its own back."""
        shutil.rmtree(self.kept)
        copy_kept(self.finished, self.kept)
        before = {file: (self.crate_folder / file).read_text(encoding="utf-8") for file in texts}
        self.write(texts)
        try:
            return self.check(AN_EDIT)
        finally:
            self.write(before)

    def write(self, texts):
        for file, text in texts.items():
            (self.crate_folder / file).write_text(text, encoding="utf-8")

    def check(self, patience):
        return run(["rt", "check", "--jobs", "1"], self.crate_folder, patience)


def crate_lines():
    """The lines of crates.txt by the crate that they list, without comments."""
    lines = [line.partition("#")[0].strip() for line in (HERE / "crates.txt").read_text(encoding="utf-8").splitlines()]
    return {re.match(r"\w+", line)[0]: line + "\n" for line in lines if line}


def with_below(crate, lines):
    """A crate, and those of this repository that it stands on."""
    found = [crate]
    for name in found:
        cited = lines[name].partition(":")[2].split()
        found += [other for other in cited if other in lines and other not in found]
    return found


def copy_parts(there, here):
    for part in PARTS:
        if (there / part).is_dir():
            shutil.copytree(there / part, here / part)


def copy_kept(there, here):
    """A check replaces what it proved, and writes into no such file: a link serves, which costs nothing."""
    shutil.copytree(there, here, copy_function=link_proved)


def link_proved(one, other):
    if one.endswith(".oantt"):
        os.link(one, other)
    else:
        shutil.copy2(one, other)


def run(command, folder, patience):
    began = time.monotonic()
    process = subprocess.Popen(command, cwd=folder, stdin=subprocess.DEVNULL, stdout=subprocess.PIPE,
                               stderr=subprocess.STDOUT, encoding="utf-8", errors="replace", start_new_session=True)
    try:
        said, _ = process.communicate(timeout=patience)
    except subprocess.TimeoutExpired:
        os.killpg(process.pid, signal.SIGKILL)
        process.communicate()
        said = f"not ended within {patience} s"
    return Check(process.returncode, said, time.monotonic() - began)
