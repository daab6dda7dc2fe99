#!/usr/bin/env python3
"""Sets the definitions and theorems of crates/*/specs and crates/*/proofs at a commit beside those of the work tree.

    python3 tools/statements.py COMMIT

Compared by crate, place and name: of a theorem its statement, of a definition the whole. What differs only by the words
of NEW_WORDS, and by the brackets that these ask for, is named; what else differs is printed, old and new.
"""
import collections
import re
import subprocess
import sys
import textwrap

COMMIT = sys.argv[1]
# the words of the older forms, and what stands for each
NEW_WORDS = {
    "Accepted": "Ok", "Refused": "Err", "Is": "Some", "Not": "None", "Line": "Some", "Nothing": "None", "Unknown": "None",
    "NoAmount": "None", "NoRules": "None", "AmountOfA": "OfA", "AmountOfJ": "OfJ", "AmountOfO": "OfO",
    "Number": "ℕ", "Reading": "Record", "known": "is_some",
}
# what only the newer forms say
LEFT_OUT = {"(", ")", "tt", "Some", "Option", "A", "{", "}", "Result", "⊤"}
# the answers of functions; a file of that name among the laws has theorems
ANSWERS = re.compile(r"(?<!/laws)/(Answers|Invariants)\.antt$")
HEAD = re.compile(r"^( *)((?:abbrev |unfoldable |pub |data |record |module )*)([^\s(){}:]+)((?: |$).*)")
WORDS = re.compile(r"[(){}]|[^\s(){}]+")


def git(*words):
    return subprocess.run(["git", *words], capture_output=True, text=True, check=True).stdout


def files(commit):
    listed = git("ls-tree", "-r", "--name-only", commit) if commit else git("ls-files")
    for path in listed.split("\n"):
        if re.fullmatch(r"crates/\w+/(specs|proofs)/.*\.antt", path) and not ANSWERS.search(path):
            yield path, git("show", f"{commit}:{path}") if commit else open(path, encoding="utf-8").read()


def declarations(text):
    """Name, and text in one line: a statement up to its proof, or a whole definition."""
    lines = [line for line in text.split("\n") if line.strip() and not re.match(r" *(--|use |pub mod |mod |unfolding )", line)]
    i = 0
    while i < len(lines):
        found = HEAD.match(lines[i])
        i += 1
        if not found or "module" in found[2] or found[3] in ("module", "where", "let", "in"):
            continue
        indent, words, name, rest = len(found[1]), found[2], found[3], found[4]
        told = rest.lstrip().startswith((":", "{")) or "data" in words or "record" in words
        if not told:
            continue
        taken = [lines[i - 1].strip()]
        clause = re.compile(rf" {{{indent}}}{re.escape(name)}(?: |$)")
        whole = bool(re.search("abbrev|unfoldable|data|record", words))
        while i < len(lines) and (len(lines[i]) - len(lines[i].lstrip()) > indent or whole and clause.match(lines[i])):
            taken.append(lines[i].strip())
            i += 1
        if not whole:
            while i < len(lines) and (clause.match(lines[i]) or len(lines[i]) - len(lines[i].lstrip()) > indent):
                i += 1
        yield name, "pub" in words.split() , " ".join(taken)


def all_of(commit):
    found = collections.defaultdict(list)
    for path, text in files(commit):
        _, crate, part, *_ = path.split("/")
        for name, public, said in declarations(text):
            found[crate, part, name].append((path.split("/", 2)[2], public, said))
    return found


def plain(said):
    words = [NEW_WORDS.get(word, word) for word in WORDS.findall(said)]
    return [word for word in words if word not in LEFT_OUT]


def wrapped(said, first, rest):
    return "\n".join(textwrap.wrap(said, 118, initial_indent=first, subsequent_indent=rest, break_long_words=False, break_on_hyphens=False))


def main():
    old, new = all_of(COMMIT), all_of(None)
    same, renamed, changed, gone, come = 0, collections.defaultdict(list), [], [], []
    for key in old.keys() | new.keys():
        was, now = [x for x in old.get(key, [])], [x for x in new.get(key, [])]
        for entry in list(was):
            twin = next((x for x in now if x[2] == entry[2]), None)
            if twin:
                was.remove(entry), now.remove(twin)
                same += 1
        for entry in list(was):
            twin = next((x for x in now if plain(x[2]) == plain(entry[2])), None)
            if twin:
                was.remove(entry), now.remove(twin)
                renamed[key[0], key[1]].append(key[2])
        for entry, twin in zip(list(was), list(now)):
            was.remove(entry), now.remove(twin)
            changed.append((key, entry, twin))
        gone += [(key, entry) for entry in was if entry[1]]
        come += [(key, entry) for entry in now if entry[1]]
    count = lambda found: sum(len(entries) for entries in found.values())
    print(f"{count(old)} before, {count(new)} now; {same} the same word for word, {sum(map(len, renamed.values()))} the same but for")
    print(f"the new words, {len(changed)} changed, {len(gone)} public gone, {len(come)} public new\n")
    print("### The same but for the new words\n")
    for crate, part in sorted(renamed):
        names = ", ".join(f"`{name}`" for name in sorted(renamed[crate, part]))
        print(wrapped(f"- `{crate}`, {part}: {names}", "", "  "))
    print("\n### Changed\n\n```text")
    for (crate, _, name), was, now in sorted(changed):
        print(f"{crate}, {name} ({now[0]})")
        print(wrapped(was[2], "was   ", "      "))
        print(wrapped(now[2], "is    ", "      "))
    print("```\n\n### Gone\n\n```text")
    for (crate, _, name), was in sorted(gone):
        print(wrapped(f"{crate}, {name} ({was[0]}): {was[2]}", "", "      "))
    print("```\n\n### New\n\n```text")
    for (crate, _, name), now in sorted(come):
        print(wrapped(f"{crate}, {name} ({now[0]}): {now[2]}", "", "      "))
    print("```")


main()
