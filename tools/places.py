#!/usr/bin/env python3
"""Counts the places of docs/DESIGN-PASS.md in crates/*/src, at a commit or in the work tree.

    python3 tools/places.py [COMMIT] [--list]
"""
import collections
import re
import subprocess
import sys

WORDS = [word for word in sys.argv[1:] if not word.startswith("--")]
LIST = "--list" in sys.argv
COMMIT = WORDS[0] if WORDS else None


def git(*words):
    return subprocess.run(["git", *words], capture_output=True, text=True, check=True).stdout


def sources():
    """Path and text of each source file, without comments and ghost imports."""
    listed = git("ls-tree", "-r", "--name-only", COMMIT) if COMMIT else git("ls-files")
    for path in listed.split("\n"):
        if re.fullmatch(r"crates/\w+/src/.*\.rt", path):
            text = git("show", f"{COMMIT}:{path}") if COMMIT else open(path).read()
            text = re.sub(r"(?m)^\s*ghost use .*$", "", text)
            yield path, re.sub(r"(?m)^\s*//.*$|\s+// .*$", "", text)


FILES = dict(sources())
ALL = "\n".join(FILES.values())
FOUND = []


def said(point, what, places):
    places = sorted(places)
    FOUND.append((point, what, len(places)))
    print(f"{point}  {len(places):4}  {what}")
    if LIST:
        for place in places:
            print(f"            {place}")


def each(pattern, flags=re.M):
    for path, text in FILES.items():
        for found in re.finditer(pattern, text, flags):
            yield path, found


def braced(text, at):
    """The text from a brace up to the one that closes it."""
    depth = 0
    for end in range(at, len(text)):
        depth += {"{": 1, "}": -1}.get(text[end], 0)
        if depth == 0:
            return text[at:end + 1]
    return text[at:]


def short(path):
    return path.replace("crates/", "").replace("/src/", "/")


# 1: enums of the shape of Option or Result
NONE = r"Unknown|Nothing|Not|None|Malformed|No[A-Z]\w*"
shaped = {}
for path, found in each(r"\benum (\w+) \{"):
    body = braced(FILES[path], found.end() - 1)[1:-1]
    flat = re.sub(r"\{[^}]*\}", "()", body)
    variants = re.findall(r"(\w+)(\([^)]*\))?,", re.sub(r"\(([^)]*)\)", lambda m: "(" + m[1].replace(",", ";") + ")", flat))
    full = [name for name, data in variants if data]
    bare = [name for name, data in variants if not data]
    option = len(full) == 1 and 1 <= len(bare) <= 2
    result = len(full) == 2 and not bare and {"Refused", "Failed", "Err"} & set(full)
    if option or result or any(re.fullmatch(NONE, name) for name in bare):
        shaped[found[1]] = (path, [name for name, _ in variants], option or result)
said("1", "enums of the shape of Option or Result, or with a variant that says 'none'",
     [f"{short(path)}: {name}" for name, (path, _, _) in shaped.items()])
uses = []
for name, (_, variants, whole) in shaped.items():
    if whole:
        uses += [f"{short(path)}: {found[0]}" for path, found in each(rf"\b{name}::(?:{'|'.join(variants)})\b")]
said("1", "uses of the variants of the first", uses)
said("1", "an answer, an outcome or a flag with a value beside it, in a struct",
     [f"{short(path)}: {found[1]}" for path, found in each(r"\bstruct (\w+) \{")
      if re.search(r"\b(answer: Answer|outcome: Outcome|right: bool|accepted: bool|given: \[bool)",
                   braced(FILES[path], found.end() - 1))])
said("1", "numbers for kinds or refusals: constants, and fields that hold them",
     [f"{short(path)}: {found[1]}" for path, found in
      each(r"^pub const (\w+): u8 = |^ *pub (number|kind): u8,") if re.search("numbers|kinds|table|answer", path)])
said("1", "refusals handed on by a match",
     [f"{short(path)}: {found[0]}" for path, found in each(r"\b(?:Answer::Refused|Outcome::Refused|Err)\(\w+\) =>[^\n]*")])

# 2: functions that differ only in names, types and numbers
KEPT = set("fn pub crate let mut if else match while for in loop return break continue as self Self true false".split())
shapes = collections.defaultdict(list)
for path, found in each(r"\bfn (\w+)"):
    text = FILES[path]
    open_at = text.find("\n{", found.start())
    single = re.compile(r"\) (?:-> [^{;\n]+ )?\{\n").search(text, found.start())
    stop = text.find("\nfn ", found.end())
    at = min([x for x in (open_at + 1 if open_at >= 0 else -1, text.find("    {\n", found.start()), single.end() - 2 if single else -1) if x > 0] or [-1])
    if at < 0:
        continue
    body = braced(text, text.index("{", at))
    tokens = re.findall(r"b?'[^']*'|b?\"[^\"]*\"|\w+|[^\w\s]", body)
    shape = tuple(token if token in KEPT or not re.match(r"\w|b?['\"]", token) else "x" for token in tokens)
    if len(shape) >= 16:
        shapes[shape].append(f"{short(path)}: {found[1]}")
twins = [" = ".join(names) for names in shapes.values() if len(names) > 1]
said("2", "groups of functions that differ only in names, types and numbers", twins)

# 3: loops that count by hand
said("3", "`while` and `loop`",
     [f"{short(path)}: {found[0].strip()}" for path, found in each(r"^.*\b(while [^{]*|loop) \{")])

# 4: equality, order, copying, conversion and printing by hand
said("4", "equality, order, copying, conversion and printing by hand",
     [f"{short(path)}: {found[1]}" for path, found in
      each(r"\bfn (equal|at_most|below|is_same|wide|copy|of|registration_of|direction_of|of_refusal|of_answer|of_outcome"
           r"|of_counts|print|spaced|status_by|status_behind|record_of|way_of|text_of|smaller|least|capped_sum|is_blank"
           r"|is_refused)\b")])

# 5: facts in the contracts of three or more functions, parameters that travel together
clauses = collections.defaultdict(list)
for path, found in each(r"\brequires (?:\w+ )?\{ (.*) \}$"):
    for part in re.split(r" × ", found[1]):
        clauses[(path.split("/")[1], part.strip("() "))].append(short(path))
said("5", "facts that three or more contracts of a crate ask",
     [f"{crate}: {len(places)} times {fact}" for (crate, fact), places in clauses.items() if len(places) > 2])
groups = collections.defaultdict(list)
for path, found in each(r"\bfn (\w+)\(([^)]*)\)", re.M):
    names = [name.strip() for name in re.sub(r"\s+", " ", found[2]).split(",") if ":" in name]
    for i in range(len(names) - 2):
        groups[(path.split("/")[1], tuple(names[i:i + 3]))].append(found[1])
said("5", "three parameters that stand together in three or more functions",
     [f"{crate}: {', '.join(names)}" for (crate, names), places in groups.items() if len(places) > 2])

# 6: buffers with a length beside them, parallel arrays
said("6", "a buffer with a length beside it, or parallel arrays, in a struct or among parameters",
     [f"{short(path)}: {found[1]}" for path, found in each(r"\bstruct (\w+) \{")
      if re.search(r"\bcount: (usize|Count)|\bgiven: \[", braced(FILES[path], found.end() - 1))]
     + [f"{short(path)}: {found[1]}" for path, found in each(r"\bfn (\w+)\(\s*from: &\[u8; FIELDS\]")]
     + [f"{short(path)}: {found[1]}" for path, found in each(r"\bfn (\w+)\(count: usize, made: \[")])

# 7: a switch on which step to run
said("7", "switches on which step to run",
     [f"{short(path)}: {found[0]}" for path, found in each(r"\bmatch (op|call|step|letter|count)\b")])
