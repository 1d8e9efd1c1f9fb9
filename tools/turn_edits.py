#!/usr/bin/env python3
"""Spells the must-fail edits (crates/NAME/must-fail, with the wider ones) as the files that they change are now spelled.

usage: tools/turn_edits.py [--check] COMMIT

COMMIT is one whose edits fit the files as they stood there, with the wider ones in crates/NAME/must-fail/wider. Run it once, after
port.py and respell.py. --check writes nothing.
A pair is turned by its words alone; one whose old text is then not found exactly once is listed, and left for the hand.
"""
import glob
import os
import re
import subprocess
import sys

# Words of the library that have another spelling now.
LIBRARY = {"getD": "get_or", "negℤ": "neg_ℤ"}
# Where a library word stands now, if it does not stand in the Prelude.
ELSEWHERE = {"le_z": "Rattle.std.specs.Int.Signed"}
PRELUDE = "Rattle.std.specs.Prelude"


def read(path):
    """Returns the lines of the edit, each pair as one item [file, old, new]."""
    items, file = [], ""
    for line in open(path, encoding="utf-8").read().rstrip("\n").split("\n"):
        if line.startswith("file: "):
            file = line[len("file: ") :]
        if line.startswith("old: "):
            items.append([file, line[len("old: ") :], None])
        elif line.startswith("new:"):
            items[-1][2] = re.sub(r"\A ", "", line[len("new:") :])
        else:
            items.append(line)
    return items


def word(name):
    if name in LIBRARY:
        return LIBRARY[name]
    if name[0].isupper() or re.search(r"-\d", name):
        return name
    # as in respell.py
    return re.sub(r"(?<=[a-z0-9])[A-Z]", lambda found: "_" + found[0].lower(), name).replace("-", "_")


def spelled(text, is_code):
    text = text.replace("·", ".")
    # the rooms of a reference, in a contract
    text = re.sub(r"\(now \((\w+) \.exit\)\)", r"\1.new", text)
    text = re.sub(r"\(now \((\w+) \.entry\)\)", r"\1.@", text)
    text = re.sub(r"\((\w+) \.entry\)", r"\1.entry", text)
    # the rooms of a reference, in a definition
    text = re.sub(r"\(now \((\w+) \.(\w+)\)\)", r"\1.\2.now", text)
    # fields are written tight
    text = re.sub(r"nodeAt s 0 \.(\w+)", r"(nodeAt s 0).\1", text)
    text = re.sub(r"\(walk w ws n s B i r \.(\w+)\)", r"(walk w ws n s B i r).\1", text)
    text = re.sub(r"\((\w+) \.(\w+)\)", r"\1.\2", text)
    text = re.sub(r"(?<=\w) \.(\w+)", r".\1", text)
    bound = re.match(r"ensures \{ λ (\w+)\. ⌜ (.*) ⌝ \}$", text)
    if bound:
        text = "ensures { " + re.sub(rf"\b{bound[1]}\b", "result", bound[2]) + " }"
    if is_code and not re.search(r"[≡⌜@]|\.(entry|new|now)\b|[a-z][A-Z]", text):
        return text
    return re.sub(r"(?<![\w@])[^\W\d][\w-]*", lambda found: word(found[0]), text)


def bound_by(file, old):
    """Returns the name that the clause with the old text gave the result."""
    for line in file.split("\n"):
        if old in line:
            found = re.search(r"λ (\w+)\. ⌜", line)
            return found and found[1]
    return None


def more_words(today, old, new):
    """Returns the pair that brings into scope what the new text of a `use` line brings there, or None if it is in scope."""
    names = lambda line: [it.strip() for it in re.sub(r".*\{|\}.*", "", line).split(",")]
    added = [f"◌{it[1:-1]}◌" if it[0] == it[-1] == "_" else word(it) for it in names(new) if it not in names(old)]
    lines = [it for it in today.split("\n") if re.match(r"(ghost )?use ", it)]
    held = {it for line in lines if "{" in line for it in names(line)}
    added = [it for it in added if it not in held]
    if not added:
        return None
    module = spelled(re.search(r"use (\S+)\.\{", old)[1], False)
    for at in [ELSEWHERE.get(added[0]), module, PRELUDE]:
        for line in lines:
            head = f"use {at}.{{"
            if at and head in line and today.count(head) == 1:
                first = names(line)[0]
                return head + first, head + ", ".join([*added, first])
    return "", ""


def turned(today, before, old, new, is_code):
    if re.match(r"(ghost )?use .*\{", old) and today.count(old) != 1:
        return more_words(today, old, new)
    named = bound_by(before, old)
    olds = spelled(old, is_code), spelled(new, is_code)
    if named and "⌜" not in old:
        olds = [re.sub(rf"(?<![\w.]){named}(?![\w.])", "result", it) for it in olds]
    names = sorted(set(re.findall(r"(\w+)\.@", " ".join(olds))))
    for number in range(2 ** len(names)):
        found = olds
        for at, name in enumerate(names):
            room = "old" if number >> at & 1 else "now"
            found = [it.replace(f"{name}.@", f"{name}.{room}") for it in found]
        if today.count(found[0]) == 1:
            # a reference that can be written has no `.now`
            writes = set(re.findall(r"(\w+)\.(?:new|old)\b", today))
            return tuple(re.sub(r"(\w+)\.now\b", lambda it: f"{it[1]}.old" if it[1] in writes and it[0] not in found[0] else it[0], it) for it in found)
    return tuple(olds)


def main():
    commit = [it for it in sys.argv[1:] if it != "--check"][0]
    left = 0
    for path in sorted(glob.glob("crates/*/must-fail/*.edit") + glob.glob("crates/*/must-fail/wider/*.edit")):
        crate, out = path.split(os.sep)[1], []
        texts = {}
        for item in read(path):
            if isinstance(item, str):
                out.append(re.sub(r"(?<![\w-])([a-z]+[A-Z]\w*|[a-z]+-ud)(?![\w-])", lambda found: word(found[0]), item))
                continue
            file, old, new = item
            where = f"crates/{crate}/{file}"
            if file not in texts:
                texts[file] = open(where, encoding="utf-8").read()
            before = subprocess.run(["git", "show", f"{commit}:{where}"], capture_output=True, text=True, check=True).stdout
            pair = turned(texts[file], before, old, new, file.endswith(".rt"))
            if pair is None:
                continue
            if texts[file].count(pair[0]) != 1:
                print(f"{path}: by hand\n  {old}\n  {pair[0]}\n  {pair[1]}")
                left += 1
                pair = old, new
            out += [f"old: {pair[0]}", f"new: {pair[1]}"]
            texts[file] = texts[file].replace(pair[0], pair[1])
        if "--check" not in sys.argv:
            open(path, "w", encoding="utf-8").write("\n".join(out) + "\n")
    print(f"{left} left")


main()
