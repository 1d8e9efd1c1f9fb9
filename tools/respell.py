#!/usr/bin/env python3
"""Spells the repository's own definitions, laws, fields and constructors in snake case, as `one_tree` for `oneTree` and `one-tree`.

usage: tools/respell.py [--check]

Run it once, after port.py and before anything else. Types, facts and modules keep their capitals; so does `E`, the excess.
A name that Rattle makes (`f-requires`, `returns-2`, a field of a generated record) keeps its dashes. --check lists what would fall together and writes nothing.
"""
import collections
import os
import re
import sys

WORD = r"[^\s(){}.;,@\"«»:=]+"
TOKEN = re.compile(r"(?<![^\s(){}.;,@\"«»:=`|])" + WORD.replace("]+", "`]+"))

# Where two names fall together, or the new spelling is taken: the spelling that the first one gets.
APART = {
    "at-depth": "at_depth_lem",
    "built_of": "built_of_lem",
    "first-child": "first_child_lem",
    "found_of": "found_of_lem",
    "gate-of": "gate_of_lem",
    "in_leaf": "in_leaf_lem",
    "last-child": "last_child_lem",
    "level-next": "level_next_lem",
    "level-prev": "level_prev_lem",
    "listed-of": "listed_of_lem",
    "listing-of": "listing_of_lem",
    "next-sibling": "next_sibling_lem",
    "over-nodes": "over_nodes_lem",
    "over-row": "over_row_lem",
    "previous-sibling": "previous_sibling_lem",
    "read-of": "read_of_lem",
    "refusal-of": "refusal_of_lem",
    "sibling-beyond": "sibling_beyond_lem",
    "start-of": "start_of_lem",
    "told_of": "told_of_lem",
}


def texts(folder, ends):
    for where, folders, files in sorted(os.walk(folder)):
        folders[:] = sorted(f for f in folders if f != "out")
        for name in sorted(files):
            if name.endswith(ends):
                yield os.path.join(where, name)


def is_law_file(path):
    parts = path.split(os.sep)
    return parts[2] == "specs" or (parts[2] == "proofs" and len(parts) == 4)


def snake(name):
    if name in APART:
        return APART[name]
    if not name[0].isupper():
        name = re.sub(r"(?<=[a-z0-9])[A-Z](?![a-z0-9]*[A-Z]{2})", lambda m: "_" + m[0].lower(), name)
    return re.sub(r"(?<=.)-(?=.)", "_", name)


def declared():
    names, fields = collections.defaultdict(set), set()
    for path in texts("crates", ".antt"):
        if not is_law_file(path):
            continue
        body, depth = None, 0
        for line in open(path, encoding="utf-8"):
            if not line.strip() or line.strip().startswith("--"):
                continue
            indent = len(line) - len(line.lstrip())
            head = re.match(r"\s*(?:pub )?(?:record|data|ruleset) (" + WORD + ")", line)
            if head:
                names[head[1]].add(path)
                body, depth = line.split()[1 if line.split()[0] == "pub" else 0], indent
                continue
            if body and indent <= depth:
                body = None
            found = re.match(r"\s*(?:abbrev |pub |unfoldable |where )*(" + WORD + r")(?: \{[^}]*\})* : ", line)
            if found:
                names[found[1]].add(path)
                if body == "record":
                    fields.add(found[1])
    return names, fields


def main():
    names, fields = declared()
    turned = {old: snake(old) for old in names if snake(old) != old}
    if "--check" in sys.argv:
        by_new = collections.defaultdict(set)
        for old in list(names):
            by_new[snake(old)].add(old)
        for new, olds in sorted(by_new.items()):
            if len(olds) > 1:
                print("together:", new, sorted((o, sorted(names[o])) for o in olds))
        for path in texts("crates", (".antt", ".rt")):
            words = set(TOKEN.findall(open(path, encoding="utf-8").read()))
            for old in sorted(words & set(turned)):
                if turned[old] in words:
                    print("in one file:", path, old, turned[old])
        return
    for path in texts("crates", (".antt", ".rt")):
        text = open(path, encoding="utf-8").read()
        law = is_law_file(path)
        lines = []
        for line in text.split("\n"):
            lines.append(turn_line(line, turned, fields, path, law))
        new = "\n".join(lines)
        if new != text:
            open(path, "w", encoding="utf-8").write(new)


def turn_line(line, turned, fields, path, law):
    mark = "//" if path.endswith(".rt") else "--"
    at = re.search(r"(?:^|\s)" + mark, line)
    code, comment = (line[: at.start()], line[at.start() :]) if at else (line, "")

    def one(match):
        word = match[0]
        if word not in turned:
            return word
        behind = match.start() > 0 and code[match.start() - 1] == "."
        if behind and word not in fields and not re.search("[a-z][A-Z]", word):
            # behind a dot stands a field that Rattle makes, but for a module's item in the older spelling
            return word
        if path.endswith(".rt") and "-" in word and not behind:
            return word
        return turned[word]

    code = TOKEN.sub(one, code)
    # in a comment: names between accents, names that begin a list, and names that are no English words
    comment = re.sub(r"`[^`]*`", lambda m: re.sub(WORD.replace("]+", "`]+"), lambda w: turned.get(w[0], w[0]), m[0]), comment)
    head = re.match(r"(\s*--   )([^:]*)(:.*)$", comment)
    if head:
        comment = head[1] + re.sub(WORD.replace("]+", "`]+"), lambda w: turned.get(w[0], w[0]), head[2]) + head[3]
    comment = re.sub(r"(?<![\w-])[a-z]+[A-Z]\w*(?![\w-])", lambda w: turned.get(w[0], w[0]), comment)
    return code + comment


main()
