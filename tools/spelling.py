#!/usr/bin/env python3
"""Brings the repository's own names of definitions, facts and lemmas to one spelling: words in snake case, types, records and facts in
upper camel case. Run at the top of the repository, after /opt/rattle/port/port.py. Running it again changes nothing.

A name is the repository's own if a file of specs/ or a lemma file of proofs/ declares or binds it and no import brings it from a library.
Names of functions in src/ have no dashes; names that the check makes for goals (they stand only in proofs/FUNCTION/) keep theirs."""
import glob
import os
import re
import sys

WORD = r"(?<![\w'\-≢≡≤<>])[A-Za-z][A-Za-z0-9_']*(?:-[A-Za-z0-9_']+)+(?![\w'\-≢≡≤])"
DASHED = re.compile(WORD)
# Not behind a point: a field of a record that the check makes is only ever read, and so is none of the repository's names.
DECLARABLE = re.compile(r"(?<!\.)" + WORD)
# Names whose plain respelling would fall on another name, or would keep a word that is no longer used.
CHOSEN = {"slice_get-push": "slice_get_before_push", "no-hop": "legs_no_hop", "getD-map-past": "get_or_map_past"}
FACT = re.compile(r"^\s*(?:(?:abbrev|unfoldable|opaque|pub)\s+)*(?:record|data)\s+([A-Za-z][\w'\-]*)", re.M)


def read(path):
    with open(path, encoding="utf8") as f:
        return f.read()


def files(*patterns):
    return sorted(p for pattern in patterns for p in glob.glob(pattern, recursive=True) if "/out/" not in p)


def without_comments(text):
    return "\n".join(line.split("--", 1)[0] for line in text.split("\n"))


def imported(text, crates):
    """The names that `use` lines bring from libraries."""
    names = set()
    for path, inner in re.findall(r"^\s*(?:ghost )?(?:pub )?use ([^\s{]+)\.\{([^}]*)\}", text, re.M):
        head = path.split(".")
        own = head[0] == "Rattle" and len(head) > 1 and head[1] in crates
        if not own and not path.startswith("super"):
            names |= {n.strip().split(" as ")[0] for n in inner.split(",")}
    return names


def camel(name):
    return "".join(part[:1].upper() + part[1:] for part in re.split(r"[-_]", name))


def signature(name, text):
    """The type that a text declares for the name, or none."""
    found = re.search(rf"^([ ]*)(?:(?:abbrev|unfoldable|opaque|pub)\s+)*{re.escape(name)} : (.*(?:\n\1[ ]+.*)*)", text, re.M)
    return found[2] if found else ""


def result_of(kind):
    """What stands after the last arrow outside of brackets."""
    depth, start = 0, 0
    for i, c in enumerate(kind):
        depth += (c in "({[") - (c in ")}]")
        if c == "→" and depth == 0:
            start = i + 1
    return kind[start:].strip()


def is_type(name, text):
    """Whether a text declares the name as a record, a data type, or a definition whose values are types."""
    return name in FACT.findall(text) or result_of(signature(name, text)).startswith("Type ")


def own_names():
    crates = set(os.listdir("crates"))
    lemma_files = files("crates/*/specs/**/*.antt", "crates/*/proofs/*.antt")
    texts = {p: without_comments(read(p)) for p in lemma_files}
    foreign = set().union(*(imported(t, crates) for t in texts.values()))
    foreign |= set().union(*(imported(without_comments(read(p)), crates) for p in files("crates/*/proofs/*/**/*.antt")))
    words = {}
    for text in texts.values():
        for word in DECLARABLE.findall(text):
            if word not in foreign:
                words[word] = words.get(word, False) or is_type(word, text)
    return {w: CHOSEN.get(w) or (camel(w) if kind else snake(w)) for w, kind in words.items()}


def snake(name):
    """Parts joined by `_`; a part that names a type becomes a word."""
    parts = [re.sub(r"(?<=[a-z0-9])([A-Z])", r"_\1", p).lower() if p[:1].isupper() else p for p in name.split("-")]
    return "_".join(parts)


def check_apart(names):
    """No two names fall together, and none falls on a name that stands already."""
    seen = {}
    for old, new in names.items():
        seen.setdefault(new, []).append(old)
    clash = [f"{' and '.join(olds)} would both be {new}" for new, olds in seen.items() if len(olds) > 1]
    text = "\n".join(without_comments(read(p)) for p in files("crates/*/specs/**/*.antt", "crates/*/proofs/*.antt"))
    declared = set(re.findall(r"^\s*(?:(?:abbrev|unfoldable|opaque|pub|record|data)\s+)*([A-Za-z][\w']*)\s*:", text, re.M))
    clash += [f"{old} would fall on {new}" for old, new in names.items() if new in declared]
    return clash


def respell(text, names):
    return DASHED.sub(lambda m: names.get(m[0], m[0]), text)


def respell_spec(text, names):
    return "\n".join(respell(code, names) + sep + rest for code, sep, rest in (line.partition("--") for line in text.split("\n")))


def respell_source(text, names):
    """In Rattle sources strings and comments keep their words."""
    parts = re.split(r'(//[^\n]*|b?"(?:\\.|[^"\\])*")', text)
    return "".join(p if i % 2 else respell(p, names) for i, p in enumerate(parts))


def respell_page(text, names):
    return re.sub(r"`[^`\n]*`", lambda m: respell(m[0], names), text)


def main():
    if not os.path.isdir("crates"):
        sys.exit("spelling.py: run at the top of the repository")
    names = own_names()
    clash = check_apart(names)
    for line in clash:
        print("clash:", line)
    if "--list" in sys.argv:
        for old, new in sorted(names.items()):
            print(old, new)
        return
    if clash and "--anyway" not in sys.argv:
        sys.exit("spelling.py: nothing written")
    changed = 0
    for paths, turn in (
        (files("crates/*/specs/**/*.antt", "crates/*/proofs/**/*.antt"), respell_spec),
        (files("crates/*/src/**/*.rt"), respell_source),
        (files("crates/*/must-fail/*.edit"), respell),
        (files("README.md", "docs/*.md"), respell_page),
    ):
        for path in paths:
            old = read(path)
            new = turn(old, names)
            if new != old:
                changed += 1
                with open(path, "w", encoding="utf8") as f:
                    f.write(new)
    print(f"spelling.py: {len(names)} names, {changed} files changed")


if __name__ == "__main__":
    main()
