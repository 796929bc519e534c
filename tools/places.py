#!/usr/bin/env python3
"""Lists the places of src/ that a newer form of the language could replace.

Run at the top of the repository: `python3 tools/places.py [--list]`. It prints a count for each search,
and with --list each place as FILE:LINE. What a search finds is a candidate: docs/DESIGN-PASS.md says of each
whether it was changed or why it stays.
"""
import re
import sys
from pathlib import Path

FUNCTION = re.compile(r"^ *(?:pub(?:\([a-z]+\))? )?(?:const )?fn (\w+)")


def sources():
    for path in sorted(Path("crates").glob("*/src/**/*.rt")):
        yield path, path.read_text().split("\n")


def lines(pattern):
    """Each line that the pattern is found in, comments and contracts aside."""
    found = []
    for path, text in sources():
        for at, line in enumerate(text, 1):
            said = line.strip()
            if said.startswith("//") or said.startswith(("ensures", "requires", "ghost")):
                continue
            if re.search(pattern, line):
                found.append((path, at, said))
    return found


def signatures():
    """Each function's head in one line, up to its contract or body."""
    for path, text in sources():
        at = 0
        while at < len(text):
            if FUNCTION.match(text[at]):
                head, start = "", at
                while at < len(text):
                    line = text[at]
                    if at > start and re.match(r" *(ensures|requires|where|\{)", line):
                        break
                    head += " " + line.strip()
                    if line.rstrip().endswith(("{", ";", "{}")):
                        break
                    at += 1
                yield path, start + 1, head.strip()
            at += 1


def heads(test):
    return [(path, at, head) for path, at, head in signatures() if test(head)]


def parameters(head):
    inside = re.search(r"\bfn \w+(?:<[^(]*>)?\((.*?)\)(?: ->|$| where| \{|;| ensures)", head + " {")
    if not inside:
        return 0
    depth, count, said = 0, 0, ""
    for c in inside.group(1) + ",":
        if c in "<([":
            depth += 1
        if c in ">)]":
            depth -= 1
        if c == "," and depth == 0:
            count += bool(said.strip())
            said = ""
        else:
            said += c
    return count


def repeated_premises():
    """Each `requires` that three or more functions of one crate have."""
    where = {}
    for path, text in sources():
        for at, line in enumerate(text, 1):
            said = line.strip()
            if said.startswith("requires"):
                where.setdefault((path.parts[1], said), []).append((path, at, said))
    return [place for places in where.values() if len(places) >= 3 for place in places]


def returning_loops():
    """Each `for` whose body is a test that answers: a search by hand."""
    found = []
    for path, text in sources():
        for at, line in enumerate(text):
            if re.match(r" *for .* in .*\{$", line):
                depth = len(line) - len(line.lstrip())
                for later in text[at + 1:]:
                    if len(later) - len(later.lstrip()) <= depth and later.strip() == "}":
                        break
                    if re.match(r" *return\b", later):
                        found.append((path, at + 1, line.strip()))
                        break
    return found


SEARCHES = [
    ("1a own enums", lambda: lines(r"^(pub(\(crate\))? )?enum ")),
    ("1b a refusal handed out as an Option", lambda: heads(lambda h: "-> Option<Refusal>" in h)),
    ("1c a change that answers by a flag", lambda: heads(lambda h: "&mut self" in h and "-> bool" in h)),
    ("1d an Option or a Result taken apart by hand", lambda: lines(r"^ *(None|Err\(\w+\)|Err\(_\)) =>")),
    ("1e a test that only passes an answer on", lambda: lines(r"return (Some\(\w+\)|None|Err\(.*\));")),
    ("1f a number for a kind", lambda: lines(r"^ *\d+ => |\bx == [01]\b")),
    ("2 bodies that stand twice", lambda: twins()),
    ("3a a loop over numbers", lambda: lines(r"^ *for \w+ in .*\.\.")),
    ("3b a loop with a place beside the item", lambda: lines(r"^ *for .*enumerate\(\)")),
    ("3c a while", lambda: lines(r"^ *while ")),
    ("3d a search by a loop", returning_loops),
    ("3e a count or a sum by a loop", lambda: lines(r"^ *(count|latest|sum) (\+)?= ")),
    ("4a an order written by hand", lambda: lines(r"fn (precedes|is_below|is_lower)\b.*\{$")),
    ("4b an equality by fields", lambda: lines(r"(\w+)\.(\w+) == (\w+)\.\2\b")),
    ("4c a conversion", lambda: lines(r"^impl.* From<|fn (number|detail|letter|origin|form_of|route_kind)\b")),
    ("4d printing", lambda: heads(lambda h: re.search(r"fn (print_\w+|fmt)", h))),
    ("5a four or more parameters", lambda: heads(lambda h: parameters(h) >= 4)),
    ("5b a premise of three functions or more", repeated_premises),
    ("6a an array in a struct or a variable", lambda: lines(r"^ *(let mut )?\w+(: | = )\[.*; ")),
    ("6b a count beside a buffer", lambda: lines(r"^ *(count|len|step_count|beyond): (usize|bool),$")),
    ("6c a list of lists", lambda: lines(r"^ *(pub )?\w+: &?(mut )?Vec<(Option<)?Vec<")),
    ("6d a place reckoned by hand", lambda: lines(r"\[[^\]]*[*+][^\]]*\]|= \w+ \* \w+ \+ ")),
    ("7 a match that picks a function to run", lambda: lines(r"^ *\w+::\w+(\(\w+\)| \{.*\})? => (self\.)?\w+(::<.*>)?\(")),
]


def twins():
    """Each function whose body, with its names left out, is that of another; bodies of three lines or more."""
    shapes = {}
    for path, text in sources():
        at = 0
        while at < len(text):
            name = FUNCTION.match(text[at])
            if name and "test" not in text[at - 1]:
                depth = len(text[at]) - len(text[at].lstrip())
                start = at
                while at < len(text) and not (
                    text[at].rstrip() == " " * depth + "{"
                    or (at >= start and text[at].rstrip().endswith("{") and not re.match(r" *(ensures|requires)", text[at]))
                ):
                    at += 1
                body = []
                while at + 1 < len(text) and text[at + 1].rstrip() != " " * depth + "}":
                    at += 1
                    body.append(text[at].strip())
                shape = re.sub(r"\b(?!return|for|in|if|else|let|match|Some|None|Ok|Err|true|false|while)\w+\b", "_", "\n".join(body))
                shape = re.sub(r"(_::)?_(::_)*", "_", shape)
                if len(body) >= 3:
                    shapes.setdefault(shape, []).append((path, start + 1, name.group(1)))
            at += 1
    return [place for places in shapes.values() if len(places) >= 2 for place in places]


def main():
    for name, search in SEARCHES:
        found = search()
        print(f"{len(found):4}  {name}")
        if "--list" in sys.argv:
            for path, at, said in found:
                print(f"        {path}:{at}: {said[:100]}")


main()
