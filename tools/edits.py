#!/usr/bin/env python3
"""Says which must-fail edits can no longer be applied.

Run at the top of the repository: `python3 tools/edits.py`. For each crates/*/must-fail/*.edit, which the gate tries,
and each crates/*/planted/*.edit, which `tools/planted.sh` tries, the pairs of old and new text are applied in
order, in memory, and each pair whose old text does not stand exactly once in its file is named. The status is 1
where there is one. Nothing is checked of what the crate proves then.
"""
import sys
from pathlib import Path

KEYS = ("file", "old", "new")


def pairs(text):
    """The pairs of an edit: file, old text and new text; the file of the pair before stands where none is named."""
    said = {}
    for line in text.splitlines():
        if not line.strip():
            continue
        key, colon, value = line.partition(":")
        if not colon or key not in KEYS:
            raise ValueError(f"not a line of an edit: {line}")
        said[key] = value.removeprefix(" ")
        if key == "new":
            if "file" not in said or "old" not in said:
                raise ValueError(f"no file or old text before: {line}")
            yield said["file"], said.pop("old"), said.pop("new")
    if "old" in said:
        raise ValueError(f"no new text for: {said['old']}")


def faults(edit):
    """What keeps an edit from being applied."""
    crate = edit.parent.parent
    files, count = {}, 0
    try:
        for file, old, new in pairs(edit.read_text()):
            count += 1
            path = crate / file
            if file not in files:
                if not path.is_file():
                    yield f"no file {file}"
                    return
                files[file] = path.read_text()
            times = files[file].count(old)
            if times != 1:
                yield f"stands {times} times in {file}: {old}"
            elif old == new:
                yield f"changes nothing in {file}: {old}"
            files[file] = files[file].replace(old, new)
    except ValueError as fault:
        yield str(fault)
        return
    if count == 0:
        yield "has no pair"


def main():
    edits = sorted(edit for folder in ("must-fail", "planted") for edit in Path("crates").glob(f"*/{folder}/*.edit"))
    found = [(edit, fault) for edit in edits for fault in faults(edit)]
    for edit, fault in found:
        print(f"{edit}: {fault}")
    print(f"{len(edits)} edits, {len({edit for edit, _ in found})} cannot be applied")
    return 1 if found else 0


if __name__ == "__main__":
    sys.exit(main())
