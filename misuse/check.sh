#!/usr/bin/env bash
# Tries each edit of this folder: it misuses a sheet in a test, and the check must refuse it with the compile error that
# the edit names, and no other. What does not compile cannot be a must-fail edit.
# An edit has the lines 'error: CODE', 'file: PATH', 'old: TEXT' (standing once in that file) and 'new: TEXT'.
# Needs rt on the PATH. The last line is 'N refused, M bad', and the status is 0 if none is bad.
set -u
cd "$(dirname "$0")/.." || exit
copy=$(mktemp -d)
trap 'rm -rf "$copy"' EXIT
tar --exclude=out -cf - crates crates.txt | tar -xf - -C "$copy"

# line_of NAME EDIT: what stands after 'NAME: ' in the edit.
line_of() {
    sed -n "s/^$1: //p" "$2"
}

# apply EDIT FILE: puts the edit's new text in the place of the old one.
apply() {
    local text old new
    old=$(line_of old "$1")
    new=$(line_of new "$1")
    [ -n "$old" ] && [ "$(grep -cF -- "$old" "$2")" = 1 ] || return 1
    text=$(cat "$copy/$2")
    printf '%s\n' "${text%%"$old"*}$new${text#*"$old"}" > "$copy/$2"
}

# errors FILE: the codes of the errors that a check of the file's crate prints, with its tests.
errors() {
    (cd "$copy/${1%%/src/*}" && rt check --test 2>&1) \
        | grep -E '\berror(\[|:)' | sort -u | grep -oE '\berror(\[[a-z0-9-]+\])?' || true
}

refused=0
bad=0
for edit in misuse/*.edit; do
    wanted="error[$(line_of error "$edit")]"
    file=$(line_of file "$edit")
    if apply "$edit" "$file"; then
        got=$(errors "$file")
    else
        got='the old text does not stand once in the file'
    fi
    if [ "$got" = "$wanted" ]; then
        echo "$edit: refused, $wanted"
        refused=$((refused + 1))
    else
        echo "$edit: bad, not $wanted, but: ${got:-no error}"
        bad=$((bad + 1))
    fi
    cp "$file" "$copy/$file"
done
echo "$refused refused, $bad bad"
[ "$bad" = 0 ]
