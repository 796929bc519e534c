#!/usr/bin/env bash
# Tries the edits in crates/NAME/planted/, which the gate leaves out for their time: tools/planted.sh NAME..
# They are tried as the gate tries those in must-fail/, on a copy of the checkout: the check must refuse each.
set -euo pipefail
cd "$(dirname "$0")/.."
if [ $# -eq 0 ]; then
    echo "usage: tools/planted.sh NAME.." >&2
    exit 2
fi
copy=$(mktemp -d)
trap 'rm -rf "$copy"' EXIT
cp -r . "$copy/checkout"
cd "$copy/checkout"
for name in "$@"; do
    rm -f "crates/$name"/must-fail/*.edit
    mkdir -p "crates/$name/must-fail"
    cp "crates/$name"/planted/*.edit "crates/$name/must-fail/"
done
rt must-fail "$@"
