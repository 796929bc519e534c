#!/usr/bin/env bash
# Runs the built program on each script of examples/, and compares what it prints with the comment at the script's head,
# where each line of it follows '#' and five spaces.
# Build it first: (cd crates/tuvshorad && rt run < stdin)
set -u
cd "$(dirname "$0")/.."
program=crates/tuvshorad/out/tuvshorad
failed=0
for script in examples/*.script; do
    wanted=$(sed -n 's/^#     //p' "$script")
    got=$("$program" < "$script")
    status=$?
    if [ "$status" = 0 ] && [ "$got" = "$wanted" ]; then
        echo "$script: ok"
    else
        echo "$script: status $status, printed: ${got:0:200}"
        failed=1
    fi
done
exit $failed
