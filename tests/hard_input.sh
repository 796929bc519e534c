#!/usr/bin/env bash
# Runs the built program on input that is hard to read, or as large as can be, and compares what it prints.
# Build it first: (cd crates/tuvshorad && rt run < stdin)
set -u
cd "$(dirname "$0")/.."
program=crates/tuvshorad/out/tuvshorad
failed=0

# expect NAME EXPECTED: the program, on standard input, prints EXPECTED and ends with status 0. It also says how long
# the program took.
expect() {
    local input got status began
    input=$(mktemp)
    cat > "$input"
    began=$(date +%s%N)
    got=$("$program" < "$input")
    status=$?
    local took=$((($(date +%s%N) - began) / 1000000))
    rm -f "$input"
    if [ "$status" = 0 ] && [ "$got" = "$2" ]; then
        echo "$1: ok, in $took ms"
    else
        echo "$1: status $status, printed: ${got:0:200}"
        failed=1
    fi
}

setting=$'task 1\nmachine 1\nroutes written\n'
made='job of 1 tasks and 0 edges, network of 1 stations and 0 links, routes as written'
nines=$(printf '9%.0s' $(seq 100))
zeros=$(printf '0%.0s' $(seq 100))

printf '' | expect 'no input' 'job refused 1 0'
printf '\377\376\000\n' | expect 'unreadable bytes' 'line 1 not understood'
printf '%stask \377' "$setting" | expect 'unreadable bytes after the setting' 'line 4 not understood'
printf '#\377\000\n%s' "$setting" | expect 'unreadable bytes in a comment' "$made"
printf 'task %s\n' "$nines" | expect 'a number of a hundred digits' 'line 1 not understood'
printf 'task %s1\nmachine 1\nroutes written\n' "$zeros" | expect 'a hundred zeros and a one' "$made"
(printf 'task '; head -c 1000000 /dev/zero | tr '\0' 7) | expect 'a word of a megabyte' 'line 1 not understood'
(printf '%s' "$setting"; printf '#'; head -c 1000000 /dev/zero | tr '\0' x) | expect 'a comment of a megabyte' "$made"
(printf '%sroute 0 0' "$setting"; yes ' 0 0' | head -n 250000 | tr -d '\n') | expect 'a route of 250000 hops' 'routes refused 9 0'
yes 'task 1' | head -n 1000000 | expect 'a million tasks' 'job refused 1 1000000'
(printf '%s' "$setting"; yes 'answer' | head -n 1000000; printf 'mark\n') | expect 'a million lines' "$made
lawful placed 0 of 1 length 0"

# 16 stations and 32 links, of speeds 1 to 32, each joining all stations. A file of 32 goes from station 0 to 15: by hops
# over the lowest link, in 32 ticks; by slowness over the fastest, in one.
largest() {
    printf 'task 1\ntask 1\nedge 0 1 32\n'
    for _ in $(seq 16); do echo 'machine 1'; done
    for speed in $(seq 32); do echo "link $speed $(seq -s ' ' 0 15)"; done
    printf 'routes %s\nrow 0 0 0\nstarts 0 1\nrow 1 15 %s\nmark\n' "$1" "$2"
}
made='job of 2 tasks and 1 edges, network of 16 stations and 32 links, routes by'
largest hops 33 | expect 'the largest network, by hops' "$made hops
lawful placed 2 of 2 length 34"
largest slowness 2 | expect 'the largest network, by slowness' "$made slowness
lawful placed 2 of 2 length 3"
exit $failed
