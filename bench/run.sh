#!/usr/bin/env bash
# Compares the proved library with an independent implementation of the documents, on random scripts and in speed.
# bench/run.sh [SEED [COUNT]]: so many scripts, made from this seed.
set -euo pipefail
cd "$(dirname "$0")"
RATTLE_KIT=$(dirname "$(dirname "$(readlink -f "$(command -v rt)")")")
TUVSHORAD_LIBRARY=$(realpath ..)/crates/exports/out
export RATTLE_KIT TUVSHORAD_LIBRARY
said=$(cd ../crates/exports && rt lib 2>&1) || {
    echo "$said" >&2
    exit 1
}
cargo run --release --quiet -- "${1:-1}" "${2:-20000}"
