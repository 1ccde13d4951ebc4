#!/bin/sh
# Times the terms of a body by a walk over their trees and by one pass over a list of operations made of them once:
#     bench/trees.sh [TERMS [ROUNDS]]
# Both are in Rust, with vectors and operators of the sizes of known_state. It needs rustc.
set -eu
cd "$(dirname "$0")/.."
scratch=$(mktemp -d)
trap 'rm -rf "$scratch"' EXIT
rustc -O -o "$scratch/trees" bench/trees.rs
"$scratch/trees" "$@"
