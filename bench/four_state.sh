#!/bin/sh
# Times the operators of four_state at 8, 64 and 128 bits against the same on plain u128 in Rust:
#     bench/four_state.sh [ROUNDS]
# Each line has the operator, the width, the nanoseconds that one operation takes in four_state and in Rust, and the
# ratio. Both loops make the same pairs of numbers; the Rust one knows no x or z. It needs rt and rustc.
set -euf
cd "$(dirname "$0")/.."
rounds=${1:-10000000}
scratch=$(mktemp -d)
trap 'rm -rf "$scratch"' EXIT
(cd crates/bench && rt run > "$scratch/build.log" 2>&1) || { cat "$scratch/build.log"; exit 1; }
rustc -O -o "$scratch/plain" bench/four_state.rs
for width in 8 64 128; do
  for operator in + - '*' / '&' '^' '<<' '>>' '<' == === '&&'; do
    echo "$operator $width $(crates/bench/out/bench operators "$operator" "$width" "$rounds")"
  done
done > "$scratch/ours"
"$scratch/plain" "$rounds" > "$scratch/theirs"
paste -d ' ' "$scratch/ours" "$scratch/theirs" | awk -v rounds="$rounds" '
    BEGIN { printf "%-4s %5s %12s %12s %7s\n", "", "width", "four_state", "u128", "ratio" }
    { printf "%-4s %5d %9.2f ns %9.2f ns %7.2f\n", $1, $2, $3 / rounds, $9 / rounds, $3 / ($9 > 0 ? $9 : 1) }'
