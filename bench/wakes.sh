#!/bin/sh
# Takes steps of six generated designs, of 10, 1,000 and 65,000 registers of a clock that stays beside one register of a
# clock that rises, and beside one of a clock that is divided from it: `bench/wakes.sh BENCH [STEPS]`. It prints for each of
# ten runs of each design its kind, its idle registers and the figures of `bench wakes`, and then the least nanoseconds a step
# of the ten, and their ratio to those of the smallest design. It needs awk.
set -e
bench=$1
steps=${2:-20000}
source=$(mktemp)
runs=$(mktemp)
trap 'rm -f "$source" "$runs"' EXIT
for kind in plain divided; do for idle in 10 1000 65000; do
  awk -v idle="$idle" -v kind="$kind" 'BEGIN {
    print "module m(input clk, input slow, input d, output reg p);"
    if (kind == "plain") print "  always @(posedge clk) p <= d;"
    else print "  reg h;\n  always @(posedge clk) h <= ~h;\n  always @(posedge h) p <= d;"
    for (i = 0; i < idle; i++) printf "  reg q%d;\n  always @(posedge slow) q%d <= d;\n", i, i
    print "endmodule"
  }' > "$source"
  for run in 1 2 3 4 5 6 7 8 9 10; do
    "$bench" wakes "$source" "$steps" | sed "s/^/$kind $idle /" | tee -a "$runs"
  done
done; done
awk -v steps="$steps" '{
    time = $3 / steps
    name = $1 ", " $2
    if (!(name in least)) { order[++count] = name; first[name] = $1 ", 10"; least[name] = time }
    if (time < least[name]) least[name] = time
  }
  END {
    for (i = 1; i <= count; i++) {
      name = order[i]
      printf "%s idle registers: %.0f ns a step, ratio %.2f\n", name, least[name], least[name] / least[first[name]]
    }
  }' "$runs"
