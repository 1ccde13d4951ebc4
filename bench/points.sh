#!/bin/sh
# Lists the points of two generated designs of half a million and a million points, makes their marks and finds each point by
# its visit: `bench/points.sh PROGRAM`. It prints the milliseconds after each of the three, and the resident memory of
# this run and of PROGRAM, which only elaborates the design. Run it from the top of the repository. It needs awk and GNU time.
set -e
source=$(mktemp)
trap 'rm -f "$source"' EXIT
log=$(cd crates/bench && rt run 2>&1) || { echo "$log"; exit 1; }
for instances in 3500 7000; do
  awk -v instances="$instances" 'BEGIN {
    print "module m(input clk, input [15:0] d);"
    for (i = 0; i < instances; i++) printf "  cell c%d(.clk(clk), .d(d));\n", i
    print "endmodule\nmodule cell(input clk, input [15:0] d);\n  reg [15:0] q;\n  reg [7:0] m [0:15];\n  always @(posedge clk) begin"
    for (i = 0; i < 16; i++) printf "    q[%d] <= d[%d] ^ q[%d];\n", i, i, (i + 1) % 16
    print "    m[d[3:0]] <= q[7:0];\n  end\nendmodule"
  }' > "$source"
  /usr/bin/time -f "%M kB" "$1" score -t m -i tb -v "$source" -vcd "$source" -o /dev/null || true
  /usr/bin/time -f "%M kB" crates/bench/out/bench points "$source" \
    | awk '{ print "listed after " $1 " ms, marks after " $2 " ms, found after " $3 " ms; sum " $4 }'
done
