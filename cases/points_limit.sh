#!/bin/sh
# The limit of points: 4,096 inputs of 128 bits have 1,048,576 points, which is the most, and one input more has too many.
#     cases/points_limit.sh PROGRAM
set -eu
program=$(realpath "$1")
folder=$(mktemp -d)
trap 'rm -rf "$folder"' EXIT
cd "$folder"
printf '$enddefinitions $end\n#0\n' > none.vcd

# a module of this many inputs of 128 bits, and of further ones
inputs() {
  awk -v count="$1" -v more="$2" 'BEGIN {
    printf "module wide(input [127:0] i0"
    for (number = 1; number < count; number++) printf ", input [127:0] i%d", number
    printf "%s);\nendmodule\n", more
  }'
}

# the program ends with this status and this line
ends() {
  status=0
  "$program" score -t wide -i tb.dut -v "$1" -vcd none.vcd -o wide.db > printed 2> warned || status=$?
  if [ "$status" != "$2" ] || [ "$(cat warned)" != "$3" ] || [ -s printed ] || [ -e wide.db ]; then
    echo "points_limit: $1: ended with $status: $(cat warned)" >&2
    exit 1
  fi
}

inputs 4096 '' > most.v
inputs 4096 ', input one' > more.v
ends most.v 3 'covered: dump: bind 1 NoInstance tb.dut'
ends more.v 2 'covered: source: points 3 TooManyPoints'
echo 'points_limit: 2 passed'
