#!/bin/sh
# Reports a generated database of a million points, in one instance and in a thousand instances of one module, and
# prints the seconds. Run it as `bench/report.sh PROGRAM`. It needs awk.
set -e
program=$(realpath "$1")
folder=$(mktemp -d)
trap 'rm -rf "$folder"' EXIT
cd "$folder"
for instances in 1 1000; do
  awk -v instances="$instances" 'BEGIN {
    print "covered-db 1\ntop m\nsource 1 m.v\ninstance m m"
    for (j = 1; j <= instances; j++) printf "instance m.u%04d sub\n", j
    print "points 1000000"
    for (j = 1; j <= instances; j++)
      for (i = 0; i < 500000 / instances; i++) {
        printf "t m.u%04d data %d 01 = hit\n", j, i
        printf "t m.u%04d data %d 10 = ? %d m.c\n", j, i, i
      }
    print "end"
  }' > points.db
  for options in "-d s" "-d v" "-d v -i"; do
    start=$(date +%s.%N)
    # shellcheck disable=SC2086
    "$program" report $options -o report.txt points.db
    end=$(date +%s.%N)
    echo "$instances instances, report $options: $(awk -v a="$start" -v b="$end" 'BEGIN { printf "%.2f", b - a }') s"
  done
done
