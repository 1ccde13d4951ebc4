#!/usr/bin/env bash
# The lines of designs that differ are written whole, also where a name in them is no UTF-8: ./bytes.sh PROGRAM
set -euo pipefail
program=$(realpath "$1")
folder=$(mktemp -d)
trap 'rm -rf "$folder"' EXIT
cd "$folder"
printf 'covered-db 1\ntop m\nsource 1 a\xff.v\ninstance m m\npoints 0\nend\n' > a.db
printf 'covered-db 1\ntop m\nsource 1 b\xfe.v\ninstance m m\npoints 0\nend\n' > b.db
printf 'covered: database: b.db: 4 DesignsDiffer 3\n< source 1 a\xff.v\n> source 1 b\xfe.v\n' > wanted
"$program" merge -o m.db a.db b.db > printed 2> warned && status=0 || status=$?
if [ "$status" != 7 ] || [ -s printed ] || ! cmp -s warned wanted; then
  echo "names that are not UTF-8: status $status"
  exit 1
fi
