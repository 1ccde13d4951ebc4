#!/bin/sh
# Writes the tracefile of cells.db and makes its pages with genhtml (Debian package lcov), without a warning and with
# the totals of the file. Run it in this folder: COVERED=PROGRAM sh pages.sh
set -eu
"${COVERED:-covered}" lcov -o cells.info cells.db
genhtml --branch-coverage --output-directory pages cells.info > pages.log 2>&1
cat pages.log
if grep -i -E 'warning|error' pages.log; then
  echo 'pages.sh: genhtml warned' >&2
  exit 1
fi
sum() { awk -F: -v key="$1" '$1 == key { sum += $2 } END { print sum + 0 }' cells.info; }
for total in "lines LH LF" "branches BRH BRF"; do
  set -- $total
  if ! grep -q "^  $1\.*: .*($(sum "$2") of $(sum "$3") $1)" pages.log; then
    echo "pages.sh: the $1 of the pages are not those of the file" >&2
    exit 1
  fi
done
