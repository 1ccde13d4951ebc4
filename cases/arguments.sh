#!/usr/bin/env bash
# An argument that is not UTF-8 ends the program with status 5, and nothing is written: ./arguments.sh PROGRAM
set -euo pipefail
written=$("$1" score $'\377' 2>&1) && status=0 || status=$?
if [ "$status" != 5 ] || [ -n "$written" ]; then
  echo "arguments that are not UTF-8: status $status, and '$written' was written"
  exit 1
fi
