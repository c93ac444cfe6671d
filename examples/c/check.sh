#!/usr/bin/env bash
# check.sh FOLDER [COMMAND..]: runs the examples that were built into FOLDER on the inputs beside this script and on samples/settings.json8, under
# COMMAND if there is one, and compares what they print with the files *.expected, and their status with the one asked for.
set -u
folder=$(cd "$1" && pwd) || exit 1
shift
cd "$(dirname "$0")" || exit 1

# try STATUS SAMPLE PROGRAM [ARGUMENT]
try() {
  local asked=$1 sample=$2 program=$3 status
  shift 3
  "${under[@]}" "$folder/$program" "$@" <"$sample" | diff "$(basename "$sample").expected" -
  status=("${PIPESTATUS[@]}")
  [ "${status[1]}" -eq 0 ] && [ "${status[0]}" -eq "$asked" ] && return
  echo "$program $* <$sample: status ${status[0]}, and $asked is asked for; what it printed is compared above"
  exit 1
}

under=("$@")
for bytes in 1 7 1460 65536; do
  try 0 folders.j8l upload "$bytes"
  try 1 damaged.j8l upload "$bytes"
done
try 0 ../../samples/settings.json8 restore
try 1 damaged.json8 restore
try 1 unfit.json8 restore
echo "the examples print what they should"
