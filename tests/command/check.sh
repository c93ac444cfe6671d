#!/usr/bin/env bash
# check.sh COMMAND [--write]: every subcommand on every sample, held to expected/, and then what tries to break it, in the scripts beside this one.
# --write writes expected/ anew: read what changed before it is committed.
set -u
command=$(realpath "$1") || exit 1
cd "$(dirname "$0")/../.." || exit 1
here=tests/command
scratch=$(mktemp -d) || exit 1
trap 'rm -rf "$scratch"' EXIT
status=0

fail() {
  echo "command: $1"
  status=1
}

# transcript WORDS..: the command line, standard output, standard error behind a line of its own, and the status. Of an output 30 lines are shown,
# of a line 1,100 bytes, and a NUL as a mark.
transcript() {
  local ended
  echo "\$ j8 $*"
  "$command" "$@" 2>"$scratch/error" >"$scratch/output"
  ended=$?
  sed 's/\x00/␀/g' "$scratch/output" | cut -b 1-1100 | head -n 30
  echo "-- standard error"
  cat "$scratch/error"
  echo "-- status $ended"
}

# held NAME: standard input is what expected/NAME has. It ends a pipe, and so in a shell of its own: whoever calls it fails.
held() {
  if [ "${write:-}" = yes ]; then
    cat >"$here/expected/$1"
  else
    diff "$here/expected/$1" -
  fi
}

[ "${2:-}" != --write ] || write=yes

# Every subcommand on every sample.
for sample in samples/*; do
  case $sample in *.sh | *.expected) continue ;; esac
  for words in lines quote "quote --lines" "quote -0" unquote "unquote --lines" "unquote -0" json8 strings tsv8; do
    transcript $words "$sample"
  done | held "${sample#samples/}" || fail "expected/${sample#samples/} differs"
done

# Each log, cell by cell, or where it is refused.
for sample in samples/*.tsv8; do
  transcript tsv8 "$sample"
done | held tsv8 || fail "expected/tsv8 differs"

# How a backup is cut makes no difference, nor whether it comes from a file or through a pipe that hands over what is there.
for sample in samples/*.j8l; do
  "$command" lines "$sample" >"$scratch/whole" 2>&1
  for size in 1 7 4096; do
    "$command" lines --pieces $size "$sample" 2>&1 | cmp -s "$scratch/whole" - || fail "$sample in pieces of $size differs"
    (while IFS= read -r line || [ -n "$line" ]; do printf '%s\n' "$line"; done <"$sample" | head -c "$(stat -c %s "$sample")") \
      | "$command" lines --pieces=$size 2>&1 | cmp -s "$scratch/whole" - || fail "$sample through a pipe in pieces of $size differs"
  done
done

# What no sample shows: help, wrong words, files that can't be read, an output that can't be written, the limits.
{
  transcript
  transcript help
  for word in lines quote unquote json8 strings tsv8; do
    transcript help $word
  done
  transcript records samples/folders.j8l
  transcript help records
  transcript lines --colour samples/folders.j8l
  transcript lines samples/folders.j8l samples/crlf.j8l
  transcript lines --pieces 0 samples/folders.j8l
  transcript json8 ""
  transcript json8 "$(printf %04096d 0)" | cut -b 1-80
  transcript json8 samples/none.json8
  transcript json8 --json samples/none.json8
  transcript json8 samples
  transcript lines samples
  transcript quote - <samples/name.bin
  transcript quote --line samples/name.bin
} | held words || fail "expected/words differs"
{
  yes a | head -c 1048577 | transcript lines | tail -n 3
  head -c 32767 /dev/zero | tr '\0' a | transcript quote
  head -c 1023 /dev/zero | tr '\0' a | transcript quote --lines
  printf '"two\\nlines"\n' | transcript unquote --lines
  printf '"two\\u0000ends"\n' | transcript unquote -0
  # An unquoted key of one letter and its colon double.
  { printf '[{'; for i in $(seq 1 500); do printf 'a:1,'; done; printf "'"; head -c 30000 /dev/zero | tr '\0' '"'; printf "':1}]"; } | transcript json8
} | held limits || fail "expected/limits differs"
for words in "lines samples/folders.j8l" "quote samples/name.bin" "unquote samples/name.j8" "json8 samples/settings.json8" "strings samples/settings.json8" "tsv8 samples/counters.tsv8" help; do
  echo "\$ j8 $words >/dev/full"
  "$command" $words 2>&1 >/dev/full
  echo "-- status $?"
done | held full || fail "expected/full differs"

# The others look for more than a sample can show.
for part in arguments files terminal names edges sentences; do
  [ "${write:-}" = yes ] || python3 "$here/$part.py" "$command" || fail "$part"
done

[ "$status" -ne 0 ] || echo "command: $(ls $here/expected | wc -l) files of expected output hold"
exit "$status"
