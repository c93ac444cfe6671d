#!/usr/bin/env bash
# demo.sh COMMAND: walks through the samples with the command j8, and says what each shows.
set -u
command=$(realpath "$1") || exit 1
cd "$(dirname "$0")/.." || exit 1

# What a run prints, and its status where that isn't 0.
j8() {
  echo "\$ j8 $*"
  "$command" "$@" 2>&1 || echo "status $?"
  echo
}

echo "A folder name is bytes. Latin-1 bytes come back as they were, byte for byte:"
j8 quote samples/name.bin
echo "\$ j8 quote samples/name.bin | j8 unquote | cmp - samples/name.bin"
"$command" quote samples/name.bin | "$command" unquote | cmp - samples/name.bin && echo "the same"
echo
echo "Junk behind a closing quote is never taken as part of a name:"
j8 unquote samples/name-junk.j8
echo "A backup of folder names, with a blank line and odd bytes; each name with its line:"
j8 lines samples/folders.j8l
echo "How it arrives makes no difference:"
for size in 1 7 4096; do
  if [ "$("$command" lines --pieces $size samples/folders.j8l 2>&1)" = "$("$command" lines samples/folders.j8l 2>&1)" ]; then
    echo "  in pieces of $size: the same"
  else
    echo "  in pieces of $size: DIFFERENT"
  fi
done
echo
echo "CR LF at the line ends, blanks around a name:"
j8 lines samples/crlf.j8l
echo "The old export put a replacement mark where it met a byte that it didn't know; beside it the true name:"
j8 lines samples/old-export.j8l
echo "A backup of plain names, one a line, and of names that a NUL ends, as find -print0 has them:"
j8 quote --lines samples/names.txt
j8 quote -0 samples/names.nul
echo "\$ j8 quote -0 samples/names.nul | j8 unquote -0 | cmp - samples/names.nul"
"$command" quote -0 samples/names.nul | "$command" unquote -0 | cmp - samples/names.nul && echo "the same"
echo
echo "A name of two lines can't be told from two names, where each ends at its line:"
j8 unquote --lines samples/two-lines.j8l
echo "A byte order mark, as an editor may put it, makes a bare name of a quoted one:"
j8 lines samples/bom.j8l
echo "Bytes that aren't UTF-8 are refused where they stand, and the refusal says what is wrong with them; the good lines before them are kept."
echo "Latin-1:"
j8 lines samples/latin1.j8l
echo "UTF-16, as an editor may save it:"
j8 lines samples/utf16.j8l
echo "An upload that was cut off inside a character:"
j8 lines samples/cut-character.j8l
echo "A slash in two bytes, which a check of paths may not see and a careless reader takes as a slash:"
j8 lines samples/overlong-slash.j8l
echo "CESU-8, which writes a character above ffff as two halves:"
j8 json8 samples/cesu8.json8
echo "Junk behind a closing quote, in a backup:"
j8 lines samples/junk-after-quote.j8l
echo "A backup that was cut off:"
j8 lines samples/cut-off.j8l
echo "A line that is too long:"
j8 lines samples/long-line.j8l
echo "A settings backup with comments, trailing commas and unquoted keys, in its one written form:"
j8 json8 samples/settings.json8
echo "Its strings, each with its node:"
j8 strings samples/settings.json8
echo "\$ j8 json8 samples/settings.json8 | j8 json8 -"
if [ "$("$command" json8 samples/settings.json8 | "$command" json8 - 2>&1)" = "$("$command" json8 samples/settings.json8 2>&1)" ]; then
  echo "the same form again"
else
  echo "DIFFERENT"
fi
echo
echo "Settings that are refused: a comma that is missing, a bracket of the other kind, a number that JSON doesn't have, Latin-1 bytes, cut off, too deep, too long, empty:"
for sample in missing-comma other-bracket bad-number latin1 cut-off too-deep too-long; do
  j8 json8 samples/$sample.json8
done
j8 json8 samples/empty
echo "The same for a program:"
j8 json8 --json samples/missing-comma.json8
echo "A script sees by the status whether a backup can be restored, whatever went wrong:"
for backup in samples/settings.json8 samples/cut-off.json8 samples/none.json8 ""; do
  echo "\$ if j8 json8 '$backup' >checked.json8; then echo restored; else echo not restored; fi"
  if "$command" json8 "$backup" 2>&1 >/dev/null; then echo restored; else echo "not restored"; fi
done
echo
echo "A counter log as the printer writes it, cell by cell: its row, the name of its column, its value:"
j8 tsv8 samples/counters.tsv8
echo "The same after a spreadsheet had it: CR LF at the line ends, quotes gone where none are needed, a line of units:"
j8 tsv8 samples/spreadsheet.tsv8
echo "Logs that are refused: a tab inside quotes makes a cell too many, words in a column of numbers, quotes doubled as a spreadsheet does:"
for sample in cell-too-many wrong-type doubled-quotes; do
  j8 tsv8 samples/$sample.tsv8
done
