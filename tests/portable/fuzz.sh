#!/usr/bin/env bash
# fuzz.sh [ENTRY..]: libFuzzer over the C file with the address and undefined-behaviour sanitizers, one harness a function, each answer compared with the
# archive's. J8_SECONDS for each (600), J8_JOBS at once (the cores). Of what was found one input for each edge is written to tests/portable/corpus/ENTRY.calls,
# which the gate runs on every target.
set -u
cd "$(dirname "$0")/../.." || exit 1
folder=target/portable/fuzz
all=(string_read string_write lines_write upload json8_read json8_write json8_show tsv8_read sentence)
[ $# -gt 0 ] && all=("$@")
seconds=${J8_SECONDS:-600}
mkdir -p $folder

# The archive under other names, so that both stand in one program.
names=$(grep -oE '\bj8_[a-z0-9_]+ ?\(' include/j8.h | tr -d ' (' | sort -u)
for name in $names; do echo "$name archive_$name"; done >$folder/names
cp target/staticlib/libj8.a $folder/libarchive.a && objcopy --redefine-syms=$folder/names $folder/libarchive.a || exit 1
sanitized=(-std=c99 -O1 -g -fsanitize=address,undefined -fno-sanitize-recover=all -Iinclude)
clang "${sanitized[@]}" -fsanitize=fuzzer-no-link -c target/portable/j8.c -o $folder/j8.o || exit 1

# fuzz ENTRY: builds its harness, runs it over the corpus that it has, keeps of all inputs those that reach something, and packs them.
fuzz() {
  local name=$1 own=$folder/$1
  mkdir -p "$own/found" "$own/small"
  clang "${sanitized[@]}" -fsanitize=fuzzer -DENTRY="$name" tests/portable/fuzz.c $folder/j8.o $folder/libarchive.a -o "$own/fuzz" || return 1
  gcc -std=c99 -O1 -Iinclude -DPRINT -DENTRY="$name" tests/portable/fuzz.c -o "$own/print" || return 1
  "$own/fuzz" -max_total_time="$seconds" -max_len=2500 -dict=tests/portable/fuzz.dict -artifact_prefix="$own/" -print_final_stats=1 "$own/found" >"$own/log" 2>&1 || {
    tail -n 30 "$own/log"
    return 1
  }
  rm -rf "$own/small"
  mkdir "$own/small"
  "$own/fuzz" -merge=1 -use_counters=0 -max_len=2500 "$own/small" "$own/found" >"$own/merge.log" 2>&1 || return 1
  "$own/print" "$own/small"/* | LC_ALL=C sort -u >"tests/portable/corpus/$name.calls" || return 1
  echo "$name: $(sed -n 's/^stat::number_of_executed_units: *//p' "$own/log") runs in $seconds s, $(grep -oE 'cov: [0-9]+' "$own/log" | tail -n 1), corpus $(wc -l <"tests/portable/corpus/$name.calls")"
}

failed=0
for name in "${all[@]}"; do
  while [ "$(jobs -rp | wc -l)" -ge "${J8_JOBS:-$(nproc)}" ]; do
    wait -n || failed=1
  done
  fuzz "$name" &
done
while [ -n "$(jobs -rp)" ]; do
  wait -n || failed=1
done
exit $failed
