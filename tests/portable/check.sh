#!/usr/bin/env bash
# check.sh PART..: tests of the C file, target/portable/j8.c, which `make portable` writes; the archive beside it must be built too. Parts: stops, warnings,
# host, checked, sanitizers, others (aarch64, arm, mips under qemu-user), stack, rust; rarer (riscv64, ppc, s390x), rarer_stack, cortex (a Cortex-M3).
# What each build must answer: the C programs of tests/c pass, every vector is answered as it says, and calls by chance and those that fuzzing found are
# answered as the archive answers them, every lent byte compared. J8_JOBS: how many builds at once
# (the cores).
set -u
cd "$(dirname "$0")/../.." || exit 1
made=target/portable
source=$made/j8.c
programs=(strings upload drain json8 json8_write tsv8 sentences)
strict=(-Wall -Wextra -Werror -pedantic)

fail() {
  echo "portable: $1"
  exit 1
}

# The calls, and what the archive answers.
prepare() {
  local one
  mkdir -p $made
  [ -f $source ] && [ -f target/staticlib/libj8.a ] || fail "run make portable archive"
  python3 tests/portable/calls.py vectors >$made/vectors.calls && python3 tests/portable/calls.py expected >$made/vectors.expected || fail "calls.py"
  { python3 tests/portable/calls.py random 1 20000 && cat tests/portable/corpus/*.calls; } >$made/other.calls || fail "calls.py"
  python3 tests/portable/calls.py wide 1 5000 >$made/wide.calls || fail "calls.py"
  gcc -std=c99 -O2 "${strict[@]}" -Iinclude tests/portable/calls.c target/staticlib/libj8.a -o $made/calls_archive || fail "calls.c with the archive"
  for one in vectors other wide; do
    $made/calls_archive <$made/$one.calls >$made/$one.answers || fail "the archive's answers"
  done
}

# try NAME RUNNER COMPILER OPTION..: builds the C file and every program, and runs them; RUNNER is what runs a program, or nothing. OWN: options of the C
# file alone.
try() {
  local name=$1 runner=$2 folder=$made/$1 start=$SECONDS one bits asked
  shift 2
  rm -rf "$folder"
  mkdir -p "$folder"
  "$@" -std=c99 "${strict[@]}" -Iinclude ${OWN:-} -c $source -o "$folder/j8.o" || return 1
  for one in "${programs[@]}"; do
    "$@" -std=c99 "${strict[@]}" -Iinclude "tests/c/$one.c" "$folder/j8.o" -o "$folder/$one" || return 1
    $runner "$folder/$one" >"$folder/$one.out" 2>&1 || { tail -n 5 "$folder/$one.out"; return 1; }
  done
  "$@" -std=c99 "${strict[@]}" -Iinclude tests/portable/calls.c "$folder/j8.o" -o "$folder/calls" || return 1
  bits=$($runner "$folder/calls" size) || return 1
  asked=(vectors other)
  [ "$bits" = 32 ] || asked+=(wide)
  for one in "${asked[@]}"; do
    $runner "$folder/calls" <"$made/$one.calls" >"$folder/$one.got" 2>"$folder/errors" || { tail -n 5 "$folder/$one.got" "$folder/errors"; return 1; }
    cmp "$made/$one.answers" "$folder/$one.got" || return 1
  done
  python3 tests/portable/calls.py held $made/vectors.expected "$folder/vectors.got" >"$folder/held" || { cat "$folder/held"; return 1; }
  echo "$name, size_t of $bits bits: $(cat "$folder/held"), $(cat "$folder"/*.got | grep -c '[0-9]') as the archive's; $((SECONDS - start)) s"
}

# each LINE..: runs these, some at once; each must pass.
each() {
  local line pids=() failed=0
  for line in "$@"; do
    while [ "$(jobs -rp | wc -l)" -ge "${J8_JOBS:-$(nproc)}" ]; do
      wait -n
    done
    (eval "$line" || { echo "portable: FAILED: $line"; exit 1; }) &
    pids+=($!)
  done
  for line in "${pids[@]}"; do
    wait "$line" || failed=1
  done
  [ $failed -eq 0 ]
}

# warn COMPILER STANDARD OPTION..: whether the C file compiles without a warning.
warn() {
  "$1" -std="$2" -O2 "${strict[@]}" -Wconversion -Wmissing-prototypes -Wcast-qual -Wshadow "${@:3}" -Iinclude -c $source -o /dev/null
}

# C99 and C11, both compilers, every option; and the header in C++.
warnings() {
  local compiler
  each "warn gcc c99" "warn clang c99" "warn gcc c99 -DJ8_CHECKED" "warn clang c99 -DJ8_CHECKED" "warn gcc c99 -DJ8_PLAIN" "warn clang c99 -DJ8_PLAIN" \
    "warn gcc c11 -fsyntax-only" "warn clang c11 -fsyntax-only" || return 1
  for compiler in g++ clang++; do
    $compiler -std=c++11 "${strict[@]}" -Wconversion -Iinclude -fsyntax-only -x c++ - <<<'#include "j8.h"' || return 1
  done
  echo "no warning from gcc and clang, as C99 and C11"
}

host() {
  each "try gcc-O0 '' gcc -O0" "try gcc-O2 '' gcc -O2" "try gcc-O3 '' gcc -O3" "try gcc-Os '' gcc -Os" "try clang-O2 '' clang -O2"
}

# helpers OPTION..: the functions that the translator writes by itself.
helpers() {
  gcc -std=c99 -O2 "${strict[@]}" "$@" -Iinclude -I$made tests/portable/helpers.c -o $made/helpers && $made/helpers
}

checked() {
  helpers && helpers -DJ8_PLAIN || return 1
  each "try gcc-checked '' gcc -O2 -DJ8_CHECKED" "try gcc-plain '' gcc -O2 -DJ8_PLAIN"
}

sanitizers() {
  each "try gcc-sanitized '' gcc -O1 -g -fsanitize=address,undefined -fno-sanitize-recover=all -DMARGIN=0" \
    "OWN=-fsanitize=unsigned-integer-overflow try clang-sanitized '' clang -O1 -g -fsanitize=address,undefined -fno-sanitize-recover=all -DMARGIN=0"
}

others() {
  each "try aarch64 qemu-aarch64 aarch64-linux-gnu-gcc -O2 -static" "try arm qemu-arm arm-linux-gnueabihf-gcc -O2 -static" "try mips qemu-mips mips-linux-gnu-gcc -O2 -static"
}

rarer() {
  each "try riscv64 qemu-riscv64 riscv64-linux-gnu-gcc -O2 -static" "try ppc qemu-ppc powerpc-linux-gnu-gcc -O2 -static" "try s390x qemu-s390x s390x-linux-gnu-gcc -O2 -static"
}

# bounds BUILD: the row of the stack's table in docs/TRUST.md, as words for tests/c/stack.c.
bounds() {
  awk -F ' *[|] *' -v build="$1" '
    $2 == "build" { for (i = 3; i < NF; i++) { name[i] = $i; gsub(/`/, "", name[i]) } }
    $2 == build { for (i = 3; i < NF; i++) { gsub(/,/, "", $i); if ($i != "") print name[i] "=" $i } }' docs/TRUST.md
}

# depth BUILD RUNNER COMPILER OPTION..: the stack of each function, held to that row.
depth() {
  local build=$1 runner=$2 folder words
  shift 2
  folder=$made/stack-${build//[ ,]/-}
  mkdir -p "$folder"
  read -ra words <<<"$(bounds "$build" | tr '\n' ' ')"
  [ ${#words[@]} -gt 0 ] || { echo "docs/TRUST.md has no row $build"; return 1; }
  "$@" -std=c99 -Iinclude -c $source -o "$folder/j8.o" && "$@" -std=c99 "${strict[@]}" -Iinclude tests/c/stack.c "$folder/j8.o" -Wl,-z,now -o "$folder/stack" || return 1
  $runner "$folder/stack" "${words[@]}" >"$folder/out" || { cat "$folder/out"; return 1; }
  echo "stack, $build: $(awk 'NR > 1 { printf "%s %s  ", substr($1, 4), $2 }' "$folder/out")"
}

stack() {
  each "depth 'x86-64, gcc -O2' '' gcc -O2" "depth 'x86-64, gcc -O3' '' gcc -O3" "depth 'x86-64, gcc -Os' '' gcc -Os" "depth 'x86-64, clang -O2' '' clang -O2" \
    "depth 'aarch64, gcc -O2' qemu-aarch64 aarch64-linux-gnu-gcc -O2 -static -DFEWER" "depth 'arm, gcc -O2' qemu-arm arm-linux-gnueabihf-gcc -O2 -static -DFEWER" \
    "depth 'mips, gcc -O2' qemu-mips mips-linux-gnu-gcc -O2 -static -DFEWER"
}

rarer_stack() {
  each "depth 'riscv64, gcc -O2' qemu-riscv64 riscv64-linux-gnu-gcc -O2 -static -DFEWER" "depth 'ppc, gcc -O2' qemu-ppc powerpc-linux-gnu-gcc -O2 -static -DFEWER" \
    "depth 's390x, gcc -O2' qemu-s390x s390x-linux-gnu-gcc -O2 -static -DFEWER" "depth 'x86-64, gcc -O0' '' gcc -O0 -DFEWER"
}

# A Cortex-M3 without an operating system, on a stack of 16 KiB: what it prints is what the archive does on this machine.
cortex() {
  local words row='Cortex-M3, gcc -Os'
  read -ra words <<<"$(bounds "$row" | sed -n 's/j8_upload_feed=/-DFEED_BOUND=/p; s/j8_upload_finish=/-DFINISH_BOUND=/p' | tr '\n' ' ')"
  [ ${#words[@]} -eq 2 ] || { echo "docs/TRUST.md has no row $row"; return 1; }
  arm-none-eabi-gcc -std=c99 -Os -mcpu=cortex-m3 -mthumb "${strict[@]}" "${words[@]}" -Iinclude --specs=rdimon.specs -nostartfiles -T tests/portable/cortex.ld \
    tests/portable/cortex.c $source -o $made/cortex.elf && gcc -std=c99 -O2 -DHOST -Iinclude tests/portable/cortex.c target/staticlib/libj8.a -o $made/cortex_host || return 1
  timeout 60 qemu-system-arm -M mps2-an385 -cpu cortex-m3 -nographic -semihosting -kernel $made/cortex.elf >$made/cortex.out || { cat $made/cortex.out; return 1; }
  $made/cortex_host | diff - <(head -n 2 $made/cortex.out) && tail -n 1 $made/cortex.out
}

# The Rust tests and a short comparison with the reference, over the C file.
rust() {
  (cd rust && export J8_PORTABLE=1 && cargo test --offline --release --quiet && J8_SECONDS=3 cargo run --offline --release --quiet -p j8-compare --bin compare)
}

# The translator's own checks.
stops() {
  PYTHONDONTWRITEBYTECODE=1 python3 tests/portable/stops.py
}

prepare
for part in "$@"; do
  "$part" || fail "$part failed"
done
