#!/usr/bin/env bash
# prove.sh LOG CRATE: proves a crate and all that it stands on and builds it, which may take minutes: a static library to crates/CRATE/out/libCRATE.a, any
# other to crates/CRATE/out/rlib. What rt prints is in the log. Says where that is, on a terminal how many crates are built so far, and on failure shows the
# log. J8_PROVED=1 says that `rt ci` has just passed here: what it proved and left in out/ is not proved again.
set -u
log=$(realpath -m "$1")
crate=$2
cd "$(dirname "$0")/.." || exit 1
if ! command -v rt >/dev/null; then
  echo "make: rt, the command of the Rattle toolchain, isn't on the PATH. README.md says what is needed." >&2
  exit 1
fi
. tools/crates.sh
mkdir -p "$(dirname "$log")"
mapfile -t all < <(crates_of "$crate")
total=${#all[@]}
[ "$total" -gt 0 ] || { echo "make: crates.txt has no $crate"; exit 1; }
below=("${all[@]}")
static=
if grep -q "^$crate staticlib:" crates.txt; then
  static=yes
  unset 'below[-1]'
fi
build() {
  if [ "${J8_PROVED:-}" = 1 ] && left_by_ci "${below[@]}"; then
    [ -z "$static" ] || build_over_ci "$crate"
  else
    cd "crates/$crate" && rt lib ${static:+--cpu "$CPU"}
  fi
}
echo "Proving $total crates; some minutes the first time. What rt prints is in $log."
build >"$log" 2>&1 &
proof=$!
while kill -0 "$proof" 2>/dev/null; do
  [ ! -t 1 ] || printf '\r%s of %s crates proved so far' "$(grep -c '^logic=proved ' "$log")" "$total"
  sleep 0.5
done
[ ! -t 1 ] || printf '\r\033[K'
wait "$proof" || {
  cat "$log"
  exit 1
}
