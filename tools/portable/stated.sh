#!/usr/bin/env bash
# stated.sh [CRATE..]: has rt write out the MIR that the proofs are about, of these crates or of all that target/portable/j8.mir has functions of, and holds those
# functions to it, and those of the kit's library `core` to core.py; and sees that one with another number, variant, payload or name isn't held for the same. That
# takes about as long as a check of these crates. Each crate that these stand on has to be among them.
set -eu
cd "$(dirname "$0")/../.."
. tools/crates.sh
made=target/portable
# Not in the repository, where rt wants no file of antt but those of the crates.
stated=$(mktemp -d)
trap 'rm -rf "$stated"' EXIT
all=("$@")
[ $# -gt 0 ] || mapfile -t all < <(sed -nE 's/^\(fn_def "([a-z0-9_]+)::.*/\1/p' $made/j8.mir | sort -u | grep -vx core)
for crate in "${all[@]}"; do
  mapfile -t below < <(crates_of "$crate")
  if [ "${J8_PROVED:-}" = 1 ] && left_by_ci "${below[@]}"; then
    over_ci "$crate" check --jobs 2 --generated "$stated"
  else
    (cd "crates/$crate" && rt check --generated "$stated")
  fi >$made/stated.log 2>&1 || { tail -n 30 $made/stated.log; exit 1; }
done
export PYTHONDONTWRITEBYTECODE=1
grep -E "^\(fn_def \"($(printf '%s\n' core "${all[@]}" | paste -sd '|'))::" $made/j8.mir >"$stated/some.mir"
python3 tools/portable/same.py "$stated/some.mir" "$stated"

# told_apart WHAT EDIT WORDS: sees that same.py stops at the functions with this edit of sed, and says these words.
told_apart() {
  sed "$2" "$stated/some.mir" >"$stated/other.mir"
  if python3 tools/portable/same.py "$stated/other.mir" "$stated" 2>"$stated/said" || ! grep -q "$3" "$stated/said"; then
    echo "portable: $1 isn't told apart"
    exit 1
  fi
}

told_apart "a number that is another" '0,/(int w64 \([0-9]*\))/s//(int w64 1\1)/' "isn't what is proved"
told_apart "another variant in core" '/^(fn_def "core::result::ResultTry::branch"/s/(int w8 1)/(int w8 0)/' "branch isn't as core.py states it"
told_apart "a payload dropped in core" '/^(fn_def "core::result::ResultFrom/s/(int w8 1) (copy (place 2 (list)))/(int w8 1)/' "from_residual isn't as core.py states it"
told_apart "a value of another place in core" '/^(fn_def "core::convert::AnyFrom::from"/s/(copy (place 1/(copy (place 0/' "from isn't as core.py states it"
told_apart "a function of core that isn't stated" 's/^(fn_def "core::option::OptionTry::branch"/(fn_def "core::option::OptionTry::from_output"/' "isn't stated in core.py"
told_apart "a function of core that is left out" '/^(fn_def "core::option::OptionTry::branch"/d' "core.py states, and there is none: core::option::OptionTry::branch"
