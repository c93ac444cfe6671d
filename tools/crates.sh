# Read by prove.sh and portable/stated.sh, in the repository's folder: what crates.txt says, and how rattle is called over what `rt ci` left in out/.

# The first of the kind: a static library doesn't ask the processor what it has.
CPU=x86-64

# The crate and all that it stands on, each behind those that it stands on.
crates_of() {
  awk -v wanted="$1" '
    function visit(name, deps, count, i) {
      if (!(name in below) || (name in seen)) return
      seen[name]
      count = split(below[name], deps, " ")
      for (i = 1; i <= count; i++) visit(deps[i])
      print name
    }
    /^[a-z]/ { name = $1; sub(":.*", "", name); sub("^[^:]*:", ""); below[name] = $0 }
    END { visit(wanted) }' crates.txt
}

# Whether these libraries are as `rt ci` leaves them: one that another command of rt built has a stamp.
left_by_ci() {
  local name
  for name in "$@"; do
    [ -d "crates/$name/out/rlib/$name.rlib" ] && [ ! -e "crates/$name/out/rlib/stamp" ] || return 1
  done
}

# over_ci CRATE COMMAND OPTION..: a command of rattle on a crate, over the libraries that `rt ci` left, with the words that rt gives it.
over_ci() {
  local crate=$1 kit name words=()
  kit=$(dirname "$(rt doc)") || return 1
  for name in $(sed -nE "s/^$crate( staticlib)?://p" crates.txt); do
    [ ! -d "crates/$name" ] || words+=(--extern "$name=../$name/out/rlib/$name.rlib")
  done
  for name in $(crates_of "$crate"); do
    [ "$name" = "$crate" ] || words+=(-L "dependency=../$name/out/rlib")
  done
  (mkdir -p "crates/$crate/out" && cd "crates/$crate" && "$kit/bin/rattle" "$2" --crate-name "$crate" src/lib.rt --extern "std=$kit/rlibs/std.rlib" \
    -L "dependency=$kit/rlibs" "${words[@]}" --antt-project "$kit/rattle/logic/antt-project.json" --logic-built "$kit/logic_built" --links "$crate=" "${@:3}")
}

# The static library over them.
build_over_ci() {
  over_ci "$1" build --jobs 2 --cpu "$CPU" --crate-type staticlib --toolchain "$(dirname "$(rt doc)")/toolchain" --backend llvm -o "out/lib$1.a"
}
