#!/usr/bin/env bash
# install.sh [remove]: puts the command with its man page and completion, the archive, the header, j8.pc and the C file below PREFIX, or takes them
# away. DESTDIR stands for / while a package is put together. Both may have any characters but a line's end.
set -eu
prefix=$(realpath -m -s -- "${PREFIX:?}")
cd "$(dirname "$0")/.."
root=${DESTDIR:-}$prefix

# each WORDS..: runs WORDS with the mode, the source and the place of each file.
each() {
  "$@" 755 target/bin/j8 bin/j8
  "$@" 644 target/j8.1 share/man/man1/j8.1
  "$@" 644 completions/j8.bash share/bash-completion/completions/j8
  "$@" 644 target/staticlib/libj8.a lib/libj8.a
  "$@" 644 include/j8.h include/j8.h
  "$@" 644 target/j8.pc lib/pkgconfig/j8.pc
  "$@" 644 target/portable/j8.c share/j8/j8.c
}

put() {
  install -D -m "$1" -- "$2" "$root/$3"
  echo "installed: $root/$3"
}

remove() {
  rm -f -- "$root/$3"
}

if [ "${1:-}" = remove ]; then
  each remove
  exit
fi
version=$(sed -n 's/^.define J8_VERSION "\(.*\)"$/\1/p' include/j8.h)
# As pkg-config reads a value and sed a replacement.
quoted=$(printf '%s' "$prefix" | sed -e 's/[\\ "'\''$#]/\\&/g' -e 's/[\\&|]/\\&/g')
sed -e "s|@PREFIX@|$quoted|" -e "s|@VERSION@|$version|" j8.pc.in >target/j8.pc
sed -e "s|@VERSION@|$version|" man/j8.1 >target/j8.1
each put
