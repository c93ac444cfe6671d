#!/usr/bin/env bash
# link.sh [OPTION..]: links the command, target/bin/j8, of its proved library, the C main and the C functions of the Rattle toolchain, which lie
# in its folder. OPTION goes to the compiler: -static links the C library too.
set -eu
cd "$(dirname "$0")/.."
kit=$(dirname "$(rt doc)")
mkdir -p target/bin
${CC:-cc} -std=c99 -O2 -Wall -Wextra -Werror -pedantic "$@" command/main.c target/staticlib/libcommand.a "$kit/c/libos_c.a" "$kit/c/liblibc_c.a" -o target/bin/j8
