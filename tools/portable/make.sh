#!/usr/bin/env bash
# Writes target/portable/j8.c: proves crate j8 and all that it stands on, prints the MIR that the proved libraries hold, and translates it, twice, with other
# hashes of its texts, since both must be the same.
set -eu
cd "$(dirname "$0")/../.."
made=target/portable
mkdir -p $made
bash tools/prove.sh $made/check.log j8
export PYTHONDONTWRITEBYTECODE=1
PYTHONHASHSEED=0 python3 tools/portable/libraries.py include/j8.h crates >$made/j8.mir
PYTHONHASHSEED=0 python3 tools/portable/translate.py $made/j8.mir include/j8.h . >$made/first.c
PYTHONHASHSEED=1 python3 tools/portable/translate.py $made/j8.mir include/j8.h . >$made/second.c 2>/dev/null
cmp $made/first.c $made/second.c
rm $made/second.c
mv $made/first.c $made/j8.c
echo "portable: $made/j8.c has $(wc -l <$made/j8.c) lines"
