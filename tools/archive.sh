#!/usr/bin/env bash
# archive.sh NAME CRATE: proves a static library and all that it stands on, and puts it to target/staticlib/libNAME.a.
set -eu
cd "$(dirname "$0")/.."
bash tools/prove.sh "target/$1.log" "$2"
mkdir -p target/staticlib
cp "crates/$2/out/lib$2.a" "target/staticlib/lib$1.a.new"
mv "target/staticlib/lib$1.a.new" "target/staticlib/lib$1.a"
