#!/usr/bin/env bash
# before.sh ARCHIVE [JOB..]: the archive in target/staticlib (or in J8_LIB_DIR) beside an earlier one, in one run: of each row how many times as long it
# takes now, the median of several layouts with the least and the greatest. Each layout is built twice, with the two archives in each other's place: an
# archive beside itself takes up to 1.04 times as long in one of the places. Ends with 1 if a row's median is over 1.03. J8_ROUNDS (60) and J8_LAYOUTS (6)
# as in run.sh.
set -euo pipefail
[ $# -ge 1 ] && [ -f "$1" ] || { echo "usage: before.sh ARCHIVE [JOB..]" >&2; exit 2; }
earlier=$(realpath "$1")
shift
cd "$(dirname "$0")"
now=$(realpath "${J8_LIB_DIR:-../target/staticlib}")/libj8.a
rounds=${J8_ROUNDS:-60}
layouts=${J8_LAYOUTS:-6}
passes=4
run=target/before
rm -rf $run
mkdir -p $run/now $run/earlier
cp "$now" $run/now/libj8.a
cp "$earlier" $run/earlier/libj8.a
for first in now earlier; do
  [ $first = now ] && second=earlier || second=now
  for ((layout = 0; layout < layouts; layout++)); do
    shuffle=()
    [ "$layout" = 0 ] || shuffle=(-C "link-arg=-Wl,--shuffle-sections=.text*=$layout")
    J8_LIB_DIR=$PWD/$run/$first J8_BEFORE=$PWD/$run/$second/libj8.a cargo rustc --offline --release --quiet --target-dir target/with-before -- "${shuffle[@]}"
    cp target/with-before/release/j8-bench $run/$first-$layout
  done
done
for ((pass = 1; pass <= passes; pass++)); do
  for ((layout = 0; layout < layouts; layout++)); do
    for first in now earlier; do
      J8_ROUNDS=$(((rounds + passes - 1) / passes)) $run/$first-$layout beside $pass "$@" | sed "s/^beside/$layout\t$first/"
    done
  done
done >$run/times.tsv
python3 - $run/times.tsv <<'PY'
import math, statistics, sys
least = {}
for text in open(sys.argv[1]):
    layout, first, *row, size, name, time = text.rstrip('\n').split('\t')
    if name not in ('j8', 'before'):
        continue
    which = 'now' if (name == 'j8') == (first == 'now') else 'earlier'
    key = (tuple(row), layout, which, first)
    least[key] = min(least.get(key, float('inf')), float(time) / int(size))
rows = list(dict.fromkeys(key[0] for key in least))
if not rows:
    sys.exit('before.sh: no job of that name: read, write, upload, json8, json8_dense, json8_write, tsv8')


def taken(row, layout, which):
    """The time in both places: their geometric mean, so that what a place costs falls out of a ratio."""
    return math.sqrt(math.prod(least[row, layout, which, first] for first in ('now', 'earlier')))


slower = 0
print(f"{'job':<12} {'kind':<13} {'size':>8} {'piece':>6} {'texts':>5} {'ns a byte':>10} {'before':>8} {'times as long':>20}")
for row in rows:
    layouts = sorted({layout for r, layout, _, _ in least if r == row})
    now, before = ([taken(row, layout, which) for layout in layouts] for which in ('now', 'earlier'))
    ratios = sorted(n / b for n, b in zip(now, before))
    median = statistics.median(ratios)
    slower += median > 1.03
    job, kind, size, piece, texts = row
    print(f"{job:<12} {kind:<13} {size:>8} {piece:>6} {texts:>5} {statistics.median(now):>10.3f} {statistics.median(before):>8.3f} {median:>8.3f} ({ratios[0]:.3f} to {ratios[-1]:.3f}){' slower' if median > 1.03 else ''}")
print(f"{slower} of {len(rows)} rows are slower by more than 3 %")
sys.exit(slower > 0)
PY
