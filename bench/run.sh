#!/usr/bin/env bash
# The whole benchmark: the C file, builds of several code layouts, their times, the instructions, and from these docs/BENCHMARKS.md and docs/plots.
# J8_ROUNDS: rounds for each layout (120). J8_LAYOUTS: how many (12). J8_DOCS: another folder for document and plots.
set -eu
docs=$(realpath -m "${J8_DOCS:-$(dirname "$0")/../docs}")
cd "$(dirname "$0")"

make --no-print-directory -C .. portable

rounds=${J8_ROUNDS:-120}
layouts=${J8_LAYOUTS:-12}
# A layout's rounds are in several processes, each with its heap shifted, since an address space may be unlucky too. The layouts take turns, so that
# a time when the machine is slow meets all of them and no row in all its rounds.
passes=6
run=target/run

rm -rf $run
mkdir -p $run
{ echo "start	$(date -u '+%Y-%m-%d %H:%M')"; echo "load before	$(cut -d ' ' -f 1-3 /proc/loadavg)"; } >$run/facts.tsv

for ((layout = 0; layout < layouts; layout++)); do
  echo "layout $layout: building"
  shuffle=()
  # lld's option, by which rustc links from 1.90 on.
  [ "$layout" = 0 ] || shuffle=(-C "link-arg=-Wl,--shuffle-sections=.text*=$layout")
  cargo rustc --offline --release --quiet -- "${shuffle[@]}"
  cp target/release/j8-bench $run/bench-$layout
done

for ((pass = 1; pass <= passes; pass++)); do
  for ((layout = 0; layout < layouts; layout++)); do
    echo "pass $pass of $passes, layout $layout: measuring"
    J8_ROUNDS=$(((rounds + passes - 1) / passes)) $run/bench-$layout measure $pass >$run/layout-$layout.pass-$pass.tsv
  done
done

echo "counting instructions"
# Valgrind counts each repetition of a string instruction, so that memset would count once a byte; the C library has loops as well.
loops=glibc.cpu.x86_rep_movsb_threshold=1000000000:glibc.cpu.x86_rep_stosb_threshold=1000000000
GLIBC_TUNABLES=$loops valgrind --tool=callgrind --toggle-collect=j8_bench_counted --dump-after=j8_bench_counted \
  --callgrind-out-file=$run/counted $run/bench-0 count >$run/counts.tsv 2>$run/valgrind.log

{
  echo "end	$(date -u '+%H:%M')"
  echo "load after	$(cut -d ' ' -f 1-3 /proc/loadavg)"
  echo "rounds	$(((rounds + passes - 1) / passes * passes))"
  echo "passes	$passes"
  echo "layouts	$layouts"
} >>$run/facts.tsv
$run/bench-0 report $run "$docs"
