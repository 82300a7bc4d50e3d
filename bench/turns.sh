#!/usr/bin/env bash
# What a turn of a gate costs, by one thread and by four that want it all the time, beside the Mutex of Rust's std (`mutex.rs`,
# which `rustc` compiles here). Run it at the top of the repository, after `rt ci` has built the program. Its words: how many turns
# one thread takes (20 million), and how many each of four takes (2 million).
set -eu
alone=${1:-20000000}
each=${2:-2000000}
gate=crates/desk_gate_bench/out/desk_gate_bench
folder=$(mktemp -d)
trap 'rm -rf "$folder"' EXIT
mutex=$folder/mutex
rustc -O -o "$mutex" "$(dirname "$0")/mutex.rs"
. "$(dirname "$0")/timing.sh"
# How many milliseconds a program takes for so many turns on each of so many threads, without its start and end; at least 1.
turns() {
  local idle took
  idle=$(milliseconds "$1" "$2" 0)
  took=$(($(milliseconds "$1" "$2" "$3") - idle))
  echo $((took > 0 ? took : 1))
}
compare() {
  local by_gate by_mutex
  by_gate=$(turns "$gate" "$1" "$2")
  by_mutex=$(turns "$mutex" "$1" "$2")
  echo "$1 threads, $2 turns each: gate $by_gate ms, $(($1 * $2 / by_gate * 1000)) a second;" \
    "Mutex $by_mutex ms, $(($1 * $2 / by_mutex * 1000)) a second; the gate takes $(awk -v a="$by_gate" -v b="$by_mutex" 'BEGIN { printf "%.2f", a / b }') times as long"
}
compare 1 "$alone"
compare 4 "$each"
