#!/usr/bin/env bash
# What profiles cost: queries of the least value of a short range, and the building of a profile of scattered pieces.
# Run it at the top of the repository, after `rt ci` has built the program. Its words: how many queries (10 million), of how
# many pieces a profile is built (10,000), how often (100 times).
set -eu
queries=${1:-10000000}
pieces=${2:-10000}
rounds=${3:-100}
program=crates/desk_spans_bench/out/desk_spans_bench
. "$(dirname "$0")/timing.sh"
idle=$(milliseconds "$program" 0 1 0)
asked=$(($(milliseconds "$program" "$queries" 1 0) - idle))
built=$(($(milliseconds "$program" 0 "$pieces" "$rounds") - idle))
echo "$queries queries of a profile of 1,000 changes: $asked ms, $((queries / (asked + 1))) a millisecond"
echo "$rounds profiles of $pieces pieces: $built ms, $((built * 1000 / rounds)) microseconds each"
