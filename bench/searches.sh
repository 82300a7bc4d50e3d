#!/usr/bin/env bash
# What searches cost: the first page of 50 rows of a group of one leaf, its second page, the first row of a group of twelve leaves,
# and all pages of the former. Each in a schedule of 200, 2,000 and 4,000 resources with 100 bookings each.
# Run it at the top of the repository, after `rt ci` has built the program.
set -eu
program=crates/desk_bench/out/desk_bench
. "$(dirname "$0")/timing.sh"
. "$(dirname "$0")/rounds.sh"
for resources in 200 2000 4000; do
  idle=$(least "$program" idle "$resources" 0)
  each page "$resources" 2000
  each resumed "$resources" 5000
  each twelve "$resources" 1000
  each all "$resources" $((20000 / resources))
done
