#!/usr/bin/env bash
# What the work on an index and on views costs: the building of the index, a booking that is prepared and given back, a view
# that is built, an hour that is asked for, and a first free hour after two full days. Each in a schedule of 200, 2,000 and 4,000
# resources with 100 bookings each.
# Run it at the top of the repository, after `rt ci` has built the program.
set -eu
program=crates/desk_bench/out/desk_bench
. "$(dirname "$0")/timing.sh"
. "$(dirname "$0")/rounds.sh"
for resources in 200 2000 4000; do
  idle=$(least "$program" idle "$resources" 0)
  each index "$resources" $((20000 / resources))
  each book "$resources" 200000
  each view "$resources" 20000000
  each probe "$resources" 4000000
  each fit "$resources" 500000
done
