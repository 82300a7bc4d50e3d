#!/usr/bin/env bash
# What comes before a search costs: the case of a group of one leaf and of one of twelve, part-of-same of 24 picks that are in one crew
# (which is the last resource), and the refusal of a booking that has no room. Each in a schedule of 200, 2,000 and 4,000 resources with
# 100 bookings each.
# Run it at the top of the repository, after `rt ci` has built the program.
set -eu
program=crates/desk_bench/out/desk_bench
. "$(dirname "$0")/timing.sh"
. "$(dirname "$0")/rounds.sh"
for resources in 200 2000 4000; do
  idle=$(least "$program" idle "$resources" 0)
  each case "$resources" 2000
  each case12 "$resources" 200
  each same "$((resources - 1))" 100000
  each refusal "$resources" 500000
done
