#!/usr/bin/env bash
# What steps of the one-thread scheduler cost: a group of one leaf and one of twelve that are moved, a booking that has no room, a unit put,
# times off put over a free and over a taken hour, the work of a calendar of fifty resources taken out and refused, a role given and taken
# (two steps), a group put and dropped (two steps), and the first page of a group. Each in a schedule of 200, 2,000 and 3,990 resources
# with 100 bookings each, which is made by steps; what that takes is shown first. A schedule has 400,000 bookings at most.
# Run it at the top of the repository, after `rt ci` has built the program.
set -eu
program=crates/desk_step_bench/out/desk_step_bench
. "$(dirname "$0")/timing.sh"
. "$(dirname "$0")/rounds.sh"
for resources in 200 2000 3990; do
  idle=$(least "$program" idle "$resources" 0)
  echo "a schedule of $resources resources, made by steps: $idle milliseconds"
  each moved "$resources" 50000
  each conflict "$resources" 500000
  each twelve "$resources" 5000
  each unit "$resources" 50000
  each free "$resources" 50000
  each off "$resources" 200000
  each work "$resources" 5000
  each role "$resources" 25000
  each group "$resources" 25000
  each page "$resources" 5000
done
