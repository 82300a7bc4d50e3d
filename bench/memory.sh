#!/usr/bin/env bash
# How much memory a schedule takes: the greatest resident memory of a program that holds the tables of 200, 2,000 and 4,000 resources
# with 100 bookings each, and of one that builds their index besides; and the bytes of each for a further booking, from the two largest.
# It needs GNU time. Run it at the top of the repository, after `rt ci` has built the program.
set -eu
program=crates/desk_bench/out/desk_bench

# The greatest resident memory of a command, in kilobytes.
peak() {
  /usr/bin/time -f %M "$@" 2>&1 > /dev/null
}

for work in idle index; do
  previous=0
  for resources in 200 2000 4000; do
    kilobytes=$(peak "$program" "$work" "$resources" 1)
    echo "$work $resources: $kilobytes kB"
    [ "$resources" != 4000 ] || echo "$work: $(((kilobytes - previous) * 1024 / 200000)) bytes a booking"
    previous=$kilobytes
  done
done
