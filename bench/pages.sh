#!/usr/bin/env bash
# How long pages of the trial group take: N requests on one connection (2,000 unless it is said), served by the proved program.
# Run it at the top of the repository, after `rt ci` has built the program.
set -eu
requests=${1:-2000}
program=crates/desk/out/desk
input=$(mktemp)
trap 'rm -f "$input"' EXIT
for _ in $(seq "$requests"); do
  printf 'GET /groups/1/rows?limit=4&after=0.28935900.2 HTTP/1.1\r\nHost: desk\r\n\r\n'
done > "$input"
. "$(dirname "$0")/timing.sh"
output=$input.answers
trap 'rm -f "$input" "$output"' EXIT
answer() {
  "$program" batch trial < "$input" > "$output"
}
took=$(milliseconds answer)
echo "$(grep -c '200 OK' "$output") pages in $took ms"
