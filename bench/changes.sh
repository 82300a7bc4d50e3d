#!/usr/bin/env bash
# What a put costs: units that are put one after another on one connection, beside many work rows, by the proved program. The
# schedule is put first, and its time is taken off. Run it at the top of the repository, after `rt ci` has built the program.
# Its words: how many units are put (55,000, each number from 1 to 2,000 again and again), how many calendars with 20 work rows
# each stand beside them (2,000). A journal takes 100,000 changes in all.
set -eu
puts=${1:-55000}
calendars=${2:-2000}
program=crates/desk/out/desk
folder=$(mktemp -d)
trap 'rm -rf "$folder"' EXIT
awk -v calendars="$calendars" -v puts="$puts" -v before="$folder/before" -v all="$folder/all" '
function send(body) {
  text = sprintf("POST /changes HTTP/1.1\r\nHost: desk\r\nContent-Length: %d\r\n\r\n%s", length(body), body)
  if (setting_up) printf "%s", text > before
  printf "%s", text > all
}
function change(act, fields) {
  number += 1
  send(sprintf("{\"act\":\"%s\",\"caller\":1,\"number\":%d,%s}", act, number, fields))
}
BEGIN {
  setting_up = 1
  change("put_zone", "\"id\":1,\"name\":\"UTC\",\"shifts\":[[\"2000-01-01T00:00Z\",0]]")
  for (calendar = 1; calendar <= calendars; calendar++) {
    change("put_calendar", sprintf("\"id\":%d,\"name\":\"Week\",\"zone\":1", calendar))
    for (row = 0; row < 20; row++) {
      from = 360 + 240 * (row % 4)
      change("put_work", sprintf("\"calendar\":%d,\"weekday\":%d,\"from\":%d,\"to\":%d,\"capacity\":1", calendar, int(row / 4), from, from + 120))
    }
  }
  for (id = 1; id <= 2000; id++) change("put_unit", sprintf("\"id\":%d,\"name\":\"Unit\"", id))
  setting_up = 0
  for (i = 0; i < puts; i++) change("put_unit", sprintf("\"id\":%d,\"name\":\"Unit\"", 1 + i % 2000))
}'
. "$(dirname "$0")/timing.sh"
answer() {
  "$program" batch empty < "$1" > "$folder/answers"
}
idle=$(milliseconds answer "$folder/before")
took=$(($(milliseconds answer "$folder/all") - idle))
accepted=$(grep -c '"done":"put","repeated":false' "$folder/answers")
echo "$accepted changes were accepted; the last $puts puts of units took $took ms, $((puts * 1000 / (took + 1))) a second; the schedule before them $idle ms"
