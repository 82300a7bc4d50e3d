# Read by the scripts of this folder: what one round of a work costs in a schedule of so many resources, beyond making and judging
# the schedule, by the least of three runs. `program` is the program and `idle` the milliseconds that it takes without any round.
each() {
  local taken time
  taken=$(least "$program" "$1" "$2" "$3")
  time=$((taken - idle))
  echo "$1 among $2 resources: $(awk "BEGIN { printf \"%.2f\", $time * 1000 / $3 }") microseconds each"
}
