#!/usr/bin/env bash
# What the merge gate costs: runs `rt ci`, and prints the processor minutes of each crate for its proof, its tests and its edits, and
# those of all that is not one crate's (building, linking and running). Run it at the top of a repository; what `rt ci` says
# goes to standard error, and its status is the script's. With names it runs the gate of these crates and those below them. What
# a kit has kept of an earlier run costs nothing here: `bench/gate.sh --anew` measures all.
#
# `rt ci` prints no times, so every two seconds the script reads from /proc what each process below it has used. A process is of the crate
# that its words name behind `--crate-name`: tests where one of them is `--test`, an edit where it works on a copy of the crate, else a
# proof. What a process uses after the last look at it is lost, two seconds at most.
set -u

rt ci "$@" >&2 &
gate=$!
ticks_a_minute=$((60 * $(getconf CLK_TCK)))

declare -A below=([$gate]=1) # the processes below the gate, and the gate itself
declare -A kind used         # of each of them, by its id and its start: what it is for, and the ticks that it has used

# What a process is for: its crate and the kind of its work, or `all building`.
kind_of() {
  local words=() name='' word
  mapfile -d '' -t words < "/proc/$1/cmdline"
  for word in "${words[@]}"; do
    [ "$name" = next ] && name=$word
    [ "$word" = --crate-name ] && name=next
  done
  case "$name $(readlink "/proc/$1/cwd") ${words[*]}" in
    ' '*) echo 'all building' ;;
    *' '/*/rt-edit-*) echo "$name edits" ;;
    *' --test '* | *' --test') echo "$name tests" ;;
    *) echo "$name proof" ;;
  esac
}

# Looks once at each process. The fields of /proc/ID/stat behind the name: 1 is the parent's id, 11 and 12 the ticks used by the
# process, 19 when it started.
look() {
  local stat line id fields key
  for stat in /proc/[0-9]*/stat; do
    IFS= read -r line < "$stat" || continue
    id=${line%% *}
    read -ra fields <<< "${line##*) }"
    [ -n "${below[$id]:-}${below[${fields[1]}]:-}" ] || continue
    below[$id]=1
    key=$id.${fields[19]}
    used[$key]=$((fields[11] + fields[12]))
    # a process may become another program, so this is asked until it has a crate
    case ${kind[$key]:-all} in all*) kind[$key]=$(kind_of "$id") ;; esac
  done
} 2> /dev/null

# Where the script is interrupted, the gate is too, and what it cost until then is printed.
trap 'kill "$gate" 2> /dev/null' INT TERM

while kill -0 "$gate" 2> /dev/null; do
  look
  sleep 2
done
wait "$gate"
status=$?

row='%-20s %7s %7s %7s %7s\n'
printf "$row" 'processor minutes' proof tests edits sum
for key in "${!used[@]}"; do
  echo "${kind[$key]:-all building} ${used[$key]}"
done | awk -v minute="$ticks_a_minute" '
  { spent[$1, $2] += $3; crates[$1] }
  END {
    for (name in crates) {
      proof = spent[name, "proof"] / minute
      tests = spent[name, "tests"] / minute
      edits = spent[name, "edits"] / minute
      rest = spent[name, "building"] / minute
      if (name == "all") name = "(no one crate)"
      printf "%-20s %7.2f %7.2f %7.2f %7.2f\n", name, proof, tests, edits, proof + tests + edits + rest
      proofs += proof; all_tests += tests; all_edits += edits; sum += proof + tests + edits + rest
    }
    printf "%-20s %7.2f %7.2f %7.2f %7.2f\n", "~sum", proofs, all_tests, all_edits, sum
  }' | sort | sed 's/^~sum/sum /'
exit "$status"
