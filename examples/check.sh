#!/usr/bin/env bash
# Compares what the program answers to the example sessions with what stands beside them. `.ci/run` calls it after the gate, which
# has built the program.
cd "$(dirname "$0")/.." || exit 1
program=crates/desk/out/desk
wrong=0
for script in examples/*.sh; do
  [ "$script" = examples/check.sh ] && continue
  if bash "$script" | "$program" batch empty | cmp - "${script%.sh}.out"; then
    echo "$script: as expected"
  else
    echo "$script: other answers than ${script%.sh}.out"
    wrong=1
  fi
done
exit "$wrong"
