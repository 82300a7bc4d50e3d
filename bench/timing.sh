# Read by the scripts of this folder: how many milliseconds a command takes, whose output is dropped. A command that
# fails is no figure.
milliseconds() {
  local start end
  start=$(date +%s%N)
  "$@" > /dev/null || { echo "failed: $*" >&2; return 1; }
  end=$(date +%s%N)
  echo $(((end - start) / 1000000))
}

# The least of three times.
least() {
  local round now best=''
  for round in 1 2 3; do
    now=$(milliseconds "$@") || return 1
    [ -n "$best" ] && [ "$best" -le "$now" ] || best=$now
  done
  echo "$best"
}
