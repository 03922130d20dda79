#!/usr/bin/env bash
# bench/run.sh FILE...: times the built program on row files, which are given from the smallest to the largest. It prints a line
# for each: the file, its lines, the least wall time of three runs in milliseconds, the peak memory in kilobytes, and the ratios
# of lines, time and memory to those of the file before.
#
# A run is `resolve forward` from the base of the file's first package. In the environment, ID='a/b' is another feature to start
# from, and RUNS another number of runs.
set -eu

top=$(cd -P -- "$(dirname -- "${BASH_SOURCE[0]}")/.." && pwd)
program=$top/crates/features/out/features
runs=${RUNS:-3}

if [ $# -eq 0 ]; then
  echo 'usage: bench/run.sh FILE...' >&2
  exit 2
fi
if [ ! -x "$program" ]; then
  echo 'bench/run.sh: the proved program is not built; run ./build first' >&2
  exit 1
fi

# Prints the id of the base of the file's first package.
first_base() {
  awk -F '\t' '$1 == "package" { print $2 "/[base]"; exit }' "$1"
}

# Runs the program once. Prints the milliseconds and the peak memory in kilobytes, which is 0 without GNU time.
once() {
  local begun ended memory=0 told
  told=$(mktemp)
  begun=$(date +%s%N)
  if [ -x /usr/bin/time ]; then
    /usr/bin/time -o "$told" -f %M "$program" "$1" resolve forward "$2" >/dev/null
    ended=$(date +%s%N)
    memory=$(tail -n 1 "$told")
  else
    "$program" "$1" resolve forward "$2" >/dev/null
    ended=$(date +%s%N)
  fi
  rm -f -- "$told"
  echo "$(((ended - begun) / 1000000)) $memory"
}

# Prints the ratio of two numbers with two decimals, or - if the second is missing or 0.
ratio() {
  awk -v a="$1" -v b="$2" 'BEGIN { if (b > 0) printf "%.2f", a / b; else printf "-" }'
}

printf '%s\t%s\t%s\t%s\t%s\t%s\t%s\n' file lines ms kilobytes 'x lines' 'x time' 'x memory'
lines_before=0
time_before=0
memory_before=0
for file in "$@"; do
  id=${ID:-$(first_base "$file")}
  lines=$(wc -l <"$file")
  least=
  peak=0
  for ((run = 0; run < runs; run++)); do
    measured=$(once "$file" "$id")
    time=${measured% *}
    memory=${measured#* }
    if [ -z "$least" ] || [ "$time" -lt "$least" ]; then least=$time; fi
    if [ "$memory" -gt "$peak" ]; then peak=$memory; fi
  done
  printf '%s\t%s\t%s\t%s\t%s\t%s\t%s\n' "$(basename -- "$file")" "$lines" "$least" "$peak" \
    "$(ratio "$lines" "$lines_before")" "$(ratio "$least" "$time_before")" "$(ratio "$peak" "$memory_before")"
  lines_before=$lines
  time_before=$least
  memory_before=$peak
done
