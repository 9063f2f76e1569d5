#!/usr/bin/env bash
# Times the steps of wasmrun over the functions of steps.c, which clang compiles and wasm-ld links: steps.sh [STEPS [NAME..]]
# By default 100,000,000 steps of each. A line tells the processor time of the process, and how many million steps a second of it are
# made; where valgrind is there, also the instructions a step, as the difference of two lengths. $WASMRUN names another program than
# bin/wasmrun. It is no part of the gate.
set -eu
here=$(cd "$(dirname "${BASH_SOURCE[0]}")" && pwd)
steps=${1:-100000000}
shift || true
names=("$@")
[ ${#names[@]} -gt 0 ] || names=(memory bytes sums lists fib calls through)
wasmrun=$(realpath "${WASMRUN:-$here/../bin/wasmrun}")
folder=$(mktemp -d)
trap 'rm -rf "$folder"' EXIT
cd "$folder"
clang --target=wasm32 -O2 -nostdlib -Wl,--no-entry "$here/steps.c" -o steps.wasm

# Runs so many steps behind the words, if any, that a tool puts before.
run() {
  local count=$1
  shift
  "$@" "$wasmrun" steps.wasm --script script --steps "$count"
}

counted() { run "$1" valgrind --tool=callgrind --callgrind-out-file=/dev/null 2>&1 >printed | sed -n 's/.*Collected : //p'; }

for name in "${names[@]}"; do
  number=1000000000
  [ "$name" != fib ] || number=45
  echo "call $name i32:$number" >script
  seconds=$({ run "$steps" /usr/bin/time -f %U >printed; } 2>&1)
  [ "$(head -n 1 printed)" = "steps spent" ]
  instructions=-
  ! command -v valgrind >valgrind || instructions=$((($(counted 300000) - $(counted 100000)) / 200000))
  awk -v name="$name" -v seconds="$seconds" -v steps="$steps" -v instructions="$instructions" \
    'BEGIN { printf "%-8s %7.2f s  %6.1f million steps a second  %s instructions a step\n", name, seconds, steps / seconds / 1e6, instructions }'
done
