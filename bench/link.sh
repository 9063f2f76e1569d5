#!/usr/bin/env bash
# Times whole links by wasmld, and by wasm-ld where it is installed, over inputs that link_inputs.py makes: link.sh [RUNS [CASE..]]
# Cases are small:COUNT, library:COUNT and large:COUNT. The linkers run in turn, RUNS times each (by default 9). $WASMLD names
# another program than bin/wasmld, $WASM_LD another wasm-ld. It is no part of the gate.
set -eu
here=$(cd "$(dirname "${BASH_SOURCE[0]}")" && pwd)
runs=${1:-9}
shift || true
cases=("$@")
[ ${#cases[@]} -gt 0 ] || cases=(small:5000 small:20000 library:5000 library:20000 large:50 large:200)
wasmld=$(realpath "${WASMLD:-$here/../bin/wasmld}")
other=${WASM_LD:-$(command -v wasm-ld || command -v wasm-ld-14 || true)}
# wasm-ld adds library members by recursion, so that the chain of 20,000 takes more than the usual stack.
ulimit -s hard
folder=$(mktemp -d /tmp/link-bench.XXXXXX)
trap 'rm -rf "$folder"' EXIT

# once NAME WORD..: runs the words, and adds a line of wall, user and kernel seconds and KiB to the file NAME.
once() {
  local name=$1 TIMEFORMAT='%R %U %S'
  shift
  { time /usr/bin/time -q -o memory -f %M "$@" >printed 2>&1; } 2>seconds || {
    head -n 5 printed >&2
    exit 1
  }
  echo "$(cat seconds) $(cat memory)" >>"$name"
}

# row NAME: the least and the median of its runs.
row() {
  sort -n "$1" | awk -v name="$1" -v bytes="$(stat -c %s "$1.wasm")" '
    { wall[NR] = $1; user = NR == 1 || $2 < user ? $2 : user; kernel = NR == 1 || $3 < kernel ? $3 : kernel; most = $4 > most ? $4 : most }
    END { printf "| %s | %.3f | %.3f | %.3f | %.3f | %.1f | %d |\n", name, wall[1], wall[int((NR + 1) / 2)], user, kernel, most / 1024, bytes }'
}

measure() {
  local inputs workers run
  mapfile -t inputs <inputs
  for ((run = 0; run < runs; run++)); do
    for workers in 1 4; do
      once "wasmld-$workers" "$wasmld" --threads=$workers "${inputs[@]}" -o "wasmld-$workers.wasm"
      [ -n "$other" ] || continue
      once "wasm-ld-$workers" "$other" --threads=$workers --strip-all "${inputs[@]}" -o "wasm-ld-$workers.wasm"
      once "wasm-ld-$workers-names" "$other" --threads=$workers "${inputs[@]}" -o "wasm-ld-$workers-names.wasm"
    done
  done
  cmp wasmld-1.wasm wasmld-4.wasm
}

for case in "${cases[@]}"; do
  python3 "$here/link_inputs.py" "${case%:*}" "$folder/$case" "${case#*:}"
  cd "$folder/$case"
  echo "$case: $(wc -l <inputs) files, $(xargs cat <inputs | wc -c) bytes, $runs runs, load before $(cut -d ' ' -f 1 /proc/loadavg)"
  echo
  echo '| linker and workers | least s | median s | least user s | least kernel s | most MiB | bytes |'
  echo '|---|---|---|---|---|---|---|'
  measure
  for name in wasmld-1 wasmld-4 wasm-ld-1 wasm-ld-4 wasm-ld-1-names wasm-ld-4-names; do
    [ ! -e "$name" ] || row "$name"
  done
  echo
  cd "$folder"
  rm -rf "${folder:?}/$case"
done
