#!/usr/bin/env bash
# Runs of random programs: small programs of C are compiled to two objects and linked, and what comes out runs under node and in wasmrun, which
# have to print the same: what each call gives, and the memory at the end. It runs $WASMLD and $WASMRUN, or bin/wasmld and bin/wasmrun where
# these aren't set. Two words FROM TO choose other seeds than the usual ones; a third one names a folder that gets the files of each program
# that differs. Where clang, node or wasmrun isn't there, nothing is run. The last line is 'N passed, M failed'.
set -u
top=$(cd "$(dirname "${BASH_SOURCE[0]}")/.." && pwd)
for tool in clang node; do
  if ! command -v "$tool" >/dev/null; then
    echo "$tool isn't there"
    echo '0 passed, 0 failed'
    exit 0
  fi
done
export WASMRUN=${WASMRUN:-$top/bin/wasmrun}
if [ ! -x "$WASMRUN" ]; then
  echo "$WASMRUN isn't there"
  echo '0 passed, 0 failed'
  exit 0
fi
. "$top/tests/common/program.bash"
exec python3 "$top/tests/runs/run.py" "$@"
