#!/usr/bin/env bash
# Worked links: files and words in, the exit status, the printed line and the module's bytes out. It runs $WASMLD, or bin/wasmld where that
# isn't set; a word chooses the rows whose sentences have it. The last line is 'N passed, M failed'.
set -u
top=$(cd "$(dirname "${BASH_SOURCE[0]}")/.." && pwd)
. "$top/tests/common/program.bash"
exec python3 "$top/tests/rows/run.py" "$@"
