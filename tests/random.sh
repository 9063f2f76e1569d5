#!/usr/bin/env bash
# Random links: the program's answer to each has to be that of the reference linker beside it, which is written apart from the program. It runs
# $WASMLD, or bin/wasmld where that isn't set. Usually there are 400 plain links and 300 shared ones. Two words FROM TO choose other seeds than
# these; seeds from 1000000 on make shared links. A third word names a folder that gets the files of each link that differs. The last line is
# 'N passed, M failed'.
set -u
top=$(cd "$(dirname "${BASH_SOURCE[0]}")/.." && pwd)
. "$top/tests/common/program.bash"
export PYTHONPATH=$top/tests/rows
exec python3 "$top/tests/random/run.py" "$@"
