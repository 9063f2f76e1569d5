#!/usr/bin/env bash
# Times read_object over the objects that are named: builds the program in a copy of the repository, and
# prints the bytes, the rounds, the objects read and the processor time of one thread. With --keep as the
# first word the objects are kept, so that /usr/bin/time shows what they take. It is no part of the gate.
set -eu
program=${READ_OBJECT:-}

if [ -z "$program" ]; then
  copy=$(mktemp -d)
  trap 'rm -rf "$copy"' EXIT
  program=$("$(dirname "${BASH_SOURCE[0]}")/build.sh" "$copy" read_object object_file)
fi

"$program" "$@"
