#!/usr/bin/env bash
# Times emit over an image of 700,000 bodies of 300 bytes (211 MB), four times each with 1, 2, 4 and 64 workers: builds the
# program in a copy of the repository, and prints wall times. It is no part of the gate.
set -eu
copy=$(mktemp -d)
trap 'rm -rf "$copy"' EXIT
program=$("$(dirname "${BASH_SOURCE[0]}")/build.sh" "$copy" emit image_emit)
"$program"
