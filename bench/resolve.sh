#!/usr/bin/env bash
# Times the rules of names over 1,000,000 symbols of 1,000 objects, with 300,000 different names, twice each with 1, 2, 4 and 64 workers:
# builds the program in a copy of the repository, and prints wall times of each step. It is no part of the gate.
set -eu
copy=$(mktemp -d)
trap 'rm -rf "$copy"' EXIT
program=$("$(dirname "${BASH_SOURCE[0]}")/build.sh" "$copy" resolve weak_rules)
"$program"
