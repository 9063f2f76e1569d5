#!/usr/bin/env bash
# The layout of the repository: HANDLES, no made files, and crates.txt with its folders.
set -u
cd "$(dirname "${BASH_SOURCE[0]}")/.." || exit 2
. tests/common/expect.bash

handles_stand() { [ "$(cat HANDLES)" = "Handles allowed: Threads, Wait." ]; }

crates_are_listed() {
  local listed present
  listed=$(sed 's/#.*//' crates.txt | sed -nE 's/^([a-z0-9_]+).*:.*/\1/p' | sort)
  present=$(find crates -mindepth 1 -maxdepth 1 -type d -exec basename {} \; | sort)
  [ "$listed" = "$present" ] || {
    diff <(echo "$listed") <(echo "$present")
    return 1
  }
}

crates_are_told() {
  local crate status=0
  for crate in crates/*/; do
    crate=$(basename "$crate")
    grep -q "\`$crate\`" README.md docs/PROVED.md || {
      echo "no page speaks of $crate"
      status=1
    }
  done
  return "$status"
}

nothing_made_is_kept() {
  local made
  made=$(git ls-files 2>/dev/null | grep -E '(^|/)out/|BUILD\.bazel$|MODULE\.bazel$')
  [ -z "$made" ] || {
    echo "$made"
    return 1
  }
}

expect "HANDLES is the one line" handles_stand
expect "crates.txt lists the crates that there are" crates_are_listed
expect "README.md or docs/PROVED.md speaks of each crate" crates_are_told
expect "no made file is kept" nothing_made_is_kept

finish
