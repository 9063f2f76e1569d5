#!/usr/bin/env bash
# Tries the must-fail edits that the gate leaves out, for its time: more_edits.sh [CRATE..], by default of all crates that have some.
# They lie in tools/more_edits/CRATE while they aren't tried.
set -u
cd "$(dirname "${BASH_SOURCE[0]}")/.." || exit 2
crates=("$@")
[ ${#crates[@]} -gt 0 ] || mapfile -t crates < <(ls tools/more_edits)

put_back() {
  local edit
  for edit in tools/more_edits/*/*.edit; do
    rm -f "crates/$(basename "$(dirname "$edit")")/must-fail/$(basename "$edit")"
    rmdir "crates/$(basename "$(dirname "$edit")")/must-fail" 2>/dev/null
  done
}
trap put_back EXIT

for crate in "${crates[@]}"; do
  mkdir -p "crates/$crate/must-fail"
  cp "tools/more_edits/$crate"/*.edit "crates/$crate/must-fail/" || exit 2
done
rt must-fail "${crates[@]}"
