#!/usr/bin/env bash
# Builds the program NAME of bench/NAME.rt.in over the crates that are named, in a copy of the repository in FOLDER, and prints
# the path of the executable: build.sh FOLDER NAME CRATE..
set -eu
top=$(cd "$(dirname "${BASH_SOURCE[0]}")/.." && pwd)
copy=$1
name=$2
shift 2

cp -r "$top/crates" "$top/crates.txt" "$top/HANDLES" "$copy"
bench=$copy/crates/${name}_bench
mkdir -p "$bench/src" "$bench/specs" "$bench/proofs"
cp "$top/bench/$name.rt.in" "$bench/src/main.rt"
touch "$bench/specs/Lib.antt" "$bench/proofs/Lib.antt"
needed=$(for crate in "$@"; do
  echo "$crate"
  sed -nE "s/^$crate( [^:]*)?: //p" "$copy/crates.txt" | tr ' ' '\n'
done | sort -u | tr '\n' ' ')
echo "${name}_bench: anyhow $needed" >>"$copy/crates.txt"
(cd "$bench" && rt run) >"$copy/log" 2>&1 || {
  tail -n 20 "$copy/log" >&2
  exit 1
}
echo "$bench/out/${name}_bench"
