#!/usr/bin/env bash
# Shared outputs: clang compiles two side modules of C and of C++ that use each other's symbols, wasmld links each with -shared, and a loader under
# node gives them their places: at two pairs of bases and in both orders. Where clang or node isn't installed, that part is left out. The linker is
# $WASMLD, or else bin/wasmld. The last line is 'N passed, M failed'.
set -u
top=$(cd "$(dirname "${BASH_SOURCE[0]}")/.." && pwd)
. "$top/tests/common/program.bash"
. "$top/tests/common/expect.bash"
wasmld=$WASMLD
sources=$top/tests/shared
folder=$(mktemp -d)
trap 'rm -rf "$folder"' EXIT
flags=(--target=wasm32-unknown-emscripten -fPIC -fvisibility=default -ffreestanding -fno-exceptions -fno-rtti -mno-bulk-memory)
calls=(a_run:0:4 a_run:1:4 a_run:2:4 a_run:3:4 a_sum a_absent a_call:5 a_sum b_areas:0 b_areas:1 b_order b_same)

# What is lacking, if anything is.
lacking() {
  local tool
  for tool in clang node; do
    command -v "$tool" >/dev/null || { echo "no $tool"; return; }
  done
  clang --print-targets | grep -q wasm32 || echo "clang has no wasm32"
}

compile() {
  clang "${flags[@]}" "$1" -c "$sources/first.c" -o first.o && clang "${flags[@]}" "$1" -c "$sources/second.cpp" -o second.o
}

# Links with 1, 2 and 64 workers; the bytes are equal.
links() {
  local output=$1
  shift
  "$wasmld" --threads=1 -shared --export-dynamic -o "$output" "$@" &&
    "$wasmld" --threads=2 -shared --export-dynamic -o "$output.2" "$@" &&
    "$wasmld" --threads=64 -shared --export-dynamic -o "$output.64" "$@" &&
    cmp "$output" "$output.2" && cmp "$output" "$output.64"
}

# Loads the modules in the order that is given, and compares what calls of them give.
loads() {
  node --no-warnings "$sources/loader.mjs" "$@" -- "${calls[@]}" >got.txt 2>err.txt && diff got.txt "$sources/calls.txt" || {
    cat err.txt
    return 1
  }
}

# Options that say where a plain output's memory lies have no effect.
places_are_ignored() {
  "$wasmld" -shared --export-dynamic --stack-first -z stack-size=16 --initial-memory=131072 --max-memory=196608 --import-memory --allow-undefined -o placed.wasm first.o &&
    cmp placed.wasm first.wasm
}

# Under the name that compilers call, definitions are exported without a word.
same_by_name() {
  ln -s "$wasmld" wasm-ld && ./wasm-ld -shared --experimental-pic -s -o named.wasm first.o && cmp named.wasm first.wasm
}

# A plain object, of which the first reference that isn't position-independent is told.
plain_is_refused() {
  "$wasmld" --make-case=2 -shared >got.txt
  [ $? -eq 1 ] && [ "$(cat got.txt)" = "wasmld: input 1: symbol 2: relocation 4 is not position-independent" ]
}

modules() {
  local level bases order
  for level in -O0 -O1 -O2; do
    expect "side modules of C and C++ are compiled with $level" compile "$level"
    expect "the first is linked by any number of workers" links first.wasm first.o
    expect "the second is linked" links second.wasm second.o
    for bases in "1024 1" "65568 7"; do
      for order in "first.wasm second.wasm" "second.wasm first.wasm"; do
        expect "they run at the bases $bases, loaded as $order" loads $bases $order
      done
    done
    expect "both in one module are linked" links both.wasm first.o second.o
    expect "and run" loads 1024 1 both.wasm
  done
  expect "options that place a plain output have no effect" places_are_ignored
  expect "the name wasm-ld gives the same" same_by_name
}

cd "$folder" || exit 2
expect "what isn't position-independent is refused" plain_is_refused
missing=$(lacking)
if [ -n "$missing" ]; then
  echo "skipped: side modules ($missing)"
else
  modules
fi
finish
