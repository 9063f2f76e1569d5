#!/usr/bin/env bash
# Partial links: objects are joined by -r, and what is made is linked in their place. Random objects first; then what clang makes of the sources
# in tests/real, and wasi-libc, linked with the same bytes as without -r and run under node; and LLVM's wasm-ld in either place. Where clang or one
# of the others isn't installed, that part is left out. The linker is $WASMLD, or else bin/wasmld. The last line is 'N passed, M failed'.
set -u
top=$(cd "$(dirname "${BASH_SOURCE[0]}")/.." && pwd)
. "$top/tests/common/program.bash"
. "$top/tests/common/expect.bash"
wasmld=$WASMLD
sources=$top/tests/real
libc=/usr/lib/wasm32-wasi
folder=$(mktemp -d)
trap 'rm -rf "$folder"' EXIT

# Some hundred random links, with a run of their objects joined.
random_links() {
  PYTHONPATH=$top/tests/rows:$top/tests/random:$top/tests/partial python3 "$top/tests/partial/run.py" >"$folder/random.txt"
  local status=$?
  cat "$folder/random.txt"
  return $status
}

# What is lacking for real programs, if anything is.
lacking() {
  local tool
  for tool in clang llvm-ar node; do
    command -v "$tool" >/dev/null || { echo "no $tool"; return; }
  done
  clang --print-targets | grep -q wasm32 || { echo "clang has no wasm32"; return; }
  [ -e "$libc/crt1.o" ] || { echo "no wasi-libc"; return; }
  builtins=$(clang --target=wasm32-wasi --print-libgcc-file-name)
  [ -e "$builtins" ] || echo "no compiler-rt for wasm32"
}

# Each of the sources becomes an object of the same name.
compile() {
  local source
  for source in "$@"; do
    clang --target=wasm32-wasi -O2 -fno-exceptions -c "$sources/$source" -o "${source%.*}.o" || return 1
  done
}

# Joins objects with 1, 2 and 64 workers; the bytes are equal.
joins() {
  local output=$1
  shift
  "$wasmld" --threads=1 -r -o "$output" "$@" || return 1
  "$wasmld" --threads=2 -r -o "$output.2" "$@" || return 1
  "$wasmld" --threads=64 -r -o "$output.64" "$@" || return 1
  cmp "$output" "$output.2" && cmp "$output" "$output.64"
}

links() {
  local output=$1
  shift
  "$wasmld" -o "$output" "$libc/crt1.o" "$@" "${libraries[@]}" "$libc/libc.a" "$builtins"
}

# Links twice, and compares the modules.
same_module() {
  links whole.wasm $1 && links later.wasm $2 && cmp whole.wasm later.wasm
}

prints() {
  node --no-warnings "$sources/run.mjs" "$2" >got.txt 2>err.txt && diff got.txt "$sources/$1.txt" || {
    cat err.txt
    return 1
  }
}

# Takes a program's name and its objects, which are joined.
program() {
  local name=$1
  shift
  expect "the objects of $name are joined" joins r.o "$@"
  expect "and linked to the same module" same_module "$*" r.o
  expect "which prints" prints "$name" later.wasm
  command -v wasm-ld >/dev/null || return
  expect "wasm-ld links what is joined" wasm-ld -o theirs.wasm "$libc/crt1.o" r.o "${libraries[@]}" "$libc/libc.a" "$builtins"
  expect "and it prints" prints "$name" theirs.wasm
  # LLVM 14 gives what it joins a memory of its own, if it is not told so.
  expect "what wasm-ld joins" wasm-ld -r --import-memory -o theirs.o "$@"
  expect "is linked" links ours.wasm theirs.o
  expect "and prints" prints "$name" ours.wasm
}

# A partial link of a partial link is that of all objects.
of_a_part() {
  joins front.o order.o && joins both.o front.o order_other.o && same_module "order.o order_other.o" both.o
}

# All members of the C library as objects, joined into one.
whole_library() {
  mkdir members && (cd members && llvm-ar x "$libc/libc.a") && joins libc.o members/*.o && same_module "sort.o members/*.o" "sort.o libc.o"
}

is_refused_as() {
  local line=$1
  shift
  "$wasmld" -r -o refused.o "$@" >got.txt
  [ $? -eq 1 ] && [ "$(cat got.txt)" = "$line" ] && [ ! -e refused.o ] || {
    cat got.txt
    return 1
  }
}

real_programs() {
  libraries=()
  compile sort.c weak.c weak_other.c order.c order_other.c
  program sort sort.o
  program weak weak.o weak_other.o
  program order order.o order_other.o
  expect "what is joined is joined again" of_a_part
  expect "the C library is joined" whole_library
  expect "a library is no part" is_refused_as "wasmld: file 1: not an object for a partial link" sort.o "$libc/libc.a"
  expect "a lazy object is no part" is_refused_as "wasmld: file 1: not an object for a partial link" sort.o --start-lib weak.o --end-lib
  [ -e "$libc/libc++.a" ] || {
    echo "skipped: partial links of C++ (no libc++)"
    return
  }
  libraries=("$libc/libc++.a" "$libc/libc++abi.a")
  compile shapes.cpp shapes_other.cpp
  program shapes shapes.o shapes_other.o
}

expect "random links with joined objects" random_links
reason=$(lacking)
if [ -n "$reason" ]; then
  echo "skipped: partial links of real programs ($reason)"
else
  builtins=$(clang --target=wasm32-wasi --print-libgcc-file-name)
  cd "$folder" && real_programs
fi
finish
