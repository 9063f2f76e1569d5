#!/usr/bin/env bash
# Links what clang makes of the C and C++ sources in tests/real, with wasi-libc where a program needs it, and runs the modules under node.
# Skipped where one of these isn't installed. The linker is $WASMLD, or else bin/wasmld. The last line is 'N passed, M failed'.
set -u
top=$(cd "$(dirname "${BASH_SOURCE[0]}")/.." && pwd)
. "$top/tests/common/expect.bash"
wasmld=${WASMLD:-$top/bin/wasmld}
sources=$top/tests/real
libc=/usr/lib/wasm32-wasi

skip() {
  echo "skipped: real programs ($1)"
  echo "0 passed, 0 failed"
  exit 0
}

for tool in clang llvm-ar node; do
  command -v "$tool" >/dev/null || skip "no $tool"
done
clang --print-targets | grep -q wasm32 || skip "clang has no wasm32"
[ -e "$libc/crt1.o" ] || skip "no wasi-libc"
builtins=$(clang --target=wasm32-wasi --print-libgcc-file-name)
[ -e "$builtins" ] || skip "no compiler-rt for wasm32"

folder=$(mktemp -d)
trap 'rm -rf "$folder"' EXIT

# Each of the sources becomes an object of the same name.
compile() {
  local source
  for source in "$@"; do
    clang --target=wasm32-wasi "$level" -fno-exceptions -c "$sources/$source" -o "${source%.*}.o" || return 1
  done
}

# Links with 1 and with 64 workers, and once more with the output checked; the bytes are equal.
links() {
  local output=$1
  shift
  "$wasmld" --threads=1 -o "$output" "$@" || return 1
  "$wasmld" --threads=64 -o "$output.64" "$@" || return 1
  "$wasmld" --validate -o "$output.checked" "$@" || return 1
  cmp "$output" "$output.64" && cmp "$output" "$output.checked"
}

# Takes the line of the refusal, and the words.
is_refused_as() {
  local line=$1
  shift
  "$wasmld" -o refused.wasm "$@" >got.txt
  [ $? -eq 1 ] && [ "$(cat got.txt)" = "$line" ] && [ ! -e refused.wasm ] || {
    cat got.txt
    return 1
  }
}

# Runs a module by a script; its output is what stands in the file.
gives() {
  local wanted=$1
  shift
  node --no-warnings "$@" >got.txt 2>err.txt && diff got.txt "$wanted" || {
    cat err.txt
    return 1
  }
}

# Takes a program's name and its words: it is linked with wasi-libc, and prints what stands in the file of its name.
program() {
  local name=$1
  shift
  expect "$name $level is linked" links "$name.wasm" "$libc/crt1.o" "$@" "$libc/libc.a" "$builtins"
  expect "and prints" gives "$sources/$name.txt" "$sources/run.mjs" "$name.wasm"
}

# Programs of C: printf, malloc, qsort, pointers to functions and data, weak names, constructors.
programs_of_c() {
  compile hello.c sort.c weak.c weak_other.c order.c order_other.c
  program hello hello.o
  program hello --stack-first -z stack-size=1048576 --initial-memory=0x400000 --max-memory=0x800000 hello.o
  program sort sort.o
  program weak weak.o weak_other.o
  program order order.o order_other.o
}

# Libraries whose members need each other, in every order.
libraries() {
  compile library_add.c library_triple.c library_unused.c uses_library.c parity_even.c parity_odd.c uses_parity.c
  llvm-ar rcs small.a library_add.o library_unused.o library_triple.o
  llvm-ar rcs even.a parity_even.o
  llvm-ar rcs odd.a parity_odd.o
  llvm-ar rcs both.a parity_odd.o parity_even.o
  program uses_library uses_library.o small.a
  program uses_library small.a uses_library.o
  program uses_parity uses_parity.o both.a
  program uses_parity uses_parity.o even.a odd.a
  program uses_parity --start-lib parity_even.o parity_odd.o --end-lib uses_parity.o
  expect "a whole library is loaded" is_refused_as "wasmld: input 3: unresolved never_defined" \
    --no-entry --no-gc-sections uses_parity.o --whole-archive small.a --no-whole-archive both.a "$libc/libc.a" "$builtins"
}

# Virtual functions, templates, and what two objects share.
programs_of_cpp() {
  [ -e "$libc/libc++.a" ] || {
    echo "skipped: C++ (no libc++)"
    return
  }
  compile shapes.cpp shapes_other.cpp texts.cpp
  program shapes shapes.o shapes_other.o "$libc/libc++.a" "$libc/libc++abi.a"
  program texts texts.o "$libc/libc++.a" "$libc/libc++abi.a"
}

# One object without a library: what is exported, imported and dropped.
words() {
  compile words.c
  expect "--export-dynamic $level" links dynamic.wasm --no-entry --export-dynamic --allow-undefined words.o
  expect "exports what isn't hidden" gives "$sources/words_dynamic.txt" "$sources/call.mjs" dynamic.wasm doubled 4
  expect "--export $level" links one.wasm --no-entry --export=asked --export-if-defined=nowhere --allow-undefined words.o
  expect "exports that name, and imports the undefined one" gives "$sources/words_one.txt" "$sources/call.mjs" one.wasm asked 4
  expect "what is dead isn't asked for" links dead.wasm --no-entry --export=doubled words.o
  expect "and not imported" gives "$sources/words_dead.txt" "$sources/call.mjs" dead.wasm doubled 5
  expect "an undefined name is refused" is_refused_as "wasmld: input 1: unresolved from_host" --no-entry --export=asked words.o
  expect "with --no-gc-sections also a dead one" is_refused_as "wasmld: input 1: unresolved from_host" \
    --no-entry --no-gc-sections --export=doubled words.o
}

for level in -O0 -O2; do
  mkdir "$folder/$level" && cd "$folder/$level" || exit 2
  programs_of_c
  libraries
  programs_of_cpp
  words
done

finish
