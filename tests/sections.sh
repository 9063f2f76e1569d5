#!/usr/bin/env bash
# What a compiler driver's link puts behind a module: the names of functions, and the features that the module uses. What LLVM's linker writes is
# compared where it is installed; wasm-opt reads the module where it is. The linker is $WASMLD under the name wasm-ld, or else bin/wasm-ld. The last
# line is 'N passed, M failed'.
set -u
top=$(cd "$(dirname "${BASH_SOURCE[0]}")/.." && pwd)
. "$top/tests/common/expect.bash"
sources=$top/tests/sections

subject="sections behind modules"
need clang node

work_in_a_folder
name_the_driver

compile() {
  clang --target=wasm32-unknown-unknown -c "$@"
}

told() {
  python3 "$sources/custom.py" "$1" "$2"
}

# Takes what of a module is asked for, the lines that are wanted, and the words of a link.
says() {
  local what=$1 wanted=$2
  shift 2
  "$driver" "$@" -o said.wasm 2>err.txt && diff <(told said.wasm "$what") <(printf "$wanted") || {
    cat err.txt
    return 1
  }
}

# Takes what is asked for, and the words of a link by both linkers.
says_as_lld_does() {
  local what=$1
  shift
  command -v wasm-ld >/dev/null || return 0
  "$driver" "$@" -o ours.wasm 2>ours.txt
  wasm-ld "$@" -o theirs.wasm 2>theirs.txt
  diff ours.txt theirs.txt && diff <(told ours.wasm "$what") <(told theirs.wasm "$what")
}

# Takes the words of a link that both linkers refuse.
refuses_as_lld_does() {
  command -v wasm-ld >/dev/null || return 0
  rm -f ours.wasm theirs.wasm
  "$driver" "$@" -o ours.wasm 2>ours.txt
  wasm-ld "$@" -o theirs.wasm 2>theirs.txt
  [ ! -e ours.wasm ] && [ ! -e theirs.wasm ] && diff ours.txt theirs.txt
}

# The line on standard error, and the words of a link.
is_refused_as() {
  local line=$1
  shift
  rm -f no.wasm
  "$driver" "$@" -o no.wasm 2>err.txt
  [ $? -eq 1 ] && [ "$(cat err.txt)" = "$line" ] && [ ! -e no.wasm ] || {
    cat err.txt
    return 1
  }
}

names_of_functions() {
  compile -O1 "$sources/names.c" "$sources/trap.c" || return
  clang --target=wasm32-unknown-emscripten -O1 -fPIC -c "$sources/names.c" -o names_pic.o
  printf 'void first(long long);\nvoid other(void) { first(1); }\n' >other.c
  compile -O1 other.c
  expect "functions have their names" says functions '__wasm_call_ctors\ndoubled\nfirst\nprepare\nrun\ntell\nundefined_weak:absent\n' names.o --no-entry --export=__wasm_call_ctors
  expect "as LLVM's linker has them" says_as_lld_does functions names.o --no-entry --export=__wasm_call_ctors
  expect "a call by another type has a name too" says functions '__wasm_call_ctors\ndoubled\nfirst\nother\nprepare\nrun\nsignature_mismatch:first\ntell\nundefined_weak:absent\n' \
    names.o other.o --no-entry --export=other --export=__wasm_call_ctors
  expect "without the collection of garbage all have" says_as_lld_does functions names.o --no-entry --no-gc-sections --export=__wasm_call_ctors
  expect "in a shared output as well" says_as_lld_does functions names_pic.o -shared --experimental-pic
  expect "the names stand behind the module" says list 'name\n' names.o --no-entry --export=__wasm_call_ctors
  expect "also where debug sections are left out" says list 'name\n' -S names.o --no-entry --export=__wasm_call_ctors
  expect "and not where all is" says list '' -s names.o --no-entry --export=__wasm_call_ctors
  expect "unless they are asked for" says list 'name\n' --strip-all --keep-section=name names.o --no-entry --export=__wasm_call_ctors
  expect "a trap's stack has the names" says functions '__wasm_call_ctors\nfalls_here\nrun\n' trap.o --no-entry --export=__wasm_call_ctors
  expect "which node tells" diff <(node --no-warnings "$sources/stack.mjs" said.wasm run) <(printf 'falls_here\nrun\n')
}

# Takes the name of an object, and what it says of features: `+a` where it uses a, `=a` where all have to, `-a` where none may.
object_with() {
  local name=$1 feature
  shift
  {
    printf '.section .text.%s,"",@\n.globl %s\n.type %s,@function\n%s:\n.functype %s () -> ()\nend_function\n' "$name" "$name" "$name" "$name" "$name"
    printf '.section .custom_section.target_features,"",@\n.int8 %d\n' $#
    for feature in "$@"; do
      printf '.int8 %d\n.int8 %d\n.ascii "%s"\n' "'${feature:0:1}" $((${#feature} - 1)) "${feature:1}"
    done
  } >"$name.s"
  clang --target=wasm32-unknown-unknown -c "$name.s"
}

features_of_modules() {
  object_with uses +simd128 +atomics
  object_with more +sign-ext +atomics
  object_with forbids -atomics
  object_with requires =bulk-memory
  object_with silent
  expect "a module says what its objects use" says features '+atomics\n+sign-ext\n+simd128\n' uses.o more.o --no-entry
  expect "also what all of them have to" says features '+bulk-memory\n' requires.o --no-entry
  expect "and nothing where they use nothing" says list 'name\n' silent.o --no-entry --export=silent
  expect "by a list it says that alone" says features '+atomics\n+simd128\n+tail-call\n' uses.o --no-entry --features=tail-call,simd128,atomics
  expect "and further ones" says features '+atomics\n+exceptions\n+simd128\n' uses.o --no-entry --extra-features=exceptions
  expect "also with -S" says features '+atomics\n+simd128\n' uses.o --no-entry -S
  expect "and not with -s" says list '' uses.o --no-entry -s
  expect "unless they are asked for" says list 'target_features\n' uses.o --no-entry -s --keep-section=target_features
  expect "they stand behind the names" says list 'name\ntarget_features\n' uses.o --no-entry --export=uses
  expect "LLVM's linker says the same" says_as_lld_does features uses.o more.o requires.o --no-entry --no-check-features
  expect "and of lists" says_as_lld_does features uses.o --no-entry --features=a,b --no-check-features
  expect "a shared output says that it needs mutable globals" says_as_lld_does features uses.o -shared --experimental-pic
}

agreement_of_objects() {
  local end="Use --no-check-features to suppress."
  expect "what is disallowed isn't used" is_refused_as "wasm-ld: error: Target feature 'atomics' used in uses.o is disallowed by forbids.o. $end" uses.o forbids.o --no-entry
  expect "in the words of LLVM's linker" refuses_as_lld_does uses.o forbids.o --no-entry
  expect "what is required is used" is_refused_as "wasm-ld: error: Missing target feature 'bulk-memory' in silent.o, required by requires.o. $end" requires.o silent.o --no-entry
  expect "in its words too" refuses_as_lld_does requires.o silent.o --no-entry
  expect "what isn't allowed isn't used" is_refused_as "wasm-ld: error: Target feature 'simd128' used by uses.o is not allowed." uses.o --no-entry --features=atomics
  expect "in its words as well" refuses_as_lld_does uses.o --no-entry --features=atomics
  expect "unless nobody checks" says features '+atomics\n+simd128\n' uses.o forbids.o --no-entry --no-check-features
  expect "the last word counts" is_refused_as "wasm-ld: error: Target feature 'atomics' used in uses.o is disallowed by forbids.o. $end" \
    uses.o forbids.o --no-entry --no-check-features --check-features
  expect "objects that agree are linked" says features '+atomics\n+sign-ext\n+simd128\n' uses.o more.o silent.o --no-entry --check-features
  if [ -n "${WASMLD:-}" ] && [ "$(basename "$WASMLD")" = wasmld ]; then
    expect "own words ask nothing" "$WASMLD" uses.o forbids.o --no-entry -o own.wasm
    expect "and write none of it" test -z "$(told own.wasm list)"
  fi
}

# A compiler that runs wasm-opt behind the link, which refuses what the module doesn't say that it uses.
optimized() {
  local libc=/usr/lib/wasm32-wasi
  command -v wasm-opt >/dev/null && [ -e "$libc/crt1.o" ] || {
    skip "wasm-opt (not installed, or no wasi-libc)"
    return
  }
  printf '#include <stdio.h>\n#include <string.h>\nstatic char to[9000];\nint main(int n, char **words) { memset(to, 64 + n, 8999); to[2 * n + 1] = 0; return puts(to) < 0; }\n' >moved.c
  expect "clang -O2 links and optimizes" clang --target=wasm32-wasi -O2 -mbulk-memory -msign-ext "-fuse-ld=$driver" moved.c -o moved.wasm
  expect "to what runs" diff <(node --no-warnings "$top/tests/real/run.mjs" moved.wasm) <(printf 'AAA\n')
}

names_of_functions
features_of_modules
agreement_of_objects
optimized
finish
