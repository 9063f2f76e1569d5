#!/usr/bin/env bash
# Runs wasmrun over real files, in a folder of its own: traces, statuses, and what standard error tells. Where clang and node are there, also
# over what wasmld links: the traces are those that node shows. The programs are $WASMRUN and $WASMLD, or else bin/wasmrun and bin/wasmld. The
# last line is 'N passed, M failed'.
set -u
top=$(cd "$(dirname "${BASH_SOURCE[0]}")/.." && pwd)
. "$top/tests/common/expect.bash"
wasmrun=${WASMRUN:-$top/bin/wasmrun}
wasmld=${WASMLD:-$top/bin/wasmld}
sources=$top/tests/wasmrun
libc=/usr/lib/wasm32-wasi
work_in_a_folder

# Takes the wanted exit status, the file with the wanted standard output, the wanted standard error, and the words.
ends() {
  local wanted=$1 text=$2 line=$3
  shift 3
  "$wasmrun" "$@" >out.txt 2>err.txt
  local status=$?
  [ "$status" -eq "$wanted" ] && cmp out.txt "$text" && [ "$(cat err.txt)" = "$line" ] || {
    echo "status $status in place of $wanted, and:"
    head -n 20 out.txt err.txt
    return 1
  }
}

# Takes the script's text, the trace's text, and the words behind the script.
traces() {
  printf "$1" >given
  printf "$2" >wanted
  shift 2
  ends 0 wanted "" --script given "$@"
}

# Takes the line that standard error has, the script's text, and the words behind the script.
is_refused_as() {
  local line=$1
  printf "$2" >given
  shift 2
  ends 1 nothing "$line" --script given "$@"
}

ends_unheard() {
  local wanted=$1
  shift
  "$wasmrun" "$@" >/dev/full 2>err.txt
  [ $? -eq "$wanted" ]
}

tells() { "$wasmrun" "$1" >out.txt && grep -q -- "$2" out.txt; }

: >nothing
cp "$top/tests/data/call.wasm" c.wasm
printf 'call f\n' >s

# What is run.
expect "a call is run" traces 'call f' 'returned i32:7\nmemory 2\nend\n' c.wasm --steps 100
expect "so many steps are enough" traces 'call f\n' 'returned i32:7\nmemory 2\nend\n' --steps=4 c.wasm
expect "one fewer isn't" traces 'call f' 'steps spent\nmemory 2\nend\n' c.wasm --steps 3
expect "a call with other arguments isn't made" traces 'call f i32:1' 'not called\nmemory 2\nend\n' c.wasm --steps 100
expect "an empty script calls nothing" traces '' 'memory 2\nend\n' c.wasm --steps 0
expect "the files stay as they were" cmp c.wasm "$top/tests/data/call.wasm"

# What isn't.
expect "a script that is none" is_refused_as "wasmrun: bad script: line 1" 'cal f' c.wasm --steps 100
expect "skipped lines count" is_refused_as "wasmrun: bad script: line 4" '# f\n\ncall f\ncall  f\n' c.wasm --steps 100
expect "bytes that are no module" is_refused_as "wasmrun: not a module" 'call f' s --steps 100
printf '\0asm\1\0\0\0\x0b\7\1\0\x41\0\x0b\1\5' >outside.wasm
expect "a segment without a memory" is_refused_as "wasmrun: out of bounds: segment 0" 'call f' outside.wasm --steps 100

# Words and files.
usage="wasmrun: usage: wasmrun MODULE --script FILE --steps N, with N from 0 to 1000000000 (wasmrun --help tells more)"
expect "no words" ends 2 nothing "$usage"
expect "no script" ends 2 nothing "$usage" c.wasm --steps 1
expect "no steps" ends 2 nothing "$usage" c.wasm --script s
expect "too many steps" ends 2 nothing "$usage" c.wasm --script s --steps 1000000001
expect "two modules" ends 2 nothing "$usage" c.wasm c.wasm --script s --steps 1
expect "an unknown option" ends 2 nothing "$usage" c.wasm --script s --steps 1 --fast
expect "a word that isn't UTF-8" ends 2 nothing "wasmrun: a word is not UTF-8" $'c\xff.wasm' --script s --steps 1
expect "a module that isn't there" ends 3 nothing "wasmrun: cannot read the module" absent --script s --steps 1
expect "a script that isn't there" ends 3 nothing "wasmrun: cannot read the script" c.wasm --script absent --steps 1
expect "a folder as module" ends 3 nothing "wasmrun: cannot read the module" . --script s --steps 1
expect "a trace that can't be written is a fault" ends_unheard 4 c.wasm --script s --steps 100
expect "which a refusal isn't" ends_unheard 1 s --script s --steps 100
expect "help that can't be written is a fault" ends_unheard 4 --help
expect "help tells the lines of scripts" tells --help "grow yes"
expect "the version is told" tells --version "^wasmrun "

# The front of a trace that stands in a file, and how it ends: the memory differs from compiler to compiler.
begins_as() {
  local wanted=$1
  shift
  "$wasmrun" "$@" >got.txt 2>err.txt || {
    cat err.txt
    return 1
  }
  diff "$wanted" <(head -n "$(wc -l <"$wanted")" got.txt) && [ "$(tail -n 1 got.txt)" = end ]
}

# Takes a module and its script: node makes the same calls.
agrees_with_node() {
  node --no-warnings "$sources/calls.mjs" "$1" "$2" >wanted.txt && begins_as wanted.txt "$1" --script "$2" --steps 1000000
}

# Takes the name of a program of tests/real: what the host does for it under node is its script, and the trace is that of node.
runs_as_under_node() {
  local name=$1
  clang --target=wasm32-wasi -O2 -c "$top/tests/real/$name.c" -o "$name.o" &&
    "$wasmld" -o "$name.wasm" "$libc/crt1.o" "$name.o" "$libc/libc.a" "$(clang --target=wasm32-wasi --print-libgcc-file-name)" &&
    node --no-warnings "$sources/record.mjs" "$name.wasm" "$name.script" "$name.trace" >printed.txt &&
    diff printed.txt "$top/tests/real/$name.txt" &&
    ends 0 "$name.trace" "" "$name.wasm" --script "$name.script" --steps 1000000
}

of_clang() {
  if ! command -v clang >/dev/null || ! clang --print-targets | grep -q wasm32; then
    echo "skipped: modules of clang (it isn't there, or has no wasm32)"
    return
  fi
  clang --target=wasm32-unknown-unknown -O2 -nostdlib -c "$sources/calls.c" -o calls.o && "$wasmld" -o calls.wasm --no-entry calls.o || {
    expect "functions of C are linked" false
    return
  }
  expect "functions of C are called" begins_as "$sources/calls.txt" calls.wasm --script "$sources/calls.script" --steps 1000000
  if ! command -v node >/dev/null; then
    echo "skipped: traces as node has them (it isn't there)"
    return
  fi
  expect "and do as they do under node" agrees_with_node calls.wasm "$sources/calls.script"
  if [ -e "$libc/crt1.o" ]; then
    expect "a program that prints does as under node" runs_as_under_node hello
    expect "one that sorts does" runs_as_under_node sort
  else
    echo "skipped: programs with wasi-libc (it isn't there)"
  fi
}

of_clang
finish
