#!/usr/bin/env bash
# Links objects that clang makes with -g, and compares what LLVM's tools read of the module's debug sections with what they read of wasm-ld's module: of C
# with a library and dead functions, of C++ with functions that two objects define, and of a side module, as DWARF 4 and 5. Then a trap's place under node, what
# drivers' words do, and the faults of debug sections. Skipped where a tool isn't installed. The linker is $WASMLD, or else bin/wasmld, and under its other name bin/wasm-ld.
# The last line is 'N passed, M failed'.
set -u
top=$(cd "$(dirname "${BASH_SOURCE[0]}")/.." && pwd)
. "$top/tests/common/expect.bash"
wasmld=${WASMLD:-$top/bin/wasmld}
sources=$top/tests/debug
libc=/usr/lib/wasm32-wasi
export PYTHONDONTWRITEBYTECODE=1

subject="debug sections"
need clang llvm-ar llvm-dwarfdump llvm-symbolizer wasm-ld python3

work_in_a_folder
name_the_driver

# Takes a compiler, and sources of the folder; each becomes an object of its name.
compile() {
  local compiler=$1 source
  shift
  for source in "$@"; do
    "$compiler" --target=wasm32-unknown-unknown -fno-exceptions -fno-rtti "$level" "-gdwarf-$version" -c "$sources/$source" -o "${source%.*}.o" || return 1
  done
}

# Takes a module, the one without debug sections, and a link's words: it is linked with 1 and with 64 workers to the same bytes, and to those of the
# module without debug sections with sections behind them.
keeps() {
  local module=$1 plain=$2
  shift 2
  "$wasmld" --threads=1 -o "$plain" "$@" || return 1
  "$wasmld" --threads=1 --keep-debug -o "$module" "$@" || return 1
  "$wasmld" --threads=64 --keep-debug -o "$module.64" "$@" || return 1
  "$wasmld" --validate --keep-debug -o "$module.checked" "$@" || return 1
  cmp "$module" "$module.64" && cmp "$module" "$module.checked" && python3 "$sources/sections.py" tail "$plain" "$module" >names.txt || return 1
  grep -qw '.debug_info' names.txt && grep -qw '.debug_line' names.txt && ! grep -qwv '\.debug_[a-z_]*' names.txt
}

# The same C as position-independent code, of which one object exports all its names.
compile_side() {
  local flags=(--target=wasm32-unknown-emscripten -fPIC -mno-bulk-memory "$level" "-gdwarf-$version") source
  clang "${flags[@]}" -fvisibility=default -c "$sources/program.c" -o side_program.o || return 1
  for source in scaled counted unneeded; do
    clang "${flags[@]}" -c "$sources/$source.c" -o "side_$source.o" || return 1
  done
}

# What the verifier finds wrong with a module, without places.
found_wrong() {
  llvm-dwarfdump --verify "$1" 2>&1 | grep -iE '^(error|warning)' | sed -E 's/0x[0-9a-f]+/N/g' | sort
}

# Takes our module and wasm-ld's: the verifier finds nothing in ours that it doesn't find in theirs.
is_sound() {
  [ -z "$(comm -23 <(found_wrong "$1") <(found_wrong "$2"))" ] || {
    llvm-dwarfdump --verify "$1"
    return 1
  }
}

# Takes a name and a link's words, which both linkers know.
compare() {
  local name=$1
  shift
  expect "$name, DWARF $version $level, keeps debug sections" keeps "$name.wasm" "$name.plain" --no-entry "$@"
  expect "wasm-ld links it" wasm-ld --no-entry "$@" -o "$name.theirs"
  expect "the verifier finds nothing of its own in it" is_sound "$name.wasm" "$name.theirs"
  expect "each function has the lines that it has in wasm-ld's" python3 "$sources/lines.py" same "$name.wasm" "$name.theirs"
}

# A side module: its data count from where a loader puts them.
compare_side() {
  local objects=(side_program.o side_scaled.o side_counted.o side_unneeded.o)
  expect "C for a side module, DWARF $version $level, is compiled" compile_side
  expect "its debug sections are kept" keeps side.wasm side.plain -shared --export-dynamic "${objects[@]}"
  expect "wasm-ld links it" wasm-ld -shared --experimental-pic "${objects[@]}" -o side.theirs
  expect "the verifier finds nothing of its own in it" is_sound side.wasm side.theirs
  expect "each function has the lines that it has in wasm-ld's" python3 "$sources/lines.py" same side.wasm side.theirs
  expect "data have their addresses" python3 "$sources/data.py" side.wasm table=1 factor=3
  command -v node >/dev/null && expect "a trap's place is a line" traps_at side.wasm look program.c:9
}

# Takes a module, and one that has more behind it.
begins_with() {
  local length
  length=$(stat -c %s "$1")
  cmp -n "$length" "$1" "$2" && [ "$(stat -c %s "$2")" -gt "$length" ]
}

# Takes the module without debug sections by own words, and drivers' words: debug sections are kept, but where a word strips them.
drivers_keep() {
  local word
  expect "own words keep them where they say so" keeps own.wasm stripped.wasm --stack-first "$@"
  expect "drivers' words keep them" "$driver" "$@" -o driver.wasm
  expect "to the same bytes, with names behind" begins_with own.wasm driver.wasm
  for word in -s --strip-all -strip-all; do
    expect "$word strips all" "$driver" "$@" "$word" -o short.wasm
    expect "to the bytes without the word that keeps them" cmp short.wasm stripped.wasm
  done
  for word in -S --strip-debug -strip-debug; do
    expect "$word strips them" "$driver" "$@" "$word" -o short.wasm
    expect "to these bytes, with names behind" begins_with stripped.wasm short.wasm
  done
}

# Takes a module, an export, and the file and line where a call of it with 9 traps.
traps_at() {
  local module=$1 export=$2 code place
  code=$(python3 "$sources/sections.py" code "$module") && place=$(node "$sources/trap.mjs" "$module" "$export" 9) || return 1
  llvm-symbolizer "--obj=$module" "$(printf '%#x' $((place - code)))" | grep -q "/$3:"
}

# Takes the line of the refusal, and the words.
is_refused_as() {
  local line=$1
  shift
  rm -f refused.wasm
  "$wasmld" -o refused.wasm "$@" >got.txt
  [ $? -eq 1 ] && [ "$(cat got.txt)" = "$line" ] && [ ! -e refused.wasm ] || {
    cat got.txt
    return 1
  }
}

# The same of drivers' words, on standard error.
is_refused_to_drivers_as() {
  local line=$1
  shift
  rm -f refused.wasm
  "$driver" -o refused.wasm "$@" 2>got.txt
  [ $? -eq 1 ] && [ "$(cat got.txt)" = "$line" ] && [ ! -e refused.wasm ] || {
    cat got.txt
    return 1
  }
}

# An object with a relocation of no known type, and more than 2 GiB of debug sections.
faults() {
  local section
  section=$(python3 "$sources/sections.py" spoil program.o bad.o)
  expect "a bad relocation for a debug section is refused" is_refused_as "wasmld: input 1: bad debug section $section" --no-entry --keep-debug bad.o lib.a
  expect "and to drivers" is_refused_to_drivers_as "wasm-ld: error: bad.o: malformed debug section $section" --no-entry bad.o lib.a
  expect "without the word it is linked" "$wasmld" --no-entry bad.o lib.a -o good.wasm
  expect "to the same module" cmp good.wasm c.plain
  expect "and so it is to drivers that strip" "$driver" --no-entry -S bad.o lib.a -o good.wasm
  [ "$(awk '/^MemAvailable/ { print int($2 / 1048576) }' /proc/meminfo)" -ge 6 ] || {
    skip "debug sections that are too long (less than 6 GiB of memory)"
    return
  }
  python3 "$sources/sections.py" long long.o 720000000
  expect "debug sections that are too long are refused" is_refused_as "wasmld: debug sections need 2160000047 bytes" \
    --no-entry --keep-debug long.o long.o long.o
  expect "and to drivers" is_refused_to_drivers_as "wasm-ld: error: output too large with debug sections, 2160000047 bytes needed" \
    --no-entry long.o long.o long.o
  rm long.o
}

# Takes a name and a link's words: a program with a start file, which both linkers link.
compare_program() {
  local name=$1
  shift
  expect "$name with its libraries keeps debug sections" keeps "$name.wasm" "$name.plain" "$@"
  expect "wasm-ld links it" wasm-ld "$@" -o "$name.theirs"
  expect "the verifier finds nothing of its own in it" is_sound "$name.wasm" "$name.theirs"
  expect "each function has the lines that it has in wasm-ld's" python3 "$sources/lines.py" same "$name.wasm" "$name.theirs"
}

# Programs with wasi-libc and libc++, whose objects have debug sections too.
with_libraries() {
  local builtins
  builtins=$(clang --target=wasm32-wasi --print-libgcc-file-name)
  [ -e "$libc/crt1.o" ] && [ -e "$builtins" ] || {
    skip "debug sections of a C library (no wasi-libc)"
    return
  }
  clang --target=wasm32-wasi -g -O2 -c "$top/tests/real/hello.c"
  compare_program hello "$libc/crt1.o" hello.o "$libc/libc.a" "$builtins"
  [ -e "$libc/libc++.a" ] || {
    skip "debug sections of a C++ library (no libc++)"
    return
  }
  clang++ --target=wasm32-wasi -g -O1 -fno-exceptions -c "$top/tests/real/texts.cpp"
  compare_program texts "$libc/crt1.o" texts.o "$libc/libc++.a" "$libc/libc++abi.a" "$libc/libc.a" "$builtins"
}

for level in -O0 -O2; do
  for version in 4 5; do
    compile clang program.c scaled.c counted.c unneeded.c
    compile clang++ shapes.cpp shapes_other.cpp
    rm -f lib.a
    llvm-ar rcs lib.a scaled.o counted.o unneeded.o
    compare c program.o lib.a
    compare cpp shapes.o shapes_other.o
    command -v node >/dev/null && expect "a trap's place is a line" traps_at c.wasm look program.c:9
    compare_side
  done
done
drivers_keep --no-entry program.o lib.a
drivers_keep -shared --export-dynamic side_program.o side_scaled.o
faults
with_libraries

finish
