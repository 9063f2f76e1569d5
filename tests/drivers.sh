#!/usr/bin/env bash
# Builds programs as compiler drivers and build systems do, with the linker in wasm-ld's place: by clang with -fuse-ld and with -B, by
# cmake, meson, a configure script and rustc. The modules run under node. What isn't installed is left out. The linker is $WASMLD under the names of wasm-ld,
# or else bin/wasm-ld. The last line is 'N passed, M failed'.
set -u
top=$(cd "$(dirname "${BASH_SOURCE[0]}")/.." && pwd)
. "$top/tests/common/expect.bash"
real=$top/tests/real
sources=$top/tests/drivers
libc=/usr/lib/wasm32-wasi

subject="compiler drivers"
need clang llvm-ar node
[ -e "$libc/crt1.o" ] || skip_all "no wasi-libc"
[ -e "$(clang --target=wasm32-wasi --print-libgcc-file-name)" ] || skip_all "no compiler-rt for wasm32"

work_in_a_folder

# The linker, by each name that a driver looks for.
mkdir names
program=$(readlink -f "${WASMLD:-$top/bin/wasm-ld}")
version=$(clang -dumpversion)
ln -s "$program" names/wasm-ld
ln -s "$program" "names/wasm-ld-${version%%.*}"
linker=$folder/names/wasm-ld

cc() { clang --target=wasm32-wasi "-fuse-ld=$linker" "$@"; }
cc_by_folder() { clang --target=wasm32-wasi "-B$folder/names" "$@"; }
cxx() { clang++ --target=wasm32-wasi -fno-exceptions "-fuse-ld=$linker" "$@"; }
bare() { clang --target=wasm32-unknown-unknown -nostdlib "-fuse-ld=$linker" "$@"; }

# Takes the file that holds what is wanted, and a command. Its output is compared, and its errors are shown.
gives() {
  local wanted=$1
  shift
  "$@" >got.txt 2>err.txt && diff got.txt "$wanted" || {
    cat err.txt
    return 1
  }
}

# Takes a module and what it prints under WASI.
prints() {
  local module=$1
  printf '%b' "$2" >wanted.txt
  gives wanted.txt node --no-warnings "$sources/run.mjs" "$folder" "$module"
}

runs_as() {
  gives "$2" node --no-warnings "$real/run.mjs" "$1"
}

# Takes a command that prints more than is to be shown where it succeeds.
quietly() {
  "$@" >quiet.txt 2>&1 || {
    cat quiet.txt
    return 1
  }
}

# Takes the module that isn't to be written, the line on standard error, and the linker's words. Standard output stays empty.
is_refused_as() {
  local module=$1 line=$2
  shift 2
  "$linker" "$@" >got.txt 2>err.txt
  [ $? -eq 1 ] && [ "$(cat err.txt)" = "$line" ] && [ ! -s got.txt ] && [ ! -e "$module" ] || {
    cat err.txt got.txt
    return 1
  }
}

is_refused() {
  "$linker" "$@" 2>err.txt
  [ $? -eq 1 ]
}

# The same by the linker's own words, where it is there under its own name.
is_refused_by_own_words() {
  [ -z "${WASMLD:-}" ] && return
  shift
  "$WASMLD" "$@" 2>err.txt
  [ $? -eq 1 ]
}

# Programs of C.
programs_of_c() {
  local level
  for level in -O0 -O2 -g; do
    expect "clang $level links hello.c" cc "$level" "$real/hello.c" -o hello.wasm
    expect "and it runs" runs_as hello.wasm "$real/hello.txt"
    expect "clang $level -B links two files with constructors" cc_by_folder "$level" "$real/order.c" "$real/order_other.c" -o order.wasm
    expect "and they run" runs_as order.wasm "$real/order.txt"
    expect "clang $level links a program with files" cc "$level" "$sources/files.c" -o files.wasm
    expect "and it runs" prints files.wasm '1 words, at home\nno newline'
  done
  expect "with -s, a stack and an export" cc -O2 -s -Wl,-z,stack-size=65536 -Wl,--export=malloc "$real/sort.c" -lm -o sort.wasm
  expect "it runs" runs_as sort.wasm "$real/sort.txt"
  expect "clang links a reactor" cxx -O2 -mexec-model=reactor "$sources/reactor.cpp" -o reactor.wasm
  expect "and it runs" prints reactor.wasm '41 42\n'
  expect "clang links without a library" bare -O2 -Wl,--no-entry -Wl,--export=doubled "$real/words.c" -o words.wasm
  expect "and it runs" gives "$real/words_dead.txt" node --no-warnings "$real/call.mjs" words.wasm doubled 5
}

# Programs of C++.
programs_of_cpp() {
  local level
  command -v clang++ >/dev/null && [ -e "$libc/libc++.a" ] || {
    skip "C++ by a driver (no libc++)"
    return
  }
  for level in -O0 -O2; do
    expect "clang++ $level links static objects" cxx "$level" "$sources/objects.cpp" -o objects.wasm
    expect "and they run" prints objects.wasm 'first 50\nsecond 6\na=1\nb=2\nend of second\nend of first\n'
  done
  # Some builds of the C++ library declare functions otherwise than they define them: what links has to run, and else is refused.
  if cxx -O2 "$sources/streams.cpp" -o streams.wasm 2>streams.txt; then
    expect "streams run" prints streams.wasm 'hello from a stream 42\n'
    expect "and no warning is told of them" test ! -s streams.txt
  else
    expect "streams are refused by the name of a function" grep -q "^wasm-ld: error: .*_ZNSt3" streams.txt
    expect "and nothing is written" test ! -e streams.wasm
  fi
}

# Libraries that are looked for.
libraries() {
  mkdir one two
  clang --target=wasm32-wasi -O1 -c "$real/library_add.c" "$real/library_triple.c" "$real/library_unused.c" "$real/uses_library.c"
  llvm-ar rcs two/libsmall.a library_add.o library_unused.o library_triple.o
  llvm-ar rcsT thin.a library_add.o library_unused.o library_triple.o
  expect "a library is found behind -L and -l" cc uses_library.o -lsmall -Lone -Ltwo -o found.wasm
  expect "and runs" runs_as found.wasm "$real/uses_library.txt"
  expect "a thin library is read" cc uses_library.o thin.a -o thin.wasm
  expect "and runs" runs_as thin.wasm "$real/uses_library.txt"
  llvm-ar rcS bare.a library_add.o library_unused.o library_triple.o
  cp bare.a indexed.a
  llvm-ranlib indexed.a
  expect "a library without an index is read" cc uses_library.o bare.a -o bare.wasm
  expect "and runs" runs_as bare.wasm "$real/uses_library.txt"
  expect "with the index that ranlib makes" cc uses_library.o indexed.a -o indexed.wasm
  expect "it gives the same module" cmp bare.wasm indexed.wasm
  if command -v ar >/dev/null; then
    ar rc gnu.a library_add.o library_unused.o library_triple.o
    expect "one that GNU's ar made is read" cc uses_library.o gnu.a -o gnu.wasm
    expect "and gives that module too" cmp gnu.wasm indexed.wasm
  else
    skip "a library that GNU's ar made (no ar)"
  fi
  expect "own words refuse it" is_refused_by_own_words no.wasm uses_library.o bare.a --no-entry --allow-undefined -o no.wasm
  printf 'int absent(void);\nint lacking(void) { return absent(); }\n' >lacking.c
  clang --target=wasm32-wasi -O1 -c lacking.c
  llvm-ar rcS lacking.a lacking.o
  expect "a fault names a member of such a one" is_refused_as lacking.wasm \
    "wasm-ld: error: lacking.a(lacking.o): undefined symbol: absent" --no-entry --export=lacking lacking.a -o lacking.wasm
  head -c 100 library_add.o >broken.o
  llvm-ar rcS broken.a library_triple.o broken.o
  expect "one with a broken object stays without it" is_refused_as broken.wasm \
    "wasm-ld: error: broken.a: archive has no index; run llvm-ranlib to add one" --no-entry uses_library.o broken.a -o broken.wasm
  expect "a library without members is no fault" cc uses_library.o -lm -Ltwo -lsmall -Wl,--start-group -lc -Wl,--end-group -o group.wasm
}

# Objects that a driver joins into one, which is linked in their place.
joined_objects() {
  clang --target=wasm32-wasi -O2 -c "$real/order.c" "$real/order_other.c"
  expect "clang -r joins objects" cc -r -nostdlib order.o order_other.o -o joined.o
  expect "and links what is joined" cc joined.o -o by_part.wasm
  expect "objects are linked" cc order.o order_other.o -o by_parts.wasm
  expect "to the same module" cmp by_part.wasm by_parts.wasm
  expect "an entry that is asked for is refused there" is_refused -r --entry=main order.o -o no.o
}

# So many objects that their names can stand in a file alone, and that clang puts them into one.
many_objects() {
  mkdir many
  python3 "$top/bench/link_inputs.py" small many 20000 2>err.txt || {
    skip "20,000 objects ($(head -n 1 err.txt))"
    return
  }
  sed 's|^|many/|' many/inputs >many.rsp
  expect "a response file of 20,000 objects is linked" "$linker" @many.rsp -o by_file.wasm
  expect "and so is clang's" bare @many.rsp -o by_clang.wasm
  expect "to the same module" cmp by_file.wasm by_clang.wasm
  if [ -n "${WASMLD:-}" ]; then
    mapfile -t objects <many.rsp
    expect "without the names of functions" "$linker" @many.rsp -s -o stripped.wasm
    expect "the linker's own words" "$WASMLD" "${objects[@]}" --stack-first -o by_words.wasm
    expect "give the same module" cmp stripped.wasm by_words.wasm
  fi
  rm -r many
}

# What is refused, by which lines.
refusals() {
  printf 'int nowhere(void);\nint main(void) { return nowhere(); }\n' >undefined.c
  clang --target=wasm32-wasi -c undefined.c "$real/hello.c"
  expect "an undefined symbol" is_refused_as no.wasm "wasm-ld: error: undefined.o: undefined symbol: nowhere" \
    "-L$libc" "$libc/crt1-command.o" undefined.o -lc -o no.wasm
  expect "a library that isn't there" is_refused_as no.wasm "wasm-ld: error: unable to find library -lnosuch" hello.o -lnosuch -o no.wasm
  expect "an object that isn't there" is_refused_as no.wasm "wasm-ld: error: cannot open absent.o: No such file or directory" \
    hello.o absent.o -o no.wasm
  mkdir inside
  expect "a folder as an input" is_refused_as no.wasm "wasm-ld: error: cannot open inside" hello.o inside -o no.wasm
  expect "an output in no folder" is_refused_as absent/no.wasm "wasm-ld: error: cannot open output file absent/no.wasm" \
    --no-entry hello.o "-L$libc" -lc -o absent/no.wasm
  expect "no output" is_refused_as no.wasm "wasm-ld: error: no output file specified" hello.o
  expect "an option that there isn't" is_refused_as no.wasm "wasm-ld: error: unknown argument: --frob" hello.o --frob -o no.wasm
  expect "no entry" is_refused_as no.wasm "wasm-ld: error: entry symbol not defined (pass --no-entry to suppress): _start" \
    undefined.o -o no.wasm
  printf 'module' >old.wasm
  cp old.wasm kept.wasm
  expect "the linker refuses in place of an old output" is_refused undefined.o --no-entry --export=main -o old.wasm
  expect "which stays" cmp old.wasm kept.wasm
  expect "clang passes the line on" test "$(cc undefined.c -o no.wasm 2>&1 | grep -c 'undefined symbol: nowhere')" -eq 1
  expect "a warning is told" test "$("$linker" --Map=m.txt --no-entry library_add.o -o warned.wasm 2>&1)" = "wasm-ld: warning: ignored: --Map=m.txt"
}

# Takes words of a link, and compares what is told with what LLVM's linker tells, whose warnings of several names have no order.
tells_as_lld_does() {
  command -v wasm-ld >/dev/null || return 0
  "$linker" "$@" -o told.wasm 2>told.txt
  wasm-ld "$@" -o theirs.wasm 2>theirs.txt
  diff <(by_message told.txt) <(by_message theirs.txt)
}

# The messages of a file, which empty lines divide, in an order of their own.
by_message() {
  awk -v RS= '{ gsub("\n", "|"); print }' "$1" | LC_ALL=C sort
}

# Functions that are declared by other types than they are defined by, as the probes of configure scripts and old headers do.
other_types() {
  printf 'char strlen(void);\nint main(void) { return strlen(); }\n' >probe.c
  printf 'char no_such_function(void);\nint main(void) { return no_such_function(); }\n' >no_probe.c
  printf '#include <stdio.h>\nvoid twice(void);\nint (*volatile told)(int) = (int (*)(int))twice;\nint main(void) { printf("%%d\\n", told(21)); }\n' >address.c
  printf 'int twice(int a) { return 2 * a; }\n' >twice.c
  printf 'int twice;\n' >twice_too.c
  printf 'void twice(long long);\nvoid once(void) { twice(1); }\n' >once.c
  expect "a probe of a function that is there links" cc probe.c -o probe.wasm
  expect "and one of a function that isn't there doesn't" test "$(cc no_probe.c -o no.wasm 2>&1 | grep -c 'undefined symbol: no_such_function')" -eq 1
  expect "the address of a function that is declared otherwise is taken" cc address.c twice.c once.c -o address.wasm
  expect "and is that of its definition" prints address.wasm '42\n'
  expect "an address alone isn't told" test -z "$(cc address.c twice.c -o alone.wasm 2>&1)"
  expect "and is no error with --fatal-warnings" cc -Wl,--fatal-warnings address.c twice.c -o alone.wasm
  expect "which is that of its definition too" prints alone.wasm '42\n'
  printf 'int f(int, double);\nvoid g(void);\nvoid h(int);\nvoid run(void) { f(1, 2); g(); h(3); }\n' >calls.c
  printf 'void f(void) {}\nlong long g(float a) { return 1; }\n' >fg.c
  printf 'float h(long long a) { return 2; }\n' >h.c
  printf 'int nowhere(void);\nint lost(void) { return nowhere(); }\n' >lost.c
  clang --target=wasm32-wasi -c address.c twice_too.c twice.c once.c calls.c fg.c h.c lost.c
  llvm-ar rcs mine.a fg.o h.o
  expect "it is told by which types it is called and defined" tells_as_lld_does once.o twice.o --no-entry --export=once
  expect "of a call, and not of an address" tells_as_lld_does address.o once.o twice.o --no-entry --export=main --export=once --allow-undefined
  expect "also where it is dead" tells_as_lld_does once.o twice.o --no-entry
  expect "and not where addresses alone are taken" tells_as_lld_does address.o twice.o --no-entry --export=main --allow-undefined
  expect "also from within a library, and of two functions" tells_as_lld_does calls.o mine.a --no-entry --export=run
  expect "and before an error" tells_as_lld_does once.o twice.o lost.o --no-entry --export=once --export=lost
  expect "with --fatal-warnings it is an error" is_refused_as no.wasm "$(printf 'wasm-ld: error: function signature mismatch: twice
>>> defined as (i64) -> void in once.o
>>> defined as (i32) -> i32 in twice.o')" \
    --fatal-warnings once.o twice.o --no-entry --export=once -o no.wasm
  expect "of several functions each" tells_as_lld_does --fatal-warnings calls.o mine.a --no-entry --export=run
  expect "and before others the only one" tells_as_lld_does --fatal-warnings once.o twice.o lost.o --no-entry --export=once --export=lost
  expect "where there is none it links" cc -Wl,--fatal-warnings "$real/hello.c" -o fatal.wasm
  expect "to a module that runs" runs_as fatal.wasm "$real/hello.txt"
  expect "a function isn't a datum" is_refused address.o twice_too.o --no-entry -o no.wasm
  expect "own words let no other type through" is_refused_by_own_words no.wasm address.o twice.o --no-entry --allow-undefined -o no.wasm
}

# Constructors that nothing would call, where no start file does.
lost_constructors() {
  local line="wasm-ld: error: constructors would not be called: link a start file that calls __wasm_call_ctors"
  printf 'volatile int source = 42;\nstatic int before = source;\nextern "C" int made_before(void) { return before; }\n' >made.cpp
  clang++ --target=wasm32-unknown-unknown -O1 -fno-exceptions -c made.cpp
  expect "a constructor that would be lost" is_refused_as no.wasm "$line" made.o --no-entry --export=made_before -o no.wasm
  expect "and that is asked for" "$linker" made.o --no-entry --export=made_before --export=__wasm_call_ctors -o made.wasm
  if [ -n "${WASMLD:-}" ]; then
    expect "own words ask for it themselves" "$WASMLD" made.o --no-entry --export=made_before -o own.wasm
  fi
}

versions() {
  expect "the version has LLD" grep -q '^LLD [0-9]' <("$linker" --version)
  expect "also behind other words" grep -q '^LLD [0-9]' <("$linker" absent.o -v -o no.wasm)
  expect "and as clang asks" grep -q '^LLD [0-9]' <(cc -Wl,--version)
  expect "help tells the words" grep -q -- '--whole-archive' <("$linker" --help)
}

# A project with a library and a program, by a build system.
project() {
  mkdir -p "$1"
  cp "$real/library_add.c" "$real/library_triple.c" "$real/uses_library.c" "$1/"
}

by_cmake() {
  local kind
  command -v cmake >/dev/null && command -v ninja >/dev/null || {
    skip "cmake (not installed)"
    return
  }
  project cmade
  cat >cmade/CMakeLists.txt <<'END'
cmake_minimum_required(VERSION 3.13)
project(demo C)
add_library(small STATIC library_add.c library_triple.c)
add_executable(demo.wasm uses_library.c)
target_link_libraries(demo.wasm small m)
END
  for kind in Debug Release; do
    expect "cmake makes the $kind project ready" quietly cmake -G Ninja -S cmade -B "cmade/$kind" -DCMAKE_BUILD_TYPE="$kind" -DCMAKE_SYSTEM_NAME=Generic \
      -DCMAKE_C_COMPILER=clang -DCMAKE_C_COMPILER_TARGET=wasm32-wasi -DCMAKE_AR="$(command -v llvm-ar)" \
      -DCMAKE_RANLIB="$(command -v llvm-ranlib)" "-DCMAKE_EXE_LINKER_FLAGS=-fuse-ld=$linker" -Wno-dev --log-level=ERROR
    expect "builds it" quietly ninja -C "cmade/$kind"
    expect "and it runs" runs_as "cmade/$kind/demo.wasm" "$real/uses_library.txt"
  done
}

by_meson() {
  command -v meson >/dev/null && command -v ninja >/dev/null || {
    skip "meson (not installed)"
    return
  }
  project mesonic
  cat >mesonic/meson.build <<'END'
project('demo', 'c')
small = static_library('small', 'library_add.c', 'library_triple.c')
cc = meson.get_compiler('c')
executable('demo', 'uses_library.c', link_with: small, dependencies: cc.find_library('m'), name_suffix: 'wasm')
END
  cat >mesonic/cross.txt <<END
[binaries]
c = ['clang', '--target=wasm32-wasi', '-fuse-ld=$linker']
ar = 'llvm-ar'
[host_machine]
system = 'wasi'
cpu_family = 'wasm32'
cpu = 'wasm32'
endian = 'little'
END
  expect "meson makes the project ready" quietly meson setup --cross-file mesonic/cross.txt mesonic/made mesonic
  expect "builds it" quietly ninja -C mesonic/made
  expect "and it runs" runs_as mesonic/made/demo.wasm "$real/uses_library.txt"
}

# The answers of a configure script to its probes, which declare each function by a type of their own.
by_autoconf() {
  local linked
  command -v autoconf >/dev/null || {
    skip "configure (no autoconf)"
    return
  }
  mkdir -p configured/ours configured/theirs
  cat >configured/configure.ac <<'END'
AC_INIT([demo], [1])
AC_CONFIG_HEADERS([config.h])
AC_PROG_CC
AC_CHECK_FUNCS([strlen memcpy qsort getenv fork no_such_function])
AC_SEARCH_LIBS([cos], [m])
AC_CHECK_LIB([m], [sqrt])
AC_CHECK_LIB([m], [no_such_root])
AC_OUTPUT
END
  printf '%s\n' HAVE_STRLEN HAVE_MEMCPY HAVE_QSORT HAVE_GETENV HAVE_FORK HAVE_NO_SUCH_FUNCTION HAVE_LIBM | sed 's/^/#undef /' >configured/config.h.in
  expect "a configure script is made" quietly autoconf -o configured/configure configured/configure.ac
  linked="clang --target=wasm32-wasi"
  (cd configured/ours && quietly ../configure --host=wasm32-wasi "CC=$linked -fuse-ld=$linker")
  printf '#define HAVE_%s 1\n' GETENV LIBM MEMCPY QSORT STRLEN >wanted.txt
  expect "it finds what is there" gives wanted.txt sh -c "sed -n '/^#define HAVE/p' configured/ours/config.h | LC_ALL=C sort"
  if command -v wasm-ld >/dev/null; then
    (cd configured/theirs && quietly ../configure --host=wasm32-wasi "CC=$linked")
    expect "as it does with LLVM's linker" cmp configured/ours/config.h configured/theirs/config.h
  fi
}

# The first rustc that has a library for a target, as $compiler.
find_rustc() {
  local target=$1 library=$2
  for compiler in $(type -ap rustc); do
    compgen -G "$("$compiler" --print target-libdir --target "$target" 2>err.txt)/lib$library-*.rlib" >/dev/null && return
  done
  skip "rustc (no $library for $target)"
  return 1
}

by_rustc() {
  local target=wasm32-unknown-unknown compiler
  if find_rustc "$target" core; then
    expect "rustc links a cdylib" "$compiler" --target "$target" -O --crate-type=cdylib -C linker-flavor=wasm-ld -C "linker=$linker" "$sources/nth.rs" -o nth.wasm
    printf 'nth: 9\n' >wanted.txt
    expect "and it runs" gives wanted.txt sh -c "node --no-warnings '$real/call.mjs' nth.wasm nth 3 | tail -n 1"
  fi
  target=wasm32-wasi
  if find_rustc "$target" std; then
    expect "rustc links a program with its standard library" "$compiler" --target "$target" -O -C linker-flavor=wasm-ld -C "linker=$linker" -C "link-arg=-L$libc" "$sources/words.rs" -o words.wasm
    expect "and it runs" prints words.wasm 'a: 3\nis: 2\nrose: 3\n'
  fi
}

programs_of_c
programs_of_cpp
libraries
joined_objects
many_objects
refusals
other_types
lost_constructors
versions
by_cmake
by_meson
by_autoconf
by_rustc
finish
