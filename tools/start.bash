# Starts the program $name with the words given, in the caller's folder. The scripts of bin/ source it.
#
# The program is taken from dist/, where that was made of the sources of this checkout: it is unpacked once, into out/. Else it is proved
# and built first, which needs the toolchain. With --prove as the first word it is proved and built whatever dist/ holds; words that follow
# are then its own. Where there is no program the status is 125.
#
# A small link takes a few milliseconds, so what comes before it starts as few programs as can be.
set -u
top=${BASH_SOURCE[0]%/*}/..
program=$top/out/$name

fail() {
  printf '%s: %s\n' "$name" "$1" >&2
  exit 125
}

# Whether the program is there and no source of its code is newer. Files of specs/ and proofs/ change no code.
is_current() {
  [ -x "$program" ] &&
    [ -z "$(find "$top/crates.txt" "$top/dist" "$top"/crates/*/src -type f -newer "$program" -print -quit)" ]
}

# The packed program is for Linux on x86-64, with a C library of 2.34 or later.
starts() {
  "$1" --version >/dev/null 2>&1 && return
  [ "$(uname -sm)" = "Linux x86_64" ] || fail "this program is for Linux on x86-64, and here is $(uname -sm)"
  fail "this program needs the GNU C library 2.34 or later; here is $(getconf GNU_LIBC_VERSION 2>/dev/null || echo another one)"
}

unpack() {
  mkdir -p "$top/out" || fail "cannot write $top/out"
  python3 "$top/tools/dist.py" unpack "$program" || return
  starts "$program"
}

prove() {
  command -v rt >/dev/null || fail "dist/ isn't made of these sources, and to prove and build them takes the toolchain (rt), which isn't there"
  echo "$name: proving and building the program, which takes an hour or so" >&2
  "$top/tools/build.py" "$name" >&2 || fail "the program could not be built"
  mkdir -p "$top/out" && cp "$top/crates/$name/out/$name" "$program.$$" && mv "$program.$$" "$program" || fail "cannot write $program"
}

if [ "${1:-}" = --prove ]; then
  shift
  prove
  [ $# -gt 0 ] || exit 0
elif ! is_current; then
  command -v python3 >/dev/null || fail "python3, which unpacks the program, isn't there"
  unpack
  case $? in
    0) ;;
    3) prove ;;
    *) fail "the packed program in dist/ can't be unpacked" ;;
  esac
fi

# Memory in large pages, where the C library (2.35 or later) and the kernel have them: a tenth of a link's time goes into faults of small ones. For
# that the heap grows by 16 MiB at a time and keeps 32, and only a piece of a large page (2 MiB) or more is mapped by itself. A thread's own heap
# takes a large page at least, so of these there are at most 16.
export GLIBC_TUNABLES=${GLIBC_TUNABLES:-glibc.malloc.hugetlb=1:glibc.malloc.top_pad=16777216:glibc.malloc.trim_threshold=33554432:glibc.malloc.mmap_threshold=2097152:glibc.malloc.arena_max=16}
exec -a "${0##*/}" "$program" "$@"
