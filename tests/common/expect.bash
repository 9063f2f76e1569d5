# What the checks of this folder share: counting, and the last line 'N passed, M failed'.
passed=0
failed=0

# Takes a name and a command that has to succeed.
expect() {
  local name=$1
  shift
  if "$@"; then
    echo "ok: $name"
    passed=$((passed + 1))
  else
    echo "FAILED: $name"
    failed=$((failed + 1))
  fi
}

# The last line, and the status.
finish() {
  echo "$passed passed, $failed failed"
  [ "$failed" -eq 0 ]
}

# Takes what isn't checked here.
skip() {
  echo "skipped: $1"
}

# Takes why nothing that the script is for, which $subject names, is checked here.
skip_all() {
  skip "$subject ($1)"
  finish
  exit
}

# Takes the tools that the script needs, of which clang has to compile for WebAssembly.
need() {
  local tool
  for tool in "$@"; do
    command -v "$tool" >/dev/null || skip_all "no $tool"
  done
  clang --print-targets | grep -q wasm32 || skip_all "clang has no wasm32"
}

# A new folder for the files of the script, whose path is $folder; it goes at the end.
work_in_a_folder() {
  folder=$(mktemp -d)
  trap 'rm -rf "$folder"' EXIT
  cd "$folder" || exit 2
}

# The linker under the name by which compiler drivers call it; its path is $driver.
name_the_driver() {
  mkdir names
  ln -s "$(readlink -f "${WASMLD:-$top/bin/wasm-ld}")" names/wasm-ld
  driver=$folder/names/wasm-ld
}
