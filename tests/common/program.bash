# Which program the checks in Python run: $WASMLD, or the one that bin/wasmld starts. Takes the top of the repository from $top.
if [ -z "${WASMLD:-}" ]; then
  "$top/bin/wasmld" --version >/dev/null || exit 2
  WASMLD=$top/out/wasmld
fi
export WASMLD
export PYTHONDONTWRITEBYTECODE=1
