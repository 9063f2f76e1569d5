#!/usr/bin/env bash
# Runs the program over real files, in a folder of its own: statuses, lines, and what is left behind. The program is $WASMLD, or else
# bin/wasmld. The last line is 'N passed, M failed'.
set -u
top=$(cd "$(dirname "${BASH_SOURCE[0]}")/.." && pwd)
. "$top/tests/common/expect.bash"
wasmld=${WASMLD:-$top/bin/wasmld}
work_in_a_folder

# Takes the wanted exit status, the wanted standard output, and the words.
ends() {
  local wanted=$1 line=$2
  shift 2
  "$wasmld" "$@" >out.txt 2>err.txt
  local status=$?
  [ "$status" -eq "$wanted" ] && [ "$(cat out.txt)" = "$line" ] || {
    echo "status $status in place of $wanted, and: $(cat out.txt)"
    tail -n 20 err.txt
    return 1
  }
}

# Takes the wanted exit status and the words; standard output takes nothing.
ends_unheard() {
  local wanted=$1
  shift
  "$wasmld" "$@" >/dev/full 2>err.txt
  [ $? -eq "$wanted" ]
}

tells() {
  "$wasmld" "$1" >out.txt && grep -q -- "$2" out.txt
}

is_absent() { [ ! -e "$1" ]; }

cp "$top/crates/wasmld/data/a.o" a.o
module=$top/tests/data/call.wasm
f=(--no-entry --export=f)

# What is linked, and that nothing but the output is written.
cp a.o given.o
expect "an object is linked" ends 0 "" a.o -o b.wasm "${f[@]}"
expect "the module is the expected one" cmp b.wasm "$module"
expect "and may be run" test -x b.wasm
expect "the input stays as it was" cmp a.o given.o
expect "the words may stand in another order" ends 0 "" --export f -o b.wasm --threads=64 --no-entry -- a.o
expect "and give the same module" cmp b.wasm "$module"
expect "the output may be the input" ends 0 "" given.o -o given.o "${f[@]}"
expect "which then holds the module" cmp given.o "$module"
cp -- a.o -x.o
expect "an input may begin with a dash" ends 0 "" -o dash.wasm "${f[@]}" -- -x.o
expect "and gives the same module" cmp dash.wasm "$module"
printf '!<arch>\n' >empty.a
expect "a library may be empty" ends 0 "" a.o empty.a -o b.wasm "${f[@]}"
expect "the generated case is linked" ends 0 "case 2: functions 3 segments 2 bytes 124 sum 5691" --make-case=2 -o case.wasm
expect "and saved" test "$(wc -c <case.wasm)" -eq 124
expect "by any number of workers" ends 0 "case 2000: functions 2001 segments 2000 bytes 62069 sum 4449098" --make-case=2000 --threads=64
expect "a generated case is valid" ends 0 "case 2: functions 3 segments 2 bytes 124 sum 5691" --make-case=2 --validate
expect "a valid output is saved where it is checked" ends 0 "" a.o -o checked.wasm "${f[@]}" --validate
expect "as without the check" cmp checked.wasm "$module"

# An object of which a function of type () to () leaves an integer.
printf '\0asm\1\0\0\0\1\4\1\140\0\0\3\2\1\0\12\6\1\4\0\101\1\13\0\21\7linking\2\10\6\1\0\0\0\1f' >untyped.o
expect "it is linked" ends 0 "" untyped.o -o untyped.wasm "${f[@]}"
expect "but not where the output is checked" ends 1 "wasmld: invalid output: body 0" untyped.o -o none.wasm "${f[@]}" --validate
expect "and nothing is saved" is_absent none.wasm

# So many windows that the workers find what they hold, each of a part.
mkdir many
if python3 "$top/bench/link_inputs.py" large many 6 2>err.txt; then
  mapfile -t many < <(tr ' ' '\n' <many/inputs | sed 's|^|many/|')
  expect "many windows are linked by one worker" ends 0 "" --threads=1 "${many[@]}" -o one.wasm
  expect "and by four" ends 0 "" --threads=4 "${many[@]}" -o four.wasm
  expect "to the same bytes" cmp one.wasm four.wasm
else
  echo "skipped: many windows ($(head -n 1 err.txt))"
fi

# A library so large that all workers read it together; its last member alone is needed.
header() { printf '%-16s%-12s%-6s%-6s%-8s%-10s`\n' "$1" 0 0 0 644 "$2"; }
{
  printf '!<arch>\n'
  header / 10
  printf '\0\0\0\1\0\x89\x54\xcaf\0'
  header between.o/ 9000000
  yes between | head -c 9000000
  header a.o/ "$(wc -c <a.o)"
  cat a.o
} >large.a
for workers in 1 2 64; do
  expect "a large library is read by $workers" ends 0 "" --threads=$workers large.a -o b.wasm "${f[@]}"
  expect "and gives the module" cmp b.wasm "$module"
done
head -c 8900000 large.a >cut.a
expect "a part of it is refused" ends 1 "wasmld: file 1: bad library: BadHeader(78)" --threads=4 a.o cut.a -o b.wasm "${f[@]}"

# What has no length is read too.
piped() { ends 0 "" --threads=4 /dev/stdin -o b.wasm "${f[@]}" < <(cat a.o); }
expect "an input may be a pipe" piped
expect "and gives the module" cmp b.wasm "$module"

# What is refused. The output stays as it was.
cp "$module" c.wasm
expect "a name without a definition" ends 1 "wasmld: input 0: unresolved h" a.o -o c.wasm --no-entry --export=h
expect "no entry function" ends 1 "wasmld: input 0: unresolved _start" a.o -o c.wasm
expect "two definitions" ends 1 "wasmld: duplicate f: input 1 and input 2" a.o a.o -o c.wasm "${f[@]}"
expect "a memory that is too small" ends 1 "wasmld: overflow: MaxMemory needs 131072" a.o -o c.wasm --max-memory=65536 "${f[@]}"
expect "a module in place of an object" ends 1 "wasmld: input 1: unsupported: DefinedTable" b.wasm -o c.wasm "${f[@]}"
head -c 78 a.o >short.o
expect "an object that is cut" ends 1 "wasmld: input 2: malformed: frame" a.o short.o -o c.wasm "${f[@]}"
head -c 61 a.o >bare.o
expect "an object without its relocations" ends 1 "wasmld: input 1: malformed: rule 12" bare.o -o c.wasm "${f[@]}"
head -c 1000000 /dev/zero >zeros.o
expect "a file of zeros" ends 1 "wasmld: input 1: malformed: frame" zeros.o -o c.wasm "${f[@]}"
printf '!<thin>\n' >thin.a
expect "a thin library" ends 1 "wasmld: file 1: bad library: Thin" a.o thin.a -o c.wasm "${f[@]}"

# Words.
expect "no words" ends 2 "wasmld: usage: NoInput"
expect "no output" ends 2 "wasmld: usage: NoOutput" a.o
expect "an unknown option" ends 2 "wasmld: usage: UnknownOption at word 1" a.o --frob -o c.wasm
expect "a missing value" ends 2 "wasmld: usage: MissingValue at word 3" a.o -o c.wasm --threads
expect "a bad number" ends 2 "wasmld: usage: BadNumber at word 0" --global-base=1k a.o -o c.wasm
expect "a bad number of workers" ends 2 "wasmld: usage: BadThreads at word 1" a.o --threads=65 -o c.wasm
expect "an open group" ends 2 "wasmld: usage: OpenGroup at word 0" --start-lib a.o -o c.wasm
expect "a generated case and an input" ends 2 "wasmld: usage: CaseAndInput" --make-case=2 a.o
expect "a partial link of a generated case" ends 2 "wasmld: usage: PartialClash" --make-case=2 -r
expect "a word that isn't UTF-8" ends 2 "wasmld: usage: a word is not UTF-8" $'a\xff.o' -o c.wasm "${f[@]}"

# Files.
expect "an input that isn't there" ends 3 "wasmld: cannot read word 2" -o c.wasm absent.o "${f[@]}"
mkdir inside
expect "a folder as input" ends 3 "wasmld: cannot read word 0" inside -o c.wasm "${f[@]}"
expect "the output stays as it was" cmp c.wasm "$module"
expect "an output in no folder" ends 4 "wasmld: cannot write the output" a.o -o absent/c.wasm "${f[@]}"
expect "a folder as output" ends 4 "wasmld: cannot write the output" a.o -o inside "${f[@]}"
expect "and no folder is made" is_absent absent

expect "a line that can't be written changes no status" ends_unheard 1 a.o -o c.wasm --no-entry --export=h
expect "nor does the line of a case" ends_unheard 0 --make-case=2
expect "help that can't be written is a fault" ends_unheard 4 --help
expect "help tells the words" tells --help "--export=NAME"
expect "the version is told" tells --version "^wasmld "
expect "each is the only word" ends 2 "wasmld: usage: UnknownOption at word 1" a.o --help

if command -v node >/dev/null 2>&1; then
  expect "the module runs" node -e '
    const bytes = require("fs").readFileSync("b.wasm");
    WebAssembly.instantiate(bytes).then(({ instance }) => process.exit(instance.exports.f() === 7 ? 0 : 1), () => process.exit(1));'
else
  echo "skipped: the module runs (node isn't there)"
fi

finish
