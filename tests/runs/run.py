"""Compiles, links and runs the programs of a range of seeds, under node and in wasmrun.

The words are the first seed, the seed behind the last one, and a folder that gets the files of each program that differs; all may be left out.
The last line is 'N passed, M failed'."""

import os
import re
import shutil
import subprocess
import sys
import tempfile
from concurrent.futures import ThreadPoolExecutor

from programs import RandomProgram

USUAL_SEEDS = (0, 200)
STEPS = "20000000"
CALLER = os.path.join(os.path.dirname(os.path.abspath(__file__)), "run.mjs")


def done(words, folder):
    return subprocess.run(words, cwd=folder, stdout=subprocess.PIPE, stderr=subprocess.STDOUT, text=True, timeout=120)


def made(program, folder):
    """Writes the program's files, and gives what went wrong, or None."""
    for at, source in enumerate(program.sources):
        with open(f"{folder}/{at}.c", "w", encoding="utf-8") as file:
            file.write(source)
        compiled = done(["clang", "--target=wasm32", program.level, "-fno-builtin", "-w", "-c", f"{at}.c", "-o", f"{at}.o"], folder)
        if compiled.returncode:
            return "clang: " + compiled.stdout
    words = [os.environ["WASMLD"], "0.o", "1.o", "-o", "out.wasm", "--no-entry", "--export=f", "--export=g", "--export=__wasm_call_ctors"]
    linked = done(words, folder)
    if linked.returncode:
        return "wasmld: " + linked.stdout
    kind = {"u32": "i32", "u64": "i64"}[program.kind]
    with open(f"{folder}/script", "w", encoding="utf-8") as file:
        file.write("call __wasm_call_ctors\n")
        file.writelines(f"call {name} {kind}:{a} {kind}:{b}\n" for name, a, b in program.calls)
    return None


def printed_by(words, folder):
    """What is printed, where node and wasmrun say the same of a trap."""
    try:
        return re.sub(r"^trapped .*$", "trapped", done(words, folder).stdout, flags=re.M)
    except subprocess.TimeoutExpired:
        return "no end within two minutes\n"


def compared(seed):
    """What went wrong with the program of a seed, and its folder; or None."""
    folder = tempfile.mkdtemp()
    fault = made(RandomProgram(seed), folder)
    if fault is None:
        node = printed_by(["node", "--no-warnings", CALLER, "out.wasm", "script"], folder)
        ours = printed_by([os.environ["WASMRUN"], "out.wasm", "--script", "script", "--steps", STEPS], folder)
        fault = None if node == ours else f"node:\n{node}wasmrun:\n{ours}"
    return fault, folder


def main():
    seeds = tuple(int(word) for word in sys.argv[1:3]) or USUAL_SEEDS
    kept = sys.argv[3] if len(sys.argv) > 3 else None
    failed = 0
    with ThreadPoolExecutor(os.cpu_count()) as pool:
        for seed, (fault, folder) in zip(range(*seeds), pool.map(compared, range(*seeds))):
            if fault is not None:
                failed += 1
                print(f"FAILED: the program of seed {seed}: {fault}")
                if kept:
                    shutil.copytree(folder, os.path.join(kept, str(seed)))
            shutil.rmtree(folder)
    print(f"{len(range(*seeds)) - failed} passed, {failed} failed")
    return 1 if failed else 0


if __name__ == "__main__":
    sys.exit(main())
