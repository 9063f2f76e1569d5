#!/usr/bin/env python3
"""Links every case by wasmld and by the wasm-ld that is installed, in turn, with 1 and 4 workers, and prints their ratios.

    compare.py [--runs N] [--quarter] [CASE..]

A case is KIND:COUNT of link_inputs.py (small, library, fan, sparse, large, dead), or a program: hello and lines (C, and C++ with its standard
library, where clang and wasi-libc are installed), and sqlite (where SQLITE names a sqlite3.c; compiled with -g). Without a case all are linked.
--quarter links a quarter of each made case too, and prints how time grows. WASMLD names another program than the one that bin/wasmld starts,
WASM_LD another wasm-ld. It needs GNU time, for the peaks of memory.

Made inputs and outputs stand in memory (/dev/shm, where there is one), and the output is removed before each run, so that no run waits for the
pages of the one before. wasm-ld strips names, since wasmld writes none. A time is the least of the runs. It is no part of the gate.
"""
import os
import re
import resource
import shutil
import subprocess
import sys
import tempfile
import time

HERE = os.path.dirname(os.path.abspath(__file__))
TOP = os.path.dirname(HERE)
MADE = ["small:1000", "small:5000", "small:20000", "library:20000", "fan:20000", "sparse:20000", "large:20", "large:200", "dead:200"]
PROGRAMS = ["hello", "lines", "sqlite"]
WORKERS = (1, 4)
LIBC = "/usr/lib/wasm32-wasi"

SQLITE_MAIN = """
#include "sqlite3.h"
int sqlite3_os_init(void) { return SQLITE_OK; }
int sqlite3_os_end(void) { return SQLITE_OK; }
int main(void) { sqlite3 *db; return sqlite3_open(":memory:", &db); }
"""
SQLITE_FLAGS = ["-DSQLITE_OS_OTHER=1", "-DSQLITE_THREADSAFE=0", "-DSQLITE_OMIT_LOAD_EXTENSION", "-DSQLITE_OMIT_WAL"]


class Skipped(Exception):
    """The case can't be made here, and why."""


class Run:
    """What one run took: seconds of wall and of processor."""

    def __init__(self, words, folder, around):
        begin = time.perf_counter()
        process = subprocess.Popen(words, cwd=folder, env=around, stdout=subprocess.DEVNULL, stderr=subprocess.PIPE)
        said = process.stderr.read()
        _, status, used = os.wait4(process.pid, 0)
        process.returncode = os.waitstatus_to_exitcode(status)
        self.wall = time.perf_counter() - begin
        self.processor = used.ru_utime + used.ru_stime
        if process.returncode:
            sys.exit(f"compare.py: {' '.join(words[:4])} ..: {said.decode(errors='replace')[:400]}")


def tunables():
    """What the script that starts wasmld asks of the C library: memory in large pages."""
    with open(f"{TOP}/tools/start.bash") as file:
        return re.search(r"GLIBC_TUNABLES:-([^}]*)", file.read())[1]


TUNABLES = tunables()


def around(name):
    """The variables of a run. Those of wasmld are as the script that starts it sets them."""
    return {"GLIBC_TUNABLES": TUNABLES, **os.environ} if name == "wasmld" else dict(os.environ)


def peak(words, folder, around):
    """KiB at the peak of one more run: by a small program between, since a child's peak counts what this one holds."""
    subprocess.run(["/usr/bin/time", "-q", "-o", "peak", "-f", "%M", *words], cwd=folder, env=around, check=True, stdout=subprocess.DEVNULL)
    with open(f"{folder}/peak") as file:
        return int(file.read())


def least(runs, of):
    return min(getattr(run, of) for run in runs)


def made_case(case, folder):
    """Writes the inputs of a case KIND:COUNT, and returns their names."""
    kind, count = case.split(":")
    subprocess.run([sys.executable, f"{HERE}/link_inputs.py", kind, folder, count], check=True)
    with open(f"{folder}/inputs") as file:
        return file.read().split()


def compiled(compiler, source, folder, *flags):
    target = f"{os.path.basename(source).rsplit('.', 1)[0]}.o"
    subprocess.run([compiler, "--target=wasm32-wasi", "-c", source, "-o", target, *flags], cwd=folder, check=True)
    return target


def program_case(case, folder):
    """Compiles a program, and returns the names of what is linked."""
    if not shutil.which("clang") or not os.path.exists(f"{LIBC}/crt1.o"):
        raise Skipped("no clang, or no wasi-libc")
    builtins = subprocess.run(["clang", "--target=wasm32-wasi", "--print-libgcc-file-name"], capture_output=True, text=True).stdout.strip()
    behind = [f"{LIBC}/libc.a"] + ([builtins] if os.path.exists(builtins) else [])
    if case == "hello":
        own = [compiled("clang", f"{TOP}/tests/real/hello.c", folder, "-O2")]
    elif case == "lines":
        if not os.path.exists(f"{LIBC}/libc++.a"):
            raise Skipped("no libc++")
        own = [compiled("clang++", f"{TOP}/tests/real/texts.cpp", folder, "-O2", "-fno-exceptions")]
        behind = [f"{LIBC}/libc++.a", f"{LIBC}/libc++abi.a", *behind]
    else:
        source = os.environ.get("SQLITE", "")
        if not os.path.exists(source):
            raise Skipped("SQLITE names no sqlite3.c")
        with open(f"{folder}/main.c", "w") as file:
            file.write(SQLITE_MAIN)
        near = f"-I{os.path.dirname(os.path.abspath(source))}"
        own = [compiled("clang", it, folder, "-O2", "-g", near, *SQLITE_FLAGS) for it in ("main.c", os.path.abspath(source))]
    return [f"{LIBC}/crt1.o", *own, *behind]


class Measured:
    """The runs of a case and the peaks of its memory, by linker and workers, and the bytes of its inputs."""

    def __init__(self, size, linkers):
        self.size = size
        self.runs = {(name, workers): [] for name in linkers for workers in WORKERS}
        self.peaks = {}

    def least(self, name, workers, of):
        return self.peaks[name, workers] if of == "memory" else least(self.runs[name, workers], of)

    def ratio(self, workers, of):
        return self.least("wasmld", workers, of) / self.least("wasm-ld", workers, of)


def measured(case, folder, linkers, runs):
    """Links the case, each linker and number of workers in turn."""
    inputs = (made_case if ":" in case else program_case)(case, folder)
    found = Measured(sum(os.path.getsize(os.path.join(folder, it)) for it in inputs), linkers)
    for run in range(runs + 1):
        for workers in WORKERS:
            for name, words in linkers.items():
                output = f"{name}-{workers}.wasm"
                if os.path.exists(f"{folder}/{output}"):
                    os.remove(f"{folder}/{output}")
                whole = [*words, f"--threads={workers}", *inputs, "-o", output]
                if run < runs:
                    found.runs[name, workers].append(Run(whole, folder, around(name)))
                else:
                    found.peaks[name, workers] = peak(whole, folder, around(name))
    with open(f"{folder}/wasmld-1.wasm", "rb") as one, open(f"{folder}/wasmld-4.wasm", "rb") as four:
        if one.read() != four.read():
            sys.exit(f"compare.py: {case}: the bytes differ by workers")
    return found


def in_memory():
    """A folder in memory where the machine has one."""
    return tempfile.TemporaryDirectory(prefix="wasmld-bench-", dir="/dev/shm" if os.path.isdir("/dev/shm") else None)


def row(case, found, linkers):
    cells = [case, f"{found.size / 1e6:.1f}"]
    for workers in WORKERS:
        cells += [f"{1000 * found.least(name, workers, 'wall'):.0f}" for name in linkers]
        if "wasm-ld" in linkers:
            cells += [f"{found.ratio(workers, it):.2f}" for it in ("wall", "processor", "memory")]
    return "| " + " | ".join(cells) + " |"


def heading(linkers):
    cells = ["case", "MB in"]
    for workers in WORKERS:
        cells += [f"{name} {workers}, ms" for name in linkers]
        if "wasm-ld" in linkers:
            cells += [f"wall {workers}", f"processor {workers}", f"memory {workers}"]
    return "| " + " | ".join(cells) + " |\n|" + len(cells) * "---|"


def quarter(case):
    kind, _, count = case.partition(":")
    return f"{kind}:{int(count) // 4}" if count else None


def compare(cases, linkers, runs, grown):
    growth = []
    print(heading(linkers))
    for case in cases:
        walls = []
        for one in [case] + ([quarter(case)] if grown and quarter(case) else []):
            with in_memory() as folder:
                try:
                    found = measured(one, folder, linkers, runs)
                except Skipped as why:
                    print(f"skipped: {one} ({why})", file=sys.stderr)
                    continue
            print(row(one, found, linkers), flush=True)
            walls.append([found.least("wasmld", workers, "wall") for workers in WORKERS])
        if len(walls) == 2:
            growth.append(f"{case} takes " + " and ".join(f"{a / b:.1f}" for a, b in zip(*walls)) + " times as long as a quarter of it")
    print(*growth, sep="\n")


def own_program():
    """The program itself: the script that starts it would be measured too."""
    if "WASMLD" in os.environ:
        return os.path.realpath(os.environ["WASMLD"])
    subprocess.run([f"{TOP}/bin/wasmld", "--version"], check=True, stdout=subprocess.DEVNULL)
    return f"{TOP}/out/wasmld"


def main():
    words, runs, grown = sys.argv[1:], 7, False
    if words[:1] == ["--runs"]:
        runs, words = int(words[1]), words[2:]
    if words[:1] == ["--quarter"]:
        grown, words = True, words[1:]
    other = os.environ.get("WASM_LD") or shutil.which("wasm-ld") or shutil.which("wasm-ld-14")
    # wasm-ld adds library members by recursion: a chain of 20,000 takes more than the usual stack.
    most = resource.getrlimit(resource.RLIMIT_STACK)[1]
    resource.setrlimit(resource.RLIMIT_STACK, (most, most))
    linkers = {"wasmld": [own_program()]}
    if other:
        linkers["wasm-ld"] = [other, "--strip-all"]
    compare(words or PROGRAMS + MADE, linkers, runs, grown)


main()
