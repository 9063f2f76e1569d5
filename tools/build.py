#!/usr/bin/env python3
"""Proves and builds programs and the libraries below them, as many at once as the machine holds: build.py [PROGRAM..], by default all.

It calls the toolchain's compiler, which builds nothing that isn't proved, and keeps what it built in each crate's out/built, with a sum
of all that it was made from. It runs no test and tries no edit: `rt ci` does.
"""

import functools
import hashlib
import os
import shutil
import subprocess
import sys
import threading
from concurrent.futures import ThreadPoolExecutor

TOP = os.path.dirname(os.path.dirname(os.path.realpath(__file__)))
PROGRAMS = ("wasmld", "wasmrun")
# What a check may take of memory, in bytes.
NEEDED = 5_000_000_000


def kit_folder():
    """The folder of the toolchain."""
    page = subprocess.run(["rt", "doc"], stdout=subprocess.PIPE, check=True, text=True).stdout
    return os.path.dirname(page.strip().splitlines()[0].strip())


KIT = kit_folder()


@functools.lru_cache(maxsize=None)
def listed():
    """The libraries that each crate names, by crates.txt."""
    found = {}
    with open(f"{TOP}/crates.txt", encoding="utf-8") as lines:
        for line in lines:
            head, colon, names = line.partition(":")
            if colon and not line.startswith("#"):
                found[head.split()[0]] = names.split()
    return found


@functools.lru_cache(maxsize=None)
def below(crate):
    """The repository's libraries below a crate, each after those that it uses."""
    found = {}
    for name in listed()[crate]:
        if name in listed():
            found.update(dict.fromkeys([*below(name), name]))
    return tuple(found)


def files_of(crate):
    for part in ("src", "specs", "proofs"):
        for folder, folders, names in os.walk(f"{TOP}/crates/{crate}/{part}"):
            folders.sort()
            yield from (f"{folder}/{name}" for name in sorted(names))


@functools.lru_cache(maxsize=None)
def sum_of(crate):
    """A sum of all that the crate is made from."""
    made = hashlib.sha256(repr((crate, listed()[crate])).encode())
    with open(f"{KIT}/KIT-ID", "rb") as kit:
        made.update(kit.read())
    for path in files_of(crate):
        with open(path, "rb") as file:
            made.update(repr((os.path.relpath(path, TOP), file.read())).encode())
    for name in listed()[crate]:
        if name in listed():
            made.update(sum_of(name).encode())
    return made.hexdigest()


def folder_of(crate):
    return f"{TOP}/crates/{crate}/out/built"


def library(crate):
    return f"{folder_of(crate)}/{crate}.rlib"


def is_built(crate):
    try:
        with open(f"{folder_of(crate)}/sum", encoding="utf-8") as kept:
            return kept.read() == sum_of(crate)
    except OSError:
        return False


def words_of(crate, jobs):
    """What the compiler is told of a crate and of the libraries below it."""
    words = ["--crate-name", crate, "src/main.rt" if crate in PROGRAMS else "src/lib.rt"]
    for name in ["std", *listed()[crate]]:
        place = library(name) if name in listed() else f"{KIT}/rlibs/{name}.rlib"
        words += ["--extern", f"{name}={place}"]
    for folder in [f"{KIT}/rlibs", *map(folder_of, below(crate))]:
        words += ["-L", f"dependency={folder}"]
    words += ["--antt-project", f"{KIT}/rattle/logic/antt-project.json"]
    return [*words, "--logic-built", f"{KIT}/logic_built", "--jobs", str(jobs)]


def run(crate, words, log):
    log.write(" ".join(words) + "\n")
    log.flush()
    where = f"{TOP}/crates/{crate}"
    return subprocess.run(words, cwd=where, stdin=subprocess.DEVNULL, stdout=log, stderr=subprocess.STDOUT).returncode


def build_library(crate, jobs, log):
    made = library(crate)
    return run(crate, [f"{KIT}/bin/rattle", "build", *words_of(crate, jobs), "--statements", "-o", made], log)


def build_program(crate, jobs, log):
    made = f"{TOP}/crates/{crate}/out/{crate}"
    toolchain = ["--toolchain", f"{KIT}/toolchain"]
    status = run(crate, [f"{KIT}/bin/rattle", "build", *words_of(crate, jobs), *toolchain, "--backend", "llvm", "-o", f"{made}.o"], log)
    if status:
        return status
    libraries = [f"{KIT}/c/libos_c.a", f"{KIT}/c/liblibc_c.a"]
    return run(crate, [f"{KIT}/bin/rattle-link", "--target", "x86_64-unknown-linux-gnu", *toolchain, "-o", made, f"{made}.o", *libraries], log)


def build(crate, jobs):
    """Builds a crate whose libraries are built, and returns whether it could."""
    if is_built(crate):
        return True
    folder = folder_of(crate)
    shutil.rmtree(folder, ignore_errors=True)
    os.makedirs(folder)
    with open(f"{folder}/log", "w", encoding="utf-8") as log:
        status = (build_program if crate in PROGRAMS else build_library)(crate, jobs, log)
    if status:
        return False
    with open(f"{folder}/sum", "w", encoding="utf-8") as kept:
        kept.write(sum_of(crate))
    return True


def lanes():
    """How many crates are built at once."""
    memory = os.sysconf("SC_PAGE_SIZE") * os.sysconf("SC_PHYS_PAGES")
    return max(1, min(len(os.sched_getaffinity(0)), memory // NEEDED))


def build_all(wanted):
    """Builds crates, each after those below it, as they are listed, and returns those that could not be built."""
    ended = {crate: threading.Event() for crate in wanted}
    failed, done, telling = [], [], threading.Lock()

    def work(crate):
        for name in below(crate):
            ended[name].wait()
        if failed or not build(crate, 2):
            failed.append(crate)
        else:
            with telling:
                done.append(crate)
                print(f"{crate} is proved: {len(done)} of {len(wanted)} crates are done, {len(wanted) - len(done)} are left", flush=True)
        ended[crate].set()

    # A crate comes after those below it, so a lane waits only for what another one has begun.
    with ThreadPoolExecutor(lanes()) as pool:
        list(pool.map(work, wanted))
    return failed


def main():
    wanted = {}
    for program in sys.argv[1:] or PROGRAMS:
        if program not in PROGRAMS:
            sys.exit(__doc__)
        wanted.update(dict.fromkeys([*below(program), program]))
    failed = build_all(list(wanted))
    if failed:
        with open(f"{folder_of(failed[0])}/log", encoding="utf-8") as log:
            sys.stderr.write("".join(log.readlines()[-40:]))
        sys.exit(f"{failed[0]} isn't proved")


if __name__ == "__main__":
    main()
