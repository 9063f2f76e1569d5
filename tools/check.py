#!/usr/bin/env python3
"""Checks a crate while it is being proved: check.py CRATE [--sources] [FLAG..], with the compiler's flags, as --only FUNCTION or --test.

It builds the libraries below first, as build.py does, or with --sources takes them as they stand, in a copy (direct.py), and then checks
each function that it reaches in them too: with stand-in bodies in a clone that is quick, and needs no library that is proved. What it
checked is kept in the crate's out/checked.
"""

import os
import subprocess
import sys

import build
import direct


def words_over_sources(crate):
    """What the compiler is told of a crate and of the sources of the libraries below it."""
    used, lower = direct.copy_of(crate), build.below(crate)
    kits = {name for names in used.values() for name in names if name not in build.listed()}
    words = ["--crate-name", crate, "src/main.rt" if crate in build.PROGRAMS else "src/lib.rt"]
    for name in ["core", "std", *sorted(kits)]:
        words += ["--extern", f"{name}={build.KIT}/rlibs/{name}.rlib"]
    for each in lower:
        words += ["--lib", f"{each}:{','.join(['core', 'std', *used[each]])}={direct.COPY}/crates/{each}/src/lib.rt"]
    words += ["-L", f"dependency={build.KIT}/rlibs", "--antt-project", f"{build.KIT}/rattle/logic/antt-project.json"]
    return [*words, "--logic-built", f"{build.KIT}/logic_built", "--jobs", "2"]


def main():
    crate, *flags = sys.argv[1:]
    over_sources = "--sources" in flags
    flags = [flag for flag in flags if flag != "--sources"]
    if not over_sources and build.build_all(build.below(crate)):
        sys.exit("a library below isn't proved")
    words = words_over_sources(crate) if over_sources else build.words_of(crate, 2)
    folder = f"{direct.COPY if over_sources else build.TOP}/crates/{crate}"
    kept = f"{folder}/out/checked"
    os.makedirs(kept, exist_ok=True)
    words = [f"{build.KIT}/bin/rattle", "check", *words, "--incremental", kept, *flags]
    sys.exit(subprocess.run(words, cwd=folder).returncode)


if __name__ == "__main__":
    main()
