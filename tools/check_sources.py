#!/usr/bin/env python3
"""Checks functions of a crate over changed libraries that no one built: check_sources.py CRATE [FLAG..], at the top of a checkout.

CHANGED=a,b names the changed crates. They and those above them are taken as sources, and of these what the named functions rest on is checked
with them; all other libraries are those that climbs kept on this machine, as in check_kept.py. So goals of a crate high up are seen before
any library below is proved: a first check has the definitions and lemmas below too, and out/sources/CRATE keeps them for the next.
FLAGs are the compiler's: --only PATH, --allow-holes, --progress, --jobs N. Without --only all functions of the sources are checked.
"""

import os
import subprocess
import sys

import build
import check_kept

CHANGED = set(filter(None, os.environ.get("CHANGED", "").split(",")))


def is_source(name):
    return name in CHANGED or bool(CHANGED & set(build.below(name)))


def words_for(crate):
    """What the compiler is told of the libraries below the crate."""
    entries, folders, sources = check_kept.newest(), {}, []
    for name in build.below(crate):
        if is_source(name):
            sources.append(name)
        elif name in entries:
            folders[name] = check_kept.kept_folder(name, entries)
        else:
            sys.exit(f"{name} was never kept")
    named = dict.fromkeys(name for it in [crate, *sources] for name in ["std", *build.listed()[it]])
    words = []
    for name in named:
        if name not in sources:
            place = f"{folders[name]}/{name}.rlib" if name in folders else f"{build.KIT}/rlibs/{name}.rlib"
            words += ["--extern", f"{name}={place}"]
    for name in sources:
        uses = ",".join(dict.fromkeys(["std", *build.listed()[name]]))
        words += ["--lib", f"{name}:{uses}={build.TOP}/crates/{name}/src/lib.rt"]
    for folder in [f"{build.KIT}/rlibs", *folders.values()]:
        words += ["-L", f"dependency={folder}"]
    return words


def main():
    crate, *flags = sys.argv[1:]
    where, kept = f"{build.TOP}/crates/{crate}", f"{build.TOP}/out/sources/{crate}"
    root = "src/main.rt" if os.path.exists(f"{where}/src/main.rt") else "src/lib.rt"
    os.makedirs(kept, exist_ok=True)
    words = [f"{build.KIT}/bin/rattle", "check", "--crate-name", crate, root, *words_for(crate)]
    words += ["--antt-project", f"{build.KIT}/rattle/logic/antt-project.json", "--logic-built", f"{build.KIT}/logic_built"]
    words += ["--incremental", kept, *flags]
    sys.exit(subprocess.run(words, cwd=where).returncode)


if __name__ == "__main__":
    main()
