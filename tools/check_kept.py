#!/usr/bin/env python3
"""Checks a crate over the libraries that climbs kept on this machine: check_kept.py CRATE [--build] [FLAG..], at the top of a checkout.

`rt check` builds all libraries below a crate anew. This takes those that an earlier climb (climb.py) proved: of the sources that stand here, or else the
newest of that name. It asks nothing more of them: it is for proving, and `rt ci` is the judge. A library that was never kept, or that the variable OWN
names (OWN=a,b), is taken from crates/NAME/out/built here, where --build leaves it. BUILT=FOLDER names a checkout in which a plain `rt ci` runs or ran:
its libraries are taken before those of climbs. What the kit's own `rt ci` kept (13f) is taken too, where it is newer than what a climb kept. FLAGs are the compiler's: --only PATH, --allow-holes, --test, --jobs N, --empty-contracts.
"""

import glob
import json
import os
import shutil
import subprocess
import sys

import build
import climb

OWN = set(filter(None, os.environ.get("OWN", "").split(",")))
BUILT = os.environ.get("BUILT")


# Where the kit's own `rt ci` keeps what it passed.
KIT_STORE = f"{os.path.dirname(build.KIT)}/rattle-kept"


def unfolded(entry):
    """A library that the kit keeps, with its files under their names. The kit numbers them, and tells their names in made.json."""
    place = f"{climb.STORE}/of-kit/{os.path.basename(entry)}"
    if os.path.isdir(place):
        return place
    with open(f"{entry}/made.json", encoding="utf-8") as text:
        made = json.load(text)
    room = f"{place}.{os.getpid()}"
    os.makedirs(room, exist_ok=True)
    for number, (path, _) in enumerate(made["files"]):
        os.makedirs(os.path.dirname(f"{room}/{path}"), exist_ok=True)
        climb.linked(f"{entry}/{number}", f"{room}/{path}")
    try:
        os.rename(room, place)
    except OSError:
        # another check was quicker
        shutil.rmtree(room, ignore_errors=True)
    return place


def newest():
    """Where the library of each name lies that was kept last."""
    found = {}
    for path in [*glob.glob(f"{climb.STORE}/proof-*"), *glob.glob(f"{KIT_STORE}/proof-*")]:
        name = os.path.basename(path).split("-")[1]
        if name not in found or os.stat(path).st_mtime > os.stat(found[name]).st_mtime:
            found[name] = path
    found = {name: unfolded(path) if path.startswith(KIT_STORE) else path for name, path in found.items()}
    for path in glob.glob(f"{BUILT}/crates/*/out/rlib/*.rlib/format") if BUILT else []:
        folder = os.path.dirname(os.path.dirname(os.path.dirname(path)))
        found[os.path.basename(os.path.dirname(folder))] = folder
    return found


def kept_folder(name, entries):
    """Where a kept library lies: that of these sources, or else the newest."""
    own = climb.kept_at("proof", name)
    return f"{own if os.path.isdir(own) else entries[name]}/rlib"


def folders_below(crate):
    """Where each library below the crate lies."""
    entries, found = newest(), {}
    for name in build.below(crate):
        if name not in OWN and name in entries:
            found[name] = kept_folder(name, entries)
        else:
            found[name] = build.folder_of(name)
            if not os.path.exists(build.library(name)):
                sys.exit(f"{name} was never kept: build it first by check_kept.py {name} --build")
    return found


def main():
    crate, *flags = sys.argv[1:]
    folders = folders_below(crate)
    root = "src/main.rt" if os.path.exists(f"{build.TOP}/crates/{crate}/src/main.rt") else "src/lib.rt"
    words = ["--crate-name", crate, root]
    for name in ["std", *build.listed()[crate]]:
        place = f"{folders[name]}/{name}.rlib" if name in folders else f"{build.KIT}/rlibs/{name}.rlib"
        words += ["--extern", f"{name}={place}"]
    for folder in [f"{build.KIT}/rlibs", *folders.values()]:
        words += ["-L", f"dependency={folder}"]
    words += ["--antt-project", f"{build.KIT}/rattle/logic/antt-project.json", "--logic-built", f"{build.KIT}/logic_built"]
    words += [] if "--jobs" in flags else ["--jobs", "2"]
    where = f"{build.TOP}/crates/{crate}"
    if "--build" in flags:
        flags.remove("--build")
        os.makedirs(build.folder_of(crate), exist_ok=True)
        words = [f"{build.KIT}/bin/rattle", "build", *words, "--statements", "-o", build.library(crate), *flags]
    else:
        os.makedirs(f"{where}/out/checked", exist_ok=True)
        words = [f"{build.KIT}/bin/rattle", "check", *words, "--incremental", f"{where}/out/checked", *flags]
    sys.exit(subprocess.run(words, cwd=where).returncode)


if __name__ == "__main__":
    main()
