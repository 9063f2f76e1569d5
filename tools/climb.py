#!/usr/bin/env python3
"""`rt ci` over what earlier climbs passed: climb.py [--no-edits] [CRATE..], at the top of a clone. With crates named, these and all below them.

It is rt ci itself, but for two things, on a kit (13b) whose rt ci keeps nothing; on one that keeps (13f) it is rt ci alone. What a crate's proof, its tests or an edit passed is kept on this machine, by a sum of all that was read, and
isn't done again. And sums and lists of libraries are taken once, where rt takes them along each path through crates.txt, which takes it minutes. It is
for the climb of a session; a plain `rt ci` is the judge. KEPT names another folder than /var/tmp/rattle-kept.
"""

import functools
import hashlib
import importlib.machinery
import importlib.util
import os
import shutil
import sys
import tempfile

import build

STORE = os.environ.get("KEPT", "/var/tmp/rattle-kept")
# What each part of a crate leaves in its out/ when it is passed.
LEFT = {False: ("rlib", "{0}", "{0}.by-rattle"), True: ("{0}_tests",)}


def rt_itself():
    """The toolchain's command, as a module."""
    loader = importlib.machinery.SourceFileLoader("rt_itself", f"{build.KIT}/bin/rt")
    made = importlib.util.module_from_spec(importlib.util.spec_from_loader("rt_itself", loader))
    loader.exec_module(made)
    return made


def kept_at(kind, name, *parts):
    """Where the store keeps that a crate's proof, its tests or an edit passed."""
    made = hashlib.sha256(repr((build.sum_of(name), *parts)).encode())
    return f"{STORE}/{kind}-{name}-{made.hexdigest()}"


def copied(name, tests, source, to):
    """Copies what the part left, as far as it is there."""
    os.makedirs(to, exist_ok=True)
    for left in (it.format(name) for it in LEFT[tests]):
        if os.path.isdir(f"{source}/{left}"):
            shutil.copytree(f"{source}/{left}", f"{to}/{left}", dirs_exist_ok=True, copy_function=linked)
        elif os.path.isfile(f"{source}/{left}"):
            linked(f"{source}/{left}", f"{to}/{left}")


def linked(source, place):
    """A second name of a file, or on another file system a copy."""
    try:
        os.link(source, place)
    except OSError:
        shutil.copyfile(source, place)


def keep(place, fill):
    """Makes an entry of the store, whole or not at all."""
    os.makedirs(STORE, exist_ok=True)
    with tempfile.TemporaryDirectory(dir=STORE) as room:
        os.mkdir(f"{room}/entry")
        fill(f"{room}/entry")
        if not os.path.isdir(place):
            os.rename(f"{room}/entry", place)


@functools.cache
def lines_of(crate):
    """How many lines the crate's proof reads."""
    found = 0
    for path in build.files_of(crate):
        with open(path, "rb") as file:
            found += file.read().count(b"\n")
    return found


@functools.cache
def chain_below(crate):
    """The lines of the longest chain of crates that ends with this one."""
    return lines_of(crate) + max((chain_below(it) for it in build.listed()[crate] if it in build.listed()), default=0)


@functools.cache
def chain_above(crate):
    """The lines of the longest chain of crates that stands on this one."""
    return max((lines_of(it) + chain_above(it) for it, names in build.listed().items() if crate in names), default=0)


def is_waited_for(crate):
    """Whether the crate stands in one of the longest chains, for which the whole run waits: its proof then gets three jobs."""
    longest = max(chain_below(it) for it in build.listed())
    return 10 * (chain_below(crate) + chain_above(crate)) >= 9 * longest


def with_store(rt):
    """Has the command ask the store first."""
    passed = rt.Crate.ci
    tried = rt.must_fail_all

    def ci(crate, flags, tests):
        place = kept_at("tests" if tests else "proof", crate.name)
        if os.path.isdir(place):
            copied(crate.name, tests, place, f"{crate.folder}/out")
            print("kept from an earlier climb", file=crate.out)
            return 0
        jobs = ["--jobs", "3"] if not tests and is_waited_for(crate.name) else flags
        status = passed(crate, jobs, tests)
        if not status:
            keep(place, lambda entry: copied(crate.name, tests, f"{crate.folder}/out", entry))
        return status

    def must_fail_all(crate, edits, flags):
        places = {}
        for edit in edits:
            with open(edit, encoding="utf-8") as text:
                places[edit] = kept_at("edit", crate.name, text.read())
        left = [it for it in edits if not os.path.isdir(places[it])]
        found = dict(zip(left, tried(crate, left, flags))) if left and with_edits else {}
        for edit, (refused, _) in found.items():
            if refused:
                keep(places[edit], lambda entry: None)
        return [found.get(it, (True, f"{crate.name}/{os.path.basename(it)}: {'refused in an earlier climb' if it not in left else 'not tried'}")) for it in edits]

    rt.Crate.ci = ci
    rt.must_fail_all = must_fail_all


def with_sums_once(rt):
    """Has the command take the libraries below a crate, and its stamp, once each."""
    for name in ("below", "stamp"):
        setattr(rt.rtlib.Crate, name, functools.cache(getattr(rt.rtlib.Crate, name)))


def only(rt, names):
    """Has the command work on these crates alone, with the proofs of all below them."""
    wanted = {*names, *(it for name in names for it in build.below(name))}
    whole = rt.in_lanes

    def left_out(crate, part):
        return crate not in (wanted if part == "proof" else names)

    def in_lanes(tasks):
        passed = {"proof": True, "tests": True, "edits": ([], [], [])}
        return whole({key: (*it[:3], lambda given, jobs, part=key[1]: passed[part]) if left_out(*key) else it for key, it in tasks.items()})

    rt.in_lanes = in_lanes


with_edits = "--no-edits" not in sys.argv


def main():
    names = [it for it in sys.argv[1:] if not it.startswith("--")]
    os.chdir(build.TOP)
    rt = rt_itself()
    if not hasattr(rt, "must_fail_all"):
        # This kit keeps what passed by itself, and takes sums once.
        sys.exit(rt.main(["ci", *names]))
    with_sums_once(rt)
    with_store(rt)
    if names:
        only(rt, names)
    sys.exit(rt.main(["ci"]))


if __name__ == "__main__":
    main()
