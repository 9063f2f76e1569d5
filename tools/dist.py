#!/usr/bin/env python3
"""The packed programs in dist/: dist.py sum | unpack | pack | check FILE. Which program is meant is the file's name. It needs no toolchain.

sum      prints the sum of the sources that the program is made of
unpack   writes the packed program as FILE; ends with 3 where dist/ was made of other sources than those of this checkout
pack     packs FILE, which was built from these sources, into dist/
check    ends with 0 where dist/ holds FILE, byte for byte, and the sum of these sources
"""

import hashlib
import os
import subprocess
import sys

TOP = os.path.dirname(os.path.dirname(os.path.realpath(__file__)))
# The exit status for a dist/ of other sources.
OTHER_SOURCES = 3


def packed(program):
    return f"{TOP}/dist/{program}.xz"


def kept_sum(program):
    return f"{TOP}/dist/{program}.sum"


def crates_of(program):
    """The repository's crates that the program stands on, with itself, by name, and what each lists."""
    listed, found, left = {}, {}, [program]
    with open(f"{TOP}/crates.txt", encoding="utf-8") as lines:
        for line in lines:
            head, colon, names = line.partition(":")
            if colon and not line.startswith("#"):
                listed[head.split()[0]] = names.split()
    while left:
        crate = left.pop()
        if crate in listed and crate not in found:
            found[crate] = listed[crate]
            left += listed[crate]
    return sorted(found.items())


def sum_of_sources(program):
    """The sum of all texts that the program's proofs and code are read from."""
    made = hashlib.sha256()
    for crate, names in crates_of(program):
        made.update(repr((crate, names)).encode())
        for part in ("src", "specs", "proofs"):
            for folder, folders, files in os.walk(f"{TOP}/crates/{crate}/{part}"):
                folders.sort()
                for name in sorted(files):
                    path = f"{folder}/{name}"
                    with open(path, "rb") as file:
                        made.update(repr((os.path.relpath(path, TOP), hashlib.sha256(file.read()).hexdigest())).encode())
    return made.hexdigest()


def packed_sum(program):
    try:
        with open(kept_sum(program), encoding="utf-8") as file:
            return file.read().strip()
    except OSError:
        return None


def through_xz(word, given):
    """What xz gives, for a Python that has no lzma."""
    return subprocess.run(["xz", word, "--stdout"], input=given, stdout=subprocess.PIPE, check=True).stdout


def unpacked(program):
    with open(packed(program), "rb") as file:
        given = file.read()
    try:
        import lzma
    except ImportError:
        return through_xz("--decompress", given)
    return lzma.decompress(given)


def pack(program, built):
    import lzma

    with open(built, "rb") as file:
        given = file.read()
    os.makedirs(f"{TOP}/dist", exist_ok=True)
    with open(packed(program), "wb") as file:
        file.write(lzma.compress(given, preset=9 | lzma.PRESET_EXTREME))
    with open(kept_sum(program), "w", encoding="utf-8") as file:
        file.write(sum_of_sources(program) + "\n")


def unpack(program, to):
    if packed_sum(program) != sum_of_sources(program):
        sys.exit(OTHER_SOURCES)
    # Written apart and renamed, so that a call beside this one meets no half of it.
    part = f"{to}.{os.getpid()}"
    with open(part, "wb") as file:
        file.write(unpacked(program))
    os.chmod(part, 0o755)
    os.rename(part, to)


def check(program, built):
    if packed_sum(program) != sum_of_sources(program):
        sys.exit(f"dist/ is made of other sources: after the gate, tools/dist.py pack crates/{program}/out/{program}")
    with open(built, "rb") as file:
        if file.read() != unpacked(program):
            sys.exit(f"dist/ holds another {program} than the one that was built from these sources")


def show_sum(program, _file):
    print(sum_of_sources(program))


def main():
    calls = {"sum": show_sum, "unpack": unpack, "pack": pack, "check": check}
    words = sys.argv[1:]
    if len(words) != 2 or words[0] not in calls:
        sys.exit(__doc__)
    calls[words[0]](os.path.basename(words[1]), words[1])


if __name__ == "__main__":
    main()
