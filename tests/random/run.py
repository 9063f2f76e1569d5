"""Makes the links of a range of seeds, and compares the program's answers with those of the reference linker.

The words are the first seed, the seed behind the last one, and a folder that gets the files of each link that differs; all may be left out.
Seeds from 1000000 on make shared links. A shared output is also given to node, where that is there, which tells whether it is valid.
The last line is 'N passed, M failed'."""

import os
import subprocess
import sys
from collections import Counter
from concurrent.futures import ThreadPoolExecutor
from itertools import chain

import program
from inputs import Fault
from linker import link
from links import RandomLink, SharedLink

FIRST_SHARED = 1000000
USUAL_SEEDS = (range(400), range(FIRST_SHARED, FIRST_SHARED + 300))
SUBJECTS = ("clash", "duplicate", "index", "position", "unresolved", "DataEnd", "HeapBase", "MaxMemory", "Reference")


def expected(made):
    """The answer by the reference linker. A link that is refused leaves no output."""
    try:
        return program.Run(0, "", dict(made.files, out=link(made.candidates, made.options)))
    except Fault as fault:
        return program.Run(1, "wasmld: %s\n" % fault, made.files)


def found(made):
    try:
        return program.run(made.words, made.files)
    except subprocess.TimeoutExpired:
        return program.Run(None, "no end within a minute", made.files)


def compared(seed):
    made = SharedLink(seed) if seed >= FIRST_SHARED else RandomLink(seed)
    return seed, made, expected(made), found(made)


def is_invalid(made, answer):
    """Code of plain links need not be valid."""
    if not made.options.shared or answer.status != 0 or not program.NODE:
        return False
    return not program.node({"module": answer.files["out"]})["valid"]


def subject(made, answer):
    said = "linked" if answer.status == 0 else next(one for one in SUBJECTS if one in answer.printed)
    return ("shared, " if made.options.shared else "") + said


def tell(who, answer):
    module = answer.files.get("out")
    print("  %s: status %s, %s" % (who, answer.status, answer.printed.strip() or "no line"))
    print("    " + ("no module" if module is None else module.hex(" ")))


def first_difference(one, other):
    """The first place where the bytes differ, which may be the end of the shorter ones."""
    return len(os.path.commonprefix([one, other]))


def tell_difference(seed, made, wanted, answer):
    print("FAILED: the link of seed %d: %s" % (seed, " ".join(made.words)))
    tell("the reference linker", wanted)
    tell("the program", answer)
    if "out" in wanted.files and "out" in answer.files:
        print("    the modules differ from byte %d on" % first_difference(wanted.files["out"], answer.files["out"]))
    given = {title: content for title, content in answer.files.items() if title != "out"}
    if given != made.files:
        print("    the program changed its inputs")


def save(folder, seed, made):
    folder = os.path.join(folder, str(seed))
    os.makedirs(folder, exist_ok=True)
    for title, content in made.files.items():
        with open(os.path.join(folder, title), "wb") as out:
            out.write(content)


def main():
    words = sys.argv[1:]
    seeds = list(range(*map(int, words[:2])) if len(words) >= 2 else chain(*USUAL_SEEDS))
    subjects, failed = Counter(), 0
    with ThreadPoolExecutor(os.cpu_count()) as pool:
        for seed, made, wanted, answer in pool.map(compared, seeds):
            subjects[subject(made, wanted)] += 1
            differs, invalid = answer != wanted, is_invalid(made, answer)
            failed += differs or invalid
            if differs:
                tell_difference(seed, made, wanted, answer)
            if invalid:
                print("FAILED: the module of seed %d isn't valid: %s" % (seed, " ".join(made.words)))
            if (differs or invalid) and len(words) >= 3:
                save(words[2], seed, made)
    program.close_node()
    if not program.NODE:
        print("skipped: whether shared outputs are valid (node isn't there)")
    print("the answers: " + ", ".join("%s %d" % one for one in subjects.most_common()))
    print("%d passed, %d failed" % (len(seeds) - failed, failed))
    return 1 if failed else 0


sys.exit(main())
