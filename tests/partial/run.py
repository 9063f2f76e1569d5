"""Joins runs of neighbouring objects of random links by -r, and links what is made in their place: where the premises hold and the link of all
objects is linked, the bytes are the same. The words are the first seed and the seed behind the last one; both may be left out. The last line is
'N passed, M failed'."""

import os
import random
import sys
from collections import Counter
from concurrent.futures import ThreadPoolExecutor

import premises
import program
from links import RandomLink
from random_objects import rarely

USUAL_SEEDS = (0, 300)
WORKERS = (1, 2, 64)


class ObjectsAlone(RandomLink):
    """A random link of objects that are all loaded at once."""

    def add_inputs(self):
        for _ in range(self.choose.choice([2, 3, 3, 4, 5, 7])):
            self.add_object(False)


def joined(made, inputs, title):
    """The answer to a partial link of these inputs, by each number of workers."""
    names = ["%d.o" % one for one in inputs]
    answers = [program.run(["-r", *names, "-o", title, "--threads=%d" % workers], {one: made.files[one] for one in names}) for workers in WORKERS]
    program.holds(all(one == answers[0] for one in answers), "the number of workers changes nothing")
    return answers[0]


def in_its_place(made, begin, end, title):
    """The words of the link with the joined object in place of a run of inputs."""
    names = ["%d.o" % one for one in range(begin, end)]
    words = [title if one == names[0] else one for one in made.words if one not in names[1:]]
    return words


def parts_of(choose, begin, end, made):
    """Joins a run, or first a part of it, and then that with the rest."""
    if end - begin > 2 and rarely(choose, 0.3):
        middle = choose.randrange(begin + 1, end - 1) + 1
        first = joined(made, range(begin, middle), "first.o")
        if first.status:
            return first
        files = {"first.o": first.files["first.o"], **{"%d.o" % one: made.files["%d.o" % one] for one in range(middle, end)}}
        return program.run(["-r", *files, "-o", "r.o"], files)
    return joined(made, range(begin, end), "r.o")


def outcome(seed):
    made = ObjectsAlone(seed)
    choose = random.Random(seed)
    count = len(made.candidates)
    begin = choose.randint(1, count)
    end = choose.randint(begin, count) + 1
    objects = {place: one.object for place, one in enumerate(made.candidates, 1)}
    whole = program.run(made.words, made.files)
    part = parts_of(choose, begin, end, made)
    if part.status:
        return "partial link refused", whole, None
    files = {title: content for title, content in made.files.items() if title not in ["%d.o" % one for one in range(begin, end)]}
    later = program.run(in_its_place(made, begin, end, "r.o"), {**files, "r.o": part.files["r.o"]})
    if whole.status:
        return "whole link refused", whole, None
    if not premises.hold(objects, begin, end):
        return "no premises", whole, None
    same = later.status == 0 and later.files["out"] == whole.files["out"]
    return "same" if same else "FAILED", whole, (made, begin, end, later)


def main():
    words = sys.argv[1:]
    first, behind = map(int, words[:2]) if len(words) >= 2 else USUAL_SEEDS
    outcomes = Counter()
    with ThreadPoolExecutor(os.cpu_count()) as pool:
        for seed, (told, whole, more) in zip(range(first, behind), pool.map(outcome, range(first, behind))):
            outcomes[told] += 1
            if told == "FAILED":
                made, begin, end, later = more
                print("FAILED: the link of seed %d with inputs %d to %d joined: %s" % (seed, begin, end - 1, " ".join(made.words)))
                print("  whole: status %s; later: status %s, %s" % (whole.status, later.status, later.printed.strip()))
    print("joined links: " + ", ".join("%s %d" % one for one in outcomes.most_common()))
    print("%d passed, %d failed" % (behind - first - outcomes["FAILED"], outcomes["FAILED"]))
    return 1 if outcomes["FAILED"] else 0


sys.exit(main())
