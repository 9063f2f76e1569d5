"""Makes a random link from a seed: its files, the words that name them, and the same as candidates and options."""

import random

from inputs import Candidate, Options, defined_names
from made_symbols import made_symbols
from objects import *
from random_objects import ObjectMaker, rarely
from shared_objects import SharedObjectMaker

WORKERS = (1, 2, 4, 64)


class RandomLink:
    maker, shared = ObjectMaker, False

    def __init__(self, seed):
        self.choose = random.Random(seed)
        self.files, self.words, self.candidates = {}, [], []
        self.options = Options(shared=self.shared)
        self.lazy = self.whole = False
        self.add_inputs()
        self.names = sorted(set().union(*(defined_names(one.object) for one in self.candidates)))
        self.add_names()
        self.add_choices()
        self.add_sizes()
        self.words += ["-o", "out", "--threads=%d" % self.choose.choice(WORKERS)]

    # Inputs.

    def add_inputs(self):
        count = self.choose.choice([1, 2, 2, 3, 3, 4, 5, 7])
        while len(self.candidates) < count:
            if count > 1 and rarely(self.choose, 0.25):
                self.add_library(self.choose.randint(1, min(3, count - len(self.candidates))))
            else:
                self.add_object(count > 1 and rarely(self.choose, 0.25))
        if self.lazy:
            self.words.append("--end-lib")

    def add_file(self, ending, content):
        title = "%d%s" % (len(self.candidates) + 1, ending)
        self.files[title] = content
        self.words.append(title)

    def add_object(self, lazy):
        if lazy != self.lazy:
            self.words.append("--start-lib" if lazy else "--end-lib")
            self.lazy = lazy
        object = self.maker(self.choose).make()
        self.add_file(".o", object.bytes())
        self.candidates.append(Candidate(object, not lazy, defined_names(object) if lazy else set()))

    def add_library(self, count):
        """A library whose index now and then names what its member doesn't define."""
        whole = rarely(self.choose, 0.2)
        if whole != self.whole:
            self.words.append("--whole-archive" if whole else "--no-whole-archive")
            self.whole = whole
        members = [self.maker(self.choose).make() for _ in range(count)]
        offers = [(title, place) for place, one in enumerate(members) for title in sorted(defined_names(one))]
        if rarely(self.choose, 0.15):
            offers.append((self.choose.choice(["f0", "f1", "d1"]), self.choose.randrange(count)))
        self.add_file(".a", library(members, offers))
        for place, one in enumerate(members):
            self.candidates.append(Candidate(one, whole, {title for title, member in offers if member == place}))

    # Words.

    def some_name(self):
        """Mostly a name that some input defines, now and then a linker-made one, rarely one that may be undefined."""
        if rarely(self.choose, 0.12):
            return self.choose.choice(made_symbols(self.options)).name
        if self.names and not rarely(self.choose, 0.02):
            return self.choose.choice(self.names)
        return self.choose.choice(["f0", "f1", "d0", "absent"])

    def add_names(self):
        if rarely(self.choose, 0.2):
            self.options.entry = self.some_name()
            self.words.append("--entry=" + self.options.entry)
        else:
            self.add_no_entry()
        self.options.exports += [self.some_name() for _ in range(self.choose.choice([0, 1, 2, 3, 5]))]
        if rarely(self.choose, 0.25):
            self.options.exports.append("__wasm_call_ctors")
        self.options.exports_if_defined += [self.some_name() for _ in range(self.choose.choice([0, 0, 1]))]
        self.options.needed += [self.some_name() for _ in range(self.choose.choice([0, 0, 0, 1]))]
        self.words += ["--export=" + one for one in self.options.exports]
        self.words += ["--export-if-defined=" + one for one in self.options.exports_if_defined]
        self.words += [word for one in self.options.needed for word in ("-u", one)]

    def add_no_entry(self):
        self.words.append("--no-entry")

    def add_choices(self):
        self.options.export_dynamic = self.chosen(0.15, "--export-dynamic")
        self.options.allow_undefined = self.chosen(0.8, "--allow-undefined")
        self.options.import_memory = self.chosen(0.2, "--import-memory")
        self.options.drop_dead = not self.chosen(0.25, "--no-gc-sections")
        self.options.stack_first = self.chosen(0.25, "--stack-first")

    def chosen(self, share, word):
        chosen = rarely(self.choose, share)
        if chosen:
            self.words.append(word)
        return chosen

    def add_sizes(self):
        self.options.global_base = self.size(0.2, [0, 1, 1000, 2048, 65537, 2**31, 2**32 - 100], ["--global-base=%d"])
        self.options.stack_size = self.size(0.2, [0, 16, 1024, 2**31, 4294966256], ["-z", "stack-size=%d"], 65536)
        self.options.initial_memory = self.size(0.1, [0, 65536, 655360, 2**32], ["--initial-memory=%d"], 0)
        self.options.max_memory = self.size(0.15, [65536, 131072, 655360, 2**32], ["--max-memory=%d"])

    def size(self, share, sizes, words, usual=None):
        """One of the sizes with words that give it, or the usual size without words."""
        if not rarely(self.choose, share):
            return usual
        size = self.choose.choice(sizes)
        self.words += words[:-1] + [words[-1] % size]
        return size


class SharedLink(RandomLink):
    """Sizes and the choices on memory and undefined names have no effect here. Outputs are valid, so that the check of them has none either."""

    maker, shared = SharedObjectMaker, True

    def __init__(self, seed):
        super().__init__(seed)
        self.words.insert(self.choose.choice([0, len(self.words)]), "-shared")
        self.chosen(0.2, "--validate")

    def add_no_entry(self):
        """No entry is usual; the words may say so."""
        if rarely(self.choose, 0.3):
            super().add_no_entry()
