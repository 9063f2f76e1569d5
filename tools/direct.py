"""The sources with each library named by itself: what a crate hands on of those below is cited from where it stands.

The compiler refuses clauses that cite what is handed on while it reads the libraries below from their sources, and takes them once these
are built. So a check over sources looks at a copy that is rewritten.
"""

import os
import re

import build

COPY = f"{build.TOP}/out/direct"


def handed():
    """The crates that each crate hands on, by its specs/Lib.antt."""
    found = {}
    for crate in build.listed():
        path = f"{build.TOP}/crates/{crate}/specs/Lib.antt"
        if os.path.exists(path):
            with open(path, encoding="utf-8") as file:
                found[crate] = set(re.findall(r"^pub use Rattle\.[\w.]+ as (\w+)$", file.read(), re.M))
    return {crate: names for crate, names in found.items() if names}


class Rewriting:
    """Turns paths that lead over another crate into those of the crate itself."""

    def __init__(self, hands):
        crates, self.hands = "|".join(build.listed()), hands
        by = "|".join(hands)
        self.rules = [
            (re.compile(rf"\bRattle\.({by})\.specs\.({crates})\b"), "Rattle.{}.specs"),
            (re.compile(rf"\bRattle\.({by})\.proofs\.({crates})_lemmas\b"), "Rattle.{}.proofs"),
            (re.compile(rf"(?<![\w:.])({by})::specs::({crates})::"), "{}::specs::"),
            (re.compile(rf"(?<![\w:.])({by})::({crates})::"), "{}::"),
        ]

    def text(self, text):
        for pattern, path in self.rules:
            text = pattern.sub(lambda it, path=path: path.format(it[2]) if it[2] in self.hands[it[1]] else it[0], text)
        return text

    def without_handing(self, text):
        """A text of src/lib.rt, specs/Lib.antt or proofs/Lib.antt, without the lines that hand crates on."""

        def kept(line):
            return not set(re.findall(r"\w+", line[1])) <= set(build.listed())

        text = re.sub(r"^pub use Rattle\.[\w.]+ as \w+\n", "", text, flags=re.M)
        return re.sub(r"^pub use (?:\w+::)?(\w+|\{[^}]*\});\n", lambda line: line[0] if kept(line) else "", text, flags=re.M)


def uses(crate):
    """The libraries that a crate of the copy names, and those of the kit that it lists."""
    named = set()
    for part in ("src", "specs", "proofs"):
        for folder, _, names in os.walk(f"{COPY}/crates/{crate}/{part}"):
            for name in names:
                with open(f"{folder}/{name}", encoding="utf-8") as file:
                    text = file.read()
                named.update(re.findall(r"\bRattle\.(\w+)\.", text), re.findall(r"(?<![\w:.])(\w+)::", text))
    listed = build.listed()
    return [name for name in listed if name in named and name in build.below(crate)] + [name for name in listed[crate] if name not in listed]


def copy_of(crate):
    """Writes the copy of a crate and of those below, and returns what each of them uses."""
    rewriting = Rewriting(handed())
    crates = [*build.below(crate), crate]
    for name in crates:
        made = [write(path, name, rewriting) for path in build.files_of(name)]
        forget_others(name, made)
    return {name: uses(name) for name in crates}


def forget_others(crate, made):
    """Removes from the copy what the crate has no more."""
    for folder, _, names in os.walk(f"{COPY}/crates/{crate}"):
        if "/out" not in folder[len(COPY) :]:
            for path in {f"{folder}/{name}" for name in names} - set(made):
                os.remove(path)


def write(path, crate, rewriting):
    """Copies a file, rewritten, unless the copy has it already, and returns where it stands there."""
    with open(path, encoding="utf-8") as file:
        text = file.read()
    if path.endswith(("/src/lib.rt", "/Lib.antt")) and crate in rewriting.hands:
        text = rewriting.without_handing(text)
    text, made = rewriting.text(text), f"{COPY}/{os.path.relpath(path, build.TOP)}"
    if os.path.exists(made):
        with open(made, encoding="utf-8") as file:
            if file.read() == text:
                return made
    os.makedirs(os.path.dirname(made), exist_ok=True)
    with open(made, "w", encoding="utf-8") as file:
        file.write(text)
    return made
