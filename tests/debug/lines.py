#!/usr/bin/env python3
"""What the debug sections of a module say of its functions, as LLVM's tools read them.

lines.py same OURS THEIRS: whether both have the same live functions and the same dead ones by their debug sections, and name for each byte of each live
function the same functions, files and lines. Of functions that several objects define and one body stands for, wasm-ld tells all to be live, and ours may tell
one. It prints what differs, and how many functions and bytes were compared.
"""

import re
import subprocess
import sys

ENTRY = re.compile(r"^0x[0-9a-f]+:\s+(DW_TAG_\w+)")
FIELD = re.compile(r"^\s+(DW_AT_\w+)\s+\((.*)\)$")
QUOTED = re.compile(r'"([^"]*)"')
NAMES = ("DW_AT_linkage_name", "DW_AT_specification", "DW_AT_abstract_origin", "DW_AT_name")


def entries(module):
    """The entries of .debug_info, each with its tag and its fields as they are printed."""
    printed = subprocess.run(["llvm-dwarfdump", "--debug-info", module], capture_output=True, text=True, check=True).stdout
    found = []
    for line in printed.splitlines():
        if entry := ENTRY.match(line):
            found.append((entry[1], {}))
        elif (field := FIELD.match(line)) and found:
            found[-1][1][field[1]] = field[2]
    return found


def quoted(text):
    found = QUOTED.search(text)
    return found[1] if found else ""


def functions(module):
    """The functions that have bodies, by unit, number in it and name: where each stands that is live, and those that are dead."""
    unit, number, live, dead = "", 0, {}, set()
    for tag, fields in entries(module):
        if tag == "DW_TAG_compile_unit":
            unit, number = quoted(fields["DW_AT_name"]), 0
        if tag != "DW_TAG_subprogram" or "DW_AT_low_pc" not in fields:
            continue
        number += 1
        name = (unit, number, next((quoted(fields[it]) for it in NAMES if it in fields), ""))
        if fields["DW_AT_low_pc"] == "dead code":
            dead.add(name)
        else:
            live[name] = (int(fields["DW_AT_low_pc"], 16), int(fields["DW_AT_high_pc"], 16))
    return live, dead


def told(module, places):
    """What is told of each place of the code section's payload."""
    words = ["llvm-symbolizer", f"--obj={module}", "--functions=linkage"]
    printed = subprocess.run(words, input="".join(f"{place:#x}\n" for place in places), capture_output=True, text=True, check=True).stdout
    return printed.split("\n\n")[: len(places)]


def all_told(module, live):
    """What is told of each byte of each live function."""
    places = [place for low, high in live.values() for place in range(low, high)]
    answers = iter(told(module, places))
    return {name: [next(answers) for _ in range(low, high)] for name, (low, high) in live.items()}


def same(ours, theirs):
    live, dead = functions(ours)
    their_live, their_dead = functions(theirs)
    bodies = {their_live[name] for name in live if name in their_live}
    doubles = {name for name in dead if their_live.get(name) in bodies}
    differ = (set(live) ^ (set(their_live) - doubles)) | (their_dead - dead)
    a, b = all_told(ours, live), all_told(theirs, their_live)
    differ |= {name for name in a if name in b and a[name] != b[name]}
    unknown = {name for name, answers in a.items() if any(it.startswith("??") for it in answers)}
    for name in sorted(differ):
        print("differs:", *name)
    for name in sorted(unknown):
        print("unknown:", *name)
    print(f"{len(a)} live functions, {len(dead)} dead, {sum(map(len, a.values()))} bytes of code")
    return bool(a) and not differ and not unknown



if __name__ == "__main__":
    sys.exit(0 if {"same": same}[sys.argv[1]](*sys.argv[2:]) else 1)
