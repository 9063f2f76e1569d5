"""Runs the program over files in a folder of its own, and modules by node."""

import base64
import json
import os
import shutil
import subprocess
import tempfile
import threading

from modules import Module
from objects import F32, F64, I64, file_of

PROGRAM = os.environ["WASMLD"]
HERE = os.path.dirname(os.path.abspath(__file__))
WORKERS = (1, 2, 64)
NODE = shutil.which("node")

rows = []
skipped = set()


def row(sentence):
    """Marks a function as the row of that name."""

    def keep(function):
        rows.append((sentence, function))
        return function

    return keep


def same(found, wanted, what="the value"):
    if isinstance(found, (bytes, bytearray)) and isinstance(wanted, (bytes, bytearray)):
        found, wanted = bytes(found).hex(" "), bytes(wanted).hex(" ")
    assert found == wanted, "%s is\n    %s\n  in place of\n    %s" % (what, found, wanted)


def holds(condition, what):
    assert condition, "it doesn't hold: " + what


# ---- running the program


class Run:
    def __init__(self, status, printed, files):
        self.status, self.printed, self.files = status, printed, files

    def __eq__(self, other):
        return (self.status, self.printed, self.files) == (other.status, other.printed, other.files)


def run(words, files, folders=(), printed_to=subprocess.PIPE):
    """The exit status, what was printed, and all files afterwards."""
    with tempfile.TemporaryDirectory() as folder:
        for title, content in files.items():
            with open(os.path.join(folder, title), "wb") as out:
                out.write(content)
        for title in folders:
            os.mkdir(os.path.join(folder, title))
        ended = subprocess.run([PROGRAM, *words], cwd=folder, stdin=subprocess.DEVNULL, stdout=printed_to, stderr=subprocess.PIPE, timeout=60)
        left = {}
        for title in os.listdir(folder):
            path = os.path.join(folder, title)
            if os.path.isfile(path):
                with open(path, "rb") as content:
                    left[title] = content.read()
        return Run(ended.returncode, (ended.stdout or b"").decode("latin-1"), left)


def numbered(inputs):
    """Inputs given as a list are files 1.o, 2.o and so on, which the words name in this order."""
    if isinstance(inputs, dict):
        return {title: file_of(one) for title, one in inputs.items()}, []
    files = {"%d.o" % (place + 1): file_of(one) for place, one in enumerate(inputs)}
    return files, list(files)


def run_alike(words, files):
    """The run with 1, 2 and 64 workers, all of which give the same."""
    first, *others = [run([*words, "--threads=%d" % workers], files) for workers in WORKERS]
    holds(others == [first, first], "1, 2 and 64 workers give the same")
    return first


def words_of(titles, words, entry):
    return titles + (["-o", "out"] if "-o" not in words else []) + ([] if entry else ["--no-entry"]) + list(words)


def linked(inputs, *words, entry=False, valid=True):
    """The module, where the link succeeds with any number of workers, prints nothing and leaves the inputs as they were; a valid one also with the check."""
    files, titles = numbered(inputs)
    ended = run_alike(words_of(titles, words, entry), files)
    same((ended.status, ended.printed), (0, ""), "the status and the line")
    module = ended.files.pop("out")
    same(ended.files, files, "the files that were given")
    if valid:
        checked = run(["--validate", *words_of(titles, words, entry)], files)
        same((checked.status, checked.printed, checked.files.get("out")), (0, "", module), "the answer where the output is checked")
    if valid and NODE:
        holds(node({"module": module})["valid"], "the module is valid")
    return Module(module)


def refused(inputs, line, *words, entry=False, status=1):
    """The link answers with this line, and leaves all files as they were."""
    files, titles = numbered(inputs)
    ended = run_alike(words_of(titles, words, entry), files)
    same((ended.status, ended.printed), (status, "wasmld: %s\n" % line), "the status and the line")
    same(ended.files, files, "the files that were given")


def answers(words, status, line, files=None, folders=()):
    """These words alone have this answer; a line of None stands for none."""
    ended = run(words, files or {}, folders)
    same((ended.status, ended.printed), (status, "" if line is None else line + "\n"), "the status and the line")
    return ended.files


# ---- running modules


class Node:
    process = None
    lock = threading.Lock()


def node(request):
    request = dict(request, module=base64.b64encode(request["module"]).decode())
    with Node.lock:
        if Node.process is None:
            Node.process = subprocess.Popen([NODE, os.path.join(HERE, "run.js")], stdin=subprocess.PIPE, stdout=subprocess.PIPE, text=True)
        Node.process.stdin.write(json.dumps(request) + "\n")
        Node.process.stdin.flush()
        return json.loads(Node.process.stdout.readline())


def close_node():
    if Node.process is not None:
        Node.process.stdin.close()
        Node.process.wait()


class Trap:
    """Stands for a call that traps with a message that has the word."""

    def __init__(self, word):
        self.word = word


VALUE_NAMES = {I64: "i64", F32: "f32", F64: "f64"}


def described(module):
    out = []
    for place, field, kind, form in module.imports:
        one = {"module": place, "field": field, "kind": kind}
        if kind == "global":
            one.update(value=VALUE_NAMES.get(form[0], "i32"), mutable=bool(form[1]))
        elif kind == "function":
            one["result"] = VALUE_NAMES.get(form[1][0], "i32") if form[1] else None
        else:
            limits = form if kind == "memory" else form[1]
            one.update(initial=limits[0], maximum=limits[1])
        out.append(one)
    return out


def calls(module, *wanted):
    """Calls exports in order in one instance: each is a name, the arguments as a list, and what the call gives: a number, a text of
    digits for an i64, a list of the imported functions that it calls, or a trap."""
    if not NODE:
        skipped.add("what calls give (node isn't there)")
        return
    request = {"module": module.data, "imports": described(module), "calls": [[title, arguments] for title, arguments, _ in wanted]}
    answer = node(request)
    holds(answer["valid"], "the module is valid")
    for (title, arguments, result), found in zip(wanted, answer["calls"]):
        what = "the call of %s%s" % (title, tuple(arguments))
        if isinstance(result, Trap):
            holds(result.word in found.get("trap", ""), "%s traps with '%s': %s" % (what, result.word, found))
        elif isinstance(result, list):
            same(found.get("log"), result, what)
        else:
            holds("trap" not in found, "%s gives a result: %s" % (what, found))
            same(found["value"], result, what)
