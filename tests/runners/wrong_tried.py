"""Tests the runner of wrong bodies on a small tree with stand-ins for the toolchain and for git: the choice of cases, the judgement of the
prover's answers, and the record."""
import os
import re
import shutil
import subprocess
import sys

import suite  # first: it makes the tools importable

# Two crates, of which `top` depends on `low`; each of their functions returns a number. The stand-in for the prover proves a
# function if its body is the number that the function's contract states.
CRATES = {"low": ["one", "two"], "top": [f"f{it:02}" for it in range(20)]}
FUNCTION = "/// Answers a number.\npub fn {0}() -> u32\n    ensures {{ result ≡ {0} }}\n{{\n    n_{0}\n}}\n"
CASE = "== {0}_is_{1}\ntests: {0} is itself\nfile: src/lib.rt\nold:     n_{0}\nnew:     {1}\nrefused: {0}\n\n"
# A stand-in for the prover. Its answer for a function depends on the name in the function's body. For `other` it reports that a name
# used in the proof is missing; for `gone` it reports only that the contract is not proved.
PROVER = r"""#!{python}
import os, re, sys
words = sys.argv
crate, text = words[words.index("--crate-name") + 1], open("src/lib.rt").read()
asked = [words[at + 1] for at, word in enumerate(words) if word == "--only"]
with open(os.environ["CALLED"], "a") as file:
    file.write(f"{{crate}} {{' '.join(asked)}}\n")
proved = 0
bodies = dict(re.findall(r"pub fn (\w+)\(\) -> u32\n.*\n\{{\n((?:.*\n)*?)\}}", text))
for name in asked:
    body = [line.partition("//")[0].strip() for line in bodies[name].split("\n") if line.partition("//")[0].strip()][-1]
    if body == "unread":
        print("src/lib.rt:3:5: error[E0425]: `unread` is not in scope")
        sys.exit(1)
    if body == "other":
        print(f"./proofs/{{name}}/Answers.antt:5:3: error: `returns`: `goal.returns`: module `Goals` has no `returns`")
    elif body == "silent":
        continue
    elif body != f"n_{{name}}":
        print(f"note: src/lib.rt:4:5: it is not proved that what the function ensures holds")
    holds = body == f"n_{{name}}" and "unproved" not in text
    proved += holds
    print(f"fn {{crate}}::{{name}}: " + ("proved" if holds else "not proved"))
print(f"only={{len(asked)}} proved={{proved}}")
sys.exit(proved < len(asked))
"""
RT = '#!/bin/sh\ncase "$1" in doc) echo "$ROOM/kit/START-HERE.md";; version) echo "$KIT";; esac\n'
GIT = '#!/bin/sh\ncase "$1" in rev-parse) echo "$COMMIT";; status) printf "%s" "$CHANGED";; esac\n'


def write(path, text, mode=0o644):
    os.makedirs(os.path.dirname(path), exist_ok=True)
    with open(path, "w", encoding="utf-8") as file:
        file.write(text)
    os.chmod(path, mode)


class Tree:
    """A repository of two crates with the runner, and the failures."""

    def __init__(self, room):
        self.room, self.right = room, []
        self.environment = {"KIT": "kit 1", "COMMIT": "a" * 40, "CHANGED": "", "ROOM": room, "CALLED": self.path("called")}
        for name in ("wrong.py", "suite.py"):
            write(self.path("tests/runners", name), self.text(suite.TESTS, "runners", name))
        shutil.copytree(os.path.join(suite.TESTS, "references"), self.path("tests/references"))
        shutil.copytree(os.path.join(suite.TESTS, "generators"), self.path("tests/generators"))
        for it in ("sources.py", "processes.py"):
            write(self.path(f"tools/{it}"), self.text(suite.ROOT, "tools", it))
        write(self.path("crates.txt"), "low:\ntop: low\n")
        write(self.path("HANDLES"), "Handles allowed: none.\n")
        for name, text in (("bin/rt", RT), ("bin/git", GIT), ("kit/bin/rattle", PROVER.format(python=sys.executable))):
            write(self.path(name), text, 0o755)
        for crate, functions in CRATES.items():
            write(self.path("crates", crate, "src/lib.rt"), "\n".join(map(FUNCTION.format, functions)))
            write(self.path("crates", crate, "proofs/Lib.antt"), "-- Lemmas.\n")
            write(self.path("crates", crate, "out/rlib", f"{crate}.rlib/format"), "")
            write(self.path("tests/wrong", f"{crate}.cases"), "".join(CASE.format(it, "0") for it in functions))

    def path(self, *names):
        return os.path.join(self.room, *names)

    def text(self, *names):
        with open(os.path.join(*names), encoding="utf-8") as file:
            return file.read()

    def change(self, name, old, new):
        """Changes a file, and returns its former text."""
        text = self.text(self.path(name))
        assert old in text, (name, old)
        write(self.path(name), text.replace(old, new))
        return text

    def ask(self, *words, script="tests/runners/wrong.py", **environment):
        """Returns the status of the runner and the lines that it prints. `called` lists the functions that the prover checked."""
        write(self.path("called"), "")
        path = self.path("bin") + os.pathsep + os.environ["PATH"]
        done = subprocess.run([sys.executable, self.path(script), *words], capture_output=True, text=True,
                              env={**os.environ, **self.environment, **environment, "PATH": path})
        return done.returncode, (done.stdout + done.stderr).splitlines()

    def tried(self, *words, **environment):
        """Returns the number of cases of each crate that the runner tested, all of which were rejected."""
        status, lines = self.ask(*words, **environment)
        found = re.fullmatch(r"(\d+) wrong bodies were tried, and (\d+) stand by the record .*", lines[-2]) if len(lines) > 1 else None
        counts = [sum(line.startswith(f"{crate}, ") and line.endswith(": refused") for line in lines) for crate in CRATES]
        is_whole = found and int(found[1]) == sum(counts) and int(found[1]) + int(found[2]) == sum(map(len, CRATES.values()))
        return counts if is_whole and status == 0 and lines[-1] == f"{sum(counts)} passed, 0 failed" else (status, lines)

    def want(self, name, wanted, got):
        self.right.append(wanted == got)
        if wanted != got:
            print(suite.difference(f"wrong bodies, {name}", wanted, got))


def try_answers(tree):
    """Tests that a case passes if the prover rejects its function. It fails if the prover proves it, cannot read the text, gives no answer,
    or only misses a name."""
    for body, fault in (
        ("0", None), ("n_two", None), ("n_one", "has 0 times"), ("n_one // n_one", "not refused by one"), ("unread", "it cannot be read"),
        ("other", "only since a proof names"), ("silent", "the prover says nothing of one"),
    ):
        old = "1" if body == "n_one" else "n_one"
        before = tree.change("tests/wrong/low.cases", "old:     n_one\nnew:     0", f"old:     {old}\nnew:     {body}")
        status, lines = tree.ask("low", "--only", "one_is_0")
        wanted = (0, "1 passed, 0 failed", True) if fault is None else (1, "0 passed, 1 failed", True)
        is_said = fault is None or any(line.startswith("FAILED low, one_is_0: ") and fault in line for line in lines)
        tree.want(f"a body `{body}`", wanted, (status, lines[-1], is_said))
        write(tree.path("tests/wrong/low.cases"), before)
    before = tree.change("tests/wrong/low.cases", "old:     n_one\nnew:     0", "old: Answers a number.\nnew: Answers none.")
    tree.want("an edit with two places", 1, tree.ask("low", "--only", "one_is_0")[0])
    write(tree.path("tests/wrong/low.cases"), before)


def try_company(tree):
    """Tests that bodies of several functions share one run, but two of the same function do not; one that is not rejected is tested alone.
    """
    cases = tree.text(tree.path("tests/wrong/low.cases"))
    for name, text, last, wanted in (
        ("which are tried together", cases + CASE.format("one", "9"), "3 passed, 0 failed", ["low one", "low one two", "low one two"]),
        ("one that is not refused", CASE.format("one", "0") + CASE.format("two", "n_two // n_two"), "1 passed, 1 failed",
         ["low one two", "low one two", "low two"]),
        ("one that cannot be read", CASE.format("one", "0") + CASE.format("two", "unread"), "1 passed, 1 failed",
         ["low one", "low one two", "low one two", "low two"]),
    ):
        write(tree.path("tests/wrong/low.cases"), text)
        status, lines = tree.ask("low")
        asked = sorted(tree.text(tree.path("called")).splitlines())
        tree.want(name, (last.endswith(" 1 failed"), last, wanted), (status == 1, lines[-1], asked))
    write(tree.path("tests/wrong/low.cases"), cases)
    word = tree.ask("look", script="tools/sources.py")[1][0]
    for name, look, wanted in (("all is proved", word, ["low one two"]), ("a source was touched", "0" + word, ["low one two"] * 2)):
        status = tree.ask("low", "--proved", look)[0]
        tree.want(f"runs where {name}", (0, wanted), (status, tree.text(tree.path("called")).splitlines()))
    before = tree.change("crates/low/src/lib.rt", "    n_two\n", "    n_two // one that is unproved\n")
    status, lines = tree.ask("low")
    tree.want("a crate that is not proved", (1, "0 passed, 2 failed"), (status, lines[-1]))
    write(tree.path("crates/low/src/lib.rt"), before)
    os.rename(tree.path("crates/low/out"), tree.path("away"))
    status, lines = tree.ask("top")
    tree.want("a crate with no library below it", (1, f"0 passed, {len(CRATES['top'])} failed"), (status, lines[-1]))
    os.rename(tree.path("away"), tree.path("crates/low/out"))


def try_record(tree):
    """Tests that cases covered by the record are skipped except for a tenth, and that all are tested if anything that they depend on has
    changed."""
    record, all_of = tree.path("tests/wrong/refused.sums"), [len(it) for it in CRATES.values()]
    tree.want("no record", all_of, tree.tried())
    tree.want("a record of sources that changed", 1, tree.ask("--record", CHANGED=" M crates/low/src/lib.rt")[0])
    tree.want("the first record", all_of, tree.tried("--record"))
    kept = tree.text(record)
    tenths = [tree.tried(COMMIT=it * 40) for it in "abcdef01"]
    counts = [sum(it) for it in tenths]
    tree.want("the tenths that commits choose", (True, True, True), (max(counts) < 9, len(set(map(str, tenths))) > 3, sum(counts) > 8))
    tenth = tree.tried()
    tree.want("the tenth of a commit again", tenth, tree.tried())
    for name, text in (("a file that is none", "\0"), ("an empty file", ""), ("a sum that is none", kept.replace(" ", " g")),
                       ("lines that stand twice", kept + kept), ("another sum", re.sub(r" [0-9a-f]{64} ", f" {'0' * 64} ", kept))):
        write(record, text)
        tree.want(f"a record, {name}", all_of, tree.tried())
    write(record, kept.replace("top ", "top of "))
    tree.want("a record with a broken line", [tenth[0], all_of[1]], tree.tried())
    write(record, kept)
    tree.want("another toolchain", all_of, tree.tried(KIT="kit 2"))
    tree.want("no toolchain that says its name", all_of, tree.tried(KIT=""))
    tree.want("no commit", all_of, tree.tried(COMMIT=""))
    low, top = "crates/low/src/lib.rt", "crates/top/src/lib.rt"
    for name, path, old, new, wanted in (
        ("a comment", low, "/// Answers", "/// Gives", tenth), ("a body", low, "    n_two\n", "    n_two\n\n    // It is.\n", tenth),
        ("a body below", low, "{\n    n_two", "{\n    let it = 2;\n    n_two", [all_of[0], tenth[1]]),
        ("layout", low, "≡ two", "≡  two", tenth),
        ("a promise below", low, "≡ two", "≡ (two)", all_of), ("code", top, "≡ f03", "≡ (f03)", [tenth[0], all_of[1]]),
        ("a proof", "crates/top/proofs/Lib.antt", "Lemmas.", "Lemmas.\nlemma : A", [tenth[0], all_of[1]]),
        ("a proof below", "crates/low/proofs/Lib.antt", "Lemmas.", "Lemmas.\nlemma : A", [all_of[0], tenth[1]]),
        ("a case", "tests/wrong/low.cases", "two is itself", "two is two", [all_of[0], tenth[1]]),
        ("the runner", "tests/runners/wrong.py", "# ---- cases", "# ----  cases", all_of),
    ):
        before = tree.change(path, old, new)
        tree.want(f"a record, and {name} changed", wanted, tree.tried())
        write(tree.path(path), before)
    before = tree.change("tests/wrong/low.cases", "old:     n_one\nnew:     0", "old:     n_one\nnew:     other")
    tree.want("a record of a crate with a case that is not refused", (1, ["top"]),
              (tree.ask("--record", "low")[0], re.findall(r"^(\w+) ", tree.text(record), re.M)))
    write(tree.path("tests/wrong/low.cases"), before)
    tree.want("a record of one crate", (0, kept), (tree.ask("--record", "low")[0], tree.text(record)))


def tried(folder):
    """Yields whether each test passed."""
    tree = Tree(os.path.join(folder, "wrong"))
    try_answers(tree)
    try_company(tree)
    try_record(tree)
    return tree.right
