#!/usr/bin/env python3
"""Tests the tests' own tools, mostly on stand-ins for the program. The runners of cases and of images pass and fail as they should. The
gate's cost table has the sums computed by hand from given samples of processes. Wrong bodies are tried or skipped as their record says, and
the prover's answers are judged correctly. Only pairs of programs with equal output have figures, and the right ones. Wrong documents, false
claims in them, and wrong sessions are found. The growth of costs is judged correctly. A random program with a planted difference is
minimized to a small one that shows it. The reference passes the cases in tests/whole, and those of the program that check texts.

    python3 tests/runners/self_test.py [TEXTS.json]

The optional file of texts with their verdicts, a list of objects with `text` and `expect`, is compared with the reference too.
"""
import contextlib
import json
import os
import re
import shutil
import subprocess
import sys
import tempfile
import unittest.mock

import suite  # first: it makes the references and the generators importable
import claims_tried
import differential
import documents
import facts
import figures_tried
import house
import images
import in_trees
import interactive
import lemmas
import needs
import reference
import run
import sessions
import shrink
import wrong
import wrong_tried

HERE = os.path.dirname(os.path.abspath(__file__))
# The program's case files that only check source texts and take little time.
TEXT_CASES = ["flow", "parsing", "texts", "tokens", "types"]

# A stand-in for the program. The stand-in gives the same results with both heap implementations for each image except two:
# for one the output differs, for the other the instruction count.
STAND_IN = """#!/bin/sh
run() {
  cat
  for last; do :; done
  case "$*" in *--report*) echo '{"instructions": 1}' > "$last";; esac
  case "$*" in *counts*plain*) echo '{"instructions": 2}' > "$last";; esac
  case "$*" in *differs*plain*) echo other >&2;; *) echo done >&2;; esac
}
case "$1" in
say) printf '%s' "$2"; echo said >&2; exit 3;;
echo) cat 2>/dev/null || exit 8; echo done >&2;;
make) printf '%s' "$3" > "$2"; echo done >&2;;
run) run "$@";;
check) case "$(cat "$2")" in good*) echo done >&2;; *) echo 'fault 1 at 1:1' >&2; exit 2;; esac;;
silent) exit 0;;
*) echo 'first line' >&2; echo usage >&2; exit 9;;
esac
"""

GOOD = r"""
let TWICE = "ab" * 2
let COUNTED = "x#," * 12
let BYTES =
    48 49

== words, statuses and last lines
> say hi
out hi
ends 3 said
> nonsense
err-has first line
ends 9 usage
> silent
ends 0

== input, escapes and names
> echo
in $TWICE\n\x21
out abab\n!
ends 0 done
> echo
in one\ntwo\n
out
    one
    two
ends 0 done

== numbered copies
> echo
in $COUNTED
out x1,x2,x3,x4,x5,x6,x7,x8,x9,x10,x11,x12,
ends 0 done

== files
hex a.bin
    $BYTES
holds a.bin HI
patch a.bin 1 4a
cut a.bin 2
holds a.bin HJ
absent b.bin
> make b.bin $TWICE
ends 0 done
holds b.bin abab
words w.elf
    0000000c
$ wc -c w.elf
out-has 88
ends 0

== texts that are checked
let MORE = "1 | " * 2
? done | good
? done | good ${MORE}2 | 3
? fault 1 at 1:1 |
err-has fault
? fault 1 at 1:1 | bad\n

== streams
> echo
in x
full
ends 8
> silent
closed in out err
ends 0
"""

# Of the test cases in this text, only the last two run an image for which the two heap
# implementations differ.
STORES = r"""
== what is no run of an image by limits
> say run
out run
ends 3 said
> run
ends 0 done
> run absent.elf --steps
ends 0 done
== an image
bytes same.elf x
> run same.elf --steps 9 --pages 3
in abc
out abc
ends 0 done
== an image with which they do not
bytes differs.elf x
> run differs.elf
ends 0 done
== an image of which they count other instructions
bytes counts.elf x
> run counts.elf --calls 7
ends 0 done
"""

# Test cases for the test runner itself, each of which must fail because it violates one
# expectation.
BAD = r"""
== a wrong output
> say hi
out ho
ends 3 said
== a wrong status
> say hi
out hi
ends 4 said
== a wrong last line
> nonsense
ends 9 first line
== a line where there should be none
> nonsense
ends 9
== an output where there should be none
> say hi
ends 3 said
== a text that is lacking
> nonsense
err-has third line
ends 9 usage
== a file that is there
> make a x
ends 0 done
absent a
== a file that holds something else
> make a x
ends 0 done
holds a y
== a text that has no fault
? fault 1 at 1:1 | good
== a file that is not there
> silent
ends 0
holds a y
== a command that is not there
$ no_such_command
ends 0
== a command that is not there, before another
$ sh -c 'no_such_command | wc -l'
out-has 0
ends 0
"""


def last_line_of_run(cases, folder, *options):
    path = os.path.join(folder, "x.cases")
    with open(path, "w", encoding="utf-8") as file:
        file.write(cases)
    words = [sys.executable, os.path.join(HERE, "run.py"), "--program", os.path.join(folder, "stand_in"), *options, path]
    done = subprocess.run(words, capture_output=True, text=True)
    return done.stdout.rstrip().split("\n")[-1], done.returncode, done.stdout + done.stderr


# Changes to documents that the checker must detect: changed rows of tables, numbers, paths, file names
# and other lines.
DRIFTS = [
    ("docs/ARCHITECTURE.md", "| the tokens of the longest-match rule", "| all tokens of the longest-match rule"),
    ("docs/ARCHITECTURE.md", "| `cyc_lex` |", "| `cyc_lexer` |"),
    ("docs/FIGURES.md", "\n| `cyc_words` | 5", "\n| `cyc_words` | 6"),
    ("docs/FIGURES.md", "\n| `cyc_lex` | 6", "\n| `cyc_lex` | 7"),
    ("docs/FIGURES.md", "\n| files above 600 lines | ", "\n| files above 600 lines | 1"),
    ("docs/GUARANTEES.md", "random programs of them: 1", "random programs of them: 2"),
    ("docs/GUARANTEES.md", " small images, one of them", " images, one of them"),
    ("docs/GUARANTEES.md", "`tests/runners/images.py`", "`tests/runners/drawings.py`"),
    ("crates/cyc_select/README.md", "`proofs/relation/Cells`", "`proofs/Cells`"),
    ("crates/cyc_select/README.md", "- Definitions: `Labelled`", "- Definitions: `Labels`"),
    ("crates/cyc_lex/README.md", "`src/runs.rt`", "`src/walks.rt`"),
    ("crates/cyc_lex/README.md", "`NameReading`", "`NamesReading`"),
    ("crates/cyc_soundness/README.md", "| `guard/Never` |", "| `guard/Ever` |"),
    ("crates/cyc_check/README.md", "| `functions.rt` |", "| `function.rt` |"),
    ("docs/LANGUAGE.md", "A loop that frees what it does not make again is emptier at its end than at its head:\n\n", ""),
]


def are_drifts_found():
    """Returns true if a document has no fault unchanged, and a fault if it contradicts the data or names a missing file."""
    right = True
    for path, old, new in DRIFTS:
        text = facts.content(path)
        if text.count(old) != 1 or documents.faults_of(path, text) or not documents.faults_of(path, text.replace(old, new)):
            print(f"{path}: {old!r} stands there {text.count(old)} times, or is as well as {new!r}")
            right = False
    # The checker must report a crate that is missing in crates.txt, and a definition that names no
    # public source.
    listed = facts.crates()
    with unittest.mock.patch.object(facts, "crates", lambda: listed[1:]), unittest.mock.patch.object(facts, "SOURCE", re.compile("System V")):
        if not facts.faults_of_crates() or not facts.faults_of_sources():
            print("a crate that is not in crates.txt, or a definition with no source, is not found")
            right = False
    graph = wrong.stands_on(suite.ROOT)
    if facts.idle_edges(graph | {"cyc_isa": graph["cyc_isa"] + ["cyc_elf"]}) != ["cyc_isa stands on cyc_elf, which no file of it names"]:
        print("a crate that stands on another for nothing is not found, or one that needs it is")
        right = False
    return right


# Example proof files with lemmas, and the names of lemmas that the checker must report because they have two different
# statements. Layout, visibility and comments make no difference; definitions and files named Answers do not count.
PROOFS = {
    "one/proofs/First.antt": "pub same : A\n    → B\nsame = it\n\npub other : A\n\n-- third : A\nabbrev fourth : A\n",
    "two/proofs/topic/Second.antt": "same : A → B\nother : B\nthird : B\nfourth : B\nlast : A\n",
    "two/proofs/function/Answers.antt": "last : B\n",
}


def are_lemmas_told_apart(folder):
    """Returns true if exactly the names with different statements in different files are found."""
    root = os.path.join(folder, "crates_with_proofs")
    for path, text in PROOFS.items():
        os.makedirs(os.path.dirname(os.path.join(root, path)), exist_ok=True)
        with open(os.path.join(root, path), "w", encoding="utf-8") as file:
            file.write(text)
    wanted = ["other: 2 statements, in one/proofs/First.antt, two/proofs/topic/Second.antt"]
    found = [lemmas.faults(crates, root) for crates in ((), ("two",), ("three",))]
    if found != [wanted, wanted, []]:
        print(f"the names of lemmas with more than one statement are {found}")
    return found == [wanted, wanted, []]


def are_long_imports_found():
    """Returns true if exactly the file with a very long import is found, and no other line of that length."""
    names = ", ".join(["name"] * 50)
    lines = {"short": "use Rattle.words.{name}\n", "long": f"ghost use Rattle.words.{{{names}}};\n", "comment": f"-- use {names}\n"}
    found = [fault.split(":")[0] for fault in house.long_imports(lines)]
    if found != ["long"]:
        print(f"the files with imports that are too long are {found}")
    return found == ["long"]


# Test cases: the lines that a session shows, the lines that are printed, and true if they match.
SHOWN_LINES = [
    ("a", "a", True), ("a", "b", False), ("", "a", False), ("a", "", False), ("a", "a|b", False), ("a|..|d", "a|b|c|d", True),
    ("a|..|d", "a|d", True), ("a|..|d", "a|b|c", False), ("a|..|d", "b|d", False), ("..", "", True),
]


def are_sessions_tried(folder):
    """Returns true if sessions are compared: wrong answers of commands fail, and so does a document without a session."""
    right = all(sessions.is_shown(*(lines.split("|") for lines in pair)) == same for *pair, same in SHOWN_LINES)
    program = os.path.join(folder, "wrong_program")
    with open(program, "w", encoding="ascii") as file:
        file.write("#!/bin/sh\necho wrong\nexit 3\n")
    os.chmod(program, 0o755)
    done = subprocess.run([sys.executable, os.path.join(HERE, "sessions.py"), "--program", program], capture_output=True, text=True)
    failed = {line.removeprefix("FAILED ") for line in done.stdout.splitlines() if line.startswith("FAILED ")}
    wanted = {f"{path}:{it.line}" for path in sessions.DOCUMENTS for it in sessions.commands_of(path) if sessions.runs_program(it)}
    right = right and wanted <= failed and done.returncode == 1 and [name for name, _ in sessions.things_of("none", [], None)] == ["none"]
    if not right:
        print(f"sessions.py said\n{done.stdout}{done.stderr}")
    return right


# Changes to a text that docs/TRUSTED.md describes: the file, the old text, its replacement, and the expected fault.
UNTRUSTED = [
    ("cyc_compiler/specs/FullPreservation.antt", "\nuse ", "\nuse Rattle.cyc_plain.specs.inside.State.{Configuration}\nuse ", "lacks: | `cyc_plain/specs/inside/State.antt`"),
    ("cyc_compiler/specs/FullPreservation.antt", "own choice", "choice", "FullPreservation.antt names no public source"),
    ("cyc_plain/specs/inside.antt", "pub mod State\n", "pub mod Status\n", None),
    ("cyc_words/specs/Seen.antt", "\nabbrev pub ", "\n" * 2_000 + "abbrev pub ", "are to be read"),
    ("cyc_system/src/laws.rt", "pub fn compiled_programs_run()", "pub fn compiled_programs_end()", "no paragraph on compiled_programs_end"),
    ("cyc_words/specs/Decision.antt", "IfOk, ", "Surely as IfOk, ", "has no line on Surely"),
    ("cyc_words/specs/Decision.antt", "Accepted a × Gives", "Accepted a ⊗ Gives", "does not say how ⊗ is read"),
]


def is_reading_watched(folder):
    """Returns true if docs/TRUSTED.md passes unchanged and fails after relevant changes. They are: a contract that refers to a file of a
    pass, a definition that names no source, too much to read, and a law, a name of the library and a sign on which the page has nothing. A
    list of modules alone changes nothing."""
    room = os.path.join(folder, "trusted")
    shutil.copytree(os.path.join(suite.TESTS, "runners"), os.path.join(room, "tests", "runners"))
    sources = [f"crates/{crate}/{kind}" for crate in wrong.stands_on(suite.ROOT) for kind in ("src", "specs")]
    for part in ("crates.txt", "docs/TRUSTED.md", "tools/processes.py", *sources):
        there, here = os.path.join(suite.ROOT, part), os.path.join(room, part)
        if os.path.isdir(there):
            shutil.copytree(there, here)
        elif os.path.exists(there):
            os.makedirs(os.path.dirname(here), exist_ok=True)
            shutil.copy(there, here)

    def is_said(said):
        done = subprocess.run([sys.executable, os.path.join(room, "tests", "runners", "trusted.py")], capture_output=True, text=True)
        right = done.returncode == 0 if said is None else done.returncode == 1 and said in done.stdout
        if not right:
            print(f"of what must be trusted is said, in place of {said}\n{done.stdout[-2000:]}")
        return right

    def is_found(path, old, new, said):
        place = os.path.join(room, "crates", path)
        with open(place, encoding="utf-8") as file:
            text = file.read()
        needs.write(place, text.replace(old, new, 1))
        right = old in text and is_said(said)
        needs.write(place, text)
        return right

    return is_said(None) and all(is_found(*change) for change in UNTRUSTED)


def is_runner_right(folder):
    path = os.path.join(folder, "stand_in")
    with open(path, "w", encoding="utf-8") as file:
        file.write(STAND_IN)
    os.chmod(path, 0o755)
    is_right = True
    for cases, options, wanted in (
        (GOOD, [], ("6 passed, 0 failed", 0)),
        (BAD, [], ("0 passed, 12 failed", 1)),
        (STORES, ["--one-store"], ("4 passed, 0 failed", 0)),
        (STORES, [], ("2 passed, 2 failed", 1)),
    ):
        line, status, all_of_it = last_line_of_run(cases, folder, *options)
        if (line, status) != wanted:
            print(f"the runner said {line!r} with status {status} and should have said {wanted}:\n{all_of_it}")
            is_right = False
    return is_right


def answered(step, folder, _):
    """Returns the reference's answer, computed in this process instead of running the program."""
    with contextlib.chdir(folder):
        output, line, status = reference.answer(step.words, lambda: step.input)
    return subprocess.CompletedProcess(step.words, status, output, (line + "\n").encode("latin-1"))


def is_case_right(case):
    faults = run.faults_of(case, "the reference", answered)
    for fault in faults:
        print(f"{case.place}: {case.name}\n{fault}")
    return not faults


# Stand-ins for the emulator that give a wrong result for every image, so the test of images must
# fail with each.
WRONG_MACHINES = {
    "a wrong output": "printf x; echo 'returned 3' >&2; exit 3",
    "a last line that is none of the manual's": "echo 'returned three' >&2; exit 3",
    "no last line": "exit 0",
    "a crash": "kill -SEGV $$",
}
# Test cases: an expected result, the program's result, and true if the difference is a fault.
ENDED, OPEN = (b"x", "returned -1", 255), (b"x", None, None)
ANSWERS_OF_RUNS = [
    (ENDED, ENDED, False), (ENDED, (b"y", "returned -1", 255), True), (ENDED, (b"x", "returned 255", 255), True),
    (ENDED, (b"x", "returned -1", 1), True), (ENDED, (b"x", "returned -1", -11), True), (ENDED, (b"x", "returned -1", None), True),
    (ENDED, (b"x", "returned -1\n", 255), True), (ENDED, (b"x", "", 255), True), (OPEN, (b"xy", "trap break", 6), False),
    (OPEN, (b"y", "trap break", 6), True), (OPEN, (b"x", "trap broken", 6), True), (OPEN, (b"x", "trap break", 7), True),
    (OPEN, (b"x", "image fault 7", 3), True), (OPEN, (b"x", "full", 5), False), (OPEN, (b"x", "done", 0), True),
    (OPEN, (b"x", "full", -9), True), (OPEN, (b"x", "write fault", 8), True),
]


def is_judge_of_images_right(folder):
    """Returns true if answers for images are judged correctly, also those of programs that give no right answer."""
    right = True
    for wanted, got, is_fault in ANSWERS_OF_RUNS:
        if bool(images.fault_of("run", wanted, got)) != is_fault:
            print(f"of {wanted}, wanted, and {got} it is said: {images.fault_of('run', wanted, got)}")
            right = False
    program = os.path.join(folder, "wrong_machine")
    for name, body in WRONG_MACHINES.items():
        with open(program, "w", encoding="utf-8") as file:
            file.write(f"#!/bin/sh\n{body}\n")
        os.chmod(program, 0o755)
        words = [sys.executable, os.path.join(HERE, "images.py"), "--program", program, "--part", "random", "--count", "20"]
        done = subprocess.run(words, capture_output=True, text=True)
        if (done.stdout.rstrip().split("\n")[-1], done.returncode) != ("0 passed, 20 failed", 1):
            print(f"{name}: images.py said\n{done.stdout}{done.stderr}")
            right = False
    return right


def is_shrinker_right(folder):
    """Returns true if a random program with a planted difference is minimized to a small one that shows it. The stand-in for the program
    makes images in which `/` replaces each `%`."""

    def planted(words, given=b""):
        write = lambda _, text, path: reference.write_text(None, text.replace("%", "/"), path)
        return reference.answer(words[1:], lambda: given, write)

    with unittest.mock.patch.object(suite, "answer", planted):
        tried = differential.Tried("the stand-in", folder)
        differential.try_program(tried, differential.Wanted("ints", 1, 0), False)
        text, _ = tried.shrunk(differential.SHRINKING)
        is_same = tried.shows(text) and not tried.shows(text.replace("%", "-"))
    size = sum(1 for _ in shrink.tokens_of(shrink.tree_of(text)))
    # The smallest program that prints or returns an operator's result has 11 tokens.
    if not is_same or size > 40 or reference.verdict(text) != "done":
        print(f"a program with a planted difference was shrunk to {size} tokens:\n{text}")
        return False
    return True


# A stand-in for the program in tests of dialogs; it compiles no text, and runs the given code.
ASKED = """#!/usr/bin/env python3
import os, sys
if sys.argv[1] == "compile":
    print("done", file=sys.stderr)
    sys.exit(0)
{body}
value = given[0] if given else -1
print("returned", value, file=sys.stderr)
sys.exit(value & 255)
"""
# Behaviours of a test program in two dialogs. In the first dialog all input is available from the start and most of it stays
# unread; in the second the input ends after the prompt.
WAYS_TO_ASK = {
    "os.write(1, b'A'); given = os.read(0, 8192)": "2 passed, 0 failed",
    "given = os.read(0, 8192); os.write(1, b'A')": "1 passed, 1 failed",
    "os.write(1, b'A'); given = sys.stdin.buffer.read()": "1 passed, 1 failed",
    "os.write(1, b'A'); given = os.read(0, 8193)": "1 passed, 1 failed",
    "os.write(1, b'A?'); given = os.read(0, 8192)": "0 passed, 2 failed",
    "os.write(1, b'A'); given = os.read(0, 8192); os.write(1, b'.')": "0 passed, 2 failed",
}


def are_dialogs_judged(folder):
    """Returns true if a program that asks before it reads passes its dialogs, and other programs fail."""
    right = True
    program = os.path.join(folder, "asked")
    dialogs = [os.path.join(interactive.FOLDER, name + interactive.SUFFIX) for name in ("first", "first_end")]
    for body, wanted in WAYS_TO_ASK.items():
        with open(program, "w", encoding="utf-8") as file:
            file.write(ASKED.format(body=body))
        os.chmod(program, 0o755)
        words = [sys.executable, os.path.join(HERE, "interactive.py"), "--program", program, "--seconds", str(suite.grown(3)), *dialogs]
        done = subprocess.run(words, capture_output=True, text=True)
        if done.stdout.rstrip().split("\n")[-1] != wanted:
            print(f"{body}: interactive.py said\n{done.stdout}{done.stderr}")
            right = False
    return right


def is_text_right(case):
    """Returns true if the reference gives a text the right verdict, also with the limits of an image."""
    try:
        reference.Program(case["text"]).hold_to_sizes()
        verdict = "done"
    except reference.Refused as refused:
        verdict = str(refused)
    if verdict != case["expect"]:
        print(suite.difference(suite.shown(case["text"]), case["expect"], verdict))
    return verdict == case["expect"]


def is_program_right(head, text):
    """Returns true if the reference rejects a program as its first line says, and runs it to this end if the rules of that code are
    disabled."""
    refusal, code = in_trees.refusal_of(head)
    wanted, got = (refusal, head[1]), (reference.verdict(text), in_trees.run_of(text, code))
    if got != wanted:
        print(suite.difference(head[0], wanted, got))
    return got == wanted


def main():
    files = run.case_files(run.WHOLE) + [os.path.join(run.CASES, name + ".cases") for name in TEXT_CASES]
    cases = [case for path in files for case in run.Reader(path).read()]
    texts = []
    if len(sys.argv) > 1:
        with open(sys.argv[1], encoding="utf-8") as file:
            texts = json.load(file)
    with tempfile.TemporaryDirectory() as folder:
        right = [is_runner_right(folder), is_judge_of_images_right(folder), are_dialogs_judged(folder)]
        right += [are_drifts_found(), are_sessions_tried(folder), are_lemmas_told_apart(folder), are_long_imports_found()]
        right += [is_reading_watched(folder), *claims_tried.tried(), *wrong_tried.tried(folder)]
        right += figures_tried.tried(folder)
        right += needs.tried(folder, os.path.join(folder, "stand_in"))
        right.append(reference.with_room(lambda: is_shrinker_right(folder)))
    right += reference.with_room(lambda: [is_case_right(case) for case in cases] + [is_text_right(case) for case in texts])
    right += reference.with_room(lambda: [is_program_right(*one) for name in ("accepted", "refused") for one in in_trees.programs_in(name)])
    suite.end(right.count(True), right.count(False))


if __name__ == "__main__":
    main()
