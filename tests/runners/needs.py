"""Removes the tools that the tests need, one at a time: each test must fail and name the missing tool. The tests run on stand-ins for the
program and for its commands. self_test.py runs all of these checks.
"""
import os
import re
import shutil
import subprocess
import sys

import suite  # first: it makes the references and the generators importable
import images
import instruction_makers

HERE = os.path.dirname(os.path.abspath(__file__))
BENCH = os.path.join(suite.ROOT, "bench")
MACHINE = os.path.join(suite.TESTS, "references", "machine.py")
# The gate's own scripts; they are tested in a copy of the repository, because they write files.
OF_GATE = ("gate.sh", "install.sh", "suites.sh", "suites.txt", "tools.sh", "tools.txt")
# Commands that the gate's scripts use and that every system has.
USUAL = "bash cat cp cut dirname env grep head id make mkdir mktemp rm sed sh tail tee".split()
NOTHING = "#!/bin/sh\n"
# Three stand-ins for a package manager: one without packages, one that only claims to install them, and
# one that installs a stand-in for vim.
HAS_NONE = '#!/bin/sh\necho "$1" >> "$CALLED"\n[ "$1" = update ]\n'
SAYS_SO = '#!/bin/sh\necho "$1" >> "$CALLED"\n'
HAS_VIM = SAYS_SO + '[ "$1" = update ] || cp "$(command -v readelf)" "${0%/*}/vim"\n'
PYTHON = f'#!/bin/sh\nexec "{sys.executable}" "$@"\n'
AS_ROOT = '#!/bin/sh\nexec "$@"\n'

# A stand-in for Python in the gate, which maps each test's name to an output. The last five outputs
# do not count as passed.
SAYING = """#!/bin/sh
case "$*" in
*/gate_table.py\\ measure*) shift 5; exec "$@";;
*/gate_table.py*) echo costs;;
*/run.py*) echo "5 passed, 0 failed";;
*/codes.py*) echo "3 passed, 1 failed"; exit 1;;
*/images.py*) echo "77 passed, 0 failed; left out: qemu-mips";;
*/editors.py*) echo "0 passed, 0 failed";;
*/scripts.py*) echo "Traceback"; exit 1;;
*/memory.py*) echo "4 passed, 0 failed"; exit 1;;
*) echo "1 passed, 0 failed";;
esac
"""
# The total of the results that the stand-in for Python prints. The total has 1 passed for the proofs, 10 for the
# cases, 3 for the codes, 4 for memory, and 1 for each of twenty-three other tests. The failures are those that the
# stand-in SAYING prints.
ADDED = "44 passed, 5 failed"

# Case files that contain a mistake, each with the fault that the reader of case files must report
# for it.
BAD_CASES = {
    "": "there is no case",
    "# a remark\n": "there is no case",
    "== a\nfile b\n    c\nholds b c\n": "1: the case runs no command",
    "== a\n> silent\nends 0\n== b\n== c\n> silent\nends 0\n": "4: the case runs no command",
    "== a\n> silent\nout-has b\n> silent\nends 0\n": "2: no line `ends STATUS LINE` stands below the command",
    "== a\n> say $WORD\nends 3 said\n": "2: nothing sets $WORD",
    "== a\n$ sh -c 'echo $WORD'\nout\nends 0\n": "2: nothing sets $WORD",
    "== a\nfile b\n    $WORD\n> silent\nends 0\n": "3: nothing sets $WORD",
    "let WORD = ${OTHER}\n== a\n> silent\nends 0\n": "1: nothing sets $OTHER",
    "== a\nlet WORD = b\n> silent\nends 0\n== c\n> say $WORD\nout b\nends 3 said\n": "6: nothing sets $WORD",
    "== a\n$\nends 0\n": "2: a line `$ WORDS` names a command",
}
# Pairs of different values, and the expected excerpt around their first difference.
FAR = b"a" * 300 + b"b" + b"c" * 300, b"a" * 300 + b"d" + b"c" * 300
ABOUT = "at 300 wanted b'" + 30 * "a" + "b" + 29 * "c" + "'", "got    b'" + 30 * "a" + "d" + 29 * "c" + "'"
PARTINGS = [
    (*FAR, ABOUT), ((FAR[0], "", 0), (FAR[1], "", 0), ABOUT), ([b"x", FAR[0]], [b"x", FAR[1]], ABOUT), ("a" * 60, "b" * 60, ()),
    ("a" * 70, "a" * 71, (f"at 70 wanted '{30 * 'a'}'", f"got    '{31 * 'a'}'")), ((1,), (1, 2), ("1 parts, and 2 in place of them",)),
]
# Test scripts, of which a checker of scripts must accept some and reject the others.
SCRIPTS = {
    "good.sh": '#!/bin/sh\necho "$1"\n', "good": "#!/usr/bin/env python3\nprint(1)\n", "none.txt": "cd $1\n", "out/made.sh": "cd $1\n",
    "bad.sh": "#!/bin/sh\ncd $1\n", "bad": "#!/bin/sh\nls $1\n", "bad.py": "import os\n", ".ci/bad": "#!/usr/bin/env bash\ncd $1\n",
    "worse": "#!/usr/bin/python3\nprint(name)\n",
}


def write(path, text):
    os.makedirs(os.path.dirname(path), exist_ok=True)
    with open(path, "w", encoding="utf-8") as file:
        file.write(text)
    os.chmod(path, 0o755)


class Room:
    """A folder whose `bin` contains all available commands: the usual ones, and stand-ins."""

    def __init__(self, folder, stand_ins):
        self.folder, self.bin, self.called = folder, os.path.join(folder, "bin"), os.path.join(folder, "called")
        for name, text in stand_ins.items():
            prefix = suite.prefix_of(name)
            path = os.path.join(self.bin, name) if prefix is None else os.path.join(folder, "modules", name.removeprefix(prefix))
            write(path, text)
        for name in {*USUAL} - stand_ins.keys():
            os.symlink(shutil.which(name), os.path.join(self.bin, name))
        for name in OF_GATE:
            os.makedirs(os.path.join(folder, "tests"), exist_ok=True)
            shutil.copy(os.path.join(suite.TESTS, name), os.path.join(folder, "tests", name))

    def ask(self, words):
        """Returns the status of a command and the lines that it prints."""
        folders = {variable: self.path("modules") for variable, _ in suite.MODULES.values()}
        environment = {**os.environ, **folders, "PATH": self.bin, "CALLED": self.called}
        done = subprocess.run(words, env=environment, stdin=subprocess.DEVNULL, stdout=subprocess.PIPE, stderr=subprocess.STDOUT, text=True)
        return done.returncode, done.stdout.splitlines()

    def path(self, name):
        return os.path.join(self.folder, name)

    def script(self, name):
        return self.path(os.path.join("tests", name))


class Needs:
    """The rooms of consecutive tests, and the failures."""

    def __init__(self, folder):
        self.folder, self.count, self.right = folder, 0, []

    def room(self, missing=(), **stand_ins):
        """Returns a room that has all commands of the suite except the missing ones."""
        self.count += 1
        tools = {tool: NOTHING for tool in suite.packages()}
        tools |= {"rt": NOTHING, "apt-get": SAYS_SO, "sudo": AS_ROOT, **{name.replace("_", "-"): text for name, text in stand_ins.items()}}
        return Room(os.path.join(self.folder, f"needs{self.count}"), {name: text for name, text in tools.items() if name not in missing})

    def want(self, name, wanted, got):
        self.right.append(wanted == got)
        if wanted != got:
            print(suite.difference(name, wanted, got))

    def fails(self, name, room, words, said, last=r"0 passed, \d+ failed"):
        """Expects a command to fail, to print a line, and to end with a line like `last`."""
        status, lines = room.ask(words)
        fits = status != 0 and any(said in line for line in lines) and re.fullmatch(last, lines[-1])
        self.want(f"{name}, which should fail, say `{said}` and end as `{last}`", True, bool(fits) or (status, lines[-9:]))


def runner(name, *words):
    return [sys.executable, os.path.join(HERE, name), *words]


def missing(tool):
    return f"there is no {suite.kind_of(tool)} {tool}" + (f": Debian has it in {suite.packages()[tool]}" if tool in suite.packages() else "")


def try_tools(needs):
    """Tests that the script names each missing tool, and installs only that one."""
    for tool in suite.packages():
        room = needs.room([tool])
        words = ["sh", room.script("tools.sh")]
        needs.fails(f"tools.sh without {tool}", room, words, missing(tool), "sh tests/install.sh installs what is missing")
        needs.want("what tools.sh installs", False, os.path.exists(room.called))
    room = needs.room()
    needs.want("tools.sh with all tools", (0, []), room.ask(["sh", room.script("tools.sh")]))
    needs.want("install.sh with all tools", (0, []), room.ask(["sh", room.script("install.sh")]))
    needs.want("what install.sh installs then", False, os.path.exists(room.called))
    needs.fails("tools.sh, of a command that nobody knows", room, ["sh", room.script("tools.sh"), "no_such"], missing("no_such"), ".*")
    room = needs.room(["vim"], apt_get=HAS_VIM)
    needs.want("install.sh where a package is had", (0, []), room.ask(["sh", room.script("install.sh")]))
    room = needs.room(["vim"])
    needs.fails("install.sh with no command behind it", room, ["sh", room.script("install.sh")], missing("vim"), ".*")


def try_gate(needs):
    """Tests that the gate stops if a package is unavailable, and never counts a failure as a pass."""
    room = needs.room(["vim"], apt_get=HAS_NONE, python3=SAYING)
    status, lines = room.ask(["bash", room.script("gate.sh")])
    wanted = ["tests/install.sh: what the tests need cannot be had, and nothing was tried", "0 passed, 1 failed"]
    needs.want("the gate without a package", (1, wanted), (status, lines))
    room = needs.room(python3=SAYING, rt='#!/bin/sh\necho "1 passed, 0 failed"\n')
    status, lines = room.ask(["bash", room.script("gate.sh")])
    needs.want("the sums of the gate", (1, ADDED), (status, lines[-1]))
    made = (["make", "-s", "-C", suite.ROOT, it] for it in ("quick", "cases"))
    for command in (["sh", os.path.join(suite.TESTS, "quick.sh"), "none"], *made):
        room = needs.room(["vim"], python3=SAYING)
        needs.fails(" ".join(command), room, command, missing("vim"), ".*")
        needs.want(f"what {' '.join(command)} installs", False, os.path.exists(room.called))


def try_runners(needs):
    """Tests that each test fails without its command, and that the last line names excluded tools."""
    program = needs.room().path("bin/sh")
    cases = {"readelf": "== a\n$ readelf -h b\nends 0\n", "man": "== a\n$ sh -c 'cat b; man b | wc -l'\nends 0\n"}
    for tool, text in cases.items():
        write(os.path.join(needs.folder, f"{tool}.cases"), text)
    instructions = ("images.py", "--program", program, "--part", "instructions")
    for tool, words in (
        ("qemu-mips", instructions), ("mips-linux-gnu-objdump", instructions), ("qemu-mips", (*instructions, "--without-objdump")),
        ("vim", ["editors.py"]), ("cc", ["refused.py", "--program", program]),
        ("gcc", ["differential.py", "--program", program, "--count", "4"]), ("rt", ["codes.py", "--program", program]),
        ("parallel", ["judged.py", "--program", program]), ("valgrind", ["growth.py", "--program", program]), ("shellcheck", ["scripts.py"]), ("pyflakes3", ["scripts.py"]),
        ("nvim", ["edited.py", "--program", program]), ("python3-aiohttp", ["served.py", "--program", program]),
        *((it, ["browsed.py", "--program", program]) for it in ("chromium", "chromedriver", "python3-selenium", "libjs-codemirror")),
        *((it, ["run.py", "--program", program, os.path.join(needs.folder, f"{it}.cases")]) for it in cases),
    ):
        needs.fails(f"{words[0]} without {tool}", needs.room([tool]), runner(*words), missing(tool))
    words = [sys.executable, os.path.join(BENCH, "pairs.py"), "--program", program, "--gcc", "no_such"]
    needs.fails("pairs.py without gcc", needs.room(), words, missing("no_such"), ".*")
    room = needs.room(["qemu-mips", "mips-linux-gnu-objdump"], python3=PYTHON)
    for options, left_out in ((), ""), (("--without-qemu", "--without-objdump"), "; left out: qemu-mips and mips-linux-gnu-objdump"):
        status, lines = room.ask(runner("images.py", "--program", MACHINE, "--part", "random", "--count", "1", "--one-store", *options))
        needs.want(f"images with {options}", (0, "1 passed, 0 failed" + left_out), (status, lines[-1]))


def try_others(needs):
    """Tests that a program of instructions fails with a wrong qemu-mips or objdump, and passes if that tool is excluded."""
    body = instruction_makers.of_lui("lui")
    room = needs.room(python3=PYTHON, qemu_mips="#!/bin/sh\nexit 1\n", mips_linux_gnu_objdump="#!/bin/sh\necho\n")
    path = os.environ["PATH"]
    os.environ["PATH"] = room.bin
    try:
        for beside in ((), ("qemu-mips",), ("mips-linux-gnu-objdump",)):
            fault = images.try_program(MACHINE, beside, "lui", body)
            needs.want(f"instructions beside {beside}", [f"lui: {it}, beside the reference" for it in beside], (fault or "").splitlines()[:1])
    finally:
        os.environ["PATH"] = path


def try_cases(needs, program):
    """Tests that case files that could not fail are rejected, and that a test without cases fails."""
    path = os.path.join(needs.folder, "bad.cases")
    for text, fault in BAD_CASES.items():
        write(path, text)
        needs.fails(f"a case file {text!r}", needs.room(), runner("run.py", "--program", program, path), fault, "0 passed, 1 failed")
    write(path, "== a\nslow\n> silent\nends 0\n")
    words = runner("run.py", "--program", program, "--quick", path)
    needs.fails("cases that are all left out", needs.room(), words, "left out", "0 passed, 0 failed")
    words = runner("images.py", "--program", program, "--part", "random", "--count", "0")
    needs.fails("no image", needs.room(), words, "random, 0 images", "0 passed, 0 failed")


def try_scripts(needs):
    """Tests that scripts are found by extension and first line, and that a checker's output or failure is reported."""
    root = os.path.join(needs.folder, "scripts")
    for name, text in SCRIPTS.items():
        write(os.path.join(root, name), text)
    done = subprocess.run(runner("scripts.py", "--root", root), stdout=subprocess.PIPE, text=True)
    failed = [line.removeprefix("FAILED ") for line in done.stdout.splitlines() if line.startswith("FAILED ")]
    wanted = sorted(name for name in SCRIPTS if "bad" in name or name == "worse")
    got = done.returncode, failed, done.stdout.splitlines()[-1]
    needs.want("scripts that are refused", (1, wanted, "2 passed, 5 failed"), got)
    for tool in ("shellcheck", "pyflakes3"):
        room = needs.room(**{tool: "#!/bin/sh\nexit 1\n"})
        words = runner("scripts.py", "--root", root)
        needs.fails(f"scripts.py with a {tool} that does not run", room, words, f"{tool} ended with status 1", ".*")


def try_differences(needs):
    """Tests that the first difference of two values is printed."""
    for wanted, got, lines in PARTINGS:
        shown = [line.strip() for line in suite.difference("", wanted, got).splitlines()[3:]]
        needs.want(f"what is shown of {suite.shown(wanted)}", list(lines), shown)


def tried(folder, program):
    """Yields whether each test passed; `program` is a stand-in that knows the word `silent`."""
    needs = Needs(folder)
    try_tools(needs)
    try_gate(needs)
    try_runners(needs)
    try_others(needs)
    try_cases(needs, program)
    try_scripts(needs)
    try_differences(needs)
    return needs.right
