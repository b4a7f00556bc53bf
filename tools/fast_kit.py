"""A toolchain that builds a program with no proof, and optimised.

`rt try` has clang build a program that checks each access, with no optimisation. Here the toolchain is the same by links, but for four files:
`rt` itself, which finds the others beside it; clang, which is told to optimise in place of checking; the library of these checks, which is
then empty; and the prover, which `rt try` only asks for names that a later check would refuse.
"""
import os
import shutil

# clang is told to build two programs. This stand-in for clang removes the checks from the program
# that was to be built with checks, and optimises it, because that program is run.
CLANG = """#!/bin/bash
words=()
for word; do [[ $word == -fsanitize=* ]] && is_run=1; done
for word; do
  case $word in
  -fsanitize=*) continue ;;
  -O0) [[ $is_run ]] && word=-O2 ;;
  esac
  words+=("$word")
done
[[ $is_run ]] && words+=(-fno-vectorize -fno-slp-vectorize)
exec '{clang}' "${{words[@]}}"
"""
PROVER = "#!/bin/sh\nexit 0\n"
ARCHIVE = "!<arch>\n"
CLANG_PLACE, CHECKS_PLACE = os.path.join("toolchain", "bin", "clang"), os.path.join("c", "asan.a")


def kit():
    """The folder of the toolchain, by its command; None if it has no clang, or no library of checks, at the usual places."""
    found = os.path.dirname(os.path.dirname(os.path.realpath(shutil.which("rt"))))
    return found if all(os.path.exists(os.path.join(found, place)) for place in (CLANG_PLACE, CHECKS_PLACE)) else None


def mirror(source, target, changed):
    """Makes a folder of links to what another one has, but for what is changed: a folder by what is changed in it, a file by its text or,
    for None, by a copy."""
    os.mkdir(target)
    for name in os.listdir(source):
        here, there = os.path.join(source, name), os.path.join(target, name)
        if name not in changed:
            os.symlink(here, there)
        elif isinstance(changed[name], dict):
            mirror(here, there, changed[name])
        elif changed[name] is None:
            shutil.copy(here, there)
        else:
            with open(there, "w", encoding="ascii") as file:
                file.write(changed[name])
            os.chmod(there, 0o755)


def make(source, target):
    """Makes such a toolchain of another one. Returns the folder of its commands."""
    clang = CLANG.format(clang=os.path.join(source, CLANG_PLACE))
    commands = {"rt": None, "rtlib.py": None, "rattle": PROVER}
    mirror(source, target, {"bin": commands, "toolchain": {"bin": {"clang": clang}}, "c": {"asan.a": ARCHIVE}})
    return os.path.join(target, "bin")
