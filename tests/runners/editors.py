#!/usr/bin/env python3
"""Tests the files in editors/ on the examples and on a text of unusual tokens. Reports wrongly classified bytes and wrongly indented lines.

    python3 tests/runners/editors.py

The expected class of each byte comes from the reference's lexical rules (language/texts.py). Vim itself interprets its file; a small
interpreter in this module applies the TextMate grammar line by line and token by token, as editors do. Each example without its indentation
must be indented by vim as it is written, by two spaces. The files named in package.json must exist, and its words must be those of the
grammar. The last line is `N passed, M failed`, of texts and files.
"""
import json
import os
import re
import subprocess
import tempfile

import suite  # first: it makes the references and the generators importable
from language import texts

EXAMPLES = os.path.join(suite.ROOT, "examples")
EDITORS = os.path.join(suite.ROOT, "editors")
VIM = os.path.join(EDITORS, "vim")
TEXTMATE = os.path.join(EDITORS, "textmate", "cyclone.tmLanguage.json")
# Unusual source texts: tokens that touch their neighbours, tokens that begin like other tokens, and
# comments of each form.
ODD = """int interest=0x1F+0X0a-017*08/12int%_1;/**//*/ if " ' # */return'\\''+'\\\\'-' '*'"';
a-->b>>=c:=:d||e//*/ while
`int`r int*`H x;newer new_ukeys new0 NULLs NULL/*
struct 'a' // */ struct Point2 p?q@r 0x 0 1 x1 unique_region,heap_regions,regions region region_t
"""
# The classes of source bytes, and the name of each class in the editor files: a group for vim, the beginning
# of a scope for TextMate.
KINDS = {
    "comment": ("cycloneComment", "comment."),
    "name": ("cycloneName", "variable.other."),
    "type": ("cycloneType", "storage.type."),
    "statement": ("cycloneStatement", "keyword.control."),
    "memory": ("cycloneMemory", "keyword.other.memory."),
    "constant": ("cycloneConstant", "constant.language."),
    "region": ("cycloneRegion", "entity.name.region."),
    "number": ("cycloneNumber", "constant.numeric."),
    "character": ("cycloneCharacter", "constant.character."),
    "sign": ("cycloneSign", "keyword.operator."),
}
WORDS = {
    "type": "int char void struct datatype exn region_t uregion_key_t",
    "statement": "if else while for return break continue throw try catch case default",
    "memory": "region open let alias NewDynamicRegion new_ukey new rnew numelts ufree free_ukey",
    "constant": "NULL unique_region heap_region",
}
KIND_OF_WORD = {word: kind for kind, words in WORDS.items() for word in words.split()}
# Vim script that writes the syntax group of each byte, one output line for each line of the text.
VIM_SCRIPT = """
set nomore encoding=latin1 synmaxcol=0 redrawtime=100000
execute 'set runtimepath^=' . $FILES
syntax enable
execute 'edit ' . $TEXT
let groups = []
for line in range(1, line('$'))
  call add(groups, join(map(range(1, len(getline(line))), 'synIDattr(synID(line, v:val, 1), "name")')))
endfor
call writefile(groups, $GROUPS)
quitall!
"""

# Reindents a text.
INDENT_SCRIPT = """
set nomore encoding=latin1
execute 'set runtimepath^=' . $FILES
filetype plugin indent on
execute 'edit ' . $TEXT
normal gg=G
execute 'write! ' . $GROUPS
quitall!
"""


def kinds_of(text):
    """Returns the class of each byte of a text by the lexical rules; none for a space."""
    kinds, at = [], 0
    while at < len(text):
        match = texts.TOKEN.match(text, at)
        kind, word = match.lastgroup, match.group()
        if kind == "space":
            kind = "comment" if word.startswith("/") else None
        kinds += [KIND_OF_WORD.get(word, kind) if kind == "name" else kind] * len(word)
        at = match.end()
    return kinds


def in_vim(script, text, folder, **more):
    """Returns the file GROUPS that a vim script writes for the file TEXT; empty if it writes none."""
    paths = {name: os.path.join(folder, name.lower() + ".cyc") for name in ("TEXT", "GROUPS", "SCRIPT")}
    for name, content in (("TEXT", text), ("SCRIPT", script), ("GROUPS", "")):
        with open(paths[name], "w", encoding="latin-1") as file:
            file.write(content)
    words = ["vim", "-N", "-u", "NONE", "-i", "NONE", "-n", "-es", "-S", paths["SCRIPT"]]
    environment = {**os.environ, **paths, "FILES": VIM, "HOME": folder, "TERM": "dumb", **more}
    suite.run(words, env=environment, cwd=folder, stdin=subprocess.DEVNULL)
    with open(paths["GROUPS"], encoding="latin-1") as file:
        return file.read()


def groups_in_vim(text, folder):
    """Returns vim's class of each byte of each line."""
    return [line.split(" ") for line in in_vim(VIM_SCRIPT, text, folder).split("\n")]


def faults_of_indentation(text, folder):
    """Returns the lines that vim indents differently, with two spaces for a tabulator."""
    wanted = text.replace("\t", "  ")
    got = in_vim(INDENT_SCRIPT, re.sub("^[ \t]+", "", text, flags=re.M), folder)
    return [suite.difference("the text as vim indents it", wanted, got)] if wanted != got else []


def faults_of_package():
    """Returns the faults of an extension of Visual Studio Code."""
    with open(os.path.join(EDITORS, "package.json"), encoding="utf-8") as file:
        package = json.load(file)
    parts = package["contributes"]
    paths = [parts["languages"][0]["configuration"], parts["grammars"][0]["path"], parts["snippets"][0]["path"]]
    faults = [f"there is no file {path}" for path in paths if not os.path.isfile(os.path.join(EDITORS, path))]
    with open(os.path.join(suite.ROOT, "VERSION"), encoding="utf-8") as file:
        version = file.read().strip()
    if package["version"] != version:
        faults.append(suite.difference("its version", version, package["version"]))
    for path in paths:
        with open(os.path.join(EDITORS, path), encoding="utf-8") as file:
            json.load(file)
    with open(TEXTMATE, encoding="utf-8") as file:
        scope = json.load(file)["scopeName"]
    if parts["grammars"][0]["scopeName"] != scope:
        faults.append(suite.difference("the scope", scope, parts["grammars"][0]["scopeName"]))
    return faults


def first_match(rules, line, at):
    """Returns the first matching rule from this position on, and its match; at equal positions the rule listed first."""
    found = [(match.start(), number, match) for number, (match_of, _, _) in enumerate(rules) if (match := match_of.search(line, at))]
    return min(found, key=lambda one: one[:2], default=None)


def scopes_of_line(rules, line, inside):
    """Returns the scope of each byte of a line, and the rule that is still open at its end: a rule has a begin, name and end pattern, or is
    None."""
    scopes, at = [""] * len(line), 0
    while at <= len(line):
        if inside:
            match = inside[2].search(line, at)
            end = match.end() if match else len(line)
            scopes[at:end] = [inside[1]] * (end - at)
            if not match:
                return scopes, inside
            at, inside = end, None
            continue
        found = first_match(rules, line, at)
        if not found:
            break
        _, number, match = found
        scopes[match.start(): match.end()] = [rules[number][1]] * len(match.group())
        at = match.end()
        inside = rules[number] if rules[number][2] else None
    return scopes, inside


def scopes_in_textmate(text, _):
    """Returns the class that the grammar gives each byte of each line."""
    with open(TEXTMATE, encoding="utf-8") as file:
        patterns = json.load(file)["patterns"]
    rules = [(re.compile(one.get("match") or one["begin"]), one["name"], re.compile(one["end"]) if "end" in one else None) for one in patterns]
    lines, inside = [], None
    for line in text.split("\n"):
        scopes, inside = scopes_of_line(rules, line, inside)
        lines.append(scopes)
    return lines


def faults_of(text, named, column, folder):
    """Returns the first wrongly classified byte of each line. Spaces may have any class."""
    lines, kinds, faults, at = named(text, folder), kinds_of(text), [], 0
    for number, line in enumerate(text.split("\n"), 1):
        names = lines[number - 1] if number <= len(lines) else []
        for place, byte in enumerate(line):
            kind, name = kinds[at + place], names[place] if place < len(names) else ""
            if byte not in " \t\r" and not name.startswith(KINDS[kind][column]):
                faults.append(f"{number}:{place + 1}: {kind} is taken for {name or 'nothing'}: {line}")
                break
        at += len(line) + 1
    return faults


def main():
    named = [("a text of odd tokens", ODD)]
    for name in sorted(os.listdir(EXAMPLES)):
        if name.endswith(".cyc"):
            with open(os.path.join(EXAMPLES, name), encoding="latin-1") as file:
                named.append((f"examples/{name}", file.read()))
    files = ((groups_in_vim, 0, "editors/vim"), (scopes_in_textmate, 1, "editors/textmate"))
    suite.need(["vim"], len(named) * (len(files) + 1))
    with tempfile.TemporaryDirectory(prefix="editors-") as folder:
        things = [(f"{name} in {where}", lambda one=(text, reader, column): faults_of(*one, folder))
                  for name, text in named for reader, column, where in files]
        things += [(f"the indentation of {name}", lambda text=text: faults_of_indentation(text, folder)) for name, text in named[1:]]
        things.append(("editors/package.json", faults_of_package))
        suite.try_each(things, lambda thing: thing[0], lambda thing: thing[1]())


if __name__ == "__main__":
    main()
