#!/usr/bin/env python3
"""Tests the diagnostics on a rejected text after its first fault, and compares the output of `--json` with the text for people.

    python3 tests/runners/told.py [--program PATH] [--count N]

The texts are those of the cases on one line (`? fault .. | TEXT`), the smallest ones of docs/codes.txt and those of docs/warnings.txt. Two
rejected texts are concatenated, each with its own names, followed by a `main`: that is a text with two mistakes. If the first text's line
is blanked out, the fault of the rest must be reported word for word after the first fault. If nothing is reported after the first fault,
that fault must be one of a declaration or a token.

Each text is checked with `--json` too. The objects must be those of the faults and warnings for people, with the same words. They also have
the code's name in docs/codes.txt or the warning's in docs/warnings.txt, and the end of the token by the reference's lexer
(tests/references). An edit repairs the text: it is accepted, or rejected at another place. --count N takes N evenly spread texts of each
kind; all by default. The last line is `N passed, M failed`, of texts.
"""
import json
import os
import re
import tempfile

import suite  # first: it makes the references and the generators importable
import codes
import run
import warned

CASES = os.path.join(suite.TESTS, "cases")
ROW = re.compile(r"^\? fault (\d+) at \d+:\d+ \| (.*)$")
KEYWORDS = set("""int char void struct datatype exn region region_t uregion_key_t open let alias NewDynamicRegion new_ukey new rnew for if else
while return break continue throw try catch case default NULL numelts ufree free_ukey unique_region heap_region""".split())
BEFORE = {"putchar", "getchar", "Null_Exception", "Array_bounds", "Array_size", "Div_zero"}
# The pattern of a name or a region name, or of a number or a character constant, which contain no
# names.
WORD = re.compile(r"'(?:\\.|[^'])'|[0-9][A-Za-z0-9_]*|`?[A-Za-z_][A-Za-z0-9_]*")
HEADLINE = re.compile(r"^text\.cyc:(\d+):(\d+): (.*)$")
FURTHER = "further, if that is mended:"
MEMBERS = ["kind", "rule", "code", "first", "file", "line", "column", "endLine", "endColumn", "message", "detail", "hint", "edit", "related"]
BODIES = set(range(20, 44)) - {30}
# The tokens of the language, as defined in docs/LANGUAGE.md, and any byte that begins no token.
TOKEN = re.compile(rb"`?[A-Za-z_][A-Za-z0-9_]*|0[xX][0-9a-fA-F]+|[0-9]+|'(?:\\.|[^'])'|:=:|&&|\|\||[=!<>]=|<<|>>|->|/\*|.", re.DOTALL)


def rows():
    """Returns the one-line texts of the cases, and the smallest texts of codes, each with its code."""
    found = {}
    for name in sorted(os.listdir(CASES)):
        with open(os.path.join(CASES, name), encoding="utf-8") as file:
            for line in file:
                match = ROW.match(line.rstrip("\n"))
                if match and "$" not in match.group(2):
                    found.setdefault(run.unescaped(match.group(2)).decode("latin-1"), int(match.group(1)))
    for code in codes.codes():
        if code.parts() is not None and code.by == "check" and len(code.source()) < 2000:
            found.setdefault(code.source().decode("ascii"), code.number)
    return list(found.items())


def own(text, mark):
    """Returns a text with renamed names, so that it can be combined with another one. Keywords and built-in names stay."""
    def renamed(match):
        name = match.group(0)
        stays = name[0] in "'0123456789" or name in KEYWORDS or name in BEFORE or name in ("`H", "`U")
        return name if stays else name + mark
    return WORD.sub(renamed, text)


def said_of(program, text):
    """Returns the lines on standard error of `check`, which quote characters beyond ASCII in UTF-8."""
    with open("text.cyc", "w", encoding="latin-1") as file:
        file.write(text)
    return [line.encode("latin-1").decode("utf-8", "surrogateescape") for line in suite.said([program, "check", "text.cyc"])]


class Message:
    """A diagnostic message for people."""

    def __init__(self, lines):
        match = HEADLINE.match(lines[0])
        self.lines = lines
        self.place = (int(match.group(1)), int(match.group(2)))
        self.words = match.group(3)

    def hint(self):
        hints = [line for line in self.lines if line.startswith("    hint: ")]
        return hints[-1].removeprefix("    hint: ") if hints else None


def messages_of(lines):
    """Returns the messages on a rejected text: the first one, and the further ones."""
    found, is_noted = [], False
    for line in lines[:-1]:
        if HEADLINE.match(line) and not is_noted:
            found.append([line])
            is_noted = True
        elif line != FURTHER:
            found[-1].append(line)
        # A line with a source position inside a message is part of this message; the line with the
        # hint is the last line of a message.
        is_noted = is_noted and not line.startswith("    hint: ")
    return [Message(block) for block in found]


# ---- faults after the first


class Pair:
    """Two rejected texts, one after the other."""

    def __init__(self, one, other):
        self.codes = one[1], other[1]
        self.lines = [own(one[0], "_one"), own(other[0], "_two"), "int main(){ return 0; }"]
        self.name = f"codes {one[1]} and {other[1]}: {one[0]!r} and {other[0]!r}"

    def faults(self, program):
        lines = said_of(program, "\n".join(self.lines))
        found = messages_of(lines)
        # A mistake in the use of a built-in name disappears if the name is renamed, so a text with
        # a mistake of this sort is skipped.
        first = found[0].place[0] if found else 3
        if first > 2:
            return [], False
        mended = [line if number != first else "" for number, line in enumerate(self.lines, 1)]
        wanted = messages_of(said_of(program, "\n".join(mended)))
        # The line of the first message may contain further mistakes; these are blanked out with the
        # line.
        behind = [message for message in found[1:] if message.place[0] != first]
        said, due = ([self.compared(message) for message in messages] for messages in (behind, wanted))
        if not said and (self.codes[first - 1] not in BODIES or not self.is_in_body(found[0])):
            return [], False
        return ([] if said == due else [suite.difference("behind the first", due, said)]), bool(said)

    def compared(self, message):
        """Returns the lines of a message without hints that depend on preceding tokens, which may have been blanked out."""
        of_body = any(code in BODIES for code in self.codes)
        return message.lines if of_body else [line for line in message.lines if not line.startswith("    hint: ")]

    def is_in_body(self, message):
        """Returns true if a fault is in the body of a function: in braces that belong to no struct and no effect."""
        line, column = message.place
        before = self.lines[line - 1][:column - 1]
        return re.search(r"\)\s*\{(?:[^{}]|\{[^{}]*\})*$", before) is not None


def spread(things, count):
    """Returns so many of the things, evenly spread; all if no number is given."""
    return things if count is None else things[::max(1, len(things) // count)][:count]


def pairs(texts, count):
    """Yields each one-line text with the next one, if they have a declaration and need no `main`."""
    kept = [text for text in texts if not re.search("\n|//", text[0]) and re.search("[;{]", text[0]) and text[1] not in (4, 5, 6, 11, 30)]
    of_bodies = [text for text in kept if text[1] in BODIES]
    others = [text for text in kept if text[1] not in BODIES]
    return [Pair(*two) for kind in (of_bodies, others) for two in spread(list(zip(kind, kind[1:] + kind[:1])), count)]


# ---- JSON


def end_of(text, place):
    """Returns the end of the token at a place of a text, by an independent lexer."""
    line, column = place
    row = text.split("\n")[line - 1].encode("latin-1") if line <= text.count("\n") + 1 else b""
    match = TOKEN.match(row, column - 1)
    return line, (match.end() + 1 if match else column)


def mended(text, edit):
    """Returns a text with an edit applied."""
    lines = text.split("\n")
    line = lines[edit["line"] - 1]
    lines[edit["line"] - 1] = line[:edit["column"] - 1] + edit["text"] + line[edit["endColumn"] - 1:]
    return "\n".join(lines)


class Told:
    """A text, and the diagnostics on it."""

    def __init__(self, text, names):
        self.name, self.text, self.names = repr(text), text, names

    def faults(self, program):
        lines = said_of(program, self.text)
        done = suite.answer([program, "check", "--json", "text.cyc"])
        faults = [] if done[1] == lines[-1] else [suite.difference("the last line", lines[-1], done[1])]
        told = [json.loads(line) for line in done[0].decode("utf-8").split("\n")[:-1]]
        wrong = [entry for entry in told if list(entry) != MEMBERS]
        if wrong:
            return faults + [suite.difference("members", MEMBERS, list(wrong[0]))]
        if lines[-1] == "done":
            return faults + self.faults_of_warnings(lines, told)
        found = messages_of(lines)
        if len(found) != len(told):
            return faults + [suite.difference("how many", len(found), len(told))]
        for number, (message, entry) in enumerate(zip(found, told)):
            faults += self.faults_of_refusal(message, entry, number == 0)
        code, place = re.fullmatch(r"fault (\d+) at (\d+:\d+)", lines[-1]).groups()
        first = (told[0]["code"], f"{told[0]['line']}:{told[0]['column']}")
        faults += [] if first == (int(code), place) else [suite.difference("the first", lines[-1], first)]
        return faults + [fault for entry in told[:1] for fault in self.faults_of_edit(program, entry)]

    def faults_of_refusal(self, message, entry, is_first):
        place = (entry["line"], entry["column"])
        end = (entry["endLine"], entry["endColumn"])
        is_main = entry["code"] == 30 and place == (1, 1)
        detail = [f"    {line}" for line in (entry["detail"] or "").split("\n") if line]
        related = entry["related"]
        pairs_of = [
            ("kind", "refusal", entry["kind"]),
            ("file", "text.cyc", entry["file"]),
            ("place", message.place, place),
            ("end", place if is_main else end_of(self.text, place), end),
            ("message", message.words, entry["message"]),
            ("hint", message.hint(), entry["hint"]),
            ("rule", self.names.get(entry["code"]), entry["rule"]),
            ("first", is_first, entry["first"]),
            ("detail", [], [line for line in detail if line not in message.lines]),
        ]
        faults = [suite.difference(*pair) for pair in pairs_of if pair[1] != pair[2]]
        for other in related:
            there = f"{other['line']}:{other['column']}"
            if there not in "\n".join(message.lines):
                faults.append(suite.difference("a second place", message.lines, there))
            if (other["endLine"], other["endColumn"]) != end_of(self.text, (other["line"], other["column"])):
                faults.append(suite.difference("its end", end_of(self.text, (other["line"], other["column"])), other))
        noted = [line for line in message.lines[1:] if HEADLINE.match(line)]
        said = re.findall(r"\b(\d+:\d+)\b", message.words)
        if bool(noted or said) and not related and "expected" not in message.words:
            faults.append(suite.difference("second places", noted or said, related))
        return faults

    def faults_of_edit(self, program, entry):
        if entry["edit"] is None:
            return []
        lines = said_of(program, mended(self.text, entry["edit"]))
        place = f"fault {entry['code']} at {entry['line']}:{entry['column']}"
        return [suite.difference("what the edit mends", "not " + place, lines[-1])] if lines[-1] == place else []

    def faults_of_warnings(self, lines, told):
        wanted = [HEADLINE.match(line) for line in lines if HEADLINE.match(line)]
        wanted = [(int(match.group(1)), int(match.group(2)), match.group(3).removeprefix("warning: ")) for match in wanted]
        got = [(entry["line"], entry["column"], entry["message"]) for entry in told]
        faults = [] if got == wanted else [suite.difference("warnings", wanted, got)]
        for entry in told:
            plain = (entry["kind"], entry["code"], entry["first"], entry["hint"], entry["edit"], entry["related"])
            rule = next((row.name for row in warned.rows() if row.is_said_by(entry["message"])), None)
            if plain != ("warning", None, False, None, None, []) or rule != entry["rule"]:
                faults.append(suite.difference("a warning", rule, entry))
            end = (entry["endLine"], entry["endColumn"])
            if end != end_of(self.text, (entry["line"], entry["column"])):
                faults.append(suite.difference("its end", end_of(self.text, (entry["line"], entry["column"])), end))
        return faults


class Share:
    """Checks that at least so many pairs have a further diagnostic."""

    name = "the share of pairs of which a second refusal is told"

    def __init__(self, told, count):
        self.told, self.count = told, count

    def faults(self, _):
        return [] if self.told * 3 >= self.count * 2 else [f"{self.told} of {self.count}, and not two of three"]


def main():
    parser = suite.command_line(__doc__)
    parser.add_argument("--count", type=int, default=None)
    options = parser.parse_args()
    program = suite.program_of(options, 1)
    names = {code.number: code.name for code in codes.codes()}
    texts = rows()
    told = [Told(text, names) for text, _ in spread(texts, options.count)] + [Told(row.text, names) for row in warned.rows()]
    seconds = []

    def tried(pair):
        faults, is_told = pair.faults(program)
        seconds.append(is_told)
        return faults

    with tempfile.TemporaryDirectory() as folder:
        os.chdir(folder)
        things = [(pair.name, pair, tried) for pair in pairs(texts, options.count)]
        things += [(thing.name, thing, lambda it: it.faults(program)) for thing in told]
        things.append((Share.name, None, lambda _: Share(sum(seconds), len(seconds)).faults(program)))
        suite.try_each(things, lambda thing: thing[0], lambda thing: thing[2](thing[1]))


if __name__ == "__main__":
    main()
