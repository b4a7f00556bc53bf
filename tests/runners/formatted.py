#!/usr/bin/env python3
"""Compares the output of `cyclone format` with an independent reader of tokens and comments (tests/references/language/texts.py).

    python3 tests/runners/formatted.py [--program PATH] [--count N] [--seed N] [--part NAME]

Each example is unchanged by formatting, also if the blanks within its lines are changed first. Further texts are N random programs of all
profiles (200 by default), and examples and such programs with random changes of blanks, line ends, comments or tokens. Their tokens and
comments must stay, in order. Formatting the result must not change it, no line may end with a blank, and no two empty lines may be
adjacent. Hostile texts must be formatted or rejected in time. The same seed gives the same texts. The last line is `N passed, M failed`, of
texts.
"""
import os
import random
import re
import tempfile

import suite  # first: it makes the references and the generators importable
import makers
from language import texts

EXAMPLES = os.path.join(suite.ROOT, "examples")
# A part of a text that the formatter test changes: a run of blanks, a comment, or a token.
PART = re.compile(
    r"(?P<blanks>[ \t\r\n]+)|(?P<comment>/\*.*?\*/|//[^\n]*)"
    r"|(?P<other>'(?:\\.|[^'\n])'|`?[A-Za-z_0-9]+|:=:|&&|\|\||[=!<>]=|<<|>>|->|.)",
    re.DOTALL,
)
INSERTED = ["/* c */", "// to the end\n", "\n/* over\n   lines */ ", "\n\n", " /**/\n", "\n\n\n\n", "\t", "\r\n"]
OTHER_TOKENS = ["(", ")", "{", "}", ";", "if", "else", "case", ":", ",", "*", "<`r>", "new", "try", "catch", "return", "[", "]", "struct", "-", "&"]


def parts_of(text):
    """Returns the parts of a text, each with its kind."""
    return [(match.lastgroup, match.group()) for match in PART.finditer(text)]


def tokens_of(text):
    """Returns the tokens of a text, without their places."""
    return [(token.kind, token.text) for token in texts.tokens_of(text)]


def comments_of(text):
    """Returns the comments of a text, each without the blanks around its lines."""
    return [[line.strip(" \t\r") for line in part.split("\n")] for kind, part in parts_of(text) if kind == "comment"]


def outside_comments(text):
    return "".join("/**/" if kind == "comment" else part for kind, part in parts_of(text))


# --- Changed texts ---


def other_blanks(text, numbers, is_short):
    """Returns the text with different blanks within its lines, unless a comment follows."""
    parts, found = parts_of(text), []
    for number, (kind, part) in enumerate(parts):
        follows = parts[number + 1][0] if number + 1 < len(parts) else "other"
        if kind == "blanks" and follows == "other":
            ends = "\n" * part.count("\n")
            needed = bool(number) and not ends and is_needed(parts[number - 1][1], parts[number + 1][1])
            part = ends + (" " if needed and is_short else "" if is_short else numbers.choice([" ", "  ", "\t", "     "]))
        found.append(part)
    return "".join(found)


def is_needed(last, first):
    """Returns true if two tokens would form another token without a blank between."""
    return re.match(r"[A-Za-z_0-9`]", last[-1:]) and re.match(r"[A-Za-z_0-9]", first) or last[-1:] + first[:1] in (
        "&&", "||", "==", "!=", "<=", ">=", "<<", ">>", "->", ":=", "//", "/*")


def on_one_line(text, numbers):
    """Returns the text with each run of blanks replaced by a space."""
    return "".join(("\n" if number and parts[number - 1][1].startswith("//") else " ") if kind == "blanks" else part
                   for parts in [parts_of(text)] for number, (kind, part) in enumerate(parts))


def spread(text, numbers):
    """Returns the text with random blanks and line ends, also where the text had none."""
    found, last = [], ""
    for kind, part in parts_of(text):
        if kind == "blanks" or numbers.random() < 0.2 and not last.startswith("//"):
            some = "".join(numbers.choice(" \t\n\r ") for _ in range(numbers.randrange(1, 5)))
            found.append("\n" + some if last.startswith("//") else some)
        if kind != "blanks":
            found.append(part)
        last = part
    return "".join(found)


def with_inserted(text, numbers):
    """Returns the text with comments and empty lines between its parts."""
    found = []
    for kind, part in parts_of(text):
        if numbers.random() < 0.08 and (not found or not found[-1].startswith("//")):
            found.append(numbers.choice(INSERTED))
        found.append(part)
    return "".join(found)


def with_other_tokens(text, numbers):
    """Returns the text with some tokens removed or replaced, which is usually no program."""
    found = []
    for kind, part in parts_of(text):
        if kind == "other" and numbers.random() < 0.05:
            part = " " + numbers.choice(OTHER_TOKENS + [""]) + " "
        found.append(part)
    return "".join(found)


CHANGES = [on_one_line, spread, with_inserted, with_other_tokens]


# --- Tests ---


class Text:
    """A text, and the expected result of formatting it, if known."""

    def __init__(self, name, text, wanted=None):
        self.name, self.text, self.wanted = name, text, wanted


def examples():
    for name in sorted(os.listdir(EXAMPLES)):
        if name.endswith(".cyc"):
            with open(os.path.join(EXAMPLES, name), encoding="latin-1") as file:
                yield f"examples/{name}", file.read()


def fixed_texts(numbers):
    """Returns the examples, unchanged and with different blanks in their lines."""
    for name, text in examples():
        yield Text(name, text, text)
        yield Text(f"{name} with few blanks", other_blanks(text, numbers, True), text)
        yield Text(f"{name} with many blanks", other_blanks(text, numbers, False), text)


def is_lexed(text):
    try:
        texts.tokens_of(text)
        return True
    except texts.Refused:
        return False


def random_texts(numbers, count):
    """Returns random programs of each profile in turn, and examples and such programs with one or two changes."""
    profiles, given = list(makers.PROFILES), [text for _, text in examples()]
    for number in range(count):
        profile = profiles[number % len(profiles)]
        text = makers.PROFILES[profile](numbers).text()
        yield Text(f"{profile}, program {number}", text)
        changed = numbers.choice([text, numbers.choice(given)])
        ways = numbers.sample(CHANGES, numbers.choice([1, 2]))
        for way in ways:
            after = way(changed, numbers)
            changed = after if is_lexed(after) else changed
        yield Text(f"text {number}, {' and '.join(way.__name__ for way in ways)}", changed)


def printed(program, place, text):
    """Returns the standard output, the last line on standard error and the status of the command for a text."""
    with open(place, "w", encoding="latin-1", newline="") as file:
        file.write(text)
    output, last, status = suite.answer([program, "format", place])
    return output.decode("latin-1"), last, status


def faults_of(program, place, thing):
    output, last, status = printed(program, place, thing.text)
    if (last, status) != ("done", 0):
        return [f"the answer is {last}, with status {status}"]
    faults = []
    if tokens_of(output) != tokens_of(thing.text):
        faults.append(suite.difference("tokens", tokens_of(thing.text), tokens_of(output)))
    if comments_of(output) != comments_of(thing.text):
        faults.append(suite.difference("comments", comments_of(thing.text), comments_of(output)))
    if thing.wanted is not None and output != thing.wanted:
        faults.append(suite.difference("text", thing.wanted, output))
    again = printed(program, place, output)[0]
    if again != output:
        faults.append(suite.difference("laid out twice", output, again))
    if re.search(r"[ \t\r]$", output, re.MULTILINE) or "\n\n\n" in outside_comments(output) or output and not output.endswith("\n"):
        faults.append("a line ends with a blank, two empty lines stand together, or the last line has no end")
    return [fault + "\n" + thing.text for fault in faults]


# --- Hostile texts ---


class Hostile:
    """A text, the expected last line and status, and the expected output, if known."""

    def __init__(self, name, text, last="done", status=0, output=None):
        self.name, self.text, self.last, self.status, self.output = name, text, last, status, output


def hostile_texts():
    main = "int main() { return 0; }"
    laid = "int main() {\n  return 0;\n}\n"
    deep = "int main() " + "{ " * 20000 + "} " * 20000
    names = "".join(f"n{number:06}," for number in range(29000))
    return [
        Hostile("no bytes", "", output=""),
        Hostile("blanks alone", " \t\r\n\n ", output=""),
        Hostile("a comment alone", "\n\n  // one", output="// one\n"),
        Hostile("100,000 opening braces", "{" * 100000, "fault 6 at 1:60001", 2, ""),
        Hostile("60,000 opening braces", "{" * 60000),
        Hostile("60,000 opening parentheses", "(" * 60000),
        Hostile("brackets that are closed by others", "([{" * 10000 + ")]}" * 10000),
        Hostile("60,000 heads of statements", "if(x)" * 15000),
        Hostile("60,000 regions that are not closed", "<`a" * 30000),
        Hostile("nested blocks", deep),
        Hostile("one line of 1 MB", main + " /*" + "x" * 1048000 + "*/"),
        Hostile("one line of names", "int f(" + names + ") {}"),
        Hostile("1 MB of blanks", main + " " * 1048000, output=laid),
        Hostile("1 MB of empty lines", "\n" * 1048000 + main, output=laid),
        Hostile("260,000 comments", main + "/**/" * 260000),
        Hostile("one byte too many", main + " " * (1048577 - len(main)), "fault 4 at 1:1", 2, ""),
        Hostile("lines that end with CR and LF", "int main() {\r\n\r\n\r\n  // one\r\n  return 0;\r\n}\r\n", output="int main() {\n  // one\n  return 0;\n}\n"),
        Hostile("tabs", "\tint\tmain()\t{\n\t\treturn\t0;\t\t// end\n\t}\n", output="int main() {\n  return 0;  // end\n}\n"),
        Hostile("no line feed at the end", main, output=laid),
        Hostile("a NUL byte", "int main() {\0}", "fault 1 at 1:13", 2, ""),
        Hostile("a NUL byte in a comment", "/* \0 */ int x;", output="/* \0 */ int x;\n"),
        Hostile("a comment that is not closed", main + " /* open", "fault 2 at 1:26", 2, ""),
        Hostile("a comment that begins its end", "/*/ int x;", "fault 2 at 1:1", 2, ""),
        Hostile("a number that is too large", "int x = 2147483648;", "fault 3 at 1:9", 2, ""),
        Hostile("signs side by side", "int f() { return a - -b - - -c & &d; }", output="int f() {\n  return a - -b - - -c & &d;\n}\n"),
    ]


def faults_of_hostile(program, place, thing):
    output, last, status = printed(program, place, thing.text)
    faults = [] if (last, status) == (thing.last, thing.status) else [f"the answer is {last}, with status {status}"]
    if thing.output is not None and output != thing.output:
        faults.append(suite.difference("text", thing.output, output))
    if thing.status == 0:
        if tokens_of(output) != tokens_of(thing.text) or comments_of(output) != comments_of(thing.text):
            faults.append("the tokens or the comments are others")
        if printed(program, place, output)[0] != output:
            faults.append("what was laid out is not answered as it is")
    return faults


def main():
    parser = suite.command_line(__doc__)
    parser.add_argument("--count", type=int, default=200)
    parser.add_argument("--seed", type=int, default=1)
    parser.add_argument("--part", choices=["examples", "random", "hostile"])
    options = parser.parse_args()
    program = suite.program_of(options, options.count)
    numbers = random.Random(f"formatted {options.seed}")
    parts = {"examples": lambda: list(fixed_texts(numbers)), "random": lambda: list(random_texts(numbers, options.count)), "hostile": hostile_texts}
    things = [thing for name, made in parts.items() if options.part in (None, name) for thing in made()]
    with tempfile.TemporaryDirectory(prefix="formatted-") as folder:
        place = os.path.join(folder, "main.cyc")
        suite.try_each(things, lambda thing: thing.name, lambda thing: (
            faults_of_hostile if isinstance(thing, Hostile) else faults_of)(program, place, thing))


if __name__ == "__main__":
    main()
