"""Changes one part of a text: a token, or a statement."""
from language.texts import KEYWORDS, tokens_of

# Templates of statements that use a name, written `#` in the template. A statement made from one of
# these templates is probably invalid.
STATEMENTS = [
    "ufree(#);", "ufree(#);", "free_ukey(#);", "#;", "&#;", "*#;", "# = NULL;", "# = 1;", "show(*#);", "return #;", "break;",
    "continue;", "# == #;", "look(#);", "get(#);", "eat(#);", "# :=: #;", "#[0] = eaten(#);", "region<`z_> z_ = open(#);",
    "{ let alias <`z_> int *`z_ z_ = #; }", "if (#) ufree(#);", "while (1) ufree(#);", "try ufree(#); catch { default: ; }",
    "numelts(#);", "new #;", "throw new E1(#);", "struct T *z_ = #;",
]


def broken(text, numbers):
    """Returns the text with one change: a token is replaced by another of its kind, or a statement is duplicated, moved, inserted or
    removed."""
    way = numbers.randrange(6)
    if way == 0:
        return with_other_lines(text, numbers)
    if way <= 2:
        return with_statement(text, numbers)
    tokens = tokens_of(text)[:-1]
    if numbers.randrange(10) == 0:
        at = numbers.choice(tokens)
        return replaced(text, at, numbers.choice(["", f"{at.text} {at.text}", numbers.choice(tokens).text]))
    at = numbers.choice([token for token in tokens if token.kind in ("name", "region") or token.text in "*@?" or token.text in KEYWORDS])
    return replaced(text, at, numbers.choice([token for token in tokens if are_alike(token, at)]).text)


def are_alike(one, other):
    """Returns true if two tokens are of one kind; generated names are distinguished by their first letters."""
    if one.kind != other.kind or one.kind == "sign" and one.text not in "*@?":
        return False
    return one.kind != "name" or not other.text.endswith("_") or one.text[0] == other.text[0] and one.text.endswith("_")


def with_other_lines(text, numbers):
    lines = text.split("\n")
    found = [number for number, line in enumerate(lines) if line.startswith("  ") and line.endswith(";")] or [0]
    at = numbers.choice(found)
    line = lines[at]
    if numbers.randrange(2) == 0:
        del lines[at]
    if numbers.randrange(3) > 0:
        lines.insert(min(max(0, at + numbers.randint(-6, 6)), len(lines)), line)
    return "\n".join(lines)


def with_statement(text, numbers):
    """Returns the text with an additional statement on a name from a line above it."""
    lines = text.split("\n")
    names = [token for token in tokens_of(text) if token.kind == "name" and token.text.endswith("_")]
    token = numbers.choice(names or [token for token in tokens_of(text) if token.kind == "name"])
    at = min(token.place[0] + numbers.choice([0, 0, 1, 2, 4]), len(lines))
    lines.insert(at, numbers.choice(STATEMENTS).replace("#", token.text))
    return "\n".join(lines)


def replaced(text, token, other):
    lines = text.split("\n")
    line, column = token.place
    here = lines[line - 1]
    lines[line - 1] = here[: column - 1] + other + here[column - 1 + len(token.text):]
    return "\n".join(lines)
