"""Minimizes a program's text that shows some behaviour: removes functions, statements and operands while the behaviour stays.

Parts are found only by brackets and signs, so many candidates are no programs. The caller decides which of them still show the behaviour.
"""
import re
import time

# The pattern of a run of spaces, a comment, or a token.
TOKEN = re.compile(r"\s+|//[^\n]*|/\*.*?\*/|(`?[A-Za-z_]\w*|0[xX]\w+|\d+|'(?:\\.|[^\\])'|:=:|->|<<|>>|[=!<>]=|&&|\|\||.)", re.S)
CLOSING = {"(": ")", "{": "}", "[": "]"}
# The pattern of a name directly before a bracket, and the replacements for a call of a removed
# function.
NAME = re.compile(r"(?!(?:if|while|for|return|catch|case|throw|new)$)[A-Za-z_]\w*")
VALUES = ("0", "NULL")


class Group:
    """The contents of a pair of brackets, with the brackets."""

    def __init__(self, first, nodes):
        self.first, self.nodes, self.last = first, nodes, CLOSING[first]

    def holding(self, nodes):
        """Returns a group with the same brackets and other contents."""
        return Group(self.first, nodes)


def is_group(node, first):
    return isinstance(node, Group) and node.first in first


def tree_of(text):
    """Returns the tokens of a text, with those in brackets as groups; None if the brackets do not match."""
    stack = [Group("{", [])]
    for token in filter(None, (match[1] for match in TOKEN.finditer(text))):
        if token in CLOSING:
            stack.append(Group(token, []))
        elif token in CLOSING.values():
            group = stack.pop()
            if not stack or token != group.last:
                return None
            stack[-1].nodes.append(group)
        else:
            stack[-1].nodes.append(token)
    return stack[0].nodes if len(stack) == 1 else None


def tokens_of(nodes):
    """Returns the tokens of a tree, in order."""
    for node in nodes:
        if isinstance(node, Group):
            yield node.first
            yield from tokens_of(node.nodes)
            yield node.last
        else:
            yield node


def text_of(nodes):
    """Returns the text of a tree, with one statement on each line."""
    return "\n".join(lines_of(nodes, 0)) + "\n"


def lines_of(nodes, depth):
    lines, words = [], []
    for node, following in zip(nodes, nodes[1:] + [None]):
        if is_group(node, "{") and (not node.nodes or ";" in tokens_of(node.nodes)):
            lines += [line(words + ["{"], depth), *lines_of(node.nodes, depth + 1)]
            words = ["}"]
        else:
            words += tokens_of([node])
        if words[-1] in (";", "}") and following != ";":
            lines.append(line(words, depth))
            words = []
    return lines + [line(words, depth)] * bool(words)


def line(words, depth):
    text = "  " * depth
    for before, word in zip([None] + words, words):
        is_near = before is None or before in "([!~" or word in ")];," or word in "([" and NAME.fullmatch(before)
        text += word if is_near else " " + word
    return text


def statements_of(nodes):
    """Returns where the statements or declarations of a list begin, and where the last one ends: each ends with `;` or with a group in
    braces."""
    ends = [at + 1 for at, node in enumerate(nodes) if node == ";" or is_group(node, "{")]
    return [0] + ends + [len(nodes)] * (([0] + ends)[-1] != len(nodes))


def items_of(group):
    """Returns the lists between the commas of a group."""
    items = [[]]
    for node in group.nodes:
        if node == ",":
            items.append([])
        else:
            items[-1].append(node)
    return items


def with_calls(nodes, name, made):
    """Returns the tree with each name and following group replaced by the result of `made` on them."""
    found = []
    for node in nodes:
        if isinstance(node, Group):
            node = node.holding(with_calls(node.nodes, name, made))
        if is_group(node, "(") and found[-1:] == [name]:
            found[-1:] = made(node)
        else:
            found.append(node)
    return found


class Search:
    """The smallest text found so far, as a tree, and the ways to make it smaller, until the time is over."""

    def __init__(self, tree, shows, end):
        self.tree, self.shows, self.end = tree, shows, end
        self.seen = {text_of(tree)}

    def is_over(self):
        return time.monotonic() > self.end

    def attempt(self, tree):
        """Returns true if another tree shows the behaviour; then it is the smallest."""
        if self.is_over():
            return False
        text = text_of(tree)
        if text in self.seen:
            return False
        self.seen.add(text)
        if not self.shows(text):
            return False
        self.tree = tree
        return True

    def whole(self):
        """Tries all ways until none makes the tree smaller."""
        before = None
        while before != text_of(self.tree) and not self.is_over():
            before = text_of(self.tree)
            self.without_functions()
            for way in (self.without_statements, self.without_blocks, self.without_operands):
                self.in_each_list(way, self.tree, lambda other: other)
                self.without_parameters()

    def in_each_list(self, way, nodes, put):
        """Applies a way to the lists of a tree, the outer ones first, and returns the remaining list. `put` rebuilds the whole tree."""
        nodes = way(nodes, put)
        for at, node in enumerate(nodes):
            if isinstance(node, Group) and not self.is_over():
                rest = lambda other, at=at, node=node, nodes=nodes: put(nodes[:at] + [node.holding(other)] + nodes[at + 1:])
                nodes = nodes[:at] + [node.holding(self.in_each_list(way, node.nodes, rest))] + nodes[at + 1:]
        return nodes

    def without_functions(self):
        """Removes functions, the last ones first, and replaces their calls by a number or NULL."""
        for at in reversed(range(len(statements_of(self.tree)) - 1)):
            first, end = statements_of(self.tree)[at: at + 2]
            parts = self.tree[first:end]
            if len(parts) > 2 and is_group(parts[-1], "{") and is_group(parts[-2], "("):
                rest = self.tree[:first] + self.tree[end:]
                any(self.attempt(with_calls(rest, parts[-3], lambda _, value=value: [value])) for value in VALUES)

    def without_parameters(self):
        """Removes parameters of functions with their arguments, many at first."""
        for name, group in [(name, group) for name, group in zip(self.tree, self.tree[1:]) if is_group(group, "(")]:
            left = count = len(items_of(group))
            while count > 0:
                for first in reversed(range(0, left - count + 1, count)):
                    without = lambda it, first=first, count=count: [name, without_items(it, first, first + count)]
                    left -= count * self.attempt(with_calls(self.tree, name, without))
                count //= 2

    def without_statements(self, nodes, put):
        """Removes adjacent statements, many at first and the last ones first."""
        left = len(statements_of(nodes)) - 1
        for count in sorted({left, left - 1, *(left >> part for part in range(1, 8)), 2, 1}, reverse=True):
            at = len(statements_of(nodes)) - 1 - count
            while at >= 0 and count > 0:
                starts = statements_of(nodes)
                other = nodes[: starts[at]] + nodes[starts[at + count]:]
                is_smaller = self.attempt(put(other))
                nodes = other if is_smaller else nodes
                at -= count if is_smaller else max(1, count // 2)
        return nodes

    def without_blocks(self, nodes, put):
        """Replaces a statement by the contents of its block."""
        for at in reversed(range(len(statements_of(nodes)) - 1)):
            first, end = statements_of(nodes)[at: at + 2]
            if is_group(nodes[end - 1], "{"):
                other = nodes[:first] + nodes[end - 1].nodes + nodes[end:]
                nodes = other if self.attempt(put(other)) else nodes
        return nodes

    def without_operands(self, nodes, put):
        """Replaces a call or a bracketed expression by a part of it; removes adjacent tokens and groups, or replaces them by numbers."""
        at = len(nodes)
        while at > 0:
            at -= 1
            parts = items_of(nodes[at]) if is_group(nodes[at], "([") else []
            ways = (nodes[:first] + item + nodes[at + 1:] for item in parts for first in (max(at - 1, 0), at))
            nodes = next((other for other in ways if self.attempt(put(other))), nodes)
            at = min(at, len(nodes))
        for count in (8, 5, 4, 3, 2, 1):
            at = len(nodes) - count
            while at >= 0:
                values = [[]] if nodes[at: at + count] in (["0"], ["1"]) else [[], ["0"], ["1"]]
                ways = (nodes[:at] + value + nodes[at + count:] for value in values)
                nodes = next((other for other in ways if self.attempt(put(other))), nodes)
                at = min(at - 1, len(nodes) - count)
        return nodes


def without_items(group, first, end):
    """Returns the group without some of its comma-separated items."""
    items = items_of(group)
    left = items[:first] + items[end:]
    return group.holding([node for item in left for node in [",", *item]][1:])


def without_lines(text, shows, end):
    """Returns the text without some of its lines, for a text whose layout matters or whose brackets do not match."""
    lines = text.split("\n")
    count = len(lines) // 2
    while count > 0:
        at = len(lines) - count
        while at >= 0 and time.monotonic() < end:
            other = lines[:at] + lines[at + count:]
            lines = other if shows("\n".join(other)) else lines
            at = min(at - 1, len(lines) - count)
        count //= 2
    return "\n".join(lines)


def shrunk(text, shows, seconds):
    """Returns the smallest text found in so many seconds for which `shows` holds, derived from one for which it holds."""
    end = time.monotonic() + seconds
    tree = tree_of(text)
    if tree is None or not shows(text_of(tree)):
        return without_lines(text, shows, end)
    search = Search(tree, shows, end)
    search.whole()
    return text_of(search.tree)
