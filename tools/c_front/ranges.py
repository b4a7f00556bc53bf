"""Between which numbers the value of an expression lies, as far as its form tells; so that what changes nothing is not written."""
from . import c_types as t

BYTES = ("getchar", "getc", "fgetc")
LENGTHS = ("strlen", "strspn", "strcspn", "strnlen")


def span(node):
    """The least and the greatest value of a number's expression."""
    if node.op == "num":
        return node.v, node.v
    if not t.is_int(node.type):
        return 0, 1
    handler = SPANS.get(node.op)
    found = handler(node) if handler else None
    low, high = node.type.limits()
    if found is None or found[0] < low or found[1] > high:
        return low, high
    return found


def of_operation(node):
    (a, b), (c, d) = span(node.a[0]), span(node.a[1])
    op = node.v
    if op == "+":
        return a + c, b + d
    if op == "-":
        return a - d, b - c
    if op == "*":
        products = [a * c, a * d, b * c, b * d]
        return min(products), max(products)
    if op == "&" and (a >= 0 or c >= 0):
        return 0, min(high for low, high in ((a, b), (c, d)) if low >= 0)
    if op in "|^" and a >= 0 and c >= 0:
        return 0, (1 << max(b, d).bit_length()) - 1
    if op == "%" and c > 0:
        return (0 if a >= 0 else 1 - d), d - 1
    if op == "/" and c > 0:
        return min(a, 0) if c == 1 else -(-a // c) if a < 0 else a // d, b // c if b >= 0 else 0
    if op == ">>" and c == d and 0 <= c < 32:
        return a >> c, b >> c
    if op == "<<" and c == d and 0 <= c < 32:
        return a << c, b << c
    return None


def of_library(node):
    if node.v in BYTES:
        return -1, 255
    if node.v in LENGTHS:
        return 0, 1 << 30
    return None


def of_choice(node):
    (a, b), (c, d) = span(node.a[1]), span(node.a[2])
    return min(a, c), max(b, d)


SPANS = {"cmp": lambda n: (0, 1), "wcmp": lambda n: (0, 1), "wtruth": lambda n: (0, 1),
         "pcmp": lambda n: (0, 1), "not": lambda n: (0, 1), "and": lambda n: (0, 1), "or": lambda n: (0, 1),
         "truth": lambda n: (0, 1), "cast": lambda n: span(n.a[0]), "bin": of_operation, "lib": of_library, "cond": of_choice,
         "neg": lambda n: (-span(n.a[0])[1], -span(n.a[0])[0]), "comma": lambda n: span(n.a[-1]),
         "assign": lambda n: span(n.a[1])}


def fits(node, type_):
    low, high = span(node)
    least, most = type_.limits()
    return least <= low and high <= most


def plain(node):
    """Whether a number is at least 0 and below 2 to the power of 31, so that it is the same with a sign and without."""
    low, high = span(node)
    return low >= 0 and high < 1 << 31
