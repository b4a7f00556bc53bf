"""Generates names that are slow to look up: names whose hashes are at one end of a table, names with one key in an index, and names with a
common prefix. Random names of the same lengths are compared with them.
"""
import functools
import itertools
import random

LETTERS = "abcdefghijklmnopqrstuvwxyz"
REST = LETTERS + "0123456789"
WORDS = ("int", "exn", "for", "new", "let", "try", "if")

# ---- names at one end of a table, by the library's hash function with its constants

START, MULTIPLIER, WORD = 0x243F6A8885A308D3, 0x9E3779B97F4A7C15, (1 << 64) - 1


def folded(state, bits, multiplier):
    product = (state ^ bits) * multiplier
    return product & WORD ^ product >> 64


@functools.cache
def clustered(count):
    """Returns names whose hashes are in the first 64th of a table: with linear probing, each passes all earlier ones."""
    found = []
    for length in itertools.count(5):
        start = folded(START, length, MULTIPLIER ^ 16)
        for letters in itertools.product(LETTERS, *[REST] * (length - 2)):
            state = start
            for letter in letters:
                state = folded(state, ord(letter) * 0x10101, MULTIPLIER ^ 2)
            for letter in REST:
                number = folded(state, ord(letter) * 0x10101, MULTIPLIER ^ 2)
                if (number ^ number >> 32) & 4095 < 64:
                    found.append("".join(letters) + letter)
                    if len(found) == count:
                        return found


# ---- names with one key: the bytes of a name are the digits of a number to a base, truncated to so many bits

BASE, BITS = 257, 64
# Each list contains exponents n. The product of the differences x^n - 1 is 0 modulo 2^64 for the
# hash base x. Each difference x^n - 1 is a multiple of a power of 2.
POWERS = (
    (1, 1, 1, 1, 2, 3, 4, 5), (1, 1, 1, 2, 2, 3, 3, 5), (1, 1, 1, 2, 2, 3, 4, 5), (1, 1, 1, 2, 3, 3, 4, 5), (1, 1, 2, 2, 2, 3, 4, 5),
    (1, 2, 2, 2, 4, 4, 6), (1, 1, 1, 2, 3, 4, 5, 5), (1, 1, 1, 2, 2, 3, 5, 7), (1, 1, 2, 2, 3, 3, 4, 5), (1, 1, 1, 2, 3, 4, 4, 5),
)


def times(numbers, power):
    """Returns the product of a polynomial, given by its coefficients from the lowest on, and x^power - 1."""
    product = [0] * (len(numbers) + power)
    for place, number in enumerate(numbers):
        product[place + power] += number
        product[place] -= number
    return product


def nothings():
    """Returns the products that are 0 at the base."""
    for powers in POWERS:
        product = functools.reduce(times, powers, [1])
        if sum(number * pow(BASE, place, 1 << BITS) for place, number in enumerate(product)) % (1 << BITS) == 0:
            yield product


@functools.cache
def of_one_key(count, length=23):
    """Returns names with one key: repeated middle letters, with multiples of the zero products added."""
    chance, all_nothings, found = random.Random(BASE), list(nothings()), set()
    while len(found) < count:
        places = [12] * length
        for _ in range(5):
            product = chance.choice(all_nothings)
            start, sign = chance.randrange(length - len(product) + 1), chance.choice((1, -1))
            for place, number in enumerate(product):
                places[start + place] += sign * number
        if all(0 <= place < len(LETTERS) for place in places):
            found.add("".join(LETTERS[place] for place in places))
    return sorted(found)


@functools.cache
def woven(count):
    """Returns names with one key for any odd base. In each of four words of 128 letters two letters follow the Thue-Morse sequence, and the
    words have the same sum."""
    found = []
    for ones in itertools.islice(itertools.product(LETTERS, repeat=4), count):
        pairs = [one + LETTERS[-1 - LETTERS.index(one)] for one in ones]
        found.append("".join(pair[place.bit_count() % 2] for pair in pairs for place in range(128)))
    return found


def alike_of_one_key(count):
    return ["a" * 77 + name for name in of_one_key(count)]


def in_order(count):
    """Returns names with a common prefix, in alphabetical order."""
    return [f"{'a' * 20}{number:06}" for number in range(count)]


# ---- random ones

def at_random(names):
    """Returns random names of the same lengths as others."""
    chance, found = random.Random(BASE), []
    known = set(WORDS)
    for name in names:
        while (other := "".join(chance.choice(LETTERS) for _ in name)) in known:
            pass
        known.add(other)
        found.append(other)
    return found
