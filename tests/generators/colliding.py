"""Names that collide under a hash whose seed is known: the one that the standard library's maps have where they are given
no other, and that the tables of names must not have.

That hash takes 16 bytes at a time and multiplies their halves, the first mixed with what came before. Where the first
half is what came before, the product is 0, whatever the second half is.
"""

from functools import cache
from itertools import count
from string import ascii_letters, digits

SEED = 0x243F6A8885A308D3
MULTIPLIER = 0x9E3779B97F4A7C15
WORD = 8  # bytes of a half
BYTES = 4 * WORD  # of each text
LATER = frozenset((ascii_letters + digits + "_").encode())


def word(part):
    return int.from_bytes(part, "little")


def folded(first, second):
    """The halves of a product, joined."""
    high, low = divmod(first * second, 1 << 8 * WORD)
    return high ^ low


@cache
def start():
    """The first 24 bytes of all texts that collide; the last eight of them are what came of the sixteen before."""
    for number in count():
        block = b"a%015d" % number
        came = folded(word(block[:WORD]) ^ SEED + BYTES, word(block[WORD:]) ^ MULTIPLIER).to_bytes(WORD, "little")
        if LATER.issuperset(came):
            return (block + came).decode()


def numbered(begin, number, end):
    return [f"{begin}{it:0{WORD - len(end)}}{end}" for it in range(number)]


def colliding(number, end=""):
    """So many names that collide, each followed by an end of its own."""
    return numbered(start(), number, end)


def others(number, end=""):
    """So many that differ from those by their first letter alone."""
    return numbered("b" + start()[1:], number, end)
