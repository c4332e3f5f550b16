"""The random words of a road: 32 bits for each stream and place, seeded or steady."""
import functools
import struct

ROUNDS = 8
CONSTANTS = struct.unpack("<4I", b"expand 32-byte k")
# The quarter rounds of a double round: four columns, then four diagonals.
QUARTERS = ((0, 4, 8, 12), (1, 5, 9, 13), (2, 6, 10, 14), (3, 7, 11, 15),
            (0, 5, 10, 15), (1, 6, 11, 12), (2, 7, 8, 13), (3, 4, 9, 14))


def word(seed, stream, place):
    """Return the word of a stream at a place. The seed is a number, or the string "steady"."""
    if seed == "steady":
        return (stream * 40503 + place * 30011) % 65536 * 65536
    return block(seed, stream, place // 16)[place % 16]


@functools.lru_cache(maxsize=None)
def block(seed, stream, number):
    """Return the 16 words of a block of ChaCha with 8 rounds."""
    key = struct.unpack("<8I", seed.to_bytes(8, "big") + bytes(24))
    start = [*CONSTANTS, *key, *halves(number), *halves(stream)]
    words = list(start)
    for _ in range(ROUNDS // 2):
        for quarter in QUARTERS:
            quarter_round(words, *quarter)
    return [(word + first) % 2 ** 32 for word, first in zip(words, start)]


def halves(number):
    """Return a number of 64 bits as two words, the lower one first."""
    return number % 2 ** 32, number >> 32


def quarter_round(words, a, b, c, d):
    for sum_at, turned, added, bits in ((a, d, b, 16), (c, b, d, 12), (a, d, b, 8), (c, b, d, 7)):
        words[sum_at] = (words[sum_at] + words[added]) % 2 ** 32
        mixed = words[turned] ^ words[sum_at]
        words[turned] = (mixed << bits) % 2 ** 32 | mixed >> 32 - bits
