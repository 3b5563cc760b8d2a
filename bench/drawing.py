"""What is drawn by a seed: the words of the generator that grids and networks are made by, and pairs of vertices."""
import random

MASK = (1 << 64) - 1


def words(seed):
    """The words of SplitMix64."""
    state = seed & MASK
    while True:
        state = (state + 0x9E3779B97F4A7C15) & MASK
        z = state
        z = ((z ^ (z >> 30)) * 0xBF58476D1CE4E5B9) & MASK
        z = ((z ^ (z >> 27)) * 0x94D049BB133111EB) & MASK
        yield z ^ (z >> 31)


def requests(word, seed, count, vertices):
    """So many request lines of this word, each between two random vertices."""
    chance = random.Random(seed)
    pairs = [(chance.randint(1, vertices), chance.randint(1, vertices)) for _ in range(count)]
    return "".join("%s %d %d\n" % (word, *pair) for pair in pairs).encode()
