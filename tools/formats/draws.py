"""What a number draws, by a PCG32 of its own."""

from itertools import islice

MULTIPLIER = 6_364_136_223_846_793_005
SEED_INCREMENT = 11_634_580_027_462_260_723
WORD, STATE = 2**32, 2**64


def rotated(state):
    """The word that a state gives."""
    word, turn = ((state >> 18 ^ state) >> 27) % WORD, state >> 59
    return (word >> turn | word << (32 - turn)) % WORD


def words_of(number):
    """The words that a number draws: it seeds a state and an increment by four words, each behind its step."""
    seed = []
    for _ in range(4):
        number = (number * MULTIPLIER + SEED_INCREMENT) % STATE
        seed.append(rotated(number))
    state, increment = seed[0] + seed[1] * WORD, (seed[2] + seed[3] * WORD) | 1
    state = (state + increment) * MULTIPLIER + increment
    while True:
        state %= STATE
        yield rotated(state)
        state = state * MULTIPLIER + increment


def drawn_turns(number, count, actors):
    """Whose turn it is, that many times."""
    return [word % actors for word in islice(words_of(number), count)]
