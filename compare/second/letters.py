"""Letters, measure, conditions."""

from functools import lru_cache


@lru_cache(maxsize=1 << 16)
def classes(part):
    """A `v` for each vowel of the part and a `c` for each consonant."""
    found = ""
    for letter in part:
        is_vowel = letter in b"aeiou" or letter == ord("y") and found.endswith("c")
        found += "v" if is_vowel else "c"
    return found


def measure(part):
    """The number of places where a consonant directly follows a vowel."""
    return classes(part).count("vc")


def has_vowel(part):
    """`*v*`: some letter is a vowel."""
    return "v" in classes(part)


def ends_double(part):
    """`*d`: the last two letters are equal and both consonants."""
    return classes(part).endswith("cc") and part[-1] == part[-2]


def ends_short(part):
    """`*o`: the last three are consonant, vowel, consonant, and the last is not w, x or y."""
    return classes(part).endswith("cvc") and not part.endswith((b"w", b"x", b"y"))


# By 01's numbers, 0 to 8.
CONDITIONS = [
    lambda part: True,
    lambda part: measure(part) > 0,
    lambda part: measure(part) > 1,
    has_vowel,
    lambda part: measure(part) > 1 and part.endswith((b"s", b"t")),
    lambda part: ends_double(part) and not part.endswith((b"l", b"s", b"z")),
    lambda part: measure(part) == 1 and ends_short(part),
    lambda part: measure(part) == 1 and not ends_short(part),
    lambda part: measure(part) > 1 and ends_double(part) and part.endswith(b"l"),
]
