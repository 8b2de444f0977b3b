"""Sets of words and texts, with and without a list, and of vocabularies, for the entries for C:
what `probe` is asked, through the program of `entries.c`, which takes the same requests."""

import subprocess

from lists import SETS as LISTS
from probing import EMULATE, HERE, UNNUMBERED
from sets import Set
from texts import SETS as TEXTS
from vocabularies import SETS as VOCABULARIES
from words import SETS as WORDS

ROOT = HERE.parent
BUILT = ROOT / "target/compare/entries"
ENTRIES = [EMULATE, "--static", BUILT]
MOST_BATCHES = 8  # of a set
MOST_OF_LISTS = 3
MOST_OF_VOCABULARIES = 1


def printed(*command):
    """What a command prints. If it fails, that is shown, and ends the run."""
    run = subprocess.run(command, cwd=ROOT, capture_output=True, text=True)
    if run.returncode:
        raise SystemExit(f"{run.stdout}{run.stderr}{command[0]} failed")
    return run.stdout.strip()


def build():
    """Links the program with the proved library."""
    BUILT.parent.mkdir(parents=True, exist_ok=True)
    library = printed("tools/built", "lunarbugle")
    compiler = printed(EMULATE, "--compiler")
    flags = "-std=c11 -Wall -Wextra -Werror -O2 -static -Iinclude".split()
    printed(compiler, *flags, HERE / "entries.c", library, "-o", BUILT)


def through_entries(kind, one, most=MOST_BATCHES):
    """The set's first batches, but for the next word and the lookup, which C has no entries for."""

    def requests(batch):
        return [request for request in one.requests(batch) if request[0] not in UNNUMBERED]

    batches = min(one.batches, most)
    return Set(f"{kind}, {one.name}", batches, requests, one.third, one.apart, ENTRIES)


SETS = [through_entries("words", one) for one in WORDS if one.name != "one run"]
SETS += [through_entries("texts", one) for one in TEXTS if one.name != "next word"]
SETS += [through_entries("lists", one, MOST_OF_LISTS) for one in LISTS]
SETS += [through_entries("vocabularies", one, MOST_OF_VOCABULARIES) for one in VOCABULARIES]
