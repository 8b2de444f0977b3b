"""How a run of `probe` ends: at the end of the input, or with the byte 255 at a request that is cut
short, unknown or over its bounds; and that a slow pipe gives what a file gives."""

from list_samples import PLURALS
from probing import ENDED, LOOKUP, MAKE, NEXT, PROBE, TEXT, TEXT_WITH_LIST, VOCABULARY, WORD
from probing import WORD_WITH_LIST, coded_answer, coded_request, raw, slowly, through
from sets import Result

GOOD = (WORD, b"hopping")
ASKED, ANSWER = coded_request(GOOD), coded_answer(GOOD, (0, 3, b"hop    "))

BAD = {
    "first byte 0": b"\0",
    "first byte 200": b"\xc8" + ASKED,
    "first byte 255": b"\xff",
    "no length": ASKED[:1],
    "a cut length": ASKED[:4],
    "no word": ASKED[:5],
    "a cut word": ASKED[:-1],
    "a word of 4,097 bytes": bytes([WORD]) + raw(4097) + b"a" * 4097,
    "a word of 2^32 - 1 bytes": bytes([WORD]) + raw(2**32 - 1) + b"a" * 5000,
    "a cut text": coded_request((TEXT, b"cats, dogs"))[:-1],
    "a text of 70,001 bytes": coded_request((TEXT, b"a" * 70001)),
    "no place": coded_request((NEXT, b"cats", 0))[:-4],
    "a cut place": coded_request((NEXT, b"cats", 0))[:-1],
    "lines of 16,385 bytes": coded_request((MAKE, b"\n" * 16385, b"")),
    "a sheet of 16,385 bytes for lines": coded_request((MAKE, b"group\n", bytes(16385))),
    "no sheet for lines": coded_request((MAKE, b"group\n", b""))[:-4],
    "a cut sheet for lines": coded_request((MAKE, b"group\n", b"cats"))[:-1],
    "no vocabulary": bytes([VOCABULARY]),
    "a cut length of a vocabulary": bytes([VOCABULARY]) + raw(6)[:-1],
    "a cut vocabulary": coded_request((VOCABULARY, b"us us\n"))[:-1],
    "a vocabulary of 1,048,577 bytes": coded_request((VOCABULARY, b"a" * 1048577)),
    "a vocabulary of 2^32 - 1 bytes": bytes([VOCABULARY]) + raw(2**32 - 1) + b"us us\n",
}


def bad_with_list(kind, longest):
    """The same for a kind with a list, whose other argument has at most `longest` bytes."""
    whole = coded_request((kind, PLURALS, b"wolves"))
    bad = {
        "no list": whole[:1],
        "a cut list": whole[:20],
        "nothing behind a list": whole[:-10],
        "a cut length behind a list": whole[:-7],
        "a cut argument behind a list": whole[:-1],
        "a list of 70,001 bytes": coded_request((kind, bytes(70001), b"wolves")),
        "too long an argument behind a list": coded_request((kind, PLURALS, bytes(longest + 1))),
    }
    return {f"{name}, request {kind}": coded for name, coded in bad.items()}


BAD |= bad_with_list(LOOKUP, 4096) | bad_with_list(WORD_WITH_LIST, 4096)
BAD |= bad_with_list(TEXT_WITH_LIST, 70000)

# The longest vocabulary that is taken, and what follows it
LONGEST = (VOCABULARY, b"a a\n" * (1048576 // 4))
LONGEST_ASKED = coded_request(LONGEST) + ASKED
LONGEST_ANSWER = coded_answer(LONGEST, (0, 0)) + ANSWER


def at_once(coded):
    return through(PROBE, coded)


def byte_by_byte(coded):
    return slowly(PROBE, [bytes([byte]) for byte in coded])


class Ends:
    """A set of whole inputs, each with all that probe has to write for it."""

    name = "ends"
    batches = 1

    def compare(self, _batch, alone):
        result = Result()
        cases = {
            "nothing": (at_once, b"", b""),
            "a vocabulary of 1,048,576 bytes": (at_once, LONGEST_ASKED, LONGEST_ANSWER),
            "a slow pipe": (byte_by_byte, ASKED * 3, ANSWER * 3),
            "a slow pipe, cut": (byte_by_byte, ASKED + ASKED[:-1], ANSWER + ENDED),
        }
        for name, bad in BAD.items():
            cases[name] = (at_once, bad, ENDED)
            cases[name + " after a request"] = (at_once, ASKED + bad, ANSWER + ENDED)
        for name, (run, coded, wanted) in cases.items():
            result.compared += 1
            got = (wanted, 0) if alone else run(coded)
            if got != (wanted, 0):
                result.differs(f"input   {name}: {coded}", f"probe   {got}", f"wanted  {wanted}")
        return result


SETS = [Ends()]
