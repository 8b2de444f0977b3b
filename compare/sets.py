"""A set of requests, and its comparison: the program `probe`, or another that takes its requests,
against the second program."""

import time
from collections import Counter

from probing import PROBE, UNNUMBERED, answer_of, coded_answer, coded_request, decoded, through

SHOWN = 3  # differences of a set that are shown
WHOLE = 9000  # characters of a request or an answer that are shown: a word is shown whole


def first_difference(got, wanted):
    """Where two answers begin to differ, for answers too long to be shown whole."""
    shorter = min(len(got), len(wanted))
    place = next((at for at in range(shorter) if got[at] != wanted[at]), shorter)
    return f"from byte {place} on {got[place : place + 40]} is not {wanted[place : place + 40]}"


class Result:
    """What a comparison found: how many were compared, how many of these differ, at how many the
    third way stands apart as it has to, the first few differences as text, and how often each
    number was returned."""

    def __init__(self):
        self.compared = 0
        self.different = 0
        self.apart = 0
        self.shown = []
        self.numbers = Counter()

    def differs(self, *lines):
        self.different += 1
        if len(self.shown) < SHOWN:
            self.shown.append("\n    ".join(line[:WHOLE] for line in lines))

    def add(self, other):
        self.compared += other.compared
        self.different += other.different
        self.apart += other.apart
        self.shown = (self.shown + other.shown)[:SHOWN]
        self.numbers += other.numbers

    def report(self, name, began, verb="compared"):
        """Prints the line of a set, and the differences that are shown."""
        numbers = ", ".join(f"{number}: {count}" for number, count in sorted(self.numbers.items()))
        print(
            f"{name}: {self.compared} {verb}, {self.different} differences"
            f"{f', {self.apart} apart' if self.apart else ''}"
            f"{f' (numbers returned {numbers})' if numbers else ''} ({time.time() - began:.0f} s)",
            flush=True,
        )
        for difference in self.shown:
            print("  " + difference)


class Set:
    """Requests that are made in batches; each batch is one run of the program.

    `requests(batch)` gives a batch's requests. `third(request)`, where there is one, gives the
    answer by a third way, or None where that way has none; at the requests of `apart`, and at no
    other, it has to be another answer."""

    def __init__(self, name, batches, requests, third=None, apart=(), program=PROBE):
        self.name = name
        self.batches = batches
        self.requests = requests
        self.third = third
        self.apart = apart
        self.program = program

    def compare(self, batch, alone):
        """Compares a batch; `alone` leaves the program out, and only the third way is left."""
        result = Result()
        requests = self.requests(batch)
        asked = b"".join(map(coded_request, requests))
        wrote, status = (b"", 0) if alone else through(self.program, asked)
        if status:
            result.differs(f"the program ended with status {status}")
        at = 0
        for request in requests:
            answer = answer_of(request)
            coded = coded_answer(request, answer)
            result.compared += 1
            if request[0] not in UNNUMBERED:
                result.numbers[answer[0]] += 1
            got = coded if alone else wrote[at : at + len(coded)]
            at += len(coded)
            third = self.third(request) if self.third else None
            stands_apart = third not in (None, answer)
            result.apart += stands_apart
            if got != coded or stands_apart != (request in self.apart):
                lines = [f"request {request}", f"program {decoded(request, got)}"]
                lines += [f"second  {answer}"] + ([f"third   {third}"] if third else [])
                lines += [first_difference(got, coded)] if got != coded else []
                result.differs(*lines)
        if at < len(wrote):
            result.differs(f"the program wrote more than the answers: {wrote[at:]}")
        return result
