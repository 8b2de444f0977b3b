"""The requests of the program `probe` and their answers, as bytes and as the second program's; and
the programs that take them.

A request is a tuple of its byte and its arguments, such as `(1, b"cats")`. Its answer is the tuple
that the second program gives for it, such as `(0, 3, b"cat ")`. As bytes, a number is 4 bytes,
little-endian; an argument is a number n and then n bytes; a table is an argument of two bytes for
each of its numbers.
"""

import struct
import subprocess
import time
from pathlib import Path

import second

HERE = Path(__file__).resolve().parent
EMULATE = HERE.parent / "tools/emulate"
PROBE = [EMULATE, HERE.parent / "crates/probe/out/probe"]

WORD, TEXT, NEXT, CHECK, TRANSLATE, RUN, MAKE = range(1, 8)
LOOKUP, WORD_WITH_LIST, TEXT_WITH_LIST, VOCABULARY = range(8, 12)
UNNUMBERED = (NEXT, LOOKUP)  # these return no number of 01's list
ONLY_READ = (NEXT, CHECK, VOCABULARY)  # these are lent nothing to write
ENDED = b"\xff"  # what probe writes at a request that is cut short, unknown or over its bounds

BY_SECOND = {
    WORD: second.word_stem,
    TEXT: second.text_run,
    NEXT: second.next_word,
    CHECK: second.check_sheet,
    TRANSLATE: second.translate_sheet,
    RUN: second.table_run,
    MAKE: second.make_sheet,
    LOOKUP: second.lookup,
    WORD_WITH_LIST: second.word_with_list,
    TEXT_WITH_LIST: second.text_with_list,
    VOCABULARY: second.check_vocabulary,
}


def answer_of(request):
    """The second program's answer."""
    return BY_SECOND[request[0]](*request[1:])


def raw(value):
    """The bytes of a number, a table, or bytes."""
    if isinstance(value, int):
        return struct.pack("<I", value)
    if isinstance(value, list):
        return struct.pack(f"<{len(value)}H", *value)
    return value


def coded_argument(argument):
    if isinstance(argument, int):  # a number alone
        return raw(argument)
    return raw(len(raw(argument))) + raw(argument)


def coded_request(request):
    return bytes([request[0]]) + b"".join(map(coded_argument, request[1:]))


def coded_answer(request, answer):
    if request[0] == NEXT:  # its answer has no first byte
        return b"".join(map(raw, answer))
    if request[0] == LOOKUP:  # it hands back a part of any length
        return bytes([answer[0]]) + coded_argument(answer[1])
    return bytes([answer[0]]) + b"".join(map(raw, answer[1:]))


def decoded(request, coded):
    """The answer that these bytes are, for a reader, with its length before the part that a lookup
    hands back; the bytes themselves if they are too few."""
    values = 2 if request[0] in (TEXT, NEXT, TEXT_WITH_LIST) else 1
    first = 0 if request[0] == NEXT else 1
    if len(coded) < first + 4 * values:
        return coded
    answer = (*coded[:first], *struct.unpack_from(f"<{values}I", coded, first))
    return answer if request[0] in ONLY_READ else (*answer, coded[first + 4 * values :])


def through(program, coded):
    """All that one run of a program writes for this input, and its status."""
    run = subprocess.run(program, input=coded, stdout=subprocess.PIPE)
    return run.stdout, run.returncode


def slowly(program, pieces):
    """The same for an input that comes in these pieces, each by itself."""
    with subprocess.Popen(program, stdin=subprocess.PIPE, stdout=subprocess.PIPE) as run:
        for piece in pieces:
            run.stdin.write(piece)
            run.stdin.flush()
            time.sleep(0.002)
        run.stdin.close()
        return run.stdout.read(), run.wait()
