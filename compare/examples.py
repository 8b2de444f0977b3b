"""Sets for the examples, each as pairs of what a program gave and what it has to give. The one for
rule sheets is held to document 01's two example tables and to the shipped rules, as bytes and as
lines. The one for exception lists is held to its lines, and these to what they are for: both words
of a pair have one stem. The one for vocabularies is held to the incident's list, among others."""

import os
import subprocess
import tempfile
from pathlib import Path

import list_samples
import samples
from probing import HERE
from samples import CLOSE
from second.lists import check_list, stem_by
from second.tables import nodes_of
from second.words import SHIPPED
from vocabularies import right_pairs
from vocabulary_samples import vocabulary_of
from words import published

SHEET = [HERE.parent / "examples/sheet/run"]
LIST = [HERE.parent / "examples/list/make"]
PLURALS = HERE.parent / "examples/list/irregular-plurals"
SINGULARS = HERE.parent / "examples/list/singulars"
VOCABULARY = [HERE.parent / "examples/host/check"]

# Answers: what a program writes, the last line that it says on standard error, and its status


def ran(program, text):
    """The program on this input, called from another folder."""
    run = subprocess.run(program, input=text, capture_output=True, cwd="/")
    return run.stdout, run.stderr.decode().splitlines()[-1:], run.returncode


def on_file(program, content, *arguments):
    """The program on a file of this content."""
    with tempfile.NamedTemporaryFile() as file:
        file.write(content)
        file.flush()
        return ran([*program, file.name, *arguments], b"")


# Rule sheets


def sheet_example():
    """Document 01's two example tables, the shipped rules as bytes and as lines, words that are
    done and refused, a faulty record, and lines that are refused."""
    drops_s = "check: 0, 2 nodes\ntable: (0,1,1,0) (115,0,0,1)\ncats: 0, 3, b'cat '\ns: 0, 0, b' '\n"
    eed = "check: 0, 4 nodes\ntable: (0,1,1,0) (100,2,1,0) (101,3,1,2) (101,0,0,1)\n"
    eed += "feed: 0, 4, b'feed'\nfe3d: 2, the byte at 2 is outside a to z: b'3'\n"
    eed += "Fed: 2, the byte at 0 is outside a to z: b'F'\n"
    nodes = nodes_of(SHIPPED)
    table = " ".join(f"({','.join(map(str, node))})" for node in nodes)
    shipped = f"check: 0, {len(nodes)} nodes\ntable: {table}\n"
    shipped += "cats: 0, 3, b'cat '\nrelational: 0, 5, b'relat     '\n"
    empty = "lines: 0, 4 bytes\ncheck: 0, 0 nodes\ntable: \n"
    refused = "lines: 8, line %d is not of this form, or its record is faulty: %s\n"
    unended = refused % (1, "b'group', without its line feed")
    for content, words, written, status in (
        (samples.SHEET_19, ["cats", "s"], drops_s, 0),
        (samples.SHEET_EED, ["feed", "fe3d", "Fed"], eed, 1),
        (samples.SHEET_19[:-4], ["cats"], "check: 3, the record at 15 is faulty\n", 1),
        (samples.SHIPPED_SHEET, ["cats", "relational"], shipped, 0),
        (samples.PORTER, ["cats", "relational"], "lines: 0, 861 bytes\n" + shipped, 0),
        (b"", [], empty, 0),
        (samples.DROP_S + b"none  x -> y\n", ["cats"], refused % (3, b"none  x -> y"), 1),
        (samples.PORTER.replace(b"\n", b"\r\n"), ["cats"], refused % (1, b"group\r"), 1),
        (b"group", [], unended, 1),
    ):
        yield on_file(SHEET, content, *words), (written.encode(), [], status)


# Exception lists

WOLVES = list_samples.WOLVES + CLOSE
FORM = "is not a word, one space and its stem, in small letters"
NOT_OF_THE_FORM = [b"", b"wolves", b"wolves ", b" wolf", b"wolves  wolf", b"wolves\twolf"]
NOT_OF_THE_FORM += [b" wolves wolf", b"wolves wolf ", b"wolves wolf\r", b"wolves wolf wolf"]
NOT_OF_THE_FORM += [b"Wolves wolf", b"w\xc3\xb6lfe wolf"]


def lines_in(path):
    """The words of a file of lines, each with what stands behind it."""
    return dict(line.split() for line in path.read_bytes().splitlines())


def stem_with(listed, word):
    """The stem of a word of small letters, where these are listed with their stems."""
    _, length, place = stem_by(listed, word)
    return place[:length]


def list_example():
    """The list of irregular plurals has the file's lines. Both words of each pair have one stem, and
    without the line would not. The second word is what stands in the line, if it is its own stem;
    otherwise the singulars have it."""
    made, said, status = ran([*LIST, PLURALS, "-"], b"")
    listed, singulars = lines_in(PLURALS), lines_in(SINGULARS)
    yield (made, check_list(made), said, status), (made, (0, listed), [], 0)
    for word, stem in listed.items():
        other = singulars.pop(word, stem)
        yield (stem_with(listed, word), stem_with({}, word) != stem), (stem_with(listed, other), True)
    yield (b" ".join(singulars),), (b"",)  # none is named for a word without a line


def list_example_lines():
    """Other lines that make a list, and lines that make none: the wrong one is told."""
    long = b"a" * 64
    for content, made in (
        (b"", CLOSE),
        (b"wolves wolf\n", WOLVES),
        (b"us u\n" + long + b" b\n", b"\4\0\4\0\2usu\x42\0\4\0\x40" + long + b"b" + CLOSE),
    ):
        yield ran([*LIST, "-", "-"], content), (made, [], 0)
    for content, line, why in (
        (b"wolves wolf", 1, "has no line feed"),
        *((b"ox ox\n" + line + b"\n", 2, FORM) for line in NOT_OF_THE_FORM),
        (b"ox ox\ndata datum\n", 2, "has a stem that is longer than its word"),
        (long + b"a a\n", 1, "has a word of 65 letters, and 64 are the most"),
        (b"ox ox\nox o\n", 2, "is the second for its word, after line 1, and would not count"),
    ):
        text = content.splitlines(True)[line - 1]
        told = f"examples/list/make: -: line {line} {why}: {text!r}"
        yield ran([*LIST, "-", "-"], content), (b"", [told], 1)


def list_example_files():
    """A list takes the place of another file whole or not at all, and never that of its lines."""
    with tempfile.TemporaryDirectory() as folder:
        names = ("lines", "wrong", "list", "no/list")
        lines, wrong, goal, none = (Path(folder) / name for name in names)
        lines.write_bytes(b"wolves wolf\n")
        wrong.write_bytes(b"wolves wolf\nwolves\n")
        goal.write_bytes(b"as it was")
        no_file = f"{none}: No such file or directory"
        for source, target, status, why in (
            (wrong, goal, 1, f"{wrong}: line 2 {FORM}: b'wolves\\n'"),
            (lines, lines, 2, f"{lines}: the lines are in it, and would be lost"),
            (none, goal, 2, no_file),
            (lines, none, 2, no_file),
            (lines, "/dev/full", 2, "/dev/full: No space left on device"),
        ):
            yield ran([*LIST, source, target], b""), (b"", [f"examples/list/make: {why}"], status)
            yield (goal.read_bytes(), lines.read_bytes()), (b"as it was", b"wolves wolf\n")
        yield ran([*LIST, lines, goal], b""), (b"", [], 0)
        yield (goal.read_bytes(), len(os.listdir(folder))), (WOLVES, 3)


# Vocabularies

SUPPLIED = b"pumps pump\nfeed fe\nseals seal\n"  # by the incident's indexer
MISFORMED = "line %d is not a word, one space and its stem, of at most 64 small letters each, "
MISFORMED += 'and a line feed: "%s"'


def vocabulary_example():
    """A file and standard input: the incident's list, lists that are right, the published one, and
    lines that are not of the form, of which no byte reaches a terminal as it is."""
    published_list = vocabulary_of(published().items())
    first_otherwise = list(published()).index(b"as") + 1
    long = b"a" * 65
    for content, told in (
        (SUPPLIED, 'line 2 is wrong: feed has the stem feed, and not "fe"'),
        (SUPPLIED.replace(b" fe\n", b" feed\n"), "3 lines, every one right"),
        (b"feeds feed\n", "1 line, every one right"),
        (b"", "0 lines, every one right"),
        (b"s \n", 'line 1 is wrong: s has the stem s, and not ""'),
        (published_list, f'line {first_otherwise} is wrong: as has the stem as, and not "a"'),
        (vocabulary_of(right_pairs()) * 3, "91284 lines, every one right"),
        (SUPPLIED + b"valves\n", MISFORMED % (4, "valves")),
        (SUPPLIED[:-1], MISFORMED % (3, "seals seal")),
        (b"\n", MISFORMED % (1, "")),
        (b"feeds feed\r\n", MISFORMED % (1, r"feeds feed\x0d")),
        (b"\x1b[2Jfeed\t\xe9\0\x7f~\n", MISFORMED % (1, r"\x1b[2Jfeed\x09\xe9\x00\x7f~")),
        (b"us us\n" + long + b" " + long + b"\n", MISFORMED % (2, f"{'a' * 65} {'a' * 14}..")),
    ):
        wanted = f"{told}\n".encode(), [], 0 if told.endswith("right") else 1
        yield on_file(VOCABULARY, content), wanted
        yield ran(VOCABULARY, content), wanted


def vocabulary_example_failures():
    """What cannot be read or written is said, with the status 2."""
    for name, why in (("/no/file", "No such file or directory"), ("/", "Is a directory")):
        yield ran([*VOCABULARY, name], b""), (b"", [f"check_vocabulary: {name}: {why}"], 2)
    yield ran([*VOCABULARY, "one", "other"], b""), (b"", ["usage: check_vocabulary [FILE]"], 2)
    with open("/dev/full", "wb") as full:
        run = subprocess.run(VOCABULARY, input=SUPPLIED, stdout=full, stderr=subprocess.PIPE)
    said = b"check_vocabulary: standard output: No space left on device\n"
    yield (b"", run.stderr, run.returncode), (b"", said, 2)
