"""The programs that show a wrong version: `probe`, or one that makes a call, compiled without a proof and run. Nothing that is
made here is kept."""

import re
import subprocess
import tempfile
from functools import lru_cache
from pathlib import Path

from wrong_edits import CRATES, ROOT, edited
from wrong_inputs import Call, program_of, values_of

from probing import EMULATE, ENDED, LOOKUP, TRANSLATE, coded_request, decoded  # of compare/, which wrong_inputs finds

SECONDS = 20  # more than any right run takes
OVER = ["the byte 255"]  # what `probe` answers to a request over its bounds

# The linker of the toolchain: it leaves what it linked at a named place and then fails, so that rt does not try the program itself.
LINKER = """#!/bin/sh
'{linker}' "$@" || exit
for word; do
    [ "${{last-}}" != -o ] || cp "$word" '{program}'
    last=$word
done
exit 1
"""


@lru_cache(None)
def toolchain():
    return subprocess.run([EMULATE, "--toolchain"], capture_output=True, text=True, check=True).stdout.strip()


def compiled(crate, room):
    """The program of a crate of the repository in this room, compiled without a proof, with no input to be tried on."""
    program, kit = room / "program", room / "kit"
    linker = LINKER.format(linker=f"{toolchain()}/bin/ld.lld", program=program)
    subprocess.run([ROOT / "tools/kit", kit, "toolchain/bin/ld.lld"], input=linker, text=True, check=True)
    (kit / "bin/rattle").unlink()  # by which rt would also look for names that a check refuses
    where = room / "repository/crates" / crate
    run = subprocess.run([kit / "bin/rt", "try"], cwd=where, stdin=subprocess.DEVNULL, capture_output=True, text=True)
    if not program.is_file():
        raise ValueError(f"{run.stdout[-2000:]}{run.stderr[-2000:]}\n{crate} was not compiled")
    return program


def put_sources(edit, repository):
    """The code of every crate, with the edit if there is one, in this folder. The library for C is one as any other here, so that
    its functions can be called; gives the names of all libraries."""
    listed = (ROOT / "crates.txt").read_text().replace(" staticlib:", ":")
    repository.mkdir()
    (repository / "crates.txt").write_text(listed)
    for path in CRATES.glob("*/src/**/*.rt"):
        crate, *place = path.relative_to(CRATES).parts
        code = path.read_text()
        if edit and edit.crate == crate:
            code = edited(edit, "/".join(place), code)
        copy = repository.joinpath("crates", crate, *place)
        copy.parent.mkdir(parents=True, exist_ok=True)
        copy.write_text(code)
    names = re.findall(r"^(\w+):", listed, re.MULTILINE)
    return [name for name in names if not (CRATES / name / "src/main.rt").is_file()]


def built(asked, edit, room):
    """The program to ask: `probe`, or one that makes the call."""
    repository = room / "repository"
    libraries = put_sources(edit, repository)
    if not isinstance(asked, Call):
        return compiled("probe", room)
    main = repository / "crates/shown/src/main.rt"
    main.parent.mkdir(parents=True)
    main.write_text(program_of(asked))
    with (repository / "crates.txt").open("a") as listed:
        listed.write(f"shown: {' '.join(libraries)}\n")
    return compiled("shown", room)


def written(program, coded):
    """What a run of the program writes, or in words why it wrote no answer."""
    try:
        run = subprocess.run([EMULATE, program], input=coded, capture_output=True, timeout=SECONDS)
    except subprocess.TimeoutExpired:
        return "no answer: it does not end"
    return run.stdout if run.returncode == 0 else f"no answer: it is stopped ({run.returncode})"


def parts_of(request, answer):
    """An answer to `probe` as a list of its parts; a table as its numbers."""
    if isinstance(answer, bytes):  # too few for an answer
        return [answer]
    parts = list(answer)
    if request[0] == LOOKUP and len(parts) == 3:  # a length, which the bytes tell too
        parts.pop(1)
    if request[0] == TRANSLATE and isinstance(parts[-1], bytes):
        parts[-1] = [int.from_bytes(parts[-1][i : i + 2], "little") for i in range(0, len(parts[-1]), 2)]
    return parts


def answered(program, asked):
    """Its answer, as a list of parts."""
    wrote = written(program, b"\1" if isinstance(asked, Call) else coded_request(asked))
    if isinstance(wrote, str):
        return [wrote]
    if isinstance(asked, Call):
        return values_of(asked, wrote)
    return OVER if wrote == ENDED else parts_of(asked, decoded(asked, wrote))


def answer_with(edit, asked):
    with tempfile.TemporaryDirectory() as folder:
        return answered(built(asked, edit, Path(folder)), asked)
