"""The wrong versions, read from their files: crates/*/must-fail/*.edit and tools/wrong/*/*.edit. The first line of a file says
what is wrong. `shown by:` names an input at which the edited code gives a wrong answer; the prover's command passes over that
line. `file:`, `old:` and `new:` are the edit, with the rule of that command: `old` stands in the file exactly once."""

import re
from dataclasses import dataclass
from pathlib import Path

ROOT = Path(__file__).resolve().parent.parent
CRATES = ROOT / "crates"
TABLE = ROOT / "docs/WRONG.md"
HEADER = "| wrong version | what is wrong | input | right answer | wrong answer |"

STATEMENT = "The statement is changed: "  # how the first line begins where no code is changed
NO_INPUT = "no input: "  # how the input begins where none shows the edit, and then why
INDEXES = "specs/Indexes.antt"  # of blocks: a computed test says whether they are right


@dataclass
class Edit:
    name: str  # crate/name
    wrong: str
    shown: str  # the input, or nothing
    changes: list  # of a file of the crate, the old text and the new one

    @property
    def crate(self):
        return self.name.split("/")[0]

    @property
    def of_statement(self):
        return self.wrong.startswith(STATEMENT)

    @property
    def without_input(self):
        return self.shown.startswith(NO_INPUT)


def read_edit(path, crate):
    first, *lines = path.read_text().splitlines()
    edit, file, old = Edit(f"{crate}/{path.stem}", first, "", []), "", ""
    for line in lines:
        if line.startswith("shown by: "):
            edit.shown = line.removeprefix("shown by: ")
        elif line.startswith("file: "):
            file = line.removeprefix("file: ")
        elif line.startswith("old: "):
            old = line.removeprefix("old: ")
        elif line.startswith("new:"):
            edit.changes.append((file, old, line.removeprefix("new:").removeprefix(" ")))
    return edit


def all_edits():
    """In the order of crates.txt, and of their names."""
    edits = []
    for crate in re.findall(r"^(\w+)(?: staticlib)?:", (ROOT / "crates.txt").read_text(), re.MULTILINE):
        paths = [*(CRATES / crate / "must-fail").glob("*.edit"), *(ROOT / "tools/wrong" / crate).glob("*.edit")]
        edits += sorted((read_edit(path, crate) for path in paths), key=lambda edit: edit.name)
    return edits


def edited(edit, file, text):
    """The text of a file of the crate after the edit."""
    for changed, old, new in edit.changes:
        if changed == file:
            if text.count(old) != 1:
                raise ValueError(f"an old text stands {text.count(old)} times in {file}")
            text = text.replace(old, new)
    return text


def faults_of(edit):
    """What its file lacks, or has and should not have."""
    files = [file for file, _, _ in edit.changes]
    # a proof, or an index that code is held to, may be fitted to the changed code, so that it is refused at the fact that is wrong
    of_specs = [file for file in files if file.startswith("specs/") and file != INDEXES]
    in_code = any(file.startswith("src/") for file in files) and not of_specs
    if edit.of_statement and edit.shown:
        return ["it changes a statement, and no code that an input could show"]
    if not edit.of_statement and not in_code:
        return [f"it changes more than code and its proof, and its first line does not begin with {STATEMENT!r}"]
    if not edit.of_statement and not edit.shown:
        return ["it has no line 'shown by:'"]
    try:
        for file in files:
            edited(edit, file, (CRATES / edit.crate / file).read_text())
    except (OSError, ValueError) as fault:
        return [str(fault)]
    return []


def cell(text):
    return text.replace("|", "\\|")


def row_start(edit):
    """What the edit's row in docs/WRONG.md begins with."""
    return f"| `{edit.name}` | {cell(edit.wrong)} | {f'`{cell(edit.shown)}`' if edit.shown else ''} |"


def missing_rows():
    """The edits whose file or row is not in order, the rows of no edit, and how many edits there are."""
    edits = all_edits()
    rows = [line for line in TABLE.read_text().splitlines() if line.startswith("| `")]
    missing = [f"{edit.name}: {fault}" for edit in edits for fault in faults_of(edit)]
    for edit in edits:
        rest = [row for row in rows if not row.startswith(row_start(edit))]
        if len(rest) != len(rows) - 1:
            missing.append(f"docs/WRONG.md has no row, or several, with the words and the input of {edit.name}")
        rows = rest
    return missing + [f"docs/WRONG.md has a row of no wrong version: {row[:60]}" for row in rows], len(edits)
