"""The proved modules as text, for scripts that compile them otherwise than the toolchain does."""

import subprocess
import sys
from pathlib import Path

ROOT = Path(__file__).resolve().parent.parent
FOLDER = ROOT / "target/bench"


def clang(*words, machine="x86_64"):
    """The toolchain's clang on a module, in FOLDER. What it says, as that it passes over the processor that the module names, is
    shown only where it fails."""
    tools = subprocess.check_output([ROOT / "tools/emulate", "--toolchain"], text=True).strip()
    command = [f"{tools}/bin/clang", f"--target={machine}-unknown-linux-gnu", "-x", "ir", *words]
    run = subprocess.run(command, cwd=FOLDER, stderr=subprocess.PIPE, text=True)
    if run.returncode:
        sys.exit(run.stderr)


def as_compiled(machine="x86_64"):
    """The words with which the toolchain compiles the module that bench/object kept last, but for what they name; for another
    processor the plain ones."""
    if machine != "x86_64":
        return ["-fPIC", "-O3"]
    words = (FOLDER / "words").read_text().split()
    return words[: words.index("-c")] + words[words.index("-o") + 2 :]


def text_of(kind, name):
    """The module of a library or a program, as bench/object keeps it."""
    subprocess.run([ROOT / "bench/object", kind, name], check=True)
    clang("-S", "-emit-llvm", "-Xclang", "-disable-llvm-passes", f"{name}.bc", "-o", f"{name}.ll")
    return (FOLDER / f"{name}.ll").read_text()
