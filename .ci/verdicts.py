"""What earlier runs on the same machine found, kept by the sum of all that it was found of."""

import hashlib
import os
from pathlib import Path

from crates import KIT, files_of, folder_of

CACHE = Path(os.environ.get("XDG_CACHE_HOME") or Path.home() / ".cache") / "tansyattic"
# The files whose text decides what a run finds, beside that of the crates.
TOOL = [Path(__file__).parent / it for it in ("wrong-bodies", "trials.py", "edits.py", "verdicts.py", "crates.py")]


def sum_of(crate, uses, known):
    """Returns a sum of what a check of the crate reads: its files, and those of the crates below."""
    if crate not in known:
        folder, sum = folder_of(crate), hashlib.sha256()
        for file in files_of(folder):
            sum.update(repr((str(file.relative_to(folder)), file.read_bytes())).encode())
        below = [(it, sum_of(it, uses, known) if it in uses else "") for it in uses[crate]]
        sum.update(repr((below, (KIT / "KIT-ID").read_bytes())).encode())
        known[crate] = sum.hexdigest()
    return known[crate]


def kept_file(*parts):
    """Returns the file in which a run keeps what it found of these parts."""
    return CACHE / hashlib.sha256(repr((*parts, [it.read_bytes() for it in TOOL])).encode()).hexdigest()


def kept(*parts):
    """Returns what an earlier run found of these parts, or None where none did."""
    file = kept_file(*parts)
    return file.read_text() if file.is_file() else None


def keep(text, *parts):
    """Keeps what was found of these parts for later runs."""
    CACHE.mkdir(parents=True, exist_ok=True)
    kept_file(*parts).write_text(text)
