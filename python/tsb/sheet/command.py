"""`python3 -m tsb sheet`: what it does, and its faults."""

import argparse
import os
import shutil
import subprocess
import sys
import tempfile
from collections.abc import Callable, Sequence
from pathlib import Path
from typing import TypeVar

from tsb import files
from tsb.errors import Error, NoProgram
from tsb.options import Words, called
from tsb.plan import LONGEST, Plan
from tsb.sheet import spreadsheet
from tsb.sheet.page import page_of

PROGRAM = called("sheet")
PDF = ".pdf"
BROWSERS = ("chromium", "chromium-browser", "google-chrome")
PATIENCE = 60  # seconds that a browser has for a page

T = TypeVar("T")


def _words() -> argparse.ArgumentParser:
    words = Words(
        prog=PROGRAM,
        description="Writes the timing sheet of a plan: a page to print, or its tables"
        " for a spreadsheet.",
    )
    words.add_argument("plan", type=Path, metavar="PLAN")
    words.add_argument(
        "--out",
        type=Path,
        metavar="FILE",
        help="a page of HTML; a name that ends with .pdf is printed by Chromium",
    )
    words.add_argument(
        "--csv",
        type=Path,
        metavar="FILE",
        help=f"the tables as CSV, which {called('plan')} reads; no file of the name"
        " may be there",
    )
    words.add_argument("--title", help="the title of the page")
    return words


def main(words: Sequence[str]) -> int:
    """Writes a sheet; the status to end with: 1 for what can't be read, is refused or
    can't be written, 2 for bad words (from argparse)."""
    known = _words()
    given = known.parse_args(words)
    if given.out is None and given.csv is None:
        known.error("name a file by --out or --csv, at least")
    try:
        _write(given)
    except OSError as fault:
        where = fault.filename or given.plan
        print(f"{PROGRAM}: {where}: {fault.strerror or fault}", file=sys.stderr)
        return 1
    except Error as fault:
        print(f"{PROGRAM}: {fault}", file=sys.stderr)
        return 1
    return 0


def _write(given: argparse.Namespace) -> None:
    """Writes what was asked for. The CSV comes first, and no rule is judged
    for it: a plan that breaks one can be mended there."""
    text = files.up_to(given.plan, LONGEST)
    plan = _named(given.plan, lambda: Plan.of_text(text))
    if given.csv is not None:
        files.create(given.csv, spreadsheet.text_of(plan).encode())
    if given.out is not None:
        _named(given.plan, plan.check)
        page = page_of(given.plan.name, text, plan, given.title)
        made = page.encode(errors="replace")
        files.write(given.out, _printed(made) if given.out.suffix == PDF else made)


def _named(path: Path, does: Callable[[], T]) -> T:
    """What a call gives; `Error` names the file that is refused."""
    try:
        return does()
    except NoProgram:
        raise
    except Error as fault:
        raise Error(f"{path}: {fault}") from None


def _printed(page: bytes) -> bytes:
    """A page as PDF, printed by Chromium."""
    found = [path for it in BROWSERS if (path := shutil.which(it))]
    if not found:
        raise Error("a PDF needs Chromium, which is not there: print the page of HTML")
    with tempfile.TemporaryDirectory(prefix="tsb-sheet-") as room:
        source, made = Path(room, "sheet.html"), Path(room, "sheet.pdf")
        source.write_bytes(page)
        words = [
            found[0], "--headless", "--disable-gpu", "--no-pdf-header-footer",
            f"--user-data-dir={room}/profile", f"--print-to-pdf={made}",
            # (its own guard does not run for the administrator; the page has no script)
            *(["--no-sandbox"] if os.geteuid() == 0 else []),
            source.as_uri(),
        ]  # fmt: skip
        try:
            done = subprocess.run(words, capture_output=True, timeout=PATIENCE)
        except subprocess.TimeoutExpired:
            raise Error(f"Chromium printed nothing in {PATIENCE} s") from None
        if done.returncode or not made.is_file():
            raise Error(f"Chromium ended with status {done.returncode}, and no PDF")
        return made.read_bytes()
