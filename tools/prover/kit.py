"""The kit's own command `rt`, as a library: so crates, edits and the prover's words are read here as `rt ci` reads them."""
import functools
import importlib.machinery
import importlib.util
import pathlib
import subprocess
import sys
import types
from typing import Any


@functools.cache
def kit() -> types.ModuleType:
    """The module of `rt`, which is a Python program without the ending of one."""
    page = subprocess.run(["rt", "doc"], capture_output=True, text=True, check=True).stdout.strip()
    path = str(pathlib.Path(page).parent / "bin" / "rt")
    loader = importlib.machinery.SourceFileLoader("kit_rt", path)
    spec = importlib.util.spec_from_loader("kit_rt", loader)
    assert spec is not None
    made = importlib.util.module_from_spec(spec)
    sys.modules["kit_rt"] = made
    bytecode, sys.dont_write_bytecode = sys.dont_write_bytecode, True
    loader.exec_module(made)
    sys.dont_write_bytecode = bytecode
    made.rtlib.Crate.cuts_libraries = True
    # (its first call sets a signal's handler, which only the main thread may)
    made.rtlib.guarded()
    return made


def crates(top: pathlib.Path) -> dict[str, Any]:
    """The crates of a repository by name, each after those that it uses."""
    found = kit().rtlib.crates_below(str(top))
    return {it.name: it for it in sorted(found, key=lambda it: len(it.below()))}


def is_refusal(said: Any) -> bool:
    """Whether this is what the kit says of an edit that the prover refuses: some kits answer yes, others a word."""
    return bool(said == getattr(kit(), "REFUSED", True))
