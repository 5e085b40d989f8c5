"""Runs `rt try` with these flags, in a crate's folder, and nothing beside it: try_alone CRATE [--quick] [FLAG ..].

The kit has a check go beside each try, which takes as long as to read the crate with all below it, and only says which
names are reserved. `rt ci` refuses these in any case. The kit also compiles for a try as fast as it can, and the code is
slow. With `--quick` the compiler makes faster code (`unproved.CLANG`), with all checks: for tests that run long.
"""
import os
import pathlib
import sys
import tempfile

from tools import TOP
from tools.prover import kit, unproved


def main(crate: str, flags: list[str]) -> int:
    """Tries a crate, and gives the status to end with."""
    rtlib = kit.kit().rtlib
    os.chdir(TOP / "crates" / crate)
    rtlib.RATTLE = "true"
    with tempfile.TemporaryDirectory(prefix="tsb-try-") as room:
        if flags[:1] == ["--quick"]:
            rtlib.KIT = str(unproved.quick_kit(pathlib.Path(rtlib.KIT), pathlib.Path(room, "kit")))
        return kit.kit().main(["try", *(it for it in flags if it != "--quick")]) or 0


if __name__ == "__main__":
    sys.exit(main(sys.argv[1], sys.argv[2:]))
