"""The reference with arrows, by a folder that has the oracle with its diff."""
import importlib
import os
import sys

from tools.reference.reference_arrows import with_arrows
from tools.reference.make_sessions import Reference


class ArrowReference(Reference):
    """The modules of the reference, with arrows and trailing overlaps."""

    def __init__(self, folder):
        sys.dont_write_bytecode = True
        sys.path[:0] = [folder, os.path.join(folder, "py")]
        self.even = importlib.import_module("gen")
        self.late = importlib.import_module("gen_late")
        self.bench = with_arrows(importlib.import_module("tsb_oracle"))

    def count(self):
        """How many overlaps there are."""
        return self.bench.V2.objects["overlapType"][0]
