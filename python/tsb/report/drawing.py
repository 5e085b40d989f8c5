"""Figures of matplotlib as SVG within a page."""

import io
import re
import warnings
from collections.abc import Iterator, Sequence
from contextlib import contextmanager
from typing import Any

import matplotlib
import numpy as np
import pandas as pd

matplotlib.use("svg")

from matplotlib import dates  # noqa: E402
from matplotlib.figure import Figure  # noqa: E402

WIDTH = 10.0  # inches, and so are the margins, and the gap between rows of axes
LEFT, RIGHT, TOP, BOTTOM, GAP = 0.58, 0.06, 0.32, 0.46, 0.52
#: The colour, hatching and mark of each run: they differ in black and white as well.
RUNS: Sequence[tuple[str, str, str]] = [("#24557d", "", "o"), ("#e39a3b", "////", "D")]
#: The same of each cause.
CAUSES: dict[str, tuple[str, str, str]] = {
    "gap": ("#5fa777", "", "."),
    "maximum": ("#c23b2e", "xxxx", "^"),
    "force-off": ("#2d6cb5", "////", "v"),
    "other": ("#3c3c3c", "\\\\\\\\", "x"),
}
INK, PALE = "#30363c", "#d9dde1"
STYLE: dict[str, Any] = {
    "svg.fonttype": "none",
    "font.family": "sans-serif",
    "font.sans-serif": ["DejaVu Sans", "Arial"],
    "font.size": 9,
    "text.color": INK,
    "axes.edgecolor": "#8a9299",
    "axes.labelcolor": INK,
    "axes.spines.top": False,
    "axes.spines.right": False,
    "axes.titlesize": 10,
    "axes.titleweight": "bold",
    "axes.titlelocation": "left",
    "axes.axisbelow": True,
    "axes.grid": True,
    "axes.grid.axis": "y",
    "grid.color": "#e6e9ec",
    "grid.linewidth": 0.8,
    "xtick.color": INK,
    "ytick.color": INK,
    "hatch.linewidth": 0.6,
    "text.parse_math": False,
    "legend.frameon": False,
    "savefig.dpi": 144,
}
# What a page does not need of a file: its prologue, who made it, names of groups, and
# names of the languages, which a page has of itself.
_LEFT_OUT = re.compile(
    r"<metadata>.*?</metadata>|<!--.*?-->"
    r'| id="[A-Za-z.]+(?:2d|3d)?_\d+"| xmlns(?::xlink)?="[^"]*"',
    re.S,
)
_SIZE = re.compile(r'<svg[^>]*?(viewBox="[^"]*")[^>]*>')


@contextmanager
def drawn(
    name: str, heights: Sequence[float], columns: Sequence[float] = (1.0,)
) -> Iterator["Drawing"]:
    """A drawing with a row of axes for each height (in inches), of columns as wide as
    these parts; its `svg` is there at the end."""
    style: Any = {**STYLE, "svg.hashsalt": name}
    with matplotlib.rc_context(style):
        found = Drawing(heights, columns)
        yield found
        found.finish()


class Drawing:
    """A figure, whose axes are an array of rows and columns."""

    def __init__(self, heights: Sequence[float], columns: Sequence[float]) -> None:
        gaps = len(heights) - 1
        height = sum(heights) + GAP * gaps + TOP + BOTTOM
        self.figure = Figure(figsize=(WIDTH, height))
        self.axes = self.figure.subplots(
            len(heights), len(columns), squeeze=False,
            gridspec_kw={
                "left": LEFT / WIDTH, "right": 1 - RIGHT / WIDTH,
                "top": 1 - TOP / height, "bottom": BOTTOM / height,
                "hspace": GAP * len(heights) / sum(heights), "wspace": 0.06,
                "height_ratios": heights, "width_ratios": columns,
            },
        )  # fmt: skip
        self.svg = ""

    def finish(self) -> None:
        """Makes the SVG."""
        file = io.StringIO()
        with warnings.catch_warnings():
            warnings.simplefilter("ignore")  # (of letters that a browser will have)
            self.figure.savefig(file, format="svg", metadata={"Date": None})
        text = file.getvalue()
        text = _LEFT_OUT.sub("", text[text.index("<svg") :])
        self.svg = _SIZE.sub(r"<svg \1>", text, count=1)


def clock(axis: Any, hours: float) -> None:
    """Shows the time of day below an axis of a run of so many hours."""
    form = "%H:%M:%S" if hours < 0.2 else "%H:%M" if hours <= 30 else "%m-%d %H:%M"
    most = 13 if hours <= 30 else 7
    axis.xaxis.set_major_locator(dates.AutoDateLocator(minticks=4, maxticks=most))
    axis.xaxis.set_major_formatter(dates.DateFormatter(form))


def legend(axis: Any, columns: int) -> None:
    """A legend above the right end of an axis."""
    axis.legend(
        loc="lower right", bbox_to_anchor=(1, 1), ncols=columns,
        borderaxespad=0.2, handletextpad=0.4, columnspacing=1.2,
    )  # fmt: skip


def plain(values: "pd.Series[float]") -> Any:
    """Values as an array of floats, NaN for what is not known."""
    found = values.astype("Float64").to_numpy(dtype=float, na_value=np.nan)
    return found
