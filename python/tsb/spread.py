"""How values spread: their median, other percentiles and the longest."""

from typing import Any

import numpy as np
import pandas as pd

Row = dict[str, Any]


def percentile(values: "pd.Series[float]", share: int) -> float:
    """The least of the values that so many per cent of them don't exceed, 1 to 100:
    one that occurred. What is NA doesn't count; of nothing it is NaN."""
    known = np.sort(values.dropna().to_numpy(float))
    if not len(known):
        return float("nan")
    return float(known[-(-len(known) * share // 100) - 1])


def spread(values: "pd.Series[float]", by: "pd.Series[int]") -> pd.DataFrame:
    """How values spread: a row for each of `by`, with `count`, `mean`, `p15`,
    `median`, `p85` (`percentile`) and the `longest`. What is NA doesn't count."""
    rows: dict[int, Row] = {}
    for key, of in values.groupby(by):
        known = of.dropna()
        rows[key] = {
            "count": len(known),
            "mean": known.mean() if len(known) else pd.NA,
            "p15": percentile(known, 15),
            "median": percentile(known, 50),
            "p85": percentile(known, 85),
            "longest": percentile(known, 100),
        }
    names = ["count", "mean", "p15", "median", "p85", "longest"]
    found = pd.DataFrame.from_dict(rows, "index", columns=names)
    found.index.name = by.name
    return found.astype({"count": "Int64", **dict.fromkeys(names[1:], "Float64")})
