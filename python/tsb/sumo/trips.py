"""What the trips of a run came to: SUMO's file of trips as a table, and its figures."""

import xml.etree.ElementTree as ElementTree
from collections.abc import Iterator
from os import PathLike
from typing import TYPE_CHECKING, Any

if TYPE_CHECKING:
    import pandas

COLUMNS = [
    "trip", "kind", "from", "to", "depart", "delay", "arrival", "duration", "waiting",
    "lost", "length",
]  # fmt: skip


def read_trips(path: str | PathLike[str]) -> "pandas.DataFrame":
    """The trips of a file of SUMO (`--tripinfo-output`), a row each.

    `trip` is the vehicle or person, `kind` its type (`person` for a walk), `from` and
    `to` the first and last edge (empty for a walk). Seconds: `depart`, `arrival` (-1
    where it was still under way at the end), `delay` (that it waited to be let into the
    net), `duration`, `waiting` (that it stood), `lost` (of its time in the net, against
    its wish, and `delay` with it; for a walk, that it stood). `length` is in metres.
    """
    import pandas

    return pandas.DataFrame(list(_rows(path)), columns=COLUMNS)


def _rows(path: str | PathLike[str]) -> Iterator[dict[str, Any]]:
    for _, it in ElementTree.iterparse(path):
        if it.tag == "tripinfo":
            yield _trip(it.attrib)
        elif it.tag == "personinfo":
            yield from _walks(it)


def _trip(it: dict[str, str]) -> dict[str, Any]:
    delay = float(it["departDelay"])
    return {
        "trip": it["id"],
        "kind": it["vType"],
        "from": it["departLane"].rpartition("_")[0],
        "to": it["arrivalLane"].rpartition("_")[0],
        "depart": float(it["depart"]),
        "delay": delay,
        "arrival": float(it["arrival"]),
        "duration": float(it["duration"]),
        "waiting": float(it["waitingTime"]),
        "lost": float(it["timeLoss"]) + delay,
        "length": float(it["routeLength"]),
    }


def _walks(person: ElementTree.Element) -> Iterator[dict[str, Any]]:
    for it in person.iter("walk"):
        if float(it.attrib["depart"]) < 0:
            continue  # (never began)
        lost = float(it.attrib.get("timeLoss", "nan"))
        yield {
            "trip": person.attrib["id"],
            "kind": "person",
            "from": "",
            "to": "",
            "depart": float(it.attrib["depart"]),
            "delay": 0.0,
            "arrival": float(it.attrib["arrival"]),
            "duration": float(it.attrib["duration"]),
            "waiting": lost,
            "lost": lost,
            "length": float(it.attrib["routeLength"]),
        }


def summary(trips: "pandas.DataFrame", begin: float = 0) -> "pandas.DataFrame":
    """Of each kind of trip that began at `begin` or later (seconds): how many `ended`
    and how many did not, and of those that did the mean of `lost` and `waiting`, the
    greatest `lost`, and the 95th of a hundred."""
    import pandas

    rows = {}
    for kind, of in trips[trips["depart"] >= begin].groupby("kind"):
        done = of[of["arrival"] >= 0]
        rows[kind] = {
            "ended": len(done),
            "under_way": len(of) - len(done),
            "lost": done["lost"].mean(),
            "lost_95": done["lost"].quantile(0.95),
            "lost_most": done["lost"].max(),
            "waiting": done["waiting"].mean(),
        }
    return pandas.DataFrame.from_dict(rows, orient="index").round(2)
