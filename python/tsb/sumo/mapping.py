"""A mapping: which links of a traffic light of SUMO show which head of the bench, and
which detectors of SUMO switch which inputs.

It is a file of JSON that a user writes, or that `tsb.sumo.propose` begins:

    {"tls": "C",
     "phases": {"2": [10, 11, 12]},
     "overlaps": {"1": [3]},
     "permissive": {"6": [10]},
     "free": [14],
     "pedestrians": {"4": [":C_c0"]},
     "channels": {"2": ["W0", "W1"], "9": ["advW0"]},
     "buttons": {"4": [":C_c0"]},
     "preempts": {"1": {"classes": ["emergency"], "edges": ["S_far", "S_near"]}}}

Links are numbered as the letters of the traffic light's state in SUMO (`linkIndex` of
the net). Only `tls` has to be there. docs/use/SUMO.md has the meaning of each.
"""

import json
from collections.abc import Iterable
from collections.abc import Mapping as Table
from dataclasses import dataclass, field
from os import PathLike
from pathlib import Path
from typing import Any

from tsb.errors import Error
from tsb.files import read
from tsb.rows import PEDESTRIANS, PREEMPTS, VEHICLES

PHASES, OVERLAPS = 16, 16
LONGEST = 1 << 20  # bytes of a mapping


class MappingFault(Error):
    """A mapping that is none, or that does not fit its net, its simulation or its
    plan. The message says where."""


@dataclass(frozen=True)
class Preempt:
    """A preempt input is on while a vehicle of one of these classes (SUMO's vehicle
    classes, as `emergency` or `rail`) is on one of these edges."""

    classes: tuple[str, ...]
    edges: tuple[str, ...]


@dataclass(frozen=True)
class Mapping:
    """What a mapping file has, checked by itself.

    `phases`, `overlaps`: the links that show a head. `permissive`: of a phase, links
    that may go beside it and yield: `g` while it is green, unless their own head has a
    green. `free`: links that always may go and yield. `pedestrians`: of a phase, the
    crossings that show its pedestrian head. `channels`: of a vehicle detector of the
    bench, the detectors of SUMO. `buttons`: of a pedestrian detector, the crossings
    whose waiting pedestrians press it. `preempts`: of an input, who switches it on.
    """

    tls: str
    phases: Table[int, tuple[int, ...]] = field(default_factory=dict)
    overlaps: Table[int, tuple[int, ...]] = field(default_factory=dict)
    permissive: Table[int, tuple[int, ...]] = field(default_factory=dict)
    free: tuple[int, ...] = ()
    pedestrians: Table[int, tuple[str, ...]] = field(default_factory=dict)
    channels: Table[int, tuple[str, ...]] = field(default_factory=dict)
    buttons: Table[int, tuple[str, ...]] = field(default_factory=dict)
    preempts: Table[int, Preempt] = field(default_factory=dict)

    @classmethod
    def of(cls, said: Any) -> "Mapping":
        """The mapping of an object of JSON; `MappingFault` names the first fault."""
        if not isinstance(said, dict) or not isinstance(said.get("tls"), str):
            raise MappingFault('a mapping is an object of JSON with a text "tls"')
        known = {*_TABLES, "tls", "free", "preempts"}
        if unknown := sorted(set(said) - known):
            raise MappingFault(f"{unknown[0]}: a mapping has no such member")
        tables = {
            name: _table(name, said.get(name, {}), most, kind)
            for name, (most, kind) in _TABLES.items()
        }
        free = _items("free", said.get("free", []), int)
        return cls(said["tls"], free=free, preempts=_preempts(said), **tables)

    @classmethod
    def read(cls, path: str | PathLike[str]) -> "Mapping":
        """The mapping of a file."""
        try:
            said = json.loads(read(path, LONGEST))
        except (ValueError, RecursionError) as fault:
            raise MappingFault(f"{path}: not JSON: {fault}") from None
        try:
            return cls.of(said)
        except MappingFault as fault:
            raise MappingFault(f"{path}: {fault}") from None

    def json(self) -> dict[str, Any]:
        """The object of JSON, without what is empty."""
        said: dict[str, Any] = {"tls": self.tls}
        for name in _TABLES:
            said[name] = {str(at): list(it) for at, it in getattr(self, name).items()}
        said["free"] = list(self.free)
        said["preempts"] = {
            str(at): {"classes": list(it.classes), "edges": list(it.edges)}
            for at, it in self.preempts.items()
        }
        return {name: it for name, it in said.items() if it}

    @property
    def text(self) -> str:
        """The text of a mapping file: a line for each head or input."""
        members = []
        for name, it in self.json().items():
            if isinstance(it, dict):
                rows = [f'    "{at}": {json.dumps(of)}' for at, of in it.items()]
                members.append(f'  "{name}": {{\n' + ",\n".join(rows) + "\n  }")
            else:
                members.append(f'  "{name}": {json.dumps(it)}')
        return "{\n" + ",\n".join(members) + "\n}\n"

    def write(self, path: str | PathLike[str]) -> None:
        """Writes the mapping to a file."""
        Path(path).write_text(self.text, encoding="utf-8")


# Of each table the greatest index, and what its lists hold.
_TABLES: dict[str, tuple[int, type]] = {
    "phases": (PHASES, int),
    "overlaps": (OVERLAPS, int),
    "permissive": (PHASES, int),
    "pedestrians": (PHASES, str),
    "channels": (VEHICLES, str),
    "buttons": (PEDESTRIANS, str),
}


def _items(name: str, said: Any, kind: type) -> tuple[Any, ...]:
    fine = isinstance(said, list) and all(
        isinstance(it, kind) and not isinstance(it, bool) for it in said
    )
    if not fine:
        what = "numbers of links" if kind is int else "names"
        raise MappingFault(f"{name}: not a list of {what}")
    return tuple(said)


def _numbers(name: str, said: Any, most: int) -> Iterable[tuple[int, Any]]:
    if not isinstance(said, dict):
        raise MappingFault(f"{name}: not an object")
    for at, it in said.items():
        if not at.isdecimal() or not 1 <= int(at) <= most:
            raise MappingFault(f"{name}.{at}: 1 to {most}")
        yield int(at), it


def _table(name: str, said: Any, most: int, kind: type) -> dict[int, tuple[Any, ...]]:
    return {
        at: _items(f"{name}.{at}", it, kind) for at, it in _numbers(name, said, most)
    }


def _preempts(said: dict[str, Any]) -> dict[int, Preempt]:
    found = {}
    for at, it in _numbers("preempts", said.get("preempts", {}), PREEMPTS):
        name = f"preempts.{at}"
        if not isinstance(it, dict) or set(it) != {"classes", "edges"}:
            raise MappingFault(f'{name}: an object with "classes" and "edges"')
        classes = _items(f"{name}.classes", it["classes"], str)
        found[at] = Preempt(classes, _items(f"{name}.edges", it["edges"], str))
    return found
