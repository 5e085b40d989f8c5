"""The status of a controller, as docs/use/LIVE.md has it: by the names of NTCIP 1202.

Sets are of numbers of phases, overlaps or detectors; times are in tenths of a second,
None where they do not run.
"""

import json
import re
from collections.abc import Mapping
from dataclasses import dataclass, fields
from datetime import datetime, timedelta
from typing import Any, Self

from tsb.rows import PREEMPTS

Numbers = frozenset[int]
# What globalTime counts seconds from.
EPOCH = datetime(1970, 1, 1)


class _Told:
    """A part of a status: an object of JSON, with a member for each field."""

    @classmethod
    def of(cls, told: Mapping[str, Any]) -> Self:
        """Reads the part from an object of JSON."""
        values = {_snake(name): value for name, value in told.items()}
        names = [it.name for it in fields(cls)]
        return cls(**{it: _plain(values[it]) for it in names if it in values})


def _snake(name: str) -> str:
    """`vehCalls` as `veh_calls`."""
    return re.sub(r"[A-Z]", lambda it: "_" + it[0].lower(), name)


def _plain(value: Any) -> Any:
    return frozenset(value) if isinstance(value, list) else value


@dataclass(frozen=True)
class PhaseStatusGroup(_Told):
    """phaseStatusGroup: sets of phases."""

    reds: Numbers
    yellows: Numbers
    greens: Numbers
    dont_walks: Numbers
    ped_clears: Numbers
    walks: Numbers
    veh_calls: Numbers
    ped_calls: Numbers
    phase_ons: Numbers
    phase_nexts: Numbers


@dataclass(frozen=True)
class OverlapStatusGroup(_Told):
    """overlapStatusGroup: sets of overlaps. A plan that has an arrow has those that flash
    yellow too."""

    reds: Numbers
    yellows: Numbers
    greens: Numbers
    flashing_yellows: Numbers = frozenset()


@dataclass(frozen=True)
class VehicleDetectorStatusGroup(_Told):
    """vehicleDetectorStatusGroup: sets of vehicle detectors. One is active while its
    output is on."""

    active: Numbers
    alarms: Numbers


@dataclass(frozen=True)
class RingStatus(_Told):
    """A ring: `ring_status` is the coded part, as `minimumGreen` or `redRest`."""

    ring_status: str
    phase: int | None
    next: int | None
    initial_left: int | None
    gap: int | None
    gap_left: int | None
    maximum_left: int | None
    walk_left: int | None
    clearance_left: int | None
    yellow_left: int | None
    red_clearance_left: int | None
    force_off_in: int | None


#: What a green lacks, by its name in the line.
LACKS = {
    "walk": "its walk",
    "clearance": "its pedestrian clearance",
    "initial": "its minimum",
    "gap": "its gap",
    "forceOff": "its force-off",
}


@dataclass(frozen=True)
class Wait:
    """What a phase waits for that is called or in service and not green.

    `cause` is `for` of the line, as `barrier`; `of` is the phase that it waits for,
    `lack` what that green lacks, `left` what is left of a time, `overlap` the one that
    trails and holds that phase. Its text is the sentence of the front panel.
    """

    phase: int
    cause: str
    of: int | None = None
    preempt: int | None = None
    lack: str | None = None
    left: int | None = None
    overlap: int | None = None

    def __str__(self) -> str:
        return f"phase {self.phase} waits for {self.words}"

    @property
    def words(self) -> str:
        """What it waits for, as a person says it."""
        of = None if self.of is None else f"phase {self.of}"
        match self.cause:
            case "flash":
                return "the flash: a reset ends it"
            case "due":
                return "nothing more: it starts in the next tick"
            case "clears":
                return self._with_left(f"{of} to clear")
            case "trails":
                what = f"overlap {self.overlap}, which trails and holds {of}"
                return self._with_left(what)
            case "redRevert":
                return self._with_left("its own red revert")
            case "across":
                return self._with_left(f"{of} of the other ring to clear")
            case "beside":
                return self._with_left(f"the red revert of {of}, which starts with it")
            case "omitted":
                return "the pattern, which omits it"
            case "preempted":
                return f"preempt {self.preempt}, which keeps it out"
            case "next":
                return f"{of}, to which its ring is committed"
            case "crossing":
                until = f", until {of} has cleared" if of else ""
                return f"the rings to cross{until}"
            case "barrier":
                return f"the barrier, which {of} keeps" if of else "the barrier"
            case "green":
                lack = LACKS.get(self.lack or "", "")
                text = f"the green of {of}, which lacks {lack}" if lack else f"{of}"
                return self._with_left(text)
            case "conflict":
                return f"{of}, which is not concurrent with it"
            case "turn":
                return "its turn"
        return self.cause

    def _with_left(self, text: str) -> str:
        """A text with what is left of the time, as `3.0 s`."""
        if self.left is None:
            return text
        return f"{text}: {self.left // 10}.{self.left % 10} s left"


@dataclass(frozen=True)
class Desk:
    """The desk: the station that owns it, and how far its transaction is."""

    owner: int | None
    state: str


@dataclass(frozen=True)
class Edit:
    """A value that is written down at the desk."""

    object: str
    index: int
    value: int


@dataclass(frozen=True)
class Edits:
    """The desk with its edits, in the order of their first `set`, and the rule that
    the last check found broken."""

    owner: int | None
    state: str
    rule: str | None
    edits: tuple[Edit, ...]

    @classmethod
    def of_line(cls, line: str) -> "Edits":
        """The desk of a line of JSON."""
        told = json.loads(line)
        edits = tuple(Edit(**it) for it in told["edits"])
        return cls(told["owner"], told["state"], told["rule"], edits)


def _all_of(preempts: list[str]) -> tuple[str, ...]:
    """The state of each preempt: a line has the last ones where one of them is active."""
    return (*preempts, *["notActive"] * (PREEMPTS - len(preempts)))


@dataclass(frozen=True)
class Status:
    """The status of the controller after `tick`."""

    tick: int
    phases: PhaseStatusGroup
    overlaps: OverlapStatusGroup
    detectors: VehicleDetectorStatusGroup
    preempt_state: tuple[str, ...]
    coord_pattern_status: int
    local_free_status: str
    local_counter: int | None
    coord_sync_status: int | None
    unit_flash_status: str
    desk: Desk
    rings: tuple[RingStatus, ...]
    waits: Mapping[int, Wait]
    #: The second that the clock shows when the next tick begins; None without a clock.
    global_time: datetime | None = None

    @classmethod
    def of_line(cls, line: str) -> "Status":
        """The status of a line of JSON."""
        told = json.loads(line)
        waits = [{**it, "cause": it["for"]} for it in told["waits"]]
        for it in waits:
            del it["for"]
        return cls(
            tick=told["tick"],
            phases=PhaseStatusGroup.of(told["phaseStatusGroup"]),
            overlaps=OverlapStatusGroup.of(told["overlapStatusGroup"]),
            detectors=VehicleDetectorStatusGroup.of(told["vehicleDetectorStatusGroup"]),
            preempt_state=_all_of(told["preemptState"]),
            coord_pattern_status=told["coordPatternStatus"],
            local_free_status=told["localFreeStatus"],
            local_counter=told["localCounter"],
            coord_sync_status=told["coordSyncStatus"],
            unit_flash_status=told["unitFlashStatus"],
            desk=Desk(**told["desk"]),
            rings=tuple(RingStatus.of(it) for it in told["rings"]),
            waits={it["phase"]: Wait(**it) for it in waits},
            global_time=_moment(told.get("globalTime")),
        )


def _moment(seconds: int | None) -> datetime | None:
    return None if seconds is None else EPOCH + timedelta(seconds=seconds)
