"""The objects of NTCIP 1202 v02, and of the schedule in NTCIP 1201, that a plan's
objects are of, by their OIDs.

The tables are from memory of the standard: docs/use/EXCHANGE.md says so. `TABLES` has
each table, and each group of objects without an index. A column has a `form` where a
plan has it too. The others are there by name, so that what has no place is named.
"""

from collections.abc import Iterator, Mapping
from dataclasses import dataclass, field
from functools import cache

from tsb.exchange.forms import (
    Choice,
    Dates,
    Form,
    Number,
    Oid,
    Options,
    Order,
    Phases,
    Row,
    RowOf,
    Value,
)
from tsb.manual import NEWEST, OBJECTS
from tsb.plan import Plan
from tsb.values import parts_of

#: The object asc, actuated signal controllers, and global of NTCIP 1201.
ASC: Oid = (1, 3, 6, 1, 4, 1, 1206, 4, 2, 1)
GLOBAL: Oid = (1, 3, 6, 1, 4, 1, 1206, 4, 2, 6)
#: Below global: globalTimeManagement, whose object 3 is the schedule.
TIME: Oid = (*GLOBAL, 3)

NO_PLACE = "a plan has no place for it"
STATUS = "it is a status, and no part of a plan"
SIZE = "it is a size, and no part of a plan"
CONTROL = "it is a control, and no part of a plan"


@dataclass(frozen=True)
class Column:
    """An object: its form where a plan has it, and else why a plan has no place for it.
    `off` is the value with which it does nothing, None where there is no such value."""

    name: str
    form: Form | None = None
    why: str = NO_PLACE
    off: Value | None = None


@dataclass(frozen=True)
class Table:
    """A table of objects, or a group without an index.

    `place` comes between `under` and the number of a column. `keys` are the names of
    the index's parts, which are the first columns, and `like` is an object of a plan that
    has an index for each row here; None for a group without an index.
    """

    place: Oid
    columns: Mapping[int, Column]
    keys: tuple[str, ...] = ()
    like: str | None = None
    under: Oid = ASC
    sizes: Row = field(init=False)

    def __post_init__(self) -> None:
        sizes = () if self.like is None else _sizes(self.like)[: len(self.keys)]
        object.__setattr__(self, "sizes", sizes)

    @property
    def root(self) -> Oid:
        """What the OIDs of all its objects begin with."""
        return self.under + self.place

    def has(self, row: Row) -> bool:
        """Whether a plan has this row."""
        pairs = zip(row, self.sizes, strict=True)
        return all(1 <= it <= most for it, most in pairs)

    def rows(self) -> Iterator[Row]:
        """All rows; the one of a group is ()."""
        found: list[Row] = [()]
        for most in self.sizes:
            found = [(*row, it) for row in found for it in range(1, most + 1)]
        return iter(found)


def _sizes(name: str) -> Row:
    """How many rows there are of each part of an index."""
    what = OBJECTS[name]
    parts = parts_of(what)
    return tuple(most for most, _ in parts.values()) or (what.count,)


def _numbers(named: Mapping[int, str]) -> dict[int, Column]:
    """Columns that a plan has by the same names and numbers."""
    return {number: Column(name, Number(name)) for number, name in named.items()}


def _lists(named: Mapping[int, str]) -> dict[int, Column]:
    """Columns that are lists of phases."""
    return {number: Column(name, Phases(name)) for number, name in named.items()}


def _none(
    named: Mapping[int, str], off: Value | None = 0, why: str = NO_PLACE
) -> dict[int, Column]:
    """Columns that a plan has no place for."""
    return {number: Column(name, None, why, off) for number, name in named.items()}


OPTIONS = Options(
    {
        0: "phaseEnabled",
        5: "phaseNonLock",
        6: "phaseMinRecall",
        7: "phaseMaxRecall",
        8: "phasePedRecall",
        9: "phaseSoftRecall",
        10: "phaseDualEntry",
        11: "phaseSimGapDisable",
        13: "phaseRestInWalk",
    },
    {
        1: "automatic flash entry",
        2: "automatic flash exit",
        3: "non-actuated 1",
        4: "non-actuated 2",
        12: "guaranteed passage",
        14: "conditional service",
        15: "added initial calculation",
    },
)
#: The table of actions, below asc.
ACTIONS: Oid = (5, 3, 1)
#: Those of flashing yellow arrows are of version 3 of the standard (uncertain).
OVERLAP_TYPES = (
    "other", "normal", "minusGreenYellow", "pedestrianNormal", "fYAThreeSection",
    "fYAFourSection",
)  # fmt: skip
SPLIT_MODES = (
    "other", "none", "minimumVehicleRecall", "maximumVehicleRecall", "pedestrianRecall",
    "maximumVehicleAndPedestrianRecall", "phaseOmitted",
)  # fmt: skip

TABLES = (
    Table(
        (1,), _none({1: "maxPhases", 3: "maxPhaseGroups"}, None, SIZE),
    ),
    Table(
        (1, 2, 1),
        _numbers(
            {
                2: "phaseWalk",
                3: "phasePedestrianClear",
                4: "phaseMinimumGreen",
                5: "phasePassage",
                6: "phaseMaximum1",
                7: "phaseMaximum2",
                8: "phaseYellowChange",
                9: "phaseRedClear",
                10: "phaseRedRevert",
                11: "phaseAddedInitial",
                12: "phaseMaximumInitial",
                13: "phaseTimeBeforeReduction",
                14: "phaseCarsBeforeReduction",
                15: "phaseTimeToReduce",
                17: "phaseMinimumGap",
                18: "phaseDynamicMaxLimit",
                19: "phaseDynamicMaxStep",
                22: "phaseRing",
            }
        )
        | _none({16: "phaseReduceBy"})
        | _none({20: "phaseStartup"}, None)
        | {21: Column("phaseOptions", OPTIONS)}
        | _lists({23: "phaseConcurrency"}),
        ("phaseNumber",),
        "phaseEnabled",
    ),
    Table(
        (1, 4, 1),
        _none(
            {
                2: "phaseStatusGroupReds",
                3: "phaseStatusGroupYellows",
                4: "phaseStatusGroupGreens",
                5: "phaseStatusGroupDontWalks",
                6: "phaseStatusGroupPedClears",
                7: "phaseStatusGroupWalks",
                8: "phaseStatusGroupVehCalls",
                9: "phaseStatusGroupPedCalls",
                10: "phaseStatusGroupPhaseOns",
                11: "phaseStatusGroupPhaseNexts",
            },
            None,
            STATUS,
        ),
        ("phaseStatusGroupNumber",),
    ),
    Table(
        (1, 5, 1),
        _none(
            {
                2: "phaseControlGroupPhaseOmit",
                3: "phaseControlGroupPedOmit",
                4: "phaseControlGroupHold",
                5: "phaseControlGroupForceOff",
                6: "phaseControlGroupVehCall",
                7: "phaseControlGroupPedCall",
            },
            0,
            CONTROL,
        ),
        ("phaseControlGroupNumber",),
    ),
    Table(
        (2,),
        _none(
            {
                1: "maxVehicleDetectors",
                3: "maxVehicleDetectorStatusGroups",
                6: "maxPedestrianDetectors",
            },
            None,
            SIZE,
        ),
    ),
    Table(
        (2, 2, 1),
        _none({2: "vehicleDetectorOptions"}, None)
        | _numbers(
            {
                4: "vehicleDetectorCallPhase",
                6: "vehicleDetectorDelay",
                7: "vehicleDetectorExtend",
                9: "vehicleDetectorNoActivity",
                10: "vehicleDetectorMaxPresence",
                11: "vehicleDetectorErraticCounts",
                12: "vehicleDetectorFailTime",
            }
        )
        | _none({5: "vehicleDetectorSwitchPhase", 8: "vehicleDetectorQueueLimit"})
        | _none(
            {13: "vehicleDetectorAlarms", 14: "vehicleDetectorReportedAlarms"},
            None,
            STATUS,
        )
        | _none({15: "vehicleDetectorReset"}, 0, CONTROL),
        ("vehicleDetectorNumber",),
        "vehicleDetectorCallPhase",
    ),
    Table(
        (2, 4, 1),
        _none(
            {
                2: "vehicleDetectorStatusGroupActive",
                3: "vehicleDetectorStatusGroupAlarms",
            },
            None,
            STATUS,
        ),
        ("vehicleDetectorStatusGroupNumber",),
    ),
    Table(
        (2, 7, 1),
        _numbers({2: "pedestrianDetectorCallPhase"})
        | _none(
            {
                3: "pedestrianDetectorNoActivity",
                4: "pedestrianDetectorMaxPresence",
                5: "pedestrianDetectorErraticCounts",
            }
        )
        | _none({6: "pedestrianDetectorAlarms"}, None, STATUS),
        ("pedestrianDetectorNumber",),
        "pedestrianDetectorCallPhase",
    ),
    Table(
        (3,),
        _none(
            {
                1: "unitStartUpFlash",
                2: "unitAutoPedestrianClear",
                3: "unitBackupTime",
            },
            None,
        )
        | _numbers({4: "unitRedRevert"})
        | _none(
            {
                5: "unitControlStatus",
                6: "unitFlashStatus",
                7: "unitAlarmStatus2",
                8: "unitAlarmStatus1",
                9: "shortAlarmStatus",
            },
            None,
            STATUS,
        )
        | _none({10: "unitControl"}, 0, CONTROL),
    ),
    Table(
        (4,),
        _none({1: "coordOperationalMode"}, 0, CONTROL)
        | {
            2: Column(
                "coordCorrectionMode",
                Choice(
                    "coordCorrectionMode",
                    {0: 1, 1: 2, 2: 3, 3: 4},
                    ("other", "dwell", "shortway", "addOnly"),
                ),
            ),
            3: Column(
                "coordMaximumMode",
                Choice(
                    "coordMaximumMode",
                    {0: 4, 1: 2, 2: 3},
                    ("other", "maximum1", "maximum2", "maxInhibit"),
                ),
            ),
            4: Column(
                "coordForceMode",
                Choice(
                    "coordForceMode",
                    {0: 3, 1: 3, 2: 2},
                    ("other", "floating", "fixed"),
                ),
            ),
        }
        | _none({5: "maxPatterns", 6: "patternTableType", 8: "maxSplits"}, None, SIZE)
        | _none(
            {
                10: "coordPatternStatus",
                11: "localFreeStatus",
                12: "coordCycleStatus",
                13: "coordSyncStatus",
            },
            None,
            STATUS,
        )
        | _none({14: "systemPatternControl", 15: "systemSyncControl"}, 0, CONTROL),
    ),
    Table(
        (4, 7, 1),
        _numbers(
            {
                2: "patternCycleTime",
                3: "patternOffsetTime",
                4: "patternSplitNumber",
                5: "patternSequenceNumber",
            }
        ),
        ("patternNumber",),
        "patternCycleTime",
    ),
    Table(
        (4, 9, 1),
        _numbers({3: "splitTime", 5: "splitCoordPhase"})
        | {
            4: Column(
                "splitMode",
                Choice("splitMode", {it: it + 2 for it in range(6)}, SPLIT_MODES),
            )
        },
        ("splitNumber", "splitPhase"),
        "splitTime",
    ),
    Table(
        (5,),
        _none({1: "timebaseAscPatternSync"})
        | _none({2: "maxTimebaseAscActions"}, None, SIZE)
        | _none({4: "timebaseAscActionStatus"}, None, STATUS),
    ),
    Table(
        ACTIONS,
        _numbers({2: "timebaseAscPattern"})
        | _none({3: "timebaseAscAuxillaryFunction", 4: "timebaseAscSpecialFunction"}),
        ("timebaseAscActionNumber",),
        "timebaseAscPattern",
    ),
    Table((6,), _none({1: "maxPreempts"}, None, SIZE)),
    Table(
        (6, 2, 1),
        _none({2: "preemptControl"}, None)
        | _none({3: "preemptLink", 10: "preemptDwellGreen"})
        | _numbers(
            {
                4: "preemptDelay",
                5: "preemptMinimumDuration",
                6: "preemptMinimumGreen",
                7: "preemptMinimumWalk",
                8: "preemptEnterPedClear",
                9: "preemptTrackGreen",
                11: "preemptMaximumPresence",
            }
        )
        | _lists(
            {12: "preemptTrackPhase", 13: "preemptDwellPhase", 15: "preemptExitPhase"}
        )
        | _none(
            {
                14: "preemptDwellPed",
                17: "preemptTrackOverlap",
                18: "preemptDwellOverlap",
                19: "preemptCyclingPhase",
                20: "preemptCyclingPed",
                21: "preemptCyclingOverlap",
            },
            b"",
        )
        | _none(
            {
                22: "preemptEnterYellowChange",
                23: "preemptEnterRedClear",
                24: "preemptTrackYellowChange",
                25: "preemptTrackRedClear",
            },
            None,
        )
        | _none({16: "preemptState"}, None, STATUS),
        ("preemptNumber",),
        "preemptDelay",
    ),
    Table(
        (6, 3, 1),
        _none({2: "preemptControlState"}, 0, CONTROL),
        ("preemptControlNumber",),
        "preemptDelay",
    ),
    Table((7,), _none({1: "maxRings", 2: "maxSequences"}, None, SIZE)),
    Table(
        (7, 3, 1),
        {3: Column("sequenceData", Order("sequenceData"))},
        ("sequenceNumber", "sequenceRingNumber"),
        "sequenceData",
    ),
    Table((8,), _none({1: "maxChannels"}, None, SIZE)),
    Table(
        (8, 2, 1),
        _numbers({2: "channelControlSource"})
        | {
            3: Column(
                "channelControlType",
                Choice(
                    "channelControlType",
                    {0: 1, 1: 1, 2: 2, 3: 3, 4: 4},
                    ("other", "phaseVehicle", "phasePedestrian", "overlap"),
                ),
            )
        }
        | _none({4: "channelFlash", 5: "channelDim"}),
        ("channelNumber",),
        "channelControlSource",
    ),
    Table((9,), _none({1: "maxOverlaps", 3: "maxOverlapStatusGroups"}, None, SIZE)),
    Table(
        (9, 2, 1),
        {
            2: Column(
                "overlapType",
                Choice("overlapType", {0: 2, 1: 3, 2: 6}, OVERLAP_TYPES),
            )
        }
        | _lists({3: "overlapIncludedPhases", 4: "overlapModifierPhases"})
        | _numbers(
            {
                5: "overlapTrailGreen",
                6: "overlapTrailYellow",
                7: "overlapTrailRed",
            }
        ),
        ("overlapNumber",),
        "overlapType",
    ),
    Table(
        (9, 4, 1),
        _none(
            {
                2: "overlapStatusGroupReds",
                3: "overlapStatusGroupYellows",
                4: "overlapStatusGroupGreens",
            },
            None,
            STATUS,
        ),
        ("overlapStatusGroupNumber",),
    ),
    Table(
        (),
        _none({1: "globalTime", 6: "controllerLocalTime"}, None, STATUS)
        | _none(
            {
                2: "globalDaylightSaving",
                4: "globalLocalTimeDifferential",
                5: "controllerStandardTimeZone",
            },
            None,
        ),
        under=TIME,
    ),
    Table(
        (3,),
        _none(
            {
                1: "maxTimeBaseScheduleEntries",
                3: "maxDayPlans",
                4: "maxDayPlanEvents",
            },
            None,
            SIZE,
        )
        | _none({6: "dayPlanStatus", 7: "timeBaseScheduleTableStatus"}, None, STATUS),
        under=TIME,
    ),
    Table(
        (3, 2, 1),
        _numbers({2: "timeBaseScheduleMonth", 3: "timeBaseScheduleDay"})
        | {4: Column("timeBaseScheduleDate", Dates("timeBaseScheduleDate"))}
        | _numbers({5: "timeBaseScheduleDayPlan"}),
        ("timeBaseScheduleNumber",),
        "timeBaseScheduleMonth",
        TIME,
    ),
    Table(
        (3, 5, 1),
        _numbers({3: "dayPlanHour", 4: "dayPlanMinute"})
        | {
            5: Column(
                "dayPlanActionNumberOID",
                RowOf(
                    "dayPlanActionNumber",
                    (*ASC, *ACTIONS, 1),
                    "timebaseAscActionTable",
                ),
            )
        },
        ("dayPlanNumber", "dayPlanEventNumber"),
        "dayPlanHour",
        TIME,
    ),
)  # fmt: skip


@dataclass(frozen=True)
class Leaf:
    """An object of NTCIP with its row; `row` is () of one without an index."""

    table: Table
    number: int
    row: Row

    @property
    def oid(self) -> Oid:
        """Its OID."""
        return (*self.table.root, self.number, *(self.row or (0,)))

    @property
    def column(self) -> Column:
        """Its column."""
        return self.table.columns[self.number]


@cache
def plan_leaves() -> Mapping[Oid, Leaf]:
    """All objects that a plan has, in the order of their OIDs."""
    found = {
        leaf.oid: leaf
        for table in TABLES
        for number, column in table.columns.items()
        if column.form is not None
        for leaf in (Leaf(table, number, row) for row in table.rows())
    }
    return dict(sorted(found.items()))


@cache
def _roots() -> Mapping[Oid, Table]:
    return {it.root: it for it in TABLES}


def table_of(oid: Oid) -> Table | None:
    """The table, or the group, that an OID is of; the deepest one."""
    for end in range(len(oid), len(ASC), -1):
        if (found := _roots().get(oid[:end])) is not None:
            return found
    return None


def leaf_of(oid: Oid) -> Leaf | None:
    """The object and the row of an OID, also where a plan does not have that row; None
    where the tables have no such object. Parts of an index are objects too."""
    table = table_of(oid)
    if table is None or len(oid) == len(table.root):
        return None
    number, *row = oid[len(table.root) :]
    is_known = number in table.columns or 1 <= number <= len(table.keys)
    is_row = len(row) == len(table.keys) if table.keys else row == [0]
    if not (is_known and is_row):
        return None
    return Leaf(table, number, tuple(row) if table.keys else ())


def row_of(leaf: Leaf) -> Row:
    """The row as a plan's objects have it: those without an index have index 1."""
    return leaf.row or (1,)


def values_of(plan: Plan) -> Iterator[tuple[Oid, Value]]:
    """All values of a plan, by their OIDs in ascending order: those of the newest version, as a bench that runs the
    plan has them."""
    plan = plan.wide(NEWEST)
    for oid, leaf in plan_leaves().items():
        form = leaf.column.form
        assert form is not None
        yield oid, form.written(plan, row_of(leaf))
