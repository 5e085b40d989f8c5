"""Texts that tools/speed gives to programs: random logs, plans of some size, large plan texts and an export."""

import heapq
import json
import pathlib
import random
from collections.abc import Iterator

from tools.programs import field_rules
from tools.programs.field_cases import BEGIN

WORD = (1 << 64) - 1

# The most bytes of a plan text and of a log.
LONGEST_PLAN, LONGEST_LOG = 1 << 20, 64 << 20

# How many seconds lie between the first and the last row of an export.
EXPORT_SECONDS = 500_000

# The row of a log before any input changes, and the places of vehicle detector 1 and pedestrian detectors 2 and 8.
ROW = b"0000000 0000000000000000 00000000 0000\n"
VEHICLE, PEDESTRIAN, LAST_PEDESTRIAN = 8, 26, 32


class Chance:
    """The random numbers of crates/tsb_runs: xorshift64*."""

    def __init__(self, number: int) -> None:
        self.state = 0x9E37_79B9_7F4A_7C15 ^ number

    def below(self, most: int) -> int:
        """The next number, which is below `most`."""
        state = self.state
        state ^= state << 13 & WORD
        state ^= state >> 7
        state ^= state << 17 & WORD
        self.state = state
        return (state * 0x2545_F491_4F6C_DD1D & WORD) // 2048 % most


def random_changes(number: int, ticks: int, detectors: int) -> Iterator[tuple[int, list[int]]]:
    """The ticks in which inputs change, and the places of these: vehicle detectors from 0 on, and then pedestrian
    detector 2. The first change every 3 to 10 seconds, the other every 20 to 120."""
    chance = Chance(number)
    due = [(1 + chance.below(100), place) for place in range(detectors + 1)]
    heapq.heapify(due)
    while due[0][0] <= ticks:
        tick, places = due[0][0], []
        while due[0][0] == tick:
            place = due[0][1]
            places.append(place)
            pause = 30 + chance.below(71) if place < detectors else 200 + chance.below(1000)
            heapq.heapreplace(due, (tick + pause, place))
        yield tick, places


def random_log(number: int, ticks: int, detectors: int = 8) -> bytes:
    """The log of this number, of at most 16 vehicle detectors. With 8 it is the log that crates/tsb_runs makes."""
    row, found = bytearray(ROW), bytearray()
    for tick, places in random_changes(number, ticks, detectors):
        for place in places:
            row[VEHICLE + place if place < detectors else PEDESTRIAN] ^= 1
        row[:7] = b"%07d" % tick
        found += row
    return bytes(found)


def random_lists(number: int, ticks: int, detectors: int) -> bytes:
    """The log of this number in lists."""
    on, found = set[int](), []
    for tick, places in random_changes(number, ticks, detectors):
        on ^= set(places)
        vehicles = ",".join(str(place + 1) for place in sorted(on - {detectors}))
        lists = [f" V{vehicles}"] * bool(vehicles) + [" P2"] * (detectors in on)
        found.append(f"{tick:07}{''.join(lists)}\n")
    return "".join(found).encode()


def restless_log(number: int, ticks: int) -> bytes:
    """The log of this number with a row for each tick: pedestrian detector 8, which calls nothing, changes in each. So
    no tick has the inputs of the one before."""
    rows = {int(it[:7]): it for it in random_log(number, ticks).splitlines(keepends=True)}
    row, found = bytearray(ROW), bytearray()
    for tick in range(1, ticks + 1):
        row[:] = rows.get(tick, bytes(row))
        row[:7] = b"%07d" % tick
        row[LAST_PEDESTRIAN] = b"01"[tick % 2]
        found += row
    return bytes(found)


def changing_log(ticks: int, detectors: int) -> bytes:
    """A log with a row for each tick, in which as many vehicle detectors are other than in the row before."""
    rows = [b"%s%s 00000000 0000\n" % (digit * detectors, b"0" * (16 - detectors)) for digit in (b"0", b"1")]
    return b"".join(b"%07d " % tick + rows[tick % 2] for tick in range(1, ticks + 1))


def longest_log() -> bytes:
    """A log of as many rows as 64 MiB hold."""
    return changing_log(LONGEST_LOG // len(ROW), 1)


def plan_of(phases: int, detectors: int = 16) -> bytes:
    """A plan of 2, 4, 8 or 16 phases: as many in each of two rings and on each of two sides. But 2 phases have one
    ring, and 16 have four sides.

    So many vehicle detectors call the phases in turn, and pedestrian detector 2 phase 2.
    """
    ring = max(phases // 2, 2)
    numbers = range(1, phases + 1)
    sides = {p: 1 + (p - 1) % ring * (4 if phases == 16 else 2) // ring for p in numbers}
    rings = {p: 1 + (p - 1) // ring for p in numbers}
    beside = {p: sum(1 << q - 1 for q in numbers if sides[q] == sides[p] and rings[q] != rings[p]) for p in numbers}
    plan: dict[str, dict[int, int]] = {
        "phaseEnabled": dict.fromkeys(numbers, 1), "phaseRing": rings, "phaseSide": sides, "phaseConcurrency": beside,
        "phaseWalk": {2: 4}, "phasePedestrianClear": {2: 6}, "pedestrianDetectorCallPhase": {2: 2},
        "phaseMinRecall": dict.fromkeys(range(2, phases + 1, ring), 1),
        "phaseDualEntry": dict.fromkeys(range(2, phases + 1, 2), 1), "unitRedRevert": {1: 20},
        "vehicleDetectorCallPhase": {d: 1 + (d - 1) % phases for d in range(1, detectors + 1)},
        "sequenceData": {16 * (rings[p] - 1) + (p - 1) % ring + 1: p for p in numbers},
    }
    for name, value in [("MinimumGreen", 5), ("Maximum1", 20), ("Maximum2", 20), ("Passage", 20), ("MinimumGap", 20),
                        ("YellowChange", 30), ("RedClear", 10)]:
        plan[f"phase{name}"] = dict.fromkeys(numbers, value)
    return json.dumps({"version": 2 if detectors <= 16 else 3, **plan}).encode()


def advised_plan() -> bytes:
    """A plan of eight phases with advices for many detectors, and in each pattern for the crossings."""
    plan = json.loads(pathlib.Path("examples/quad.json").read_bytes())
    plan["phaseWalk"] = {str(p): 10 for p in range(1, 9)}
    plan["phasePedestrianClear"] = {str(p): 20 for p in range(1, 9)}
    plan["vehicleDetectorDelay"] = {str(d): 1 for d in range(9, 17)}
    for name, first in [("patternCycleTime", 80), ("patternSplitNumber", 1), ("patternSequenceNumber", 1)]:
        plan[name] = {str(n): first for n in range(1, 17)}
    return json.dumps(plan).encode()


def filled(start: str, piece: str, end: str) -> bytes:
    """A text of so many pieces, one after another, that it is as long as a plan text may be."""
    return (start + piece * ((LONGEST_PLAN - len(start) - len(end)) // len(piece)) + end).encode()


def plan_texts() -> dict[str, bytes]:
    """Plan texts by what they are."""
    quad = pathlib.Path("examples/quad.json").read_text()
    rest = quad.lstrip().removeprefix("{")
    return {
        "`quad`": quad.encode(),
        "1 MiB that is read: one object again and again": filled("{", '"phaseWalk":{"2":4},', rest),
        "1 MiB that is read: one index again and again": filled('{"phaseWalk":{', '"2":4,', '"2":4},' + rest),
        "1 MiB that is refused: one index again and again":
            filled('{"phaseAddedInitial":{', '"2":4,', '"2":256},' + rest),
        "1 MiB that is refused: one member again and again": filled("{", '"a":[],', rest),
        "1 MiB that is refused: a member that is one long string": filled('{"a":"', "x", '",' + rest),
        "1 MiB that is refused: a member that is one array of numbers": filled('{"a":[', "0,", "0]," + rest),
    }


def export_rows(rows: int, seed: int) -> Iterator[bytes]:
    """An export of events in order: inputs of 16, 8 and 4 channels, and codes that are passed over."""
    chance = random.Random(seed)
    moments = sorted(chance.randrange(10 * EXPORT_SECONDS) for _ in range(rows))
    codes = [82, 81] * 8 + [90, 89, 102, 104, 1, 7, 8, 9, 10, 11, 43, 44]
    yield field_rules.HEADER
    for at in moments:
        time_text = field_rules.time_text(BEGIN + at * field_rules.TENTH)
        yield b"1001,%s,%d,%d\n" % (time_text, chance.choice(codes), chance.randint(1, 4))
