"""What a page gets of a bench: its status in words and numbers."""

from datetime import datetime
from typing import Any

from tsb.lines import OVERLAPS, WIDTH
from tsb.manual import NEWEST, OBJECTS, RULES
from tsb.panel import words
from tsb.panel.layout import Layout, layout_of
from tsb.panel.run import Run, is_tripped
from tsb.programs import marked
from tsb.rows import fields
from tsb.status import Edits, Status
from tsb.values import RINGS, SEQUENCES, parts_of

GIVEN_SHOWN = 100  # inputs that a page lists, the newest


def state_of(run: Run) -> dict[str, Any]:
    """All that a page shows, except pictures and the plan."""
    bench, tape, now = run.bench, run.tape, run.now
    hands, given, lamp = tape.hands(now), tape.before(now), tape.lamp(now)
    shown = bench.show()
    row = tape.row(now + 1) if tape.end > now else next(tape.next_rows(now, 1))[0]
    return {
        "now": now,
        "clock": _shown(bench.time),
        "end": tape.end,
        "log_end": max(tape.log.ticks, default=0),
        "line": shown.line[: WIDTH - 1],
        "overlaps": shown.overlaps.ljust(OVERLAPS[1], "-"),
        "row": "".join(fields(row)),
        "hands": {where: hand.at(now + 1) for where, hand in sorted(hands.items())},
        "switches": sorted(tape.switches(now)),
        "lamp": None if lamp is None else f"{lamp.head} {lamp.lamp}",
        "given": [
            {"tick": it.tick, "line": it.what.line} for it in given[-GIVEN_SHOWN:]
        ],
        "given_count": len(given),
        "source": marked(run.source.name),
        "saved": run.is_saved,
        **_told(bench.status),
        "desk": _desk(bench.edits, run),
    }


def _shown(moment: datetime | None) -> str | None:
    """What the clock shows when the next tick begins."""
    return None if moment is None else moment.isoformat(" ", "milliseconds")[:-2]


def _told(status: Status) -> dict[str, Any]:
    """The status of the controller."""
    phases = status.phases
    return {
        "on": sorted(phases.phase_ons),
        "next": sorted(phases.phase_nexts),
        "vehicle_calls": sorted(phases.veh_calls),
        "pedestrian_calls": sorted(phases.ped_calls),
        "active": sorted(status.detectors.active),
        "alarms": sorted(status.detectors.alarms),
        "rings": [
            {
                "says": words.ring(it),
                "phase": it.phase,
                "next": it.next,
                "gap": it.gap,
                "left": words.left_of(it),
            }
            for it in status.rings
        ],
        "flashing": sorted(status.overlaps.flashing_yellows),
        "waits": [
            {"phase": it.phase, "says": it.words} for it in status.waits.values()
        ],
        "preempts": [words.PREEMPTS.get(it, it) for it in status.preempt_state],
        "pattern": words.pattern(status),
        "local": status.local_counter,
        "sync": status.coord_sync_status,
        "tripped": is_tripped(status),
        "flash": words.flash(status),
    }


def _desk(edits: Edits, run: Run) -> dict[str, Any]:
    rule = None if edits.rule is None else RULES.get(edits.rule)
    return {
        "owner": edits.owner,
        "state": edits.state,
        "says": words.DESK.get(edits.state, edits.state),
        "rule": None if rule is None else vars(rule),
        "places": run.places(edits.rule),
        "edits": [{**vars(it), "unit": OBJECTS[it.object].unit} for it in edits.edits],
    }


def plan_told(run: Run, layout: Layout | None) -> dict[str, Any]:
    """What a page draws of a plan, and its values by object and index."""
    plan = run.plan
    return {
        "serial": run.serial,
        "phases": sorted(plan.phases),
        "sides": {it: plan["phaseSide"][it] for it in sorted(plan.phases)},
        "sequences": {
            number: [plan.sequence(number, ring + 1) for ring in range(RINGS)]
            for number in range(1, SEQUENCES + 1)
        },
        "sequence_of": dict(plan["patternSequenceNumber"]),
        "layout": layout_of(plan, layout).told(),
        "detectors": dict(plan["vehicleDetectorCallPhase"]),
        "buttons": dict(plan["pedestrianDetectorCallPhase"]),
        "preempts": sorted(plan["preemptDwellPhase"]),
        "patterns": sorted(plan["patternCycleTime"]),
        "values": {name: dict(values) for name, values in plan.items()},
        "committed": [
            {**vars(it), "unit": OBJECTS[it.name].unit}
            for it in run.file_plan.diff(plan)
        ],
    }


def objects_told() -> dict[str, Any]:
    """What the manual says of each object, for the desk."""
    return {
        name: {
            "index": it.index,
            "count": it.count,
            "range": it.range(NEWEST),
            "greatest": it.greatest,
            "unit": it.unit,
            "structural": it.structural,
            "meaning": it.meaning,
            "parts": [[part, *of] for part, of in parts_of(it).items()],
        }
        for name, it in OBJECTS.items()
    }
