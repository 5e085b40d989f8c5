"""The line of a status as tsb_status_text writes it, from what reference_status.py finds of a state of the reference.

`line_of` puts each group of status objects into an object of its own, names states as docs/work/DECISIONS.md has it
under "What a status says", and leaves out the parts that a wait of its kind does not have. It writes with Python's own
JSON, so a line that is the same is JSON.
"""
import json
from typing import Any

PHASES = ("Reds", "Yellows", "Greens", "DontWalks", "PedClears", "Walks", "VehCalls", "PedCalls", "PhaseOns", "PhaseNexts")
GROUPS = {
    "phaseStatusGroup": PHASES,
    "overlapStatusGroup": ("Reds", "Yellows", "Greens", "FlashingYellows"),
    "vehicleDetectorStatusGroup": ("Active", "Alarms"),
}
PARTS = ("minimumGreen", "extension", "maximum", "greenRest", "yellowChange", "redClearance", "redRest")
PREEMPT_STATES = {2: "notActive", 3: "notActiveWithCall", 4: "entryStarted", 5: "trackService", 6: "dwell",
                  8: "exitStarted", 9: "maxPresence"}
FREE_STATES = {2: "notFree", 3: "commandFree", 7: "badPlan"}
FLASH_STATES = {2: "notFlash", 6: "mmu"}
COORDINATION = ("coordPatternStatus", "localFreeStatus", "localCounter", "coordSyncStatus")
# What a wait of each kind names beside its phase.
WITH_PHASE = ("next", "clears", "across", "beside", "crossing", "barrier", "green", "conflict", "trails")


def lower(name: str) -> str:
    """A name that begins with a small letter."""
    return name[0].lower() + name[1:]


def group(status: dict[str, Any], name: str) -> dict[str, Any]:
    """A group of status objects."""
    return {lower(member): status[name + member] for member in GROUPS[name] if name + member in status}


def ring(told: dict[str, Any]) -> dict[str, Any]:
    """A ring, with its part by name."""
    return told | {"ringStatus": PARTS[told["ringStatus"]]}


def wait(told: dict[str, Any]) -> dict[str, Any]:
    """A wait with the parts of its kind: the first that it has is what it waits for."""
    parts = {"phase": told["phase"], "for": told["kind"]}
    if told["kind"] == "preempted":
        parts["preempt"] = told["number"]
    if told["kind"] in WITH_PHASE:
        parts["of"] = told["number"]
    return parts | {name: told[name] for name in ("overlap", "lack", "left") if told[name] is not None}


def nested(status: dict[str, Any]) -> dict[str, Any]:
    """The status as its line has it."""
    coordination = {name: status[name] for name in COORDINATION}
    coordination["localFreeStatus"] = FREE_STATES[status["localFreeStatus"]]
    return {
        "tick": status["tick"],
        **{name: group(status, name) for name in GROUPS},
        "preemptState": [PREEMPT_STATES[state] for state in status["preemptState"]],
        **coordination,
        "unitFlashStatus": FLASH_STATES[status["unitFlashStatus"]],
        "desk": {"owner": status["deskOwner"], "state": lower(status["deskState"])},
        "rings": [ring(told) for told in status["rings"]],
        "waits": [wait(told) for told in status["waits"]],
    }


def line_of(status: dict[str, Any]) -> str:
    """The line of a status that `status_of` of reference_status.py found."""
    return json.dumps(nested(status), separators=(",", ":"))
