"""A status in words: what docs/use/LIVE.md has by names, as a person says it."""

from tsb.status import RingStatus, Status

PARTS = {
    "minimumGreen": "green, in its minimum",
    "extension": "green, extended",
    "maximum": "green, gap over, another waits",
    "greenRest": "green, at rest",
    "yellowChange": "yellow change",
    "redClearance": "red clearance",
    "redRest": "red, at rest",
}
PREEMPTS = {
    "notActive": "off",
    "notActiveWithCall": "called",
    "entryStarted": "entering",
    "trackService": "track stage",
    "dwell": "dwell stage",
    "exitStarted": "exit stage",
    "maxPresence": "over its maximum presence",
}
FREE = {
    "commandFree": "free operation",
    "badPlan": "free operation: the pattern has no cycle",
}
DESK = {
    "normal": "nobody's: a station can begin",
    "transaction": "open, with edits as yet not verified",
    "verify": "verified: with these edits the plan breaks a rule",
    "done": "verified: the edits can be committed",
}
FREE_PATTERN = 254


def left_of(ring: RingStatus) -> dict[str, int | None]:
    """What is left of the times of a ring, in tenths of a second, by their names."""
    return {
        "minimum": ring.initial_left,
        "gap": ring.gap_left,
        "maximum": ring.maximum_left,
        "walk": ring.walk_left,
        "clearance": ring.clearance_left,
        "yellow": ring.yellow_left,
        "red clearance": ring.red_clearance_left,
        "force-off": ring.force_off_in,
    }


def ring(told: RingStatus) -> str:
    """The status of a ring in a sentence."""
    part = PARTS.get(told.ring_status, told.ring_status)
    text = part if told.phase is None else f"phase {told.phase} {part}"
    return text if told.next is None else f"{text}; next phase {told.next}"


def pattern(told: Status) -> str:
    """The pattern that runs."""
    if told.coord_pattern_status == FREE_PATTERN:
        return FREE.get(told.local_free_status, "free operation")
    return f"pattern {told.coord_pattern_status}"


def flash(told: Status) -> str:
    """What the trip of the monitor means."""
    return "all flashes red until a reset" if told.unit_flash_status == "mmu" else "no"
