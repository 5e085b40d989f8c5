"""Plan texts, logs and commands in which bytes were changed at random, beside two texts of the session that were not.

What a JSON reader may take or not is left out: escapes that are half a character, numbers beyond a float, deep nesting.
"""
import json
import re

PLAN = {
    "version": 1, "phaseEnabled": {"2": 1, "4": 1}, "phaseRing": {"2": 1, "4": 1}, "phaseSide": {"2": 1, "4": 2},
    "phaseMinimumGreen": {"2": 1, "4": 1}, "phaseMaximum1": {"2": 4, "4": 3}, "phaseMaximum2": {"2": 2, "4": 2},
    "phaseYellowChange": {"2": 30, "4": 30}, "phaseRedClear": {"2": 5, "4": 5}, "phasePassage": {"2": 10, "4": 10},
    "phaseWalk": {"2": 1, "4": 1}, "phasePedestrianClear": {"2": 1}, "phaseMinRecall": {"2": 1},
    "vehicleDetectorCallPhase": {"1": 2, "2": 4, "7": 4, "16": 2}, "pedestrianDetectorCallPhase": {"1": 2, "8": 4},
    "overlapIncludedPhases": {"1": 2, "4": 10}, "preemptDwellPhase": {"1": 2, "2": 8, "4": 8},
    "preemptTrackPhase": {"2": 2}, "sequenceData": {"1": 2, "2": 4},
    "patternCycleTime": {"1": 20}, "patternOffsetTime": {"1": 7}, "patternSplitNumber": {"1": 1},
    "patternSequenceNumber": {"1": 1}, "splitTime": {"2": 11, "4": 9}, "splitCoordPhase": {"2": 1},
}
NUMBERS = ["0", "1", "2", "3", "4", "5", "8", "9", "16", "17", "29", "30", "64", "65", "128", "255", "256", "600", "601",
           "65535", "65536", "4294967295", "4294967296", "00", "01", "-0", "-1", "1.0", "1e1", "+1", "99999999999"]
TOKENS = {
    "plan": ["{", "}", "[", "]", ",", ":", '"', "null", "true", "false", "NaN", "Infinity", "\\", "\\n", "\\u0031", "\\/",
             '""', "{}", "[]", " ", "\t", "\n", "\r\n", "\f", "\x00", "/**/", '"version":1,', '"version":2,', '"x":{},',
             '"phaseWalk":{"2":3},', '"phaseWalk":{"9":3},', '"phaseWalk":5,', '"overlapType":{"1":1},', '"2":1,'],
    "log": [" ", "  ", "\n", "\r\n", "\r", "\t", "#", "# x\n", "0", "1", "2", "0000000", "6000000", "6000001", "9999999",
            "\x00", "0000009 0000000000000000 00000000 0000\n", "0000070 1111111111111111 11111111 1111\n", "-", "+"],
    "commands": [" ", "  ", "\n", "\r\n", "\r", "\t", "#", "\x00", "step 1\n", "undo\n", "show\n", "quit\n", "back 1\n",
                 "seek 0\n", "begin 1\n", "commit 1\n", " on", " off", " none", " P2 G", "-", "+", "x" * 150],
}
LINES = """step 1|step 3|step 12|step 2|show|undo|undo|back 2|back 1|seek 3|seek 0|begin 1|begin 2|set 1 phaseWalk 2 3
    |set 1 phaseYellowChange 2 20|set 1 phaseYellowChange 2 30|set 1 phasePassage 4 20|set 2 splitTime 129 1
    |set 1 phaseConcurrency 2 8|verify 1|verify 1|commit 1|commit 1|abort 1|abort 2|pattern 1|pattern 0|pattern 2
    |preempt 1 on|preempt 2 on|preempt 1 off|preempt 3 on|fault P2 G|fault P4 G|fault P2 R|fault W4 W|fault O4 G
    |fault none|reset|reset|when interval 2|when interval 4|when ped 2|when call 4|when output 7|when alarm 1
    |when stage|when trip|# none||quit""".replace("\n    ", "").split("|")


def a_log(rng):
    """Rows at rising ticks, with comments and blank lines among them."""
    found = []
    for tick in sorted(rng.sample(range(1, 70), rng.randint(1, 9))):
        fields = ["".join(rng.choice("0001") for _ in range(count)) for count in (16, 8, 4)]
        found += [f"{tick:07} {' '.join(fields)}"] + rng.choice([[], [], [], [], ["# a row"], [""], ["   "]])
    return rng.choice(["\n", "\n", "\r\n"]).join(found + [""])


def a_plan(rng):
    """A plan's text, laid out in some way, its members in some order."""
    members = list(PLAN.items())
    if rng.random() < 0.5:
        rng.shuffle(members)
    layout = rng.choice([{"separators": (",", ":")}, {}, {"indent": 1}])
    text = json.dumps(dict(members), **layout)
    if rng.random() < 0.3:
        text = text.replace("phaseW", "phase\\u0057").replace("Ring", "R\\u0069ng")
    return text


def with_other(rng, text, pattern, others):
    """The text with another piece in the place of one that fits a pattern, if there is one."""
    found = list(re.finditer(pattern, text))
    if not found:
        return text
    place = rng.choice(found)
    return text[:place.start()] + rng.choice(others).encode() + text[place.end():]


def changed(rng, text, kind):
    """The text with one change."""
    at = rng.randint(0, len(text))
    behind = min(len(text), at + rng.choice([1, 1, 1, 2, 4, 9, 40]))
    other = rng.randint(0, len(text))
    way = rng.choice(["number", "number", "digit", "digit", "digit", "byte", "bit", "out", "again", "moved", "token",
                      "token", "cut"])
    if way == "number":
        return with_other(rng, text, rb"[0-9]+", NUMBERS)
    if way == "digit":
        return with_other(rng, text, rb"[0-9]", "01" if kind == "log" and rng.random() < 0.7 else "0123456789")
    if way == "byte":
        return text[:at] + bytes([rng.choice([rng.randint(0, 255), rng.randint(32, 126)])]) + text[at + 1:]
    if way == "bit" and at < len(text):
        return text[:at] + bytes([text[at] ^ 1 << rng.randint(0, 7)]) + text[at + 1:]
    if way == "out":
        return text[:at] + text[behind:]
    if way == "again":
        return text[:behind] + text[at:behind] + text[behind:]
    if way == "moved":
        rest, piece = text[:at] + text[behind:], text[at:behind]
        return rest[:other] + piece + rest[other:]
    if way == "token":
        return text[:at] + rng.choice(TOKENS[kind]).encode() + text[at:]
    return text[:at] if rng.random() < 0.3 else text


def is_judged(text):
    """Whether a text has nothing that a JSON reader may take or not, and no command of very many ticks."""
    if any(int(ticks) > 400 for ticks in re.findall(rb"step *([0-9]{1,30})", text)):
        return False
    return not re.search(rb"\\u[dD][89a-fA-F]|[eE][+]?[0-9]{3}|[0-9]{300}", text)


def mangled(rng, seed):
    """A plan text, a log and commands, of which one was changed in a place or some; by the seed, one after another."""
    kind = ["plan", "log", "commands"][seed % 3]
    plan, log = a_plan(rng).encode(), b""
    lines = ["step 20", "preempt 2 on", "pattern 1", "step 20", "when call 4", "when ped 2", "show"]
    if kind != "plan":
        plan = json.dumps(PLAN, separators=(",", ":")).encode()
        log = a_log(rng).encode()
    if kind == "log":
        lines = ["step 70"] + [f"when output {d}" for d in (1, 2, 7, 16)] + ["when stage", "when ped 4"]
    if kind == "commands":
        lines = [rng.choice(LINES) for _ in range(rng.randint(4, 25))]
    texts = {"plan": plan, "log": log, "commands": "".join(line + "\n" for line in lines).encode()}
    while True:
        text = texts[kind]
        for _ in range(rng.choice([1, 1, 1, 1, 2, 4])):
            text = changed(rng, text, kind)
        if is_judged(text):
            break
    texts[kind] = text
    return texts["plan"], texts["log"], texts["commands"]
