"""Sessions with what offsets are counted to: those of option_families.py, in texts of version 3.

`counted` gives the plan, the log and the commands of a seed: those of `options`, with a value of `coordReference` from
the begin, and up to two more by commits at any place of the session.
"""
import json
import random
from typing import Any

from tools.reference.option_families import options
from tools.reference.session_families import commit

REFERENCE, MOST = "coordReference", 5


def counted(reference: Any, rng: random.Random, seed: int) -> tuple[dict[str, Any], str, list[str]]:
    """The plan, log and commands of a session."""
    plan, log, commands = options(reference, rng, seed)
    plan = json.loads(json.dumps(plan)) | {"version": 3, REFERENCE: {"1": rng.randint(0, MOST)}}
    commands = list(commands)
    for _ in range(rng.randint(0, 2)):
        place = rng.randint(0, len(commands))
        commands[place:place] = commit(1, [(REFERENCE, 1, rng.randint(0, MOST))])
    return plan, log, commands
