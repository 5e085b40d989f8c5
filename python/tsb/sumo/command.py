"""The commands `python3 -m tsb sumo ..`."""

import argparse
import json
import sys
from collections.abc import Sequence
from pathlib import Path
from typing import Any

from tsb.clock import words as clock_words
from tsb.errors import Error, OutOfRange, shown
from tsb.files import word
from tsb.frames import moment, spelled
from tsb.options import Words, called
from tsb.plan import Plan
from tsb.programs import run
from tsb.progress import progress
from tsb.rows import Log
from tsb.sumo import crossroads
from tsb.sumo.draft import Draft
from tsb.sumo.intersection import Intersection
from tsb.sumo.loop import Loop
from tsb.sumo.mapping import Mapping
from tsb.sumo.nema import read_nema
from tsb.sumo.propose import propose, zones
from tsb.sumo.trips import read_trips, summary
from tsb.tasks import POWER_UP, weekday_told

PROGRAM = called("sumo")
OTHERS = ("propose", "nema", "example")  # commands beside a run
SOME = 100  # ticks, after which it is asked whether trips are left


def main(words: Sequence[str]) -> int:
    """Carries out a command; its status."""
    others = dict(zip(OTHERS, (_propose, _nema, _example), strict=True))
    command = others.get(words[0]) if words else None
    try:
        return _run(words) if command is None else command(words[1:])
    except (Error, OSError) as fault:
        print(f"{PROGRAM}: {fault}", file=sys.stderr)
        return 1


def _file(out: Path, tls: str, ending: str) -> Path:
    """A file of a traffic light in a folder. Its name comes from a net, so it may not
    lead out of the folder."""
    name = f"{tls}{ending}"
    if name != Path(name).name or name.startswith(".") or shown(name) != name:
        raise Error(f"the traffic light {shown(tls)!r} cannot name a file: rename it")
    return out / name


# A run


def _run(words: Sequence[str]) -> int:
    given = _words().parse_args(words)
    out: Path = given.out
    if len(given.plan) != len(given.mapping):
        raise Error("as many --plan as --mapping: one of each for an intersection")
    at = [
        Intersection.of(given.net, None, mapping, plan)
        for plan, mapping in zip(given.plan, given.mapping, strict=True)
    ]
    for it in at:
        _file(out, it.tls, ".log")
    clock = _clock(given)
    out.mkdir(parents=True, exist_ok=True)
    with Loop(
        given.net, given.routes.split(","), at,
        additional=given.additional.split(",") if given.additional else (),
        seed=given.seed,
        trips=out / "trips.xml",
        program="sumo-gui" if given.gui else "sumo",
        api=given.api,
        begin=clock,
    ) as loop:  # fmt: skip
        if given.pattern:
            for bench in loop.benches.values():
                bench.set_pattern(given.pattern)
        ticks = _ticks(loop, 10 * given.seconds)
        logs = {it.tls: log_of(loop.rows(it.tls)) for it in at}
    for it, plan in zip(at, given.plan, strict=True):
        _events(given, it.tls, plan, logs[it.tls], ticks, clock)
    _summary(given, ticks, clock)
    return 0


def _start(given: argparse.Namespace) -> str:
    """The time at which tick 1 begins."""
    return spelled(moment(POWER_UP if given.begin is None else given.begin, "--from"))


def _clock(given: argparse.Namespace) -> str | None:
    """The time to which the clocks of the benches are set, if they are: where one is
    named, or where a plan has a schedule."""
    start = _start(given)
    if given.no_clock:
        return None
    if given.begin is None:
        of = next((it for it in given.plan if Plan.read(it).has_schedule), None)
        if of is None:
            return None
        print(f"{weekday_told(of, start)}; --from names another, --no-clock none")
    try:
        clock_words(start, dated=True)
    except OutOfRange as fault:
        raise Error(f"--from: {fault}; with --no-clock any time will do") from None
    return start


def _words() -> Words:
    words = Words(
        prog=PROGRAM,
        others=OTHERS,
        description="Runs plans on traffic of SUMO that reacts to them.",
        epilog=f"Other commands: {', '.join(OTHERS)}; each has --help.",
    )
    words.add_argument("net", help="SUMO's net")
    words.add_argument("routes", help="SUMO's routes, several with commas between")
    words.add_argument("--plan", action="append", required=True)
    words.add_argument("--mapping", action="append", required=True)
    words.add_argument("--additional", default="", help="files with the detectors")
    words.add_argument("--seconds", type=int, default=3600)
    words.add_argument("--seed", type=int)
    words.add_argument("--pattern", type=int, default=0)
    words.add_argument("--out", type=Path, default=Path("sumo_out"), metavar="FOLDER")
    words.add_argument(
        "--from", dest="begin", metavar="TIME",
        help="when tick 1 begins; the clocks of the benches are set to it",
    )  # fmt: skip
    words.add_argument(
        "--no-clock", action="store_true", help="offsets count from tick 0, not midnight"
    )
    words.add_argument("--api", choices=["libsumo", "traci"])
    words.add_argument("--gui", action="store_true", help="show it in sumo-gui")
    return words


def _ticks(loop: Loop, most: int) -> int:
    """Runs so long, or until all trips have ended: how many ticks that were."""
    for _ in progress(range(0, most, SOME), "sumo"):
        if not loop.call("simulation.getMinExpectedNumber"):
            break
        loop.run(min(SOME, most - loop.tick))
    return loop.tick


def log_of(rows: list[str]) -> Log:
    """The log of rows from tick 1 on: a row where it changes."""
    before = [None, *rows]
    return Log.of(
        (tick, row) for tick, row in enumerate(rows, 1) if row != before[tick - 1]
    )


def _events(
    given: argparse.Namespace,
    tls: str,
    plan: str,
    log: Log,
    ticks: int,
    clock: str | None,
) -> None:
    """Writes the log of an intersection, and the events of a run on it."""
    path = _file(given.out, tls, ".log")
    log.write(path)
    commands = f"pattern {given.pattern}\n" if given.pattern else ""
    words = ["record", f"--from={_start(given)}", f"--device={tls}", word(plan)]
    words += [word(path), *["--no-clock"] * (clock is None)]
    done = run("tsb_field", words, f"{commands}step {ticks}\n".encode())
    _file(given.out, tls, ".events.csv").write_bytes(done.stdout)


def _summary(given: argparse.Namespace, ticks: int, clock: str | None) -> None:
    """Writes trips and summary, and shows the summary."""
    out: Path = given.out
    trips = read_trips(out / "trips.xml")
    trips.to_csv(out / "trips.csv", index=False)
    table = summary(trips)
    told: dict[str, Any] = {
        "net": given.net,
        "routes": given.routes,
        "plans": given.plan,
        "pattern": given.pattern,
        "seed": given.seed,
        "seconds": ticks / 10,
        **({} if clock is None else {"from": clock}),
        "trips": table.to_dict(orient="index"),
    }
    (out / "summary.json").write_text(json.dumps(told, indent=1) + "\n")
    print(f"{ticks / 10:.0f} s; of the trips, by kind, in seconds:")
    print(table.to_string())
    print(f"{out}: trips.csv, summary.json, and of each light .log and .events.csv")


# Drafts


def _propose(words: Sequence[str]) -> int:
    of = Words(
        prog=f"{PROGRAM} propose",
        description="Begins a plan and a mapping for a traffic light of a net, by the"
        " directions of its links, and says what was guessed.",
    )
    of.add_argument("net")
    of.add_argument("tls", nargs="?", help="its name; without it all are listed")
    of.add_argument("--additional", default="", help="files with the detectors")
    of.add_argument("--main", metavar="EDGE", help="an edge of the main street")
    of.add_argument("--out", type=Path, default=Path(), metavar="FOLDER")
    given = of.parse_args(words)
    if given.tls is None:
        from tsb.sumo.net import read_net

        print(*(it.getID() for it in read_net(given.net).getTrafficLights()), sep="\n")
        return 0
    files = given.additional.split(",") if given.additional else []
    draft = propose(given.net, given.tls, files, given.main)
    _write(given.out, given.tls, draft)
    if not files:
        path = _file(given.out, given.tls, ".zones.xml")
        path.write_text(zones(given.net, given.tls))
        print(f"wrote {path}, a zone at each stop line")
    return 0


def _nema(words: Sequence[str]) -> int:
    of = Words(
        prog=f"{PROGRAM} nema",
        description="Makes a plan and a mapping of a tlLogic of type NEMA.",
    )
    of.add_argument("net")
    of.add_argument("program", help="the file that has the tlLogic")
    of.add_argument("tls")
    of.add_argument("--out", type=Path, default=Path(), metavar="FOLDER")
    given = of.parse_args(words)
    _write(given.out, given.tls, read_nema(given.net, given.program, given.tls))
    return 0


def _write(out: Path, tls: str, draft: Draft) -> None:
    """Writes a draft, and says what to look at."""
    plan, mapping = _file(out, tls, ".plan.json"), _file(out, tls, ".mapping.json")
    out.mkdir(parents=True, exist_ok=True)
    draft.plan.write(plan)
    draft.mapping.write(mapping)
    print(f"wrote {plan} and {mapping}; look at this:")
    fault = draft.plan.fault()
    for note in [*draft.notes, *([] if fault is None else [str(fault)])]:
        print(f"- {note}")


def _example(words: Sequence[str]) -> int:
    of = Words(
        prog=f"{PROGRAM} example",
        description="Writes an intersection with its traffic, to try things on.",
    )
    of.add_argument("folder", type=Path)
    of.add_argument("--level", choices=crossroads.LEVELS, default="medium")
    of.add_argument("--seed", type=int, default=1)
    of.add_argument("--seconds", type=int, default=3600)
    of.add_argument("--pedestrians", action="store_true")
    of.add_argument(
        "--arrows", action="store_true", help="left turns have flashing yellow arrows"
    )
    of.add_argument("--engines", type=int, default=0, metavar="SECONDS")
    given = of.parse_args(words)
    folder: Path = given.folder
    crossroads.build(folder, given.pedestrians, given.arrows)
    crossroads.demand(
        folder / "routes.xml", given.level, given.seed, given.seconds,
        given.pedestrians, given.engines,
    )  # fmt: skip
    plan = crossroads.plan(pattern=True)
    if given.pedestrians:
        crossroads.with_pedestrians(plan)
    if given.arrows:
        plan = crossroads.with_arrows(plan)
    plan.write(folder / "plan.json")
    mapping = Mapping.read(folder / "mapping.json")
    print(f"{folder}: net.xml, detectors.xml, routes.xml, plan.json, mapping.json")
    print(f"of the light {mapping.tls}; its pattern 1 is a cycle of 110 s. Run it:")
    print(
        f"{PROGRAM} {folder}/net.xml {folder}/routes.xml --plan {folder}/plan.json"
        f" --mapping {folder}/mapping.json --additional {folder}/detectors.xml --seed 1"
    )
    return 0
