"""Each measure on a case that was worked by hand."""

from functools import partial
from pathlib import Path

import pandas as pd
import pytest
from tsb import Event, Log, Plan, frames, measures
from tsb.tasks import record, recorded


def table(*events: tuple[int, int, int]) -> pd.DataFrame:
    """Events of tick, code and parameter."""
    return frames.of_events(Event(*it) for it in events)


def rows(found: pd.DataFrame) -> list[tuple[object, ...]]:
    """The rows of a table, with None for what is not known."""
    plain = found.astype(object).where(found.notna(), None)
    return [tuple(it) for it in plain.itertuples(index=False)]


# Phase 2 is green from tick 1, and ends by its gap at 51: yellow to 80, red clearance
# 81 to 90. Phase 4 then is green from 91 to its maximum at 291, with no red clearance.
# A preempt ends the second green of phase 2 at 400, which is still yellow at the end.
TWO = table(
    (1, 1, 2),
    (51, 4, 2), (51, 7, 2), (51, 8, 2),
    (81, 9, 2), (81, 10, 2),
    (91, 11, 2), (91, 12, 2), (91, 1, 4),
    (291, 5, 4), (291, 7, 4), (291, 8, 4),
    (321, 9, 4), (321, 12, 4), (321, 1, 2),
    (400, 7, 2), (400, 8, 2),
)  # fmt: skip


def test_greens() -> None:
    """Ticks, seconds and the cause of each green."""
    assert rows(measures.greens(TWO)) == [
        (2, 1, 51, 5.0, "gap"),
        (4, 91, 291, 20.0, "maximum"),
        (2, 321, 400, 7.9, "other"),
    ]


def test_a_green_that_goes_on_has_no_end() -> None:
    """It has no length and no cause, and one that began before is left out."""
    found = measures.greens(table((5, 4, 6), (5, 7, 6), (9, 1, 2)))
    assert rows(found) == [(2, 9, None, None, None)]


def test_splits() -> None:
    """Green, yellow and red clearance add up to the split."""
    assert rows(measures.splits(TWO)) == [
        (2, 1, 91, 5.0, 3.0, 1.0, 9.0),
        (4, 91, 321, 20.0, 3.0, 0.0, 23.0),
        (2, 321, None, 7.9, None, None, None),
    ]


def test_splits_of_a_phase_that_waits() -> None:
    """Red clearance times from 81 to 90, and the phase waits for the other ring to
    110; without a time it begins and ends in a tick."""
    events = table(
        (1, 1, 2), (51, 7, 2), (81, 10, 2), (91, 11, 2), (111, 12, 2),
        (120, 1, 2), (140, 7, 2), (170, 10, 2), (170, 11, 2), (180, 12, 2),
    )  # fmt: skip
    assert rows(measures.splits(events)) == [
        (2, 1, 111, 5.0, 3.0, 1.0, 11.0),
        (2, 120, 180, 2.0, 3.0, 0.0, 6.0),
    ]


def test_terminations() -> None:
    """A row for a phase, a column for a cause; what goes on is not counted."""
    found = measures.terminations(TWO)
    assert list(found.columns) == ["gap", "maximum", "force-off", "other"]
    assert found.loc[2].to_list() == [1, 0, 0, 1]
    assert found.loc[4].to_list() == [0, 1, 0, 0]


def test_waits() -> None:
    """From the call to the green. The call of 10 went at 30 unserved; that of 40 is
    served at 91, as code 44 says in the same tick; that of 300 waits still."""
    events = table(
        (10, 43, 4), (30, 44, 4), (40, 43, 4), (91, 1, 4), (91, 44, 4), (300, 43, 4)
    )  # fmt: skip
    assert rows(measures.waits(events)) == [
        (4, 40, 91, 5.1),
        (4, 300, None, None),
    ]


def test_walk_waits() -> None:
    """From the button to the walk; a second press before it counts for nothing."""
    events = table((70, 45, 4), (70, 90, 1), (73, 89, 1), (415, 21, 4), (500, 22, 4))
    assert rows(measures.walk_waits(events)) == [(4, 70, 415, 34.5)]


def test_arrivals() -> None:
    """Phase 2 is green from 1 to 50, yellow from 51 to 80. Cars on detector 12 come
    at 1, 50, 51, 80 and 81: two, two and one. Detector 3 calls no phase."""
    cars = [(tick, 82, 12) for tick in (1, 50, 51, 80, 81)]
    events = table((1, 1, 2), (51, 7, 2), (51, 8, 2), (81, 9, 2), (20, 82, 3), *cars)
    found = measures.arrivals(events, {12: 2, 3: 0})
    assert rows(found.reset_index()) == [(2, 2, 2, 1, 5, 0.4)]


def test_preempts() -> None:
    """The worst moment of docs/use/FIELD.md, with the input of the train at tick 172:
    both rings had to go on to phases 4 and 8, and phase 7 is green 16.3 s later."""
    plan = Plan()
    plan["preemptTrackPhase"][1] = {4, 7}
    plan["preemptDwellPhase"][1] = {2, 6}
    events = table(
        (1, 1, 2), (1, 1, 6),
        (171, 7, 2), (171, 7, 6),
        (172, 102, 1), (172, 105, 1), (172, 106, 1),
        (229, 1, 4), (229, 1, 8), (279, 7, 8), (335, 1, 7),
        (400, 107, 1), (450, 104, 1), (450, 111, 1),
    )  # fmt: skip
    found = measures.preempts(events, plan)
    assert rows(found) == [(1, 172, 172, 172, 335, 400, 450, 16.3)]


def test_preempts_without_a_request() -> None:
    """None comes before the service. Without track phases the green is that of the
    dwell, here lit already."""
    plan = Plan()
    plan["preemptDwellPhase"][2] = {2}
    found = measures.preempts(table((1, 1, 2), (60, 105, 2), (60, 107, 2)), plan)
    assert rows(found) == [(2, None, 60, None, 60, 60, None, None)]


def test_preempts_of_inputs_and_switches() -> None:
    """In one tick an input goes as the switch comes, which asks anew; and where none
    asked, a switch comes and goes, which asks for nothing."""
    plan = Plan()
    plan["preemptDwellPhase"] = {1: {2}, 2: {2}}
    lit = (1, 1, 2)
    anew = table(lit, (5, 102, 1), (9, 104, 1), (9, 102, 1), (19, 105, 1))
    assert rows(measures.preempts(anew, plan))[0][:5] == (1, 9, 19, None, 19)
    gone = table(lit, (9, 102, 1), (9, 104, 1), (19, 105, 1))
    assert rows(measures.preempts(gone, plan))[0][:3] == (1, None, 19)
    other = table(lit, (5, 102, 2), (9, 102, 1), (9, 104, 2), (19, 105, 1))
    assert rows(measures.preempts(other, plan))[0][:3] == (1, 9, 19)


def test_the_request_of_a_switch(top: Path) -> None:
    """The switch is turned on after tick 171, and acts in the next tick: its event is a
    tenth of a second before that of the input of the worst moment above."""
    path = top / "examples/railroad.json"
    log = Log.read(top / "examples/railroad.log")
    events = recorded(path, log, "step 171\npreempt 1 on\nstep 300\n")
    found = rows(measures.preempts(events, Plan.read(path)))[0]
    assert found[:5] == (1, 171, 172, 335, 335) and found[7] == 16.4


def test_records_of_each_form(top: Path) -> None:
    """With calls of recalls there are more of codes 43 to 45, of the phases on recall;
    with outputs detector 8, which has a delay of 5 s, is on less often than its input.
    All else is the same."""
    path = top / "examples/main_and_oak.json"
    log = Log.read(top / "examples/hour_of_traffic.log")
    run = partial(record, path, log, 3600)
    usual, recalls, outputs = run(), run(recalls=True), run(outputs=True)
    calls, detectors = (43, 44, 45), (81, 82)
    for other, codes in ((recalls, calls), (outputs, detectors)):
        a, b = (it[~it["code"].isin(codes)].reset_index(drop=True)
                for it in (usual, other))  # fmt: skip
        pd.testing.assert_frame_equal(a, b)
    on_recall = Plan.read(path)["phaseMinRecall"]
    waited = {name: set(measures.waits(it)["phase"])
              for name, it in (("usual", usual), ("recalls", recalls))}  # fmt: skip
    assert waited["recalls"] - waited["usual"] == {2, 6} == {*on_recall}
    own = recalls[~(recalls["code"].isin(calls) & recalls["parameter"].isin([2, 6]))]
    pd.testing.assert_frame_equal(own.reset_index(drop=True), usual)
    on = [len(it.query("code == 82 and parameter == 8")) for it in (usual, outputs)]
    assert 0 < on[1] < on[0]
    both = run(recalls=True, outputs=True)
    assert len(both) - len(outputs) == len(recalls) - len(usual) > 100


def test_arrows() -> None:
    """Two flashes of overlap 1, one of overlap 2 that goes on, and an end of overlap 3
    whose begin is before the first event. A protected green (61) is none."""
    events = table(
        (5, 33, 3), (21, 32, 1), (61, 33, 1), (61, 63, 1),
        (100, 61, 1), (150, 63, 1), (200, 32, 1), (200, 32, 2), (205, 33, 1),
    )  # fmt: skip
    assert rows(measures.arrows(events)) == [
        (1, 21, 61, 4.0), (1, 200, 205, 0.5), (2, 200, None, None),
    ]  # fmt: skip


def test_no_events() -> None:
    """A run without events has empty tables."""
    for name, measure in measures.MEASURES.items():
        assert len(measure(table(), Plan())) == 0, name


@pytest.mark.parametrize("name", ["quad", "main_and_oak"])
def test_terminations_are_those_of_the_document(top: Path, name: str) -> None:
    """The counts of docs/use/FIELD.md for an hour of traffic, by the same programs."""
    from tsb import Bench

    with Bench(
        top / f"examples/{name}.json", top / "examples/hour_of_traffic.log"
    ) as it:
        it.step(36000)
        found = measures.terminations(frames.of_events(it.events))
    said = (
        (top / "docs/use/FIELD.md")
        .read_text()
        .split(f"\n{name}: phase, gap, maximum")[1]
    )
    for line in said.splitlines()[1:9]:
        phase, *counts = map(int, line.split())
        assert found.loc[phase].to_list()[:3] == counts
