"""What a page asks of its bench, one request after another."""

from typing import Any

from tsb.bench import Saved
from tsb.errors import Error, ProgramDied
from tsb.manual import LAST_TICK, RULES
from tsb.panel.keep import Keep, Source
from tsb.panel.layout import Layout
from tsb.panel.requests import (
    Advance,
    Again,
    Drop,
    Find,
    Free,
    Go,
    Hold,
    Load,
    Look,
    Mark,
    Pulse,
    Request,
    Save,
    Undo,
    Verify,
    View,
)
from tsb.panel.run import Run
from tsb.panel.state import objects_told, plan_told, state_of
from tsb.plan import Plan


class BenchDied(Error):
    """The bench of a page has ended by itself; its run can be taken again."""


class Session:
    """A page's bench. Its calls are made one after another."""

    def __init__(self, source: Source, keep: Keep, layout: Layout | None) -> None:
        self.keep, self.layout, self.run = keep, layout, Run(source)
        self.died: ProgramDied | None = None
        self._target: int | None = None
        self._state: dict[str, Any] = {}

    def close(self) -> None:
        """Ends the bench."""
        self.run.close()

    def stop(self) -> None:
        """Ends the request that is being carried out, and the bench with it."""
        self.run.bench.kill()

    def do(self, asked: Request) -> str:
        """Carries out a request: what is said of it. What is raised has changed
        nothing, but where the bench died."""
        if self.died is not None and not isinstance(asked, Look | Again | Load):
            raise BenchDied(str(self.died))
        try:
            return self._do(asked)
        except ProgramDied as died:
            self.died = died
            raise

    def _do(self, asked: Request) -> str:
        run, self._target = self.run, None
        match asked:
            case Look():
                return ""
            case Advance():
                run.advance(min(run.now + asked.ticks, LAST_TICK))
                return ""
            case Go():
                run.go(asked.tick)
                return ""
            case Find():
                # (times of the page are those at which ticks begin)
                self._target = run.bench.tick_at(asked.moment) + 1
                return ""
            case Undo():
                return f"undone {run.undo()}"
            case Drop():
                return f"{run.drop()} ticks ahead of tick {run.now} are dropped"
            case Hold() | Pulse() | Free():
                run.grasp(asked)
                return ""
            case Mark():
                return run.mark(asked)
            case Save():
                path = self.keep.save(asked.name, run.source.plan, run.bench.save())
                run.is_saved = True
                return f"saved up to tick {run.now}: {path}"
            case Load():
                return self._load(asked.name)
            case Again():
                run.again()
                self.died = None
                return f"the bench runs again, and took the run up to tick {run.now}"
            case Verify():
                return _verified(run.verify(asked))
        return f"{asked.line}: {run.give(asked)}"

    def _load(self, name: str) -> str:
        """Takes a saved run in place of this one, if all of it can be taken."""
        try:
            found = Run(self.keep.load(name))
        except ProgramDied as died:
            raise Error(f"{name}: {died}") from None
        self.run.close()
        self.run, self.died = found, None
        return f"{name}: taken again up to tick {found.now}"

    def saved(self) -> tuple[bytes, Saved]:
        """What makes the run again: its plan, its log and its commands."""
        return self.run.source.plan, self.run.bench.save()

    def plan(self) -> Plan:
        """The plan in effect."""
        return self.run.bench.plan

    # What a page gets

    def opened(self) -> dict[str, Any]:
        """What a page gets once: objects, and the runs that are kept."""
        return {
            "objects": objects_told(),
            "runs": self.keep.names(),
            "folder": str(self.keep.folder),
        }

    def told(
        self, view: View | None, overview: int | None, serial: int
    ) -> dict[str, Any]:
        """The state, what is in view, the whole run in so many columns, and the plan
        if a page has another."""
        whole = None
        if overview is not None:
            whole = self._picture(View(0, max(self.run.tape.end, 1), overview), False)
        found: dict[str, Any] = {
            "state": self._told_state(),
            "view": None if view is None else self._picture(view, True),
            "overview": whole,
            "target": self._target,
        }
        if serial != self.run.serial:
            found["plan"] = plan_told(self.run, self.layout)
        return found

    def _told_state(self) -> dict[str, Any]:
        """The state, or the last one that was known of a bench that died."""
        if self.died is None:
            try:
                self._state = state_of(self.run)
            except ProgramDied as died:
                self.died = died
        told = None if self.died is None else str(self.died)
        return {**self._state, "died": told}

    def _picture(self, view: View, inputs: bool) -> dict[str, Any]:
        drawn = self.run.track.picture(view, inputs)
        return {**drawn, "marks": [it.told(view) for it in self.run.watched]}


def _verified(answer: str) -> str:
    """What a verify found."""
    name = answer.removeprefix("rule ")
    if name not in RULES:
        return "verified: the plan with the edits breaks no rule"
    rule = RULES[name]
    told = f"{rule.holds} Usual cause: {rule.cause}. Cure: {rule.cure}."
    return f"rule {name} would be broken: {told}"
