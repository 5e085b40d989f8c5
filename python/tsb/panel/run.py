"""A bench with its run: what was taken, what lies ahead, and the way there and back."""

import itertools
import time

from tsb.bench import has_many_overlaps
from tsb.errors import Error, NoSuchTick, Refused
from tsb.manual import LAST_TICK
from tsb.panel.keep import GIVEN_MOST, Source, parted
from tsb.panel.marks import MARKS_MOST, WATCHED_MOST, Watched, walk_back
from tsb.panel.requests import BadRequest, Free, Given, Hold, Mark, Pulse, Verify
from tsb.panel.tape import Hand, Tape, ends_trip, place
from tsb.panel.track import Track
from tsb.plan import Plan
from tsb.rows import Log
from tsb.status import Status

# Seconds that a request takes ticks for, and how many it takes at a time.
BUDGET, FIRST_PIECE, PIECE = 0.1, 500, 20_000
_serials = itertools.count(1)


class Run:
    """A bench on the plan of a source, with all that was given since power-up.

    What a call raises it leaves as it was, unless the bench died: then `again` takes
    the run again.
    """

    def __init__(self, source: Source) -> None:
        self.source, self.bench = source, source.open()
        try:
            self.track = Track(self.bench.show())
            self.plan, self.serial = self.bench.plan, next(_serials)
            self.file_plan = self.plan
            self._plan_text = self.plan.text
            self.tape = Tape(source.log)
            self.watched: list[Watched] = []
            self._broken: list[str] = []
            for tick, given in parted(source):
                if tick > self.now:
                    self._take(tick - self.now)
                for what in given:
                    self.give(what)
            if source.back_to is not None:
                self.go(source.back_to)
        except BaseException:
            self.bench.close()
            raise
        self.is_saved = True

    def close(self) -> None:
        """Ends the bench."""
        self.bench.close()

    @property
    def now(self) -> int:
        """The present tick."""
        return self.bench.now

    # Ticks

    def advance(self, target: int) -> None:
        """Takes ticks up to a tick, as far as there is time for."""
        if self.now >= LAST_TICK:
            self.bench.step(1)  # (the bench refuses it in its own words)
        begun, piece = time.monotonic(), FIRST_PIECE
        while self.now < target and time.monotonic() - begun < BUDGET:
            self._take(min(piece, target - self.now))
            piece = min(2 * piece, PIECE)

    def go(self, tick: int) -> None:
        """Goes to a tick: back at once, forward as far as there is time for."""
        if tick > self.now:
            self.advance(tick)
        else:
            self.bench.seek(tick)
            self._see_plan()

    def _take(self, count: int) -> None:
        """Takes so many ticks: those that lie ahead again, then new ones."""
        again = min(count, max(self.tape.end - self.now, 0))
        self._take_again(self.now + again)
        if count > again:
            self._take_new(count - again)

    def _take_new(self, count: int) -> None:
        """Takes ticks with the rows of the log and of hands."""
        begun, rows = self.now, list(self.tape.next_rows(self.now, count))
        ends = itertools.accumulate((held for _, held in rows), initial=begun + 1)
        ticks = tuple(ends)[:-1]
        log = Log(ticks, tuple(row for row, _ in rows))
        self._run(log, count)
        self.tape.take(rows)
        self.track.take(log)
        self.is_saved = False
        self._find_marks(begun)

    def _take_again(self, target: int) -> None:
        """Takes ticks and inputs that lie ahead, up to a tick."""
        while self.now < target:
            begun, given = self.now, self.tape.next_given(self.now)
            end = target if given is None else min(given, target)
            self._run(self.tape.taken(begun + 1, end), end - begun)
            self._find_marks(begun)
            for it in self.tape.given_at(end):
                self.bench.give(it.what.line)
                self._see_input()

    def _run(self, log: Log, count: int) -> None:
        """Takes so many ticks with the rows of a log."""
        begun = self.now
        self.bench.follow(log)
        try:
            shown = self.bench.changes(count)
        except Refused:
            self.bench.seek(begun)
            raise
        self.track.add(shown, self.now)

    # Other inputs

    def give(self, what: Given) -> str:
        """Gives an input that is no tick: what the bench answers."""
        if len(self.tape.given) >= GIVEN_MOST:
            raise BadRequest(f"this run has {GIVEN_MOST} inputs already")
        was_tripped = is_tripped(self.bench.status)
        answer = self.bench.give(what.line)
        self._cut()
        self.tape.give(self.now, what, ends_trip(what, was_tripped))
        self._see_input()
        return answer

    def verify(self, asked: Verify) -> str:
        """Judges the plan with the edits: what the bench answers. At which places it
        breaks the rule, a review is asked."""
        answer, desk = self.give(asked), self.bench.edits
        self._broken = []
        if desk.rule is not None:
            plan = Plan(3)  # (which has all objects)
            for name, values in self.bench.plan.items():
                plan[name] = dict(values)
            for it in desk.edits:
                plan[it.object][it.index] = it.value
            self._broken = plan.review()[1:]
        return answer

    def places(self, rule: str | None) -> list[str]:
        """At which places the last verify found this rule broken."""
        at = [it.partition(" ") for it in self._broken]
        return [place for name, _, place in at if name == rule]

    def undo(self) -> str:
        """Takes the newest input back: its kind."""
        given = self.bench.given
        kind = self.bench.undo()
        if kind is None:
            raise NoSuchTick("there is no input to take back")
        if kind != "tick":
            self._cut()
            if self.bench.given < given:  # (what a schedule gave is not on the tape)
                self.tape.given.pop()
            for it in self.watched:
                it.cut(self.now - 1)
            self._see_input()
        return kind

    def drop(self) -> int:
        """Drops what lies ahead: how many ticks there were."""
        ahead = max(self.tape.end - self.now, 0)
        self._cut()
        return ahead

    def grasp(self, asked: Hold | Pulse | Free) -> None:
        """A hand takes an input over, or lets it go."""
        hand: Hand | None
        match asked:
            case Hold():
                hand = Hand(asked.on)
            case Pulse():
                hand = Hand(True, self.now + asked.ticks)
            case Free():
                hand = None
        self._cut()
        self.tape.grasp(self.now, place(asked.kind, asked.number), hand)

    def _cut(self) -> None:
        """Drops what lies ahead."""
        self.tape.cut(self.now)
        self.track.cut(self.now)
        for it in self.watched:
            it.cut(self.now)
        self.is_saved = False

    def _see_input(self) -> None:
        """Sees what an input changed at the present tick."""
        self.track.add([self.bench.show()], self.now)
        for it in self.watched:
            if it.asked(self.bench) == self.now:
                it.add(self.now)
            it.until = max(it.until, self.now)
        self._see_plan()

    def _see_plan(self) -> None:
        """Sees whether another plan is in effect."""
        plan = self.bench.plan
        if plan.text != self._plan_text:
            self.plan, self.serial = plan, next(_serials)
            self._plan_text = plan.text
            if has_many_overlaps(plan):
                self.bench.wide()

    # Marks

    def mark(self, asked: Mark) -> str:
        """Marks each change of a value, or does so no more."""
        found = Watched(asked.watch, asked.number)
        others = [it for it in self.watched if it.name != found.name]
        if not asked.on:
            self.watched = others
            return f"{found.name}: marked no more"
        if len(others) >= WATCHED_MOST:
            raise BadRequest(f"{WATCHED_MOST} values are marked already")
        now = self.now
        walk_back(self.bench, [found], -1, MARKS_MOST)
        self._take_again(now)
        found.until = now
        self.watched = [*others, found]
        count = len(found.ticks)
        changes = "change" if count == 1 else "changes"
        return f"{found.name}: {count} {changes} up to tick {now}"

    def _find_marks(self, begun: int) -> None:
        """Marks the changes of the ticks that were just taken, from `begun` on."""
        end = self.now
        late = [it for it in self.watched if it.until < end]
        if late:
            walk_back(self.bench, late, begun, end - begun)
            if self.now < end:
                self.bench.follow(self.tape.taken(self.now + 1, end))
                self.bench.changes(end - self.now)
            for it in late:
                it.until = end

    # After the bench ended

    def again(self) -> None:
        """Starts the bench again, and takes the run again up to the present tick."""
        end, was, bench = self.now, self.bench, self.source.open()
        self.bench = bench
        try:
            for it in self.tape.given_at(0):
                bench.give(it.what.line)
            self._take_again(end)
        except Error:
            self.bench = was
            bench.close()
            raise
        was.close()


def is_tripped(status: Status) -> bool:
    """Whether the monitor has tripped."""
    return status.unit_flash_status == "mmu"
