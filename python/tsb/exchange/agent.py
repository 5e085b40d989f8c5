"""A bench as an SNMP agent has it: values by OIDs, and a transaction of the desk.

No byte of SNMP is here: `tsb.exchange.messages` reads and writes those. What the bench
refuses has changed nothing, of a request with several values none of them.
"""

import enum
from bisect import bisect_right
from collections.abc import Callable, Sequence
from datetime import timedelta
from typing import NamedTuple

from tsb.bench import Bench
from tsb.errors import BadCommand, OutOfRange, Refused
from tsb.clock import words
from tsb.exchange.forms import Oid, Set, Value
from tsb.exchange.live import FREE, getters
from tsb.exchange.objects import ASC, GLOBAL, TIME, leaf_of, plan_leaves, row_of
from tsb.manual import NEWEST, OBJECTS
from tsb.plan import Plan
from tsb.rows import PREEMPTS
from tsb.status import EPOCH, Status
from tsb.values import object_of, parts_of

STATION = 1  # of the desk
LARGEST = 65_535  # index that the bench is asked for: it refuses those beyond its own
SECONDS = (1 << 32) - 1  # that globalTime can have
PATTERN_CONTROL: Oid = (*ASC, 4, 14, 0)
PREEMPT_CONTROL: Oid = (*ASC, 6, 3, 1, 2)
CLOCK: Oid = (*TIME, 1, 0)
TRANSACTION: Oid = (*GLOBAL, 2, 1, 0)
VERIFY_STATUS: Oid = (*GLOBAL, 2, 6, 0)
VERIFY_ERROR: Oid = (*GLOBAL, 2, 7, 0)


class Fault(enum.IntEnum):
    """Why a value was not set: the numbers are those of SNMPv1."""

    NO_SUCH_NAME = 2
    BAD_VALUE = 3
    GENERAL = 5


#: What a refusal of the bench is; all others are GENERAL.
FAULTS = {2: Fault.NO_SUCH_NAME, 3: Fault.BAD_VALUE}


class State(enum.IntEnum):
    """How far a transaction is: the numbers of dbCreateTransaction."""

    NORMAL = 1
    TRANSACTION = 2
    VERIFY = 3
    DONE = 6


class Verified(enum.IntEnum):
    """What came of a check: the numbers of dbVerifyStatus."""

    NOT_DONE = 1
    WITH_ERROR = 2
    WITHOUT_ERROR = 3


class NotSet(Exception):
    """A value was not set."""

    def __init__(self, fault: Fault) -> None:
        super().__init__(fault.name)
        self.fault = fault


class Refusal(NamedTuple):
    """Why nothing of a request was set: the fault, and which of its values has it,
    from 1 on."""

    fault: Fault
    place: int


class Agent:
    """The values of a bench by their OIDs."""

    def __init__(self, bench: Bench) -> None:
        self._bench = bench
        self._getters = getters()
        self._state, self._verified, self._rule = State.NORMAL, Verified.NOT_DONE, ""
        self._pattern = FREE
        self._switches = dict.fromkeys(range(1, PREEMPTS + 1), 0)
        self._own = self._own_values()
        names = {*plan_leaves(), *self._getters, *self._own}
        self._oids = sorted(names)
        self._plan: Plan | None = None
        self._status: Status | None = None

    def _own_values(self) -> dict[Oid, Callable[[], Value]]:
        """What gives the values that are the agent's own."""

        def switch(number: int) -> Callable[[], Value]:
            return lambda: self._switches[number]

        return {
            PATTERN_CONTROL: lambda: self._pattern,
            TRANSACTION: lambda: int(self._state),
            VERIFY_STATUS: lambda: int(self._verified),
            VERIFY_ERROR: lambda: self._rule.encode(),
            **{(*PREEMPT_CONTROL, it): switch(it) for it in self._switches},
        }

    def step(self, ticks: int) -> None:
        """Lets so many ticks pass."""
        self._status = None
        self._bench.step(ticks)

    # What is asked

    def get(self, oid: Oid) -> Value | None:
        """The value of an OID; None where there is none."""
        if (leaf := plan_leaves().get(oid)) is not None:
            form = leaf.column.form
            assert form is not None
            return form.written(self._plan_now(), row_of(leaf))
        if (getter := self._getters.get(oid)) is not None:
            return getter(self._plan_now(), self._status_now())
        own = self._own.get(oid)
        return None if own is None else own()

    def after(self, oid: Oid) -> Oid | None:
        """The first OID with a value after an OID; None where there is none."""
        place = bisect_right(self._oids, oid)
        return self._oids[place] if place < len(self._oids) else None

    def _plan_now(self) -> Plan:
        if self._plan is None:
            # (of the newest version, which has all objects)
            self._plan = self._bench.plan.wide(NEWEST)
        return self._plan

    def _status_now(self) -> Status:
        if self._status is None:
            self._status = self._bench.status
        return self._status

    # What is set

    def set(self, values: Sequence[tuple[Oid, Value]]) -> Refusal | None:
        """Sets all values, in their order, or none: why not, if so."""
        before = self._state, self._verified, self._rule, self._pattern
        switches = dict(self._switches)
        request = _Request(self._bench)
        place = 1
        self._plan = self._status = None
        try:
            alone: list[int] = []
            for place, (oid, value) in enumerate(values, 1):
                if oid == CLOCK:
                    request.command(f"clock {_moment(value)}")
                elif oid in self._own:
                    self._set_own(request, oid, value)
                elif (sets := sets_of(oid, value)) is not None:
                    if self._state is State.NORMAL and not alone:
                        request.give("begin")
                    if self._state is State.NORMAL:
                        alone.append(place)
                    self._set_plan(request, sets)
                else:
                    raise NotSet(Fault.NO_SUCH_NAME)
            if alone:
                place = alone[0]
                self._close(request)
        except NotSet as refused:
            request.take_back()
            self._state, self._verified, self._rule, self._pattern = before
            self._switches = switches
            return Refusal(refused.fault, place)
        return None

    def _set_plan(self, request: "_Request", sets: Sequence[Set]) -> None:
        """Sets values of the plan, in a transaction."""
        if self._state is State.DONE:
            raise NotSet(Fault.GENERAL)
        for name, index, number in sets:
            request.give("set", name, index, number)

    def _close(self, request: "_Request") -> None:
        """Verifies and commits what a request set without a transaction."""
        if request.give("verify") != "ok":
            raise NotSet(Fault.GENERAL)
        request.give("commit")

    def _set_own(self, request: "_Request", oid: Oid, value: Value) -> None:
        """Sets a value that is the agent's own."""
        if oid in (VERIFY_STATUS, VERIFY_ERROR):
            raise NotSet(Fault.NO_SUCH_NAME)
        if not isinstance(value, int):
            raise NotSet(Fault.BAD_VALUE)
        if oid == TRANSACTION:
            self._transact(request, value)
        elif oid == PATTERN_CONTROL:
            if not 1 <= value <= FREE:
                raise NotSet(Fault.BAD_VALUE)
            request.command(f"pattern {0 if value == FREE else value}")
            self._pattern = value
        else:
            if value not in (0, 1):
                raise NotSet(Fault.BAD_VALUE)
            request.command(f"preempt {oid[-1]} {'on' if value else 'off'}")
            self._switches[oid[-1]] = value

    def _transact(self, request: "_Request", value: int) -> None:
        """Goes from one state of a transaction to another, as the bench takes it."""
        match self._state, value:
            case (State.NORMAL, State.NORMAL) | (State.TRANSACTION, State.TRANSACTION):
                return
            case State.NORMAL, State.TRANSACTION:
                request.give("begin")
                self._go(State.TRANSACTION)
            case State.TRANSACTION, State.NORMAL:
                request.give("abort")
                self._go(State.NORMAL)
            case State.TRANSACTION, State.VERIFY:
                self._verify(request)
            case State.DONE, State.TRANSACTION:
                self._go(State.TRANSACTION)
            case State.DONE, State.NORMAL:
                is_fine = self._verified is Verified.WITHOUT_ERROR
                request.give("commit" if is_fine else "abort")
                self._go(State.NORMAL)
            case _:
                raise NotSet(Fault.BAD_VALUE)

    def _verify(self, request: "_Request") -> None:
        """Judges the plan with the edits."""
        answer = request.give("verify")
        is_fine = answer == "ok"
        self._go(State.DONE)
        self._verified = Verified.WITHOUT_ERROR if is_fine else Verified.WITH_ERROR
        self._rule = "" if is_fine else answer

    def _go(self, state: State) -> None:
        self._state, self._verified, self._rule = state, Verified.NOT_DONE, ""


class _Request:
    """The inputs of a request, which are taken back where one of them is refused."""

    def __init__(self, bench: Bench) -> None:
        self._bench, self._begun = bench, bench.given

    def give(self, word: str, *more: object) -> str:
        """Gives an input of the desk."""
        words = [word, STATION, *more]
        if word == "set":
            words[3] = _index(str(words[2]), words[3])
        return self.command(" ".join(map(str, words)))

    def command(self, command: str) -> str:
        """Gives an input; `NotSet` where it is refused, or is no command."""
        try:
            answer = self._bench.give(command)
        except Refused as refused:
            raise NotSet(FAULTS.get(refused.number, Fault.GENERAL)) from None
        except BadCommand:
            raise NotSet(Fault.BAD_VALUE) from None
        return answer

    def take_back(self) -> None:
        """Takes all inputs back, and what followed them."""
        while self._bench.given > self._begun:
            self._bench.undo()


def _index(name: str, index: object) -> int:
    """An index as `set` has it, also where the bench has no such one."""
    if not isinstance(index, tuple):
        return int(str(index))
    steps = (step for _, step in parts_of(object_of(name, NEWEST), NEWEST).values())
    found = 1
    for step, it in zip(steps, index, strict=True):
        found += step * (int(it) - 1)
    return found


def _moment(value: Value) -> str:
    """The time of a clock that shows so many seconds since 1970; `NotSet` where a clock
    has no such time."""
    if not isinstance(value, int) or not 0 <= value <= SECONDS:
        raise NotSet(Fault.BAD_VALUE)
    try:
        return words(EPOCH + timedelta(seconds=value))
    except OutOfRange:
        raise NotSet(Fault.BAD_VALUE) from None


def sets_of(oid: Oid, value: Value) -> list[Set] | None:
    """The values of a plan that a value asks for; None where a plan has no such object.
    `NotSet` where it has no such value."""
    leaf = leaf_of(oid)
    if leaf is None or leaf.number not in leaf.table.columns:
        return None
    form = leaf.column.form
    if form is None or any(not 1 <= it <= LARGEST for it in leaf.row):
        return None
    if parts_of(OBJECTS[form.names[0]]) and not leaf.table.has(leaf.row):
        return None  # (the bench has one number for all parts of an index)
    if not isinstance(value, form.kind):
        raise NotSet(Fault.BAD_VALUE)
    sets, lost = form.read(value, row_of(leaf))
    if lost:
        raise NotSet(Fault.BAD_VALUE)
    return sets
