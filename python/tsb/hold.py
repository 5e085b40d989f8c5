"""Ctrl-C, held back while a question and its answer are on the way."""

import functools
import signal
import threading
from collections.abc import Callable
from types import FrameType, TracebackType
from typing import Concatenate, ParamSpec, Protocol, TypeVar


class Hold:
    """A `with` block that is done as a whole: Ctrl-C in it is raised at its end, so
    that no answer is left half read. A second Ctrl-C is raised at once, behind `end`.
    """

    def __init__(self, end: Callable[[], None]) -> None:
        self._end, self._depth, self._holds = end, 0, False
        self.is_asked = False
        # (a handler that is not Python's could not be put back)
        self._may = signal.getsignal(signal.SIGINT) is not None

    def __enter__(self) -> None:
        is_main = threading.current_thread() is threading.main_thread()
        if self._depth == 0 and self._may and is_main:
            before = signal.signal(signal.SIGINT, self._ask)
            self._holds = before is signal.default_int_handler
            if not self._holds:  # (a caller who has another handler keeps it)
                signal.signal(signal.SIGINT, before)
        self._depth += 1

    def __exit__(
        self,
        kind: type[BaseException] | None,
        fault: BaseException | None,
        trace: TracebackType | None,
    ) -> None:
        self._depth -= 1
        if self._depth == 0 and self._holds:
            self._holds = False
            signal.signal(signal.SIGINT, signal.default_int_handler)
            if self.is_asked:
                self.is_asked = False
                raise KeyboardInterrupt

    def _ask(self, number: int, frame: FrameType | None) -> None:
        if self.is_asked:
            self._end()
            raise KeyboardInterrupt
        self.is_asked = True


class Holder(Protocol):
    """What has a `Hold`."""

    _hold: Hold


Self = TypeVar("Self", bound=Holder)
Given = ParamSpec("Given")
Answer = TypeVar("Answer")


def whole(
    method: Callable[Concatenate[Self, Given], Answer]
) -> Callable[Concatenate[Self, Given], Answer]:
    """A method that is done as a whole."""

    @functools.wraps(method)
    def held(self: Self, /, *args: Given.args, **words: Given.kwargs) -> Answer:
        with self._hold:
            return method(self, *args, **words)

    return held
