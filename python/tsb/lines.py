"""What the bench answers: display lines (docs/use/MANUAL.md, chapter 6) and events."""

from collections.abc import Iterable, Iterator, Sequence
from typing import NamedTuple, overload

WIDTH = 54  # bytes of a display line with its line end
WIDE = 71  # bytes of a wide one
OVERLAPS = 4, 16  # of a display line, and of a wide one


class Display(NamedTuple):
    """What the heads show in a tick.

    `vehicles` has a letter for each of 16 phases (G, Y, R, F for flashing red, - for
    none), and so has `pedestrians` (W, C, D, -). `overlaps` has one for each of 4, or
    of 16 where lines are wide, and P for a flashing yellow arrow. `preempt` is the
    preempt in service, or 0. `local` is the local counter of the pattern in tenths of a
    second, None in free operation.
    """

    tick: int
    vehicles: str
    pedestrians: str
    overlaps: str
    preempt: int
    local: int | None

    @classmethod
    def of(cls, line: str) -> "Display":
        """The display of a line."""
        tick, vehicles, pedestrians, overlaps, preempt, local, *wide = line.split(" ")
        overlaps = wide[0] if wide else overlaps
        counter = None if local == "----" else int(local)
        return cls(int(tick), vehicles, pedestrians, overlaps, int(preempt), counter)

    @property
    def line(self) -> str:
        """The display line."""
        local = "----" if self.local is None else f"{self.local:04}"
        few, many = self.overlaps[: OVERLAPS[0]], self.overlaps
        heads = f"{self.vehicles} {self.pedestrians} {few}"
        told = f"{self.tick:07} {heads} {self.preempt} {local}"
        return told if many == few else f"{told} {many}"

    def head(self, name: str) -> str:
        """The letter of a head: `P2` (vehicles of phase 2), `W2` (its pedestrians) or
        `O1` (overlap 1; one above 4 is dark where lines are not wide)."""
        overlaps = self.overlaps.ljust(OVERLAPS[1], "-")
        kinds = {"P": self.vehicles, "W": self.pedestrians, "O": overlaps}
        letters, number = kinds.get(name[:1], ""), name[1:]
        if not number.isdecimal() or not 1 <= int(number) <= len(letters):
            raise KeyError(f"there is no head {name}: P1 to P16, W1 to W16, O1 to O16")
        return letters[int(number) - 1]

    @property
    def greens(self) -> frozenset[int]:
        """The phases whose vehicle heads are green."""
        return frozenset(at for at, it in enumerate(self.vehicles, 1) if it == "G")


class Lines(Sequence[Display]):
    """Display lines one after another; `text` is what the bench wrote.

    They are read when they are asked for, since a day has 864,000.
    """

    def __init__(self, text: bytes = b"") -> None:
        # (the first line says how wide all are)
        self.width = WIDE if text[WIDTH - 1 : WIDTH] == b" " else WIDTH
        if len(text) % self.width:
            raise ValueError("these are no display lines")
        self.text = text

    @classmethod
    def of(cls, displays: Iterable[Display]) -> "Lines":
        """The lines of displays."""
        return cls("".join(f"{it.line}\n" for it in displays).encode())

    def __len__(self) -> int:
        return len(self.text) // self.width

    @overload
    def __getitem__(self, place: int) -> Display:
        ...

    @overload
    def __getitem__(self, place: slice) -> "Lines":
        ...

    def __getitem__(self, place: int | slice) -> "Display | Lines":
        if isinstance(place, slice):
            return Lines(b"".join(self._line(at) for at in range(len(self))[place]))
        return Display.of(self._line(range(len(self))[place])[:-1].decode())

    def __iter__(self) -> Iterator[Display]:
        return (Display.of(it) for it in self.text.decode().splitlines())

    def __add__(self, other: "Lines") -> "Lines":
        return Lines(self.text + other.text)

    def __eq__(self, other: object) -> bool:
        return isinstance(other, Lines) and self.text == other.text

    def __hash__(self) -> int:
        return hash(self.text)

    def __repr__(self) -> str:
        return f"<{len(self)} display lines>"

    def _line(self, place: int) -> bytes:
        return self.text[self.width * place : self.width * (place + 1)]


class Event(NamedTuple):
    """An event of an input: docs/use/FIELD.md has the codes, those of the Indiana
    enumerations, and what the parameter of each is."""

    tick: int
    code: int
    parameter: int
