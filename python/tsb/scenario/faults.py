"""What is wrong with the text of a scenario, and where."""

from dataclasses import dataclass

from tsb.errors import Error


class ScenarioFault(Error):
    """The first fault of a scenario's text: the file, the line, the word, and what is
    wrong with it."""


@dataclass(frozen=True)
class Place:
    """A line of a file."""

    file: str
    number: int

    def fault(self, what: str) -> ScenarioFault:
        """A fault of the whole line."""
        return ScenarioFault(f"{self.file}:{self.number}: {what}")


@dataclass(frozen=True)
class Word:
    """A word of a line."""

    text: str
    place: Place

    def fault(self, what: str) -> ScenarioFault:
        """A fault of the word."""
        return self.place.fault(f"{self.text}: {what}")
