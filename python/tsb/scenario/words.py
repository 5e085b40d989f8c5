"""The words of a line, taken one after another."""

from collections.abc import Mapping

from tsb.scenario.faults import Place, Word
from tsb.scenario.times import IS_TIME, Time


class Words:
    """The words of a line that are left; a fault names the word where it is."""

    def __init__(self, words: list[str], place: Place) -> None:
        self._words, self._at, self.place = words, 0, place
        self.text = " ".join(words)

    @classmethod
    def of(cls, line: str, place: Place) -> "Words":
        """The words of a line, without the comment that a word with # begins."""
        words = line.split()
        ends = (at for at, it in enumerate(words) if it.startswith("#"))
        return cls(words[: next(ends, len(words))], place)

    @property
    def left(self) -> int:
        """How many words are left."""
        return len(self._words) - self._at

    @property
    def next(self) -> str:
        """The next word, empty where none is left."""
        return self._words[self._at] if self.left else ""

    def ahead(self, count: int) -> str:
        """The word so many places after the next one, empty where there is none."""
        at = self._at + count
        return self._words[at] if at < len(self._words) else ""

    def take(self, what: str) -> Word:
        """The next word; where none is left, the fault says what is missing."""
        if not self.left:
            last = Word(self._words[-1] if self._words else "", self.place)
            raise last.fault(f"the line ends here: give {what}")
        self._at += 1
        return Word(self._words[self._at - 1], self.place)

    def takes(self, *texts: str) -> bool:
        """Takes the next words where they are these."""
        if self._words[self._at : self._at + len(texts)] != [*texts]:
            return False
        self._at += len(texts)
        return True

    def must(self, *texts: str) -> None:
        """Takes the next words, which have to be these."""
        for text in texts:
            word = self.take(text)
            if word.text != text:
                raise word.fault(f"give {text} here")

    def rest(self, what: str) -> Word:
        """All words that are left, as one."""
        first = self.take(what)
        more = self._words[self._at :]
        self._at = len(self._words)
        return Word(" ".join([first.text, *more]), self.place)

    def number(self, what: str, least: int, most: int) -> int:
        """A whole number within bounds."""
        word = self.take(what)
        text = word.text
        if not (text.isascii() and text.isdecimal() and len(text) <= 10):
            raise word.fault(f"give {what}")
        if not least <= int(text) <= most:
            raise word.fault(f"give {what} of {least} to {most}")
        return int(text)

    def time(self, named: Mapping[str, Time]) -> Time:
        """A time."""
        return Time.of(self.take(IS_TIME), named)

    def end(self) -> None:
        """No word may be left."""
        if self.left:
            raise Word(self.next, self.place).fault("no word belongs here")
