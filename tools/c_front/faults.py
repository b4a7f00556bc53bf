"""Places in C files, and the refusal of what has no translation."""
import os


class Place:
    """A file, a line and a column of a C program."""
    __slots__ = ("file", "line", "column")

    def __init__(self, file="", line=0, column=0):
        self.file = file
        self.line = line
        self.column = column

    def __str__(self):
        return f"{self.file}:{self.line}:{self.column or 1}"


class Refusal(Exception):
    """A form that is not translated: its place, what it is, and what to write instead."""

    def __init__(self, message, place=None, hint=""):
        super().__init__(message)
        self.message = message
        self.place = place
        self.hint = hint

    def as_dict(self):
        place = self.place or Place()
        return {"file": place.file, "line": place.line, "column": place.column or 1, "message": self.message, "hint": self.hint}


class Warnings:
    """What is translated and may mean something else than its author thinks: each message once a place."""

    def __init__(self):
        self.seen = set()
        self.list = []

    def add(self, message, place, hint=""):
        key = (message, str(place))
        if key not in self.seen and not self.is_ours(place):
            self.seen.add(key)
            self.list.append(Refusal(message, place, hint))

    @staticmethod
    def is_ours(place):
        """Whether a place is in a header of this package."""
        return place is not None and place.file.startswith(os.path.dirname(os.path.abspath(__file__)))

    def once(self, message, place, hint=""):
        """Warns of the first place only."""
        if message not in self.seen and not self.is_ours(place):
            self.seen.add(message)
            self.list.append(Refusal(message, place, hint))
