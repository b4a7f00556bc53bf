"""The comments of a C file, and where they stand."""
import re

PART = re.compile(r'/\*.*?\*/|//(?:\\\n|[^\n])*|"(?:[^"\\\n]|\\.)*"|\'(?:[^\'\\\n]|\\.)*\'|\n|[^/"\'\n]+|.', re.S)


class Comments:
    """The comments in their order; each is given out once, before what follows it."""

    def __init__(self, text, name):
        self.name = name
        self.list = []
        self.at = 0
        line = 1
        for part in PART.findall(text):
            if part.startswith(("/*", "//")):
                self.list.append((line, self.plain(part)))
            line += part.count("\n")

    @staticmethod
    def plain(part):
        """The comment in the language: a C++ comment may not go on after a backslash."""
        if part.startswith("//") and "\n" in part:
            return "/* " + part[2:].replace("\\\n", " ").replace("*/", "* /").strip() + " */"
        return part.replace("\f", " ").replace("\v", " ").rstrip()

    def before(self, place):
        """The comments that stand on lines up to a place."""
        if place is None or place.file != self.name:
            return []
        return self.before_line(place.file, place.line)

    def before_line(self, file, line):
        found = []
        if file != self.name:
            return found
        while self.at < len(self.list) and self.list[self.at][0] <= line:
            found += self.list[self.at][1].split("\n")
            self.at += 1
        return found
