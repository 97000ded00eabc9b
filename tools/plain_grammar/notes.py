"""What is said on standard error: what was dropped or changed, and what can't be done."""


class Fault(Exception):
    """A file that can't be read any further, with the place where that is."""

    def __init__(self, place, text):
        super().__init__(text)
        self.place = place
        self.text = text


class Notes:
    """The notes of a run. A place is the number of a file and a line in it, both from the command line's view."""

    def __init__(self, files):
        self.files = files
        self.lines = []
        self.said = set()
        self.failed = False

    def add(self, place, text):
        """Notes what was dropped or changed; the same text is said once for a line."""
        if (place, text) not in self.said:
            self.said.add((place, text))
            self.lines.append((place, text))

    def cannot(self, place, text):
        """Notes what can't be done. The grammar is printed all the same, with this part as it was."""
        self.add(place, "error: " + text)
        self.failed = True

    def where(self, place):
        """The place as it is printed: the line, and the file where there are several."""
        file, line = place
        return f"{line}" if len(self.files) == 1 else f"{self.files[file]}:{line}"

    def printed(self):
        """All notes, in the order of files and lines."""
        ordered = sorted(self.lines, key=lambda note: note[0])
        return "".join(f"{self.where(place)}: {text}\n" for place, text in ordered)
