"""Why a chain can't go on. The statuses are those that perses has for the same."""

BAD_COMMAND_LINE = 2
CANNOT_READ = 3
CANNOT_WRITE = 4
CANNOT_START = 11
IS_RUNNING = 1


class Stopped(Exception):
    """The status that the chain ends with, and why."""

    def __init__(self, status, text):
        super().__init__(status, text)
        self.status = status
        self.text = text
