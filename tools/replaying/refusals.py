"""What a call or a line can be refused with, and the limit that both kinds share."""

# The largest value of an event tree, and the largest count of a vector.
LIMIT = 65535


class Refusal(Exception):
    """A refusal of the yard: an answer like any other."""

    def __init__(self, cause, berth=None, file=None):
        self.cause, self.berth, self.file = cause, berth, file

    def __str__(self):
        text = f"refused {self.cause}"
        if self.berth is not None:
            text += f" berth {self.berth}"
        if self.file is not None:
            text += f" file {self.file}"
        return text


class Mistake(Exception):
    """The line is no call."""
