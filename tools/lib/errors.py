"""What can keep a tool from its work. Each kind has the exit status that the tool ends with."""


class Error(Exception):
    """The sentence that a person is told."""


class Mistake(Error):
    """Something that a person wrote is refused."""
    status = 1


class Usage(Error):
    """A call that cannot be meant, or a file that is not there or cannot be written."""
    status = 2


class Failed(Error):
    """A program is missing, does not run, or answers something that is no answer."""
    status = 3


class Disagreement(Error):
    """A program answers one thing, and the rules that the tool would explain it by give another. Then there is nothing to explain."""
    status = 3
