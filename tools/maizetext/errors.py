"""What stops the tool, and what stops a walk."""


class InputError(Exception):
    """A file that is not what it should be; the message is one line for a person."""


class Illegal(Exception):
    """A move that the rules forbid; the message says why."""
