"""The error of a text that cannot be followed."""


class SourceError(Exception):
    """A name or a form that is not understood."""
