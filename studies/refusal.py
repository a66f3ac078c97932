"""What a verb raises where it refuses its input: one line on standard error, and status 2."""


class Refused(Exception):
    """The line says what is wrong with which input."""
