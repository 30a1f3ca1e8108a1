"""What can go wrong, as exceptions: all of them are a RingError."""
from . import refusals


class RingError(Exception):
    pass


class Refused(RingError):
    """A call was refused: `number` is the number of refusal, `reason` says it in words, `what` names what was refused where that is known."""

    def __init__(self, number, what=None):
        self.number, self.reason, self.what = number, refusals.reason(number), what
        super().__init__("%srefused by %d: %s" % (what + ": " if what else "", number, self.reason))


class NoSuchId(RingError):
    """No record of a sheet has the id."""

    def __init__(self, id, what):
        self.id = id
        super().__init__("no record of %s has the id %s" % (what, id))


class BadTable(RingError):
    """A CSV that breaks a rule, told with its line."""


class BadFile(RingError):
    """A file that is not what it should be: no sheet, no book, no depot."""


class Unsaid(RingError):
    """What was asked for has more than one answer, or none: it has to be said which."""


class WorkerFault(RingError):
    """The worker program broke off, or answered what is no answer."""
