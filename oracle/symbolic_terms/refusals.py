"""The exceptions with which a comparison, a reader or a run refuses. A crash raises others and is no refusal."""


class Unsupported(Exception):
    """Raised for text or an operation that isn't supported, or that a program mustn't do, such as a stray access."""


class Undecided(Exception):
    """Raised for a comparison, a branch or an address that depends on symbols."""


class NotShown(Exception):
    """Raised if the two sides aren't proved to be equal."""


REFUSALS = NotShown, Undecided, Unsupported
