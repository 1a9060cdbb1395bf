"""What a play wants to be so."""


class Wrong(AssertionError):
    """What a play saw that should not be."""


def need(is_so, what):
    if not is_so:
        raise Wrong(what)
