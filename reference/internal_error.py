# The error raised where something happens that, by the documents, can never happen.


class InternalError(Exception):
    """Either this program or a document is wrong; no answer is given."""


def must_hold(condition, what):
    """Raises an internal error, with these words, unless the condition holds."""
    if not condition:
        raise InternalError(what)
