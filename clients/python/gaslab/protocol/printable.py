"""Text that can be shown in a terminal, whoever wrote it."""


def printable(text: str) -> str:
    """The text with escapes for signs that steer a terminal or can't be printed."""
    return "".join(sign if sign.isprintable() else
                   sign.encode("unicode_escape").decode("ascii") for sign in text)
