"""Text of a plan as pictures and pages show it."""


def shown(text):
    """The text with an escape, such as `\\x1b`, for each byte or character that has no sign."""
    text = text.encode(errors="surrogateescape").decode(errors="backslashreplace")
    return "".join(it if it.isprintable() else it.encode("unicode_escape").decode() for it in text)
