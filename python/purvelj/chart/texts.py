"""Names as a picture can show them."""

from __future__ import annotations


def shown(name: str) -> str:
    """A name as ``matplotlib`` is to be given it, so that it is drawn as it stands.

    Between two dollar signs it would read a formula, and leave out of a key what begins with an underscore. What can't
    be printed, as a control character, or a surrogate, which no SVG may have, becomes a space.
    """
    text = "".join(each if each.isprintable() else " " for each in name).replace("$", r"\$")
    return f" {text}" if text.startswith("_") else text
