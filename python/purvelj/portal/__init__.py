"""Request groups of an observation portal as lines for a desk."""

from purvelj.portal.convert import Conversion, convert
from purvelj.portal.notes import Note, Notes, PortalError, Severity, summary
from purvelj.portal.targets import targets_of

__all__ = [
    "Conversion",
    "Note",
    "Notes",
    "PortalError",
    "Severity",
    "convert",
    "summary",
    "targets_of",
]
