"""``astropy`` with its built-in tables alone: nothing is downloaded, and no one is warned of it."""

from __future__ import annotations

import warnings
from contextlib import ExitStack, contextmanager
from typing import Iterator

from astropy.utils import data, iers
from astropy.utils.exceptions import AstropyWarning


@contextmanager
def offline() -> Iterator[None]:
    """Lets ``astropy`` use only what it came with.

    The Earth's rotation is that of its table of IERS Bulletin B, and after the table's end its last
    values; Sun and Moon are those of its built-in ephemeris. The settings are put back afterwards.
    """
    from astropy.coordinates import solar_system_ephemeris

    with ExitStack() as settings:
        settings.enter_context(iers.conf.set_temp("auto_download", False))
        settings.enter_context(iers.conf.set_temp("iers_degraded_accuracy", "warn"))
        settings.enter_context(data.conf.set_temp("allow_internet", False))
        settings.enter_context(solar_system_ephemeris.set("builtin"))
        settings.enter_context(warnings.catch_warnings())
        warnings.simplefilter("ignore", AstropyWarning)
        warnings.filterwarnings("ignore", module="erfa")
        yield
