"""Sites and targets, and the limits within which a target is observed."""

from __future__ import annotations

import math
from dataclasses import dataclass
from typing import TYPE_CHECKING, Any

from purvelj.documents import Document
from purvelj.errors import DocumentError

if TYPE_CHECKING:
    from astroplan import Constraint, FixedTarget, Observer


@dataclass(frozen=True)
class Site:
    """A site by its code: geodetic latitude and longitude in degrees, north and east, and height in metres."""

    code: str
    latitude: float
    longitude: float
    height: float = 0.0

    def __post_init__(self) -> None:
        _test_range(f"site {self.code}", "latitude", self.latitude, -90, 90)
        _test_range(f"site {self.code}", "longitude", self.longitude, -180, 360)
        _test_range(f"site {self.code}", "height", self.height, -500, 9000)

    @staticmethod
    def read(document: Document) -> Site:
        """The site that a document with ``site``, ``latitude``, ``longitude`` and ``height`` is."""
        return Site(
            document.text("site"),
            document.number("latitude", -90, 90),
            document.number("longitude", -180, 360),
            document.number_or("height", 0.0, -500, 9000),
        )

    def location(self) -> Any:
        """The site as an ``astropy`` ``EarthLocation``."""
        from astropy.coordinates import EarthLocation

        return EarthLocation.from_geodetic(self.longitude, self.latitude, self.height)

    def observer(self) -> Observer:
        """The site as an ``astroplan`` ``Observer``, without an atmosphere."""
        from astroplan import Observer

        return Observer(location=self.location(), name=self.code)


@dataclass(frozen=True)
class Target:
    """A fixed star or what stays as still: ICRS right ascension and declination in degrees.

    The proper motion is in milliarcseconds a year, that in right ascension times the cosine of the
    declination, and ``epoch`` is the year that the position is of.
    """

    name: str
    ra: float
    dec: float
    pm_ra: float = 0.0
    pm_dec: float = 0.0
    epoch: float = 2000.0

    def __post_init__(self) -> None:
        _test_range(f"target {self.name}", "ra", self.ra, 0, 360)
        _test_range(f"target {self.name}", "dec", self.dec, -90, 90)

    @staticmethod
    def read(document: Document) -> Target:
        """The target that a document with ``name``, ``ra``, ``dec`` and perhaps a proper motion is."""
        return Target(
            document.text("name"),
            *position(document),
            document.number_or("pm_ra", 0.0, -20_000, 20_000),
            document.number_or("pm_dec", 0.0, -20_000, 20_000),
            document.number_or("epoch", 2000.0, 1900, 2100),
        )

    def document(self) -> dict[str, object]:
        """The target as ``read`` takes it."""
        members: dict[str, object] = {"name": self.name, "ra": self.ra, "dec": self.dec}
        if self.pm_ra or self.pm_dec:
            members.update(pm_ra=self.pm_ra, pm_dec=self.pm_dec, epoch=self.epoch)
        return members

    def fixed_target(self) -> FixedTarget:
        """The target as an ``astroplan`` ``FixedTarget``, without its proper motion."""
        from astroplan import FixedTarget
        from astropy.coordinates import SkyCoord

        return FixedTarget(SkyCoord(self.ra, self.dec, unit="deg"), name=self.name)


@dataclass(frozen=True)
class Limits:
    """Within which a target is observed: all of these hold.

    ``altitude`` is the least altitude in degrees, without refraction; ``airmass`` the greatest airmass,
    the secant of the zenith distance; ``moon`` the least distance from the Moon in degrees, wherever the
    Moon stands. ``others`` are constraints of ``astroplan`` that answer yes or no.
    """

    altitude: float = 30.0
    airmass: float | None = None
    moon: float = 0.0
    others: tuple[Constraint, ...] = ()

    def __post_init__(self) -> None:
        _test_range("limits", "altitude", self.altitude, 0, 90)
        _test_range("limits", "airmass", 1.0 if self.airmass is None else self.airmass, 1, 40)
        _test_range("limits", "moon", self.moon, 0, 180)

    @staticmethod
    def read(document: Document, default: Limits) -> Limits:
        """The limits of a document, each that it doesn't name by default."""
        return Limits(
            document.number_or("altitude", default.altitude, 0, 90),
            document.number("airmass", 1, 40) if document.has("airmass") else default.airmass,
            document.number_or("moon", default.moon, 0, 180),
            default.others,
        )

    @property
    def least_sine(self) -> float:
        """The least sine of the altitude, by altitude and airmass."""
        least = math.sin(math.radians(self.altitude))
        return least if self.airmass is None else max(least, 1 / self.airmass)


def position(document: Document) -> tuple[float, float]:
    """The members ``ra`` and ``dec``, in degrees; ``DocumentError``, which says that unit, where they aren't."""
    try:
        return document.number("ra", 0, 360), document.number("dec", -90, 90)
    except DocumentError as fault:
        raise DocumentError(fault.path, f"{fault.text}; it is in degrees") from None


def _test_range(path: str, name: str, value: float, least: float, most: float) -> None:
    if not least <= value <= most:
        raise DocumentError(path, f"{name} {value:g} is out of {least:g} to {most:g}")
