"""Where sites, Sun, Moon and targets are, as smooth functions of time in one frame.

The frame is the geocentric celestial reference system, in which ``astropy`` gives all positions here;
between the times for which it was asked they are interpolated by cubic splines. A moment is a number of
seconds since 1970-01-01T00:00:00Z.
"""

from __future__ import annotations

from typing import Any, Callable

import numpy as np
import numpy.typing as npt
from scipy.interpolate import CubicSpline

from purvelj.places import Site, Target
from purvelj.sky.crossings import STEP
from purvelj.sky.offline import offline

Floats = npt.NDArray[np.float64]
#: A vector, or one for each moment, as a function of moments.
Vectors = Callable[[Floats], Floats]

HOUR, DAY = 3600, 86_400


def zenith(site: Site, start: int, end: int) -> Vectors:
    """The direction of the site's zenith, normal to the ellipsoid, as a unit vector."""
    latitude, longitude = np.radians(site.latitude), np.radians(site.longitude)
    up = (
        np.cos(latitude) * np.cos(longitude),
        np.cos(latitude) * np.sin(longitude),
        np.sin(latitude),
    )
    return _turning(up, start, end)


def position(site: Site, start: int, end: int) -> Vectors:
    """Where the site is, from the Earth's centre, in kilometres."""
    return _turning(tuple(each.to_value("km") for each in site.location().geocentric), start, end)


def body(name: str, start: int, end: int) -> Vectors:
    """Where the Sun or the Moon appears, from the Earth's centre, in kilometres."""
    from astropy.coordinates import get_body

    nodes = _nodes(start, end, HOUR)
    with offline():
        place = get_body(name, _times(nodes))
        return _spline(nodes, place.cartesian.get_xyz().to_value("km").T)


def direction(target: Target, start: int, end: int) -> Vectors:
    """The direction in which a target appears from the Earth's centre, as a unit vector."""
    from astropy.coordinates import GCRS, SkyCoord

    nodes = _nodes(start, end, DAY)
    with offline():
        times = _times(nodes)
        place = SkyCoord(target.ra, target.dec, unit="deg")
        if target.pm_ra or target.pm_dec:
            place = _moved(target, times)
        return _spline(nodes, place.transform_to(GCRS(obstime=times)).cartesian.get_xyz().value.T)


def _moved(target: Target, times: Any) -> Any:
    from astropy import units
    from astropy.coordinates import SkyCoord
    from astropy.time import Time

    at_epoch = SkyCoord(
        target.ra * units.deg,
        target.dec * units.deg,
        pm_ra_cosdec=target.pm_ra * units.mas / units.yr,
        pm_dec=target.pm_dec * units.mas / units.yr,
        obstime=Time(target.epoch, format="jyear"),
    )
    moved = at_epoch.apply_space_motion(new_obstime=times[len(times) // 2])
    return SkyCoord(moved.ra, moved.dec)


def _turning(vector: tuple[float, ...], start: int, end: int) -> Vectors:
    """A vector that turns with the Earth."""
    from astropy.coordinates import GCRS, ITRS, CartesianRepresentation

    nodes = _nodes(start, end, STEP)
    with offline():
        times = _times(nodes)
        fixed = CartesianRepresentation(*(np.full(len(nodes), part) for part in vector))
        turned = ITRS(fixed, obstime=times).transform_to(GCRS(obstime=times))
        return _spline(nodes, turned.cartesian.get_xyz().value.T)


def _nodes(start: int, end: int, step: int) -> Floats:
    """Moments a step apart, some of them before the start and after the end."""
    return np.arange(start - 2 * step, end + 3 * step, step, dtype=float)


def _times(nodes: Floats) -> Any:
    from astropy.time import Time

    return Time(nodes, format="unix")


def _spline(nodes: Floats, vectors: Floats) -> Vectors:
    return CubicSpline(nodes, vectors)
