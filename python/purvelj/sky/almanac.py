"""Nights and visibility over a horizon, in whole seconds."""

from __future__ import annotations

from typing import Any, Iterable, Iterator, Mapping

import numpy as np
import numpy.typing as npt

from purvelj.errors import PurveljError, Status
from purvelj.lines import Line, night_line, visibility_line
from purvelj.moments import Moment, in_utc, seconds_of, text_of
from purvelj.places import Limits, Site, Target
from purvelj.sky import positions
from purvelj.sky.crossings import Floats, Ints, spans_by_steps, spans_where
from purvelj.sky.offline import offline
from purvelj.sky.positions import Vectors
from purvelj.spans import Spans, meet

#: A line has at most so many spans.
MOST_SPANS = 512
#: The years for which the built-in tables serve.
FIRST_MOMENT, LAST_MOMENT = (int(in_utc(f"{year}-01-01").timestamp()) for year in (1970, 2100))


class SkyError(PurveljError):
    """No night, no visibility, or more of either than a line can say."""

    status = Status.SKY


class Almanac:
    """What can be seen from where, from one moment to another."""

    def __init__(self, start: Moment, end: Moment) -> None:
        """``SkyError`` where the horizon is empty or out of the years 1970 to 2099."""
        self.start, self.end = seconds_of(start, "start"), seconds_of(end, "end")
        if not FIRST_MOMENT <= self.start < self.end <= LAST_MOMENT:
            raise SkyError(
                f"from {text_of(self.start)} to {text_of(self.end)}: nights are known "
                f"from {text_of(FIRST_MOMENT)} to {text_of(LAST_MOMENT)}"
            )
        self._kept: dict[tuple[str, object], Vectors] = {}

    def night(self, site: Site, sun_below: float = -18.0) -> Spans:
        """The seconds in which the Sun's centre is at most at this altitude, in degrees without refraction."""
        up, sun = self._zenith(site), self._topocentric("sun", site)
        most = np.sin(np.radians(sun_below))
        return self._spans(lambda x: most - _dot(up(x), sun(x)))

    def visible(self, target: Target, site: Site, limits: Limits = Limits()) -> Spans:
        """The seconds in which a target keeps all limits at a site, by day and by night."""
        up, star = self._zenith(site), self._direction(target)
        spans = self._spans(lambda x: _dot(up(x), star(x)) - limits.least_sine)
        if limits.moon and spans:
            moon, most = self._topocentric("moon", site), np.cos(np.radians(limits.moon))
            spans = meet(spans, self._spans(lambda x: most - _dot(star(x), moon(x))))
        for constraint in limits.others if spans else ():
            spans = meet(spans, self._constrained(constraint, target, site))
        return spans

    def night_lines(self, sites: Iterable[Site], sun_below: float = -18.0) -> Iterator[Line]:
        """A ``night`` line for each site."""
        for site in sites:
            spans = self.night(site, sun_below)
            yield night_line(site.code, _counted(spans, f"the night of {site.code}"))

    def visibility_lines(
        self, targets: Mapping[Target, Limits], sites: Iterable[Site]
    ) -> Iterator[tuple[Target, Site, Line]]:
        """A ``visibility`` line for each target and site, in this order, with whose it is."""
        places = list(sites)
        for target, limits in targets.items():
            for site in places:
                spans = self.visible(target, site, limits)
                _counted(spans, f"{target.name} at {site.code}")
                yield target, site, visibility_line(target.name, site.code, spans)

    def _spans(self, function: Any) -> Spans:
        return spans_where(function, self.start, self.end)

    def _constrained(self, constraint: Any, target: Target, site: Site) -> Spans:
        from astropy.time import Time

        with offline():
            observer, star = site.observer(), target.fixed_target()

            def holds(seconds: Ints) -> npt.NDArray[np.bool_]:
                times = Time(seconds.astype(float), format="unix")
                answers = constraint(observer, [star], times=times)
                return np.asarray(answers, dtype=bool).reshape(-1)

            return spans_by_steps(holds, self.start, self.end)

    def _zenith(self, site: Site) -> Vectors:
        return self._keep("zenith", site, lambda: positions.zenith(site, self.start, self.end))

    def _direction(self, target: Target) -> Vectors:
        return self._keep("direction", target, lambda: positions.direction(target, self.start, self.end))

    def _topocentric(self, name: str, site: Site) -> Vectors:
        """The direction of the Sun or the Moon from a site, as a unit vector."""
        far = self._keep("body", name, lambda: positions.body(name, self.start, self.end))
        here = self._keep("position", site, lambda: positions.position(site, self.start, self.end))

        def unit(x: Floats) -> Floats:
            vectors = far(x) - here(x)
            return vectors / np.linalg.norm(vectors, axis=-1, keepdims=True)

        return unit

    def _keep(self, kind: str, owner: object, make: Any) -> Vectors:
        if (kind, owner) not in self._kept:
            self._kept[kind, owner] = make()
        return self._kept[kind, owner]


def _dot(first: Floats, second: Floats) -> Floats:
    return np.einsum("...i,...i->...", first, second)


def _counted(spans: Spans, what: str) -> Spans:
    if len(spans) > MOST_SPANS:
        raise SkyError(f"{what} has {len(spans)} spans, and a line at most {MOST_SPANS}: take fewer days")
    return spans
