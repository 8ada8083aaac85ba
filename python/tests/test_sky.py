"""Nights and visibility, beside a second library, beside astroplan, and second by second."""

from __future__ import annotations

import json
import socket
import subprocess
import sys
from math import cos, sin
from pathlib import Path

import ephem
import numpy as np
import pytest

from purvelj.errors import DocumentError
from purvelj.moments import seconds_of
from purvelj.places import Limits, Site, Target
from purvelj.sky.almanac import Almanac, SkyError
from purvelj.sky.crossings import spans_by_steps, spans_where
from purvelj.sky.offline import offline
from purvelj.spans import Span

PARANAL = Site("paranal", -24.6272, -70.4042, 2635)
MAUNA_KEA = Site("maunakea", 19.8260, -155.4747, 4205)
LA_PALMA = Site("lapalma", 28.7606, -17.8814, 2396)
SIDING_SPRING = Site("siding", -31.2733, 149.0644, 1165)
SUTHERLAND = Site("sutherland", -32.3783, 20.8106, 1771)
MCDONALD = Site("mcdonald", 30.6714, -104.0225, 2070)
SITES = [PARANAL, MAUNA_KEA, LA_PALMA, SIDING_SPRING, SUTHERLAND, MCDONALD]
M42 = Target("M42", 83.8221, -5.3911)
DAY = 86_400


@pytest.fixture(autouse=True)
def no_network(monkeypatch: pytest.MonkeyPatch) -> None:
    """Whatever opens a connection fails."""

    def refuse(*arguments):
        raise AssertionError("the network was asked for something")

    monkeypatch.setattr(socket.socket, "connect", refuse)
    monkeypatch.setattr(socket, "create_connection", refuse)


@pytest.mark.parametrize("site", SITES, ids=lambda site: site.code)
@pytest.mark.parametrize("sun_below", [-0.8333, -12.0, -18.0])
@pytest.mark.parametrize("noon", ["2026-03-20", "2026-06-21", "2026-12-21"])
def test_nights_are_those_of_a_second_library(site: Site, sun_below: float, noon: str) -> None:
    start = seconds_of(noon) + int(DAY / 2 - site.longitude / 360 * DAY)
    (night,) = Almanac(start, start + DAY).night(site, sun_below)
    observer = ephem.Observer()
    observer.lat, observer.lon = str(site.latitude), str(site.longitude)
    observer.elevation, observer.pressure, observer.horizon = 0, 0, str(sun_below)
    observer.date = ephem.Date("1970/1/1") + start / DAY
    dusk = observer.next_setting(ephem.Sun(), use_center=True)
    dawn = observer.next_rising(ephem.Sun(), start=dusk, use_center=True)
    for ours, theirs in ((night.start, dusk), (night.end, dawn)):
        assert abs(ours - (theirs - ephem.Date("1970/1/1")) * DAY) < 3


def test_every_second_of_a_day_keeps_the_limits() -> None:
    """Each second is computed by astropy itself; but for two at an edge, the same seconds are found."""
    from astropy.coordinates import AltAz, SkyCoord, erfa_astrom, get_body
    from astropy.time import Time

    start = seconds_of("2026-11-27")
    seconds = np.arange(start, start + DAY + 1)
    target, limits = Target("near the Moon", 92.0, 20.0), Limits(35.0, 1.6, 9.0)
    spans = Almanac(start, start + DAY).visible(target, PARANAL, limits)
    with offline(), erfa_astrom.erfa_astrom.set(erfa_astrom.ErfaAstromInterpolator(_minutes(5))):
        times = Time(seconds.astype(float), format="unix")
        place = SkyCoord(target.ra, target.dec, unit="deg")
        altitude = place.transform_to(AltAz(obstime=times, location=PARANAL.location())).alt
        coarse = Time(seconds[::300].astype(float), format="unix")
        moon = get_body("moon", coarse, PARANAL.location()).separation(place).deg
    airmass = 1 / np.sin(altitude.rad)
    holds = (altitude.deg >= 35.0) & (airmass <= 1.6) & (np.interp(seconds, seconds[::300], moon) >= 9.0)
    ours = np.zeros(DAY, dtype=bool)
    for span in spans:
        ours[span.start - start : span.end - start] = True
    theirs = holds[:-1] & holds[1:]
    assert 0 < theirs.sum() < DAY and (holds != (altitude.deg >= 35.0)).any()
    edges = np.flatnonzero(np.diff(theirs.astype(int))) + 1
    differing = np.flatnonzero(ours != theirs)
    assert all(np.abs(edges - second).min() <= 2 for second in differing)
    assert len(differing) <= 2 * len(edges)


def _minutes(count: int):
    from astropy import units

    return count * units.min


def test_astroplan_agrees_and_its_constraints_are_kept() -> None:
    from astroplan import AltitudeConstraint, AtNightConstraint, MoonIlluminationConstraint
    from astropy import units
    from astropy.time import Time

    start = seconds_of("2026-11-27")
    almanac = Almanac(start, start + 2 * DAY)
    seconds = np.arange(start, start + 2 * DAY, 1800)
    with offline():
        times = Time(seconds.astype(float), format="unix")
        observer, star = LA_PALMA.observer(), M42.fixed_target()
        high = AltitudeConstraint(30 * units.deg)(observer, [star], times=times).reshape(-1)
        night = AtNightConstraint(-18 * units.deg)(observer, [star], times=times).reshape(-1)
    assert [bool(each) for each in high] == _covered(almanac.visible(M42, LA_PALMA, Limits(30.0)), seconds)
    assert [bool(each) for each in night] == _covered(almanac.night(LA_PALMA), seconds)
    dark = Limits(30.0, others=(AtNightConstraint(-18 * units.deg),))
    by_others, by_night = almanac.visible(M42, LA_PALMA, dark), almanac.night(LA_PALMA)
    for ours in by_others:
        assert any(span.start - 2 <= ours.start and ours.end <= span.end + 2 for span in by_night)
    never = Limits(30.0, others=(MoonIlluminationConstraint(max=0.0, min=0.0),))
    assert sum(span.seconds for span in almanac.visible(M42, LA_PALMA, never)) < sum(
        span.seconds for span in almanac.visible(M42, LA_PALMA, Limits(30.0))
    )


def _covered(spans, seconds) -> list[bool]:
    return [any(span.start <= second < span.end for span in spans) for second in seconds]


RATE = 7.29e-5


@pytest.mark.parametrize(
    "function, wanted",
    [
        (lambda x: (x - 100.3) * (200.7 - x) * 1e-9, ((101, 200),)),
        (lambda x: (x - 100) * (200 - x) * 1e-9 + 1e-9, ((100, 200),)),
        (lambda x: np.full(x.shape, 1.0), ((0, 5000),)),
        (lambda x: np.full(x.shape, -1.0), ()),
        (lambda x: 4990.5 - x, ((0, 4990),)),
        (lambda x: x - 0.5, ((1, 5000),)),
    ],
)
def test_spans_are_rounded_inwards(function, wanted) -> None:
    assert spans_where(function, 0, 5000) == tuple(Span(*each) for each in wanted)


@pytest.mark.parametrize("middle", [900, 1200, 2999.5])
@pytest.mark.parametrize("half", [20, 150, 299])
def test_what_is_shorter_than_the_grid_is_found(middle: float, half: float) -> None:
    def hill(x):
        return np.cos(RATE * (x - middle)) - cos(RATE * half)

    (rise,) = spans_where(hill, 0, 5000)
    assert 0 <= rise.start - (middle - half) <= 1.1 and 0 <= middle + half - rise.end <= 1.1
    before, after = spans_where(lambda x: -hill(x), 0, 5000)
    assert before.start == 0 and 0 <= middle - half - before.end <= 1.1
    assert after.end == 5000 and 0 <= after.start - (middle + half) <= 1.1


def test_answers_by_steps_are_sought_to_the_second() -> None:
    def holds(seconds):
        return ((seconds >= 1234) & (seconds <= 4321)) | (seconds >= 6000)

    assert spans_by_steps(holds, 0, 7000) == (Span(1234, 4321), Span(6000, 7000))
    assert spans_by_steps(lambda seconds: seconds >= 0, 0, 700) == (Span(0, 700),)
    assert spans_by_steps(lambda seconds: seconds < 0, 0, 700) == ()


def test_a_target_at_the_celestial_pole_stands_still() -> None:
    start = seconds_of("2026-11-27")
    almanac = Almanac(start, start + DAY)
    polaris = Target("Polaris", 37.95456, 89.26411, 44.48, -11.85)
    assert almanac.visible(polaris, MCDONALD, Limits(29.0)) == (Span(start, start + DAY),)
    assert almanac.visible(polaris, MCDONALD, Limits(32.0)) == ()
    assert almanac.visible(polaris, PARANAL, Limits(0.0)) == ()


def test_a_proper_motion_is_followed() -> None:
    start = seconds_of("2026-11-27")
    barnard = Target("Barnard", 269.45208, 4.69336, -802.8, 10_362.5, 2000.0)
    still = Target("still", 269.45208, 4.69336)
    almanac = Almanac(start, start + DAY)
    moved, unmoved = (almanac.visible(each, LA_PALMA, Limits(30.0))[0] for each in (barnard, still))
    shift = 26.9 * 10.3625 * sin(np.radians(28.76)) / 15
    assert 2 < (moved.seconds - unmoved.seconds) < 4 * shift


def test_the_sun_of_the_arctic() -> None:
    site = Site("alert", 82.5018, -62.3481, 30)
    summer, winter = seconds_of("2026-06-21"), seconds_of("2026-12-21")
    assert Almanac(summer, summer + 3 * DAY).night(site, 0.0) == ()
    assert Almanac(winter, winter + 3 * DAY).night(site, -12.0) == (Span(winter, winter + 3 * DAY),)


@pytest.mark.parametrize("latitude", [90.0, -90.0])
def test_a_site_at_the_pole_has_every_target_at_its_declination(latitude: float) -> None:
    start = seconds_of("2026-11-27")
    site, target = Site("pole", latitude, 0.0), Target("t", 10.0, np.sign(latitude) * 40.0)
    almanac = Almanac(start, start + DAY)
    assert almanac.visible(target, site, Limits(39.0)) == (Span(start, start + DAY),)
    assert almanac.visible(target, site, Limits(41.0)) == ()


def test_what_is_no_place() -> None:
    with pytest.raises(DocumentError, match="site x: latitude 90.1 is out of -90 to 90"):
        Site("x", 90.1, 0.0)
    with pytest.raises(DocumentError, match="target x: ra -1 is out of 0 to 360"):
        Target("x", -1.0, 0.0)
    with pytest.raises(DocumentError, match="airmass 0.5 is out of 1 to 40"):
        Limits(airmass=0.5)


def test_horizons_that_are_none() -> None:
    with pytest.raises(SkyError, match="nights are known from 1970-01-01T00:00:00Z to 2100-01-01T00:00:00Z"):
        Almanac("2099-12-31", "2100-01-02")
    with pytest.raises(SkyError):
        Almanac(1000, 1000)
    with pytest.raises(DocumentError, match="'tomorrow' is no date and time"):
        Almanac("tomorrow", 2)


def test_lines_of_too_many_days_are_refused(monkeypatch: pytest.MonkeyPatch) -> None:
    monkeypatch.setattr("purvelj.sky.almanac.MOST_SPANS", 2)
    almanac = Almanac("2026-11-27", "2026-12-01")
    with pytest.raises(SkyError, match="M42 at paranal has 4 spans, and a line at most 2: take fewer days"):
        list(almanac.visibility_lines({M42: Limits()}, [PARANAL]))


def test_lines_are_of_whole_seconds() -> None:
    almanac = Almanac("2026-11-27", "2026-11-28")
    (night,) = almanac.night_lines([PARANAL])
    ((_, _, visible),) = almanac.visibility_lines({M42: Limits()}, [PARANAL])
    assert (night["do"], night["site"]) == ("night", "paranal")
    assert (visible["do"], visible["target"], visible["site"]) == ("visibility", "M42", "paranal")
    for line in (night, visible):
        spans = json.loads(json.dumps(line))["spans"]
        assert spans and all(isinstance(each, int) for span in spans for each in span)


@pytest.mark.parametrize("moment", ["2026-11-27T04:00:00Z", "20261127T04", "1795752000", "01795752000"])
def test_a_horizon_begins_at_a_moment_or_a_number_of_seconds(run, moment: str) -> None:
    files = {"sites.json": [{"site": "lsc", "latitude": -30.1674, "longitude": -70.8048}]}
    ran = run("nights", "sites.json", "--from", moment, "--days", "1", files=files)
    assert (ran.status, ran.err) == (0, "")
    assert ran.lines()[0]["spans"][0][0] == 1_795_752_000


def test_nothing_is_downloaded_or_said() -> None:
    """In a process of its own, since astropy asks for its tables once."""
    text = (
        "import socket, warnings; warnings.simplefilter('error');"
        "socket.socket.connect = None; socket.getaddrinfo = None;"
        "from purvelj.sky import *; a = Almanac('2026-11-27', '2026-11-28'); s = Site('s', -30, -70);"
        "print(len(a.night(s)), len(a.visible(Target('t', 80, -5), s, Limits(30.0, 2.0, 30.0))));"
        "s.observer(); import astroplan"
    )
    done = subprocess.run([sys.executable, "-c", text], capture_output=True, text=True, cwd=_top(), check=False)
    assert (done.stdout, done.stderr) == ("1 1\n", "")


def _top() -> str:
    return str(Path(__file__).resolve().parents[1])
