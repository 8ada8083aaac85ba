"""Nights of sites and visibility of targets, as lines for a desk."""

from purvelj.places import Limits, Site, Target
from purvelj.sky.almanac import Almanac, SkyError

__all__ = ["Almanac", "Limits", "Site", "SkyError", "Target"]
