"""An astronomer's tools beside the Purvelj telescope scheduler.

``desk`` talks to a session, ``sky`` makes nights and visibility, ``portal`` turns request groups of an
observation portal into lines, ``chart`` draws plans and balances, ``tighten`` finds better claims, and
``checker`` checks a claim. ``python3 -m purvelj --help`` lists the commands.
"""

__version__ = "0.1.0"
