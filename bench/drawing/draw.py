"""A seeded source of choices, and the names that drawn sessions are about."""

import random

SITES = ("coj", "lsc", "cpt")
ENCLOSURES = ("doma", "domb")
CODES = ("1m0a", "0m4a")
CLASSES = ("1m0", "0m4")
INSTRUMENTS = ("SINISTRO", "FLOYDS", "NRES")
TARGETS = ("M31", "M51", "M101", "ζ Oph", 'a "quoted" one', "back\\slash")
PROPOSALS = ("P1", "P2", "P3")
ACCOUNTS = ("standard", "time_critical", "rapid_response", "ipp")
OPERATORS = ("SINGLE", "MANY", "ONEOF", "AND")
KINDS = ("NORMAL", "TIME_CRITICAL", "RAPID_RESPONSE")


class Raw:
    """A piece of a line that is written as it is."""

    def __init__(self, text):
        self.text = text


class Draw:
    """What is drawn from a seed, a number."""

    def __init__(self, seed):
        self.random = random.Random(seed)

    def chance(self, percent):
        return self.random.random() * 100 < percent

    def between(self, least, most):
        return self.random.randint(least, most)

    def one(self, choices):
        return choices[self.random.randrange(len(choices))]

    def weighed(self, weights):
        """One of the keys, each as often as its weight says."""
        return self.random.choices(list(weights), list(weights.values()))[0]

    def some(self, choices, least):
        """At least so many of the choices, in a drawn order."""
        return self.random.sample(choices, self.between(least, len(choices)))

    def rarely(self, percent, strange, usual):
        """The strange one, so often in a hundred times, and else the usual one."""
        return strange if self.chance(percent) else usual
