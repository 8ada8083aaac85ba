"""What the replies so far tell of a desk."""

# The reasons for which a claim is refused that tell what it should have been.
MENDED = ("PriceCount", "QuotaPriceCount", "ValueDiffers", "BoundDiffers")


class Desk:
    """A desk as whoever talks to it knows it: how it is opened, its moment, and what its replies told. `pending` has the pending requests
    of each group, and `home` the group of each."""

    def __init__(self, draw, horizon):
        self.slice = draw.one((60, 77, 300, 900))
        self.horizon = horizon
        self.length = self.slice * self.horizon
        self.now = draw.one((0, 1_740_787_200, draw.between(0, 2_000_000_000)))
        self.semester = [max(0, self.now - self.length), self.now + 40 * self.length]
        self.version = 0
        self.groups = 0
        self.sites = ()
        self.pending = {}
        self.home = {}
        self.named = None
        self.reported = None
        self.requests = 0
        self.running = []
        self.ended = []
        self.planned = []
        self.claim = None
        self.sent = None
        self.refusal = None
        self.last = None

    def hear(self, reply):
        """Takes in a reply."""
        ok = reply.get("ok")
        self.version = reply["version"] + (ok not in (None, "taken", "exported", "balances", "shown"))
        if ok in ("submitted", "amended"):
            self.groups = reply["group"]
            self.pending[reply["group"]] = set(reply["requests"])
            self.home.update(dict.fromkeys(reply["requests"], reply["group"]))
            self.requests = max([self.requests, *reply["requests"]])
        elif ok == "published":
            self.claim = reply["claim"]
            self.planned = [slice for _, _, slice in self.claim["placements"]]
        elif ok == "clocked":
            self.ended += [each for each in self.running if each in reply["failed"]]
            self.running = [each for each in self.running + reply["started"] if each not in reply["failed"]]
        gone = [*reply.get("expired", ()), *reply.get("canceled", ()), *([self.reported] if ok == "completed" else [])]
        if ok in ("amended", "withdrawn") or reply.get("no") == 25:
            gone += self.pending.get(self.named, ())
        self.forget(gone)
        self.refusal = reply if reply.get("reason") in MENDED else None
        self.last = ok

    def forget(self, requests):
        """Requests aren't pending any more."""
        for request in requests:
            group = self.home.pop(request, None)
            if group is not None:
                self.pending[group].discard(request)
                if not self.pending[group]:
                    del self.pending[group]
