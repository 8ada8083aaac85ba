"""`publish` lines: the claim that was printed last, and others near it."""

import copy

from drawing.draw import Raw


def publish(version, claim):
    return {"do": "publish", "version": version, "claim": claim}


def bare(draw, desk):
    """A claim with no placement, and prices that are drawn."""
    claim = {"placements": [], "prices": [draw.between(-100, 90_000) for _ in desk.claim["prices"]], "value": 0, "bound": 0}
    if "quota_prices" in desk.claim and draw.chance(70):
        claim["format"] = 2
        claim["quota_prices"] = [draw.between(0, 100) for _ in desk.claim["quota_prices"]]
    return claim


def add_placements(draw, desk, placements):
    """Some of the waiting requests of a group are placed, where that may be."""
    groups = [[each for each in requests if each not in desk.running] for requests in desk.pending.values()]
    waiting = draw.one([each for each in groups if each] or [[1]])
    first = -(-desk.now // desk.slice)
    for request in draw.some(waiting, 1):
        placements.append([request, draw.between(0, len(desk.sites) - 1), first + draw.between(0, desk.horizon - 1)])


def change_placements(draw, desk, claim):
    """One placement more, fewer, twice, elsewhere, or of a request that isn't there."""
    placements = claim["placements"]
    how = draw.weighed({"more": 5, "fewer": 3, "twice": 1, "elsewhere": 2, "nowhere": 1})
    if how == "more" or not placements:
        if draw.chance(60):
            placements.clear()
        for _ in range(draw.between(1, 2)):
            add_placements(draw, desk, placements)
        return
    place = draw.between(0, len(placements) - 1)
    if how == "fewer":
        del placements[place]
    elif how == "twice":
        placements.append(list(placements[place]))
    elif how == "elsewhere":
        placements[place][draw.between(1, 2)] += 1
    else:
        placements[place][0] = draw.one((0, placements[place][0] + 1, 4_294_967_295))


def change_prices(draw, _, claim):
    """One price more or fewer, another, or one at or past the greatest."""
    prices = claim["prices"]
    how = draw.between(0, 2)
    if how == 0 or not prices:
        prices.append(draw.between(-9, 9))
    elif how == 1:
        prices.pop()
    else:
        least = draw.one((-1_000_000_000_001, -1_000_000_000_000, 1_000_000_000_000, 1_000_000_000_001))
        prices[draw.between(0, len(prices) - 1)] = draw.rarely(50, least, draw.between(-1_000, 200_000))


def change_quota_prices(draw, _, claim):
    """As `change_prices` does, of quotas, or none at all."""
    if "quota_prices" not in claim or draw.chance(20):
        claim["format"] = draw.rarely(20, 1, 2)
        claim["quota_prices"] = [draw.between(0, 9) for _ in range(draw.between(1, 4))]
    elif draw.chance(20):
        del claim["quota_prices"], claim["format"]
    else:
        prices = claim["quota_prices"]
        prices[draw.between(0, len(prices) - 1)] = draw.one((0, 7, 200_000, 200_001))


def changed(draw, desk):
    """The claim that was printed last, with a change."""
    claim = copy.deepcopy(desk.claim)
    change = draw.weighed({change_placements: 6, change_prices: 1, change_quota_prices: 1})
    change(draw, desk, claim)
    if draw.chance(20):
        claim[draw.one(("value", "bound"))] += draw.one((-1, 1))
    return claim


def mended(draw, desk):
    """The claim that was refused last, with the value, the bound or the count of prices that the refusal found."""
    claim = copy.deepcopy(desk.sent)
    reason = desk.refusal["reason"]
    if reason == "PriceCount":
        claim["prices"] = [draw.between(-100, 50_000) for _ in range(desk.refusal["wanted"])]
    elif reason == "QuotaPriceCount":
        claim["quota_prices"] = [draw.between(0, 100) for _ in range(desk.refusal["wanted"])]
    else:
        claim["value" if reason == "ValueDiffers" else "bound"] = desk.refusal["found"]
    return claim


def draw_claim(draw, desk):
    """A claim for the present version, mostly near the one that was printed last."""
    if desk.claim is None:
        return {"placements": [], "prices": [], "value": 0, "bound": 0}
    how = draw.weighed({"printed": 2, "bare": 3, "changed": 5})
    return desk.claim if how == "printed" else bare(draw, desk) if how == "bare" else changed(draw, desk)


def draw_publish(draw, desk):
    if desk.refusal is not None and draw.chance(85):
        claim = mended(draw, desk)
    else:
        claim = draw_claim(draw, desk)
    desk.sent = claim
    return publish(draw.rarely(8, draw.one((0, desk.version + 1, Raw("524289"))), desk.version), claim)
