#!/usr/bin/env python3
"""usage: drawn.py COUNT SEED

Draws small snapshots with claims that are certified, and explains each by plain enumeration: all lists of starts of a
telescope, all choices of a group, and no table. Writes COUNT documents, a line each, to drawn.jsonl, what plancheck explain must
write of all of them to drawn.replies, and the exit statuses to drawn.statuses.
"""

import itertools
import json
import random
import sys

LEN = 300


def text(value):
    return json.dumps(value, separators=(",", ":"), sort_keys=True)


def draw_spans(draw, slices):
    """Spans with gaps, in which most of the slices lie."""
    ends = sorted(draw.sample(range(0, slices * LEN + 1, 50), 4))
    spans = [[ends[0], ends[1]], [ends[2], ends[3]]]
    return draw.choice([[[0, slices * LEN]], [span for span in spans if span[0] < span[1]]])


def draw_request(draw, number, telescopes, slices):
    start = draw.randrange(0, slices) * LEN
    end = min(slices * LEN, start + LEN * draw.randint(1, slices))
    request = {
        "request": number,
        "seconds": draw.choice([200, 300, 500, 600, 800]),
        "targets": draw.choice([[], [0]]),
        "telescopes": sorted(draw.sample(range(telescopes), draw.randint(1, telescopes))),
        "value": draw.randint(1, 60000),
        "windows": [[start, end]] if draw.random() < 0.8 else [[0, LEN], [LEN, slices * LEN]],
    }
    if draw.random() < 0.3:
        request["fade"] = draw.choice([10, 100, 400, 1000])
    return request


def draw_snapshot(draw):
    telescopes, slices = draw.randint(1, 2), draw.randint(2, 5)
    quotas = draw.choice([[], [], [900], [300, 1500]])
    groups, number = [], 0
    while number < draw.randint(2, 4):
        operator = draw.choice(["SINGLE", "SINGLE", "MANY", "ONEOF", "AND"])
        count = 1 if operator == "SINGLE" else draw.randint(1, 2)
        requests = [draw_request(draw, number + i + 1, telescopes, slices) for i in range(count)]
        number += count
        group = {"group": len(groups) + 1, "operator": operator, "requests": requests}
        if quotas and draw.random() < 0.7:
            group["quota"] = draw.randrange(len(quotas))
        groups.append(group)
    snapshot = {
        "first": 0,
        "groups": groups,
        "len": LEN,
        "skies": [{"site": 0, "spans": draw_spans(draw, slices), "target": 0}],
        "slices": slices,
        "telescopes": [{"site": 0, "usable": draw_spans(draw, slices)} for _ in range(telescopes)],
        "version": draw.randrange(100),
    }
    if quotas:
        snapshot["quotas"] = quotas
    return snapshot


class Explained:
    """A snapshot with prices, explained by enumeration."""

    def __init__(self, snapshot, prices, quota_prices):
        self.snapshot = snapshot
        self.requests = {q["request"]: q for g in snapshot["groups"] for q in g["requests"]}
        self.group = {q["request"]: g for g in snapshot["groups"] for q in g["requests"]}
        self.price = dict(zip(self.requests, prices))
        self.quota_prices = quota_prices
        self.telescopes = range(len(snapshot["telescopes"]))
        self.starts = [start for r in self.requests for t in self.telescopes for start in self.starts_of(r, t)]

    def size(self, r):
        return -(-self.requests[r]["seconds"] // LEN)

    def starts_of(self, r, t):
        request = self.requests[r]
        if t not in request["telescopes"]:
            return
        for k in range(self.snapshot["slices"] - self.size(r) + 1):
            seconds = range(k * LEN, k * LEN + request["seconds"])
            inside = any(w[0] <= seconds[0] and seconds[-1] < w[1] for w in request["windows"])
            open_spans = [self.snapshot["telescopes"][t]["usable"]]
            open_spans += [self.snapshot["skies"][0]["spans"]] * len(request["targets"])
            if inside and all(any(a <= x < b for a, b in spans) for spans in open_spans for x in seconds):
                yield (r, t, k)

    def worth(self, start):
        r, _, k = start
        request = self.requests[r]
        earliest = -(-min(w[0] for w in request["windows"]) // LEN)
        lost = request["value"] * request.get("fade", 0) * min(max(0, k - earliest), 1000) // 1000
        return max(1, request["value"] - lost)

    def weight(self, start):
        return self.worth(start) - self.price[start[0]]

    def shares(self, a, b):
        return a[1] == b[1] and a[2] < b[2] + self.size(b[0]) and b[2] < a[2] + self.size(a[0])

    def lists(self, t, free=0):
        """All lists of starts of a telescope, in the order of their slices."""
        yield []
        for start in self.starts:
            if start[1] == t and start[2] >= free:
                for rest in self.lists(t, start[2] + self.size(start[0])):
                    yield [start] + rest

    def best(self, t, r=None):
        return max(
            sum(map(self.weight, starts)) for starts in self.lists(t) if r is None or r in [start[0] for start in starts]
        )

    def net(self, r):
        quota = self.group[r].get("quota")
        dear = 0 if quota is None or not self.quota_prices else self.quota_prices[quota]
        return self.price[r] - dear * self.requests[r]["seconds"]

    def rebate(self, group, r=None):
        members = [q["request"] for q in group["requests"]]
        sums = []
        for count in range(len(members) + 1):
            for choice in itertools.combinations(members, count):
                allowed = (
                    group["operator"] in ("SINGLE", "MANY")
                    or (group["operator"] == "ONEOF" and count <= 1)
                    or (group["operator"] == "AND" and count in (0, len(members)))
                )
                if allowed and (r is None or r in choice):
                    sums.append(sum(map(self.net, choice)))
        return max(sums)

    def bound(self):
        quotas = self.snapshot.get("quotas", [])
        return (
            sum(self.best(t) for t in self.telescopes)
            + sum(self.rebate(group) for group in self.snapshot["groups"])
            + sum(u * q for u, q in zip(self.quota_prices, quotas))
        )

    def is_feasible(self, plan):
        placed = [start[0] for start in plan]
        if len(set(placed)) < len(placed):
            return False
        if any(self.shares(a, b) for a, b in itertools.combinations(plan, 2)):
            return False
        for group in self.snapshot["groups"]:
            members = [q["request"] for q in group["requests"]]
            count = sum(r in placed for r in members)
            if group["operator"] == "ONEOF" and count > 1:
                return False
            if group["operator"] == "AND" and count not in (0, len(members)):
                return False
        for place, quota in enumerate(self.snapshot.get("quotas", [])):
            if sum(self.requests[r]["seconds"] for r in placed if self.group[r].get("quota") == place) > quota:
                return False
        return True

    def line(self, r, plan, value, bound):
        starts = [start for start in self.starts if start[0] == r]
        forced = None
        if starts:
            detour = max(self.best(t, r) - self.best(t) for t in {start[1] for start in starts})
            forced = bound - self.rebate(self.group[r]) + self.rebate(self.group[r], r) + detour
        return text(
            {
                "blocking": [p for p in plan if any(self.shares(p, start) for start in starts)],
                "excluded": forced is None or forced < value,
                "forced": forced,
                "request": r,
                "starts": len(starts),
            }
        )


def draw_case(draw):
    snapshot = draw_snapshot(draw)
    count = sum(len(group["requests"]) for group in snapshot["groups"])
    prices = [draw.choice([0, draw.randint(-20000, 60000)]) for _ in range(count)]
    quota_prices = draw.choice([[], [draw.randrange(100) for _ in snapshot.get("quotas", [])]])
    explained = Explained(snapshot, prices, quota_prices)
    plan = []
    for start in draw.sample(explained.starts, len(explained.starts)):
        if explained.is_feasible(plan + [start]) and draw.random() < 0.6:
            plan.append(start)
    if not explained.is_feasible(plan):
        plan = []
    value, bound = sum(map(explained.worth, plan)), explained.bound()
    claim = {"bound": bound, "placements": plan, "prices": prices, "value": value}
    if quota_prices:
        claim["format"], claim["quota_prices"] = 2, quota_prices
    lines = [text({"bound": bound, "ok": "yes", "value": value})]
    lines += [explained.line(r, plan, value, bound) for r in explained.requests if r not in [p[0] for p in plan]]
    return text({"claim": claim, "snapshot": snapshot}), lines


def main():
    count, draw = int(sys.argv[1]), random.Random(int(sys.argv[2]))
    cases = [draw_case(draw) for _ in range(count)]
    with open("drawn.jsonl", "w", encoding="ascii") as documents:
        documents.writelines(document + "\n" for document, _ in cases)
    with open("drawn.replies", "w", encoding="ascii") as replies:
        replies.writelines(line + "\n" for _, lines in cases for line in lines)
    with open("drawn.statuses", "w", encoding="ascii") as statuses:
        statuses.writelines("0\n" for _ in cases)


if __name__ == "__main__":
    main()
