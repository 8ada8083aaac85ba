"""The desk's own checker, on the claims that the package makes and checks."""

from __future__ import annotations

import subprocess
from dataclasses import replace
from random import Random

import pytest

from drawn import drawn_network, drawn_snapshot
from purvelj.checker import check
from purvelj.documents import compact
from purvelj.model import Claim, Snapshot
from purvelj.tighten import tighten
from test_checker import CERTIFIED, REFUSED
from test_tighten import greedy_claim


def verdict_of(plancheck: list[str], shot: Snapshot, sent: Claim) -> tuple[int, str]:
    """The exit status of ``plancheck check`` and the line that it writes."""
    document = compact({"snapshot": shot.document(), "claim": sent.document()})
    ran = subprocess.run(plancheck, input=document, capture_output=True, text=True, timeout=600, check=False)
    return ran.returncode, ran.stdout


def assert_same_verdict(plancheck: list[str], shot: Snapshot, sent: Claim) -> None:
    verdict = check(shot, sent)
    assert verdict_of(plancheck, shot, sent) == (0 if verdict.yes else 7, verdict.text() + "\n")


@pytest.mark.parametrize("case", CERTIFIED)
def test_certified_claims_are_certified_by_both(plancheck: list[str], case: str) -> None:
    assert_same_verdict(plancheck, *CERTIFIED[case])


@pytest.mark.parametrize("shot, sent, text", REFUSED)
def test_both_tell_the_same_reason(plancheck: list[str], shot: Snapshot, sent: Claim, text: str) -> None:
    assert verdict_of(plancheck, shot, sent) == (7, text + "\n")


@pytest.mark.parametrize("quotas", [False, True])
def test_tightened_claims_are_certified(plancheck: list[str], quotas: bool) -> None:
    draw = Random(23)
    for _ in range(30):
        shot = drawn_snapshot(draw, quotas=quotas)
        found = tighten(shot, greedy_claim(shot)).claim
        assert verdict_of(plancheck, shot, found) == (0, compact({"bound": found.bound, "ok": "yes", "value": found.value}) + "\n")
        assert_same_verdict(plancheck, shot, replace(found, value=found.value + 1))
        assert_same_verdict(plancheck, shot, replace(found, bound=max(0, found.bound - 1)))


def test_a_tightened_network_is_certified(plancheck: list[str]) -> None:
    shot = drawn_network(Random(5))
    found = tighten(shot, greedy_claim(shot)).claim
    assert_same_verdict(plancheck, shot, found)
