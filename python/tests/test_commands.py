"""The commands, as a user runs them: output, messages and exit statuses, and never a trace."""

from __future__ import annotations

import json
import os
import shlex
import subprocess
import sys
from pathlib import Path

import pytest

from portal_document import DOCUMENT
from purvelj.checker import check
from purvelj.documents import Document, compact
from purvelj.model import read_claim
from script import CLAIM, LINES, REPLIES, SNAPSHOT
from snapshots import ONE

TOP = Path(__file__).resolve().parents[1]
SITES = [
    {"site": "lsc", "latitude": -30.1674, "longitude": -70.8048, "height": 2201},
    {"site": "tfn", "latitude": 28.3003, "longitude": -16.5117, "height": 2390},
]
TARGETS = [
    {"name": "M42", "ra": 83.8221, "dec": -5.3911, "moon": 10},
    {"name": "M31", "ra": 10.6847, "dec": 41.2687},
]
EXPORT = REPLIES[-1]


HORIZON = ("--from", "2026-11-27", "--days", "3")


def test_nights(run) -> None:
    ran = run("nights", "sites.json", *HORIZON, files={"sites.json": SITES})
    assert (ran.status, ran.err) == (0, "")
    assert [(line["do"], line["site"], len(line["spans"])) for line in ran.lines()] == [
        ("night", "lsc", 3),
        ("night", "tfn", 4),
    ]


def test_visibility(run) -> None:
    files = {"sites.json": {"sites": SITES}, "targets.json": {"targets": TARGETS}}
    ran = run("visibility", "sites.json", "targets.json", *HORIZON, "--airmass", "1.9", files=files)
    assert (ran.status, ran.err) == (0, "")
    assert [(line["target"], line["site"]) for line in ran.lines()] == [
        ("M42", "lsc"),
        ("M42", "tfn"),
        ("M31", "lsc"),
        ("M31", "tfn"),
    ]


def test_replay_prints_the_replies(run, netsched: list[str]) -> None:
    files = {"script.jsonl": "\n".join([*LINES, '{"do":"sing"}'])}
    ran = run("replay", "script.jsonl", "--program", shlex.join(netsched), files=files)
    assert ran.status == 0
    assert ran.out.splitlines()[:-1] == REPLIES
    assert ran.err == "purvelj: 1 of 10 lines were refused\n"


def test_replay_sends_each_line_as_it_is(run, netsched: list[str]) -> None:
    ran = run("replay", "script.jsonl", "--program", shlex.join(netsched), files={"script.jsonl": "\n \n{}\r\n"})
    assert ran.status == 0
    assert [(line["line"], line["refused"]) for line in ran.lines()] == [(1, "NotJson"), (2, "NotJson"), (3, "Missing")]
    assert ran.err == "purvelj: 3 of 3 lines were refused\n"
    assert run("replay", "none.jsonl", "--program", shlex.join(netsched), files={"none.jsonl": ""}).out == ""


def test_check_says_what_plancheck_says(run) -> None:
    ran = run("check", "export.json", files={"export.json": EXPORT})
    assert (ran.status, ran.out) == (0, '{"bound":50000,"ok":"yes","value":50000}\n')
    wrong = EXPORT.replace('"value":50000}', '"value":49999}', 1)
    ran = run("check", "export.json", files={"export.json": wrong})
    assert (ran.status, ran.out) == (7, '{"claimed":49999,"found":50000,"no":9,"reason":"ValueDiffers"}\n')


@pytest.mark.parametrize(
    "content, version",
    [
        (EXPORT, 8),
        (f'{{"claim":{CLAIM},"snapshot":{SNAPSHOT}}}', 8),
        ("\n".join(REPLIES) + "\n", 8),
        (json.dumps(json.loads(EXPORT), indent=1), 8),
    ],
    ids=["a reply", "an object", "an output", "over several lines"],
)
def test_tighten_prints_a_line_that_is_certified(run, content: str, version: int) -> None:
    ran = run("tighten", "export.json", files={"export.json": content})
    assert ran.status == 0
    (line,) = ran.lines()
    assert (line["do"], line["version"]) == ("publish", version)
    assert check(ONE, read_claim(Document(line["claim"]))).yes
    assert ran.err.splitlines()[0] == "purvelj: before: value 50,000, bound 50,000, gap 0 (0.000 %)"
    assert ran.err.splitlines()[1].startswith("purvelj: after:  value 50,000, bound 50,000, gap 0 (0.000 %), in ")


def test_tighten_says_where_the_desk_went_on(run) -> None:
    later = EXPORT.replace('"version":8}', '"version":11}')
    ran = run("tighten", "export.json", files={"export.json": later})
    assert ran.err.startswith("purvelj: the desk changed 3 times after this claim was published")
    assert ran.lines()[0]["version"] == 11
    ran = run("tighten", "export.json", "--version", "9")
    assert (ran.lines()[0]["version"], ran.err.count("changed")) == (9, 0)


def test_a_tightened_claim_is_published_by_the_desk(run, netsched: list[str]) -> None:
    script = [*LINES[:6], LINES[6], LINES[6], *LINES[7:]]
    ran = run("replay", "script.jsonl", "--program", shlex.join(netsched), files={"script.jsonl": "\n".join(script)})
    tightened = run("tighten", "output.jsonl", files={"output.jsonl": ran.out})
    again = "\n".join([*script, tightened.out.strip()])
    ran = run("replay", "script.jsonl", "--program", shlex.join(netsched), files={"script.jsonl": again})
    assert ran.lines()[-1]["ok"] == "published"
    assert (ran.lines()[-1]["claim"]["value"], ran.lines()[-1]["claim"]["bound"]) == (100_000, 100_000)


def test_tighten_without_time_has_a_status_of_its_own(run, monkeypatch: pytest.MonkeyPatch) -> None:
    monkeypatch.setattr("purvelj.tighten.run.PART_FOR_PRICES", 0.0)
    ran = run("tighten", "export.json", files={"export.json": EXPORT})
    assert (ran.status, ran.lines()[0]["do"]) == (8, "publish")
    assert "HiGHS didn't solve the relaxation in the time that it had" in ran.err


def test_chart_draws_both(run) -> None:
    output = "\n".join([*REPLIES, compact({**BALANCES, "line": 10})])
    files = {"output.jsonl": output, "script.jsonl": "\n".join([*LINES, '{"do":"balances"}'])}
    words = ("--plan", "plan.svg", "--accounts", "accounts.png")
    ran = run("chart", "output.jsonl", "--script", "script.jsonl", *words, files=files)
    assert (ran.status, ran.out, ran.err) == (0, "", "")
    assert "coj doma 1m0a" in Path("plan.svg").read_text() and Path("accounts.png").stat().st_size > 5000
    words = ("--plan", "export.svg", "--accounts", "export.png")
    ran = run("chart", "export.json", *words, files={"export.json": EXPORT})
    assert (ran.status, ran.err) == (4, "purvelj: there is no reply to a `balances` line to draw shares from\n")
    assert not Path("export.svg").exists()
    ran = run("chart", "output.jsonl")
    assert (ran.status, ran.err) == (2, "purvelj: chart draws nothing: name a file by --plan or --accounts\n")


BALANCES = {
    "balances": [
        {
            "account": "standard",
            "available": 700,
            "balance": 1000,
            "instrument_type": "1M0-SCICAM-SINISTRO",
            "proposal": "P1",
        }
    ],
    "caller": 0,
    "ok": "balances",
    "version": 8,
}
FILES = {
    "sites.json": SITES,
    "targets.json": TARGETS,
    "pole.json": [{**SITES[0], "latitude": -91.3}],
    "place.json": [{"site": "x", "longitude": 3}],
    "arctic.json": [{"site": "alert", "latitude": 82.5, "longitude": -62.3}],
    "south.json": [
        {"name": "Acrux", "ra": 186.65, "dec": -63.1},
        {"name": "sigma Oct", "ra": 317.2, "dec": -88.95},
    ],
    "north.json": [SITES[1]],
    "empty.json": "",
    "list.json": [],
    "export.json": EXPORT,
    "cut.json": EXPORT[:300],
    "cuttext.json": EXPORT[:12],
    "claim.json": f'{{"claim":{CLAIM}}}',
    "half.json": f'{{"snapshot":{SNAPSHOT}}}',
    "odd.json": EXPORT.replace('"seconds":300', '"seconds":0'),
    "float.json": EXPORT.replace('"seconds":300', '"seconds":300.0'),
    "minus.json": EXPORT.replace('"first":0', '"first":-0'),
    "order.json": EXPORT.replace('"usable":[[0,3600]]', '"usable":[[0,1800],[1800,3600]]'),
    "late.json": EXPORT.replace('"first":0', '"first":844674335').replace('"slices":12', '"slices":1440'),
    "wrong.json": EXPORT.replace('"bound":50000', '"bound":50001'),
    "nan.json": '{"snapshot":NaN}',
    "mark.json": "\ufeff" + EXPORT,
    "twice.json": [SITES[0], SITES[1], SITES[0]],
    "names.json": [{"name": "M1", "ra": 1, "dec": 1}, {"name": "M1", "ra": 2, "dec": 1}],
    "output.jsonl": "\n".join(REPLIES[:-1]),
    "cutoutput.jsonl": "\n".join(REPLIES)[:-30],
    "group.json": DOCUMENT.replace('"name": "M 51 in r",', ""),
    "cutgroup.json": DOCUMENT[:200],
    "types.json": DOCUMENT.replace('"1M0-SCICAM-SINISTRO"', '["1M0-SCICAM-SINISTRO"]'),
    "long.json": DOCUMENT.replace('"ipp_value": 1.05', '"ipp_value": 1e9999999'),
    "endless.json": DOCUMENT.replace('"ipp_value": 1.05', '"ipp_value": 1e9999999999999999999'),
    "script.jsonl": "\n".join(LINES),
}
BAD = [
    (("nights", "nowhere.json", *HORIZON), 3, "nowhere.json: can't be read: No such file or directory"),
    (("nights", ".", *HORIZON), 3, ".: can't be read: Is a directory"),
    (("nights", "empty.json", *HORIZON), 3, "empty.json: not JSON: it is empty"),
    (("nights", "list.json", *HORIZON), 4, "list.json: 0 elements, where 1 to 100000 may be"),
    (("nights", "pole.json", *HORIZON), 4, "pole.json: sites[0].latitude: -91.3 is out of -90 to 90"),
    (("nights", "place.json", *HORIZON), 4, "place.json: sites[0].latitude: is missing"),
    (("nights", "mark.json", *HORIZON), 3, "mark.json: not JSON: it begins with a byte order mark"),
    (("nights", "twice.json", *HORIZON), 4, "twice.json: sites[2].site: 'lsc' is there twice"),
    (("visibility", "twice.json", "targets.json", *HORIZON), 4, "twice.json: sites[2].site: 'lsc' is there twice"),
    (("visibility", "sites.json", "names.json", *HORIZON), 4, "names.json: targets[1].name: 'M1' is there twice"),
    (
        ("nights", "sites.json", "--from", "9999-12-31", "--days", "2"),
        4,
        "--days: 2 days from 9999-12-31T00:00:00Z on end after the year 9999",
    ),
    (("nights", "sites.json", "--from", "soon", "--days", "1"), 4, "--from: 'soon' is no date and time"),
    (
        ("nights", "sites.json", "--from", "253402300800", "--days", "1"),
        4,
        "--from: 253402300800 is out of the seconds from 0 to 253402300799",
    ),
    (("nights", "sites.json", "--from", "9" * 5000, "--days", "1"), 4, "--from: '9999"),
    (
        ("nights", "sites.json", "--from", "2026-11-27T04:00:00.5Z", "--days", "1"),
        4,
        "--from: 2026-11-27 04:00:00.500000+00:00 is no whole second",
    ),
    (
        ("nights", "sites.json", "--from", "1960-01-01", "--days", "1"),
        4,
        "--from: -315619200 is out of the seconds",
    ),
    (
        ("nights", "sites.json", "--from", "9999-12-31T23:00:00-05:00", "--days", "1"),
        4,
        "--from: '9999-12-31T23:00:00-05:00' is out of the years 1 to 9999 in UTC",
    ),
    (
        ("nights", "sites.json", "--from", "0001-01-01T00:00:00+05:00", "--days", "1"),
        4,
        "--from: '0001-01-01T00:00:00+05:00' is out of the years 1 to 9999 in UTC",
    ),
    (
        ("nights", "sites.json", "--from", "2120-01-01", "--days", "1"),
        6,
        "from 2120-01-01T00:00:00Z to 2120-01-02",
    ),
    (("nights", "arctic.json", "--from", "2026-06-21", "--days", "1"), 6, "no site has a night in these days"),
    (
        ("visibility", "north.json", "south.json", *HORIZON),
        6,
        "never visible from any of the sites in these days: Acrux, sigma Oct; --hidden goes on without them",
    ),
    (("portal", "group.json", "--priority", "1"), 5, "fault: document: group.json: name: is missing"),
    (
        ("portal", "cutgroup.json", "--priority", "1"),
        3,
        "cutgroup.json: not JSON: it ends in the middle, after 200",
    ),
    (
        ("portal", "types.json", "--priority", "1"),
        5,
        "fault: document: types.json: requests[0].configurations[0].instrument_type: a list stands where a text",
    ),
    (
        ("portal", "long.json", "--priority", "1"),
        5,
        "fault: ipp: long.json: ipp_value: 1E+9999999 is out of 500 to 2000 thousandths",
    ),
    (
        ("portal", "endless.json", "--priority", "1"),
        3,
        "endless.json: not JSON: 1e9999999999999999999 has an exponent that can't be read",
    ),
    (("portal", "list.json", "--priority", "1"), 4, "list.json: there is no request group in it"),
    (("check", "cut.json"), 3, "cut.json: not JSON: it ends in the middle, after 300 characters"),
    (("tighten", "cut.json"), 3, "cut.json: not JSON: it ends in the middle, after 300 characters"),
    (("tighten", "cuttext.json"), 3, "cuttext.json: not JSON: it ends in the middle, after 12 characters"),
    (("tighten", "empty.json"), 3, "empty.json: it is empty"),
    (
        ("tighten", "claim.json"),
        4,
        "claim.json: there is no `snapshot`, so it isn't the reply to an `export` line",
    ),
    (("tighten", "half.json"), 4, "half.json: claim: is missing"),
    (("tighten", "odd.json"), 4, "odd.json: snapshot.groups[0].requests[0].seconds: 0 is out of 1 to 86400"),
    (("tighten", "float.json"), 4, "float.json: snapshot.groups[0].requests[0].seconds: 300.0 isn't written as a"),
    (("check", "minus.json"), 4, "minus.json: snapshot.first: -0 isn't written as a whole number"),
    (
        ("tighten", "order.json"),
        4,
        "order.json: snapshot.telescopes[0].usable: the spans [0, 1800] and [1800, 3600]",
    ),
    (("tighten", "wrong.json"), 7, "the claim isn't certified for the snapshot: {"),
    (("tighten", "nan.json"), 3, "nan.json: not JSON: NaN is no JSON number"),
    (("tighten", "output.jsonl"), 4, "output.jsonl: there is no reply to an `export` line in it"),
    (("tighten", "cutoutput.jsonl"), 3, "cutoutput.jsonl, line 10: not JSON: it ends in the middle"),
    (("chart", "output.jsonl", "--plan", "p.svg"), 4, "there is no reply to an `export` line to take a plan from"),
    (("list", "output.jsonl"), 4, "there is no reply to an `export` line to take a plan from"),
    (("chart", "export.json", "--accounts", "p.svg"), 4, "there is no reply to a `balances` line to draw shares"),
    (("chart", "cut.json", "--plan", "p.svg"), 3, "cut.json, line 1: not JSON: it ends in the middle"),
    (("chart", "claim.json", "--plan", "p.svg"), 4, "claim.json, line 1: caller: is missing"),
    (
        ("chart", "late.json", "--plan", "p.svg"),
        4,
        "snapshot: its horizon ends after the year 9999, which can't be drawn",
    ),
    (
        ("replay", "script.jsonl", "--program", "no-such-program"),
        9,
        "no-such-program can't be started: No such file",
    ),
    (
        ("replay", "script.jsonl", "--program", "false"),
        9,
        "false ended with status 1 (the words of its command line",
    ),
    (
        ("replay", "script.jsonl", "--program", "sh -c 'exit 126'"),
        9,
        "sh -c exit 126 ended with status 126 (it could be neither found nor built) before",
    ),
    (("replay", "script.jsonl", "--program", "printf '\\377\\n'"), 3, "output, line 1: not a text in UTF-8"),
    (("replay", "script.jsonl", "--program", ""), 9, "the command of the session program has no words"),
]


@pytest.mark.parametrize("words, status, message", BAD, ids=[" ".join(each[0][:2]) for each in BAD])
def test_bad_input_is_told_in_one_message(run, words, status: int, message: str) -> None:
    ran = run(*words, files=FILES)
    assert (ran.status, ran.out) == (status, "")
    assert ran.err.splitlines()[-1].startswith(f"purvelj: {message}")


@pytest.mark.parametrize(
    "words, message",
    [
        ((), "the following arguments are required: COMMAND"),
        (("sing",), "invalid choice: 'sing'"),
        (("portal", "a", "--priority", "0"), "0 is out of 1 to 100"),
        (("portal", "a", "--priority", "1.5"), "'1.5' is no whole number"),
        (("tighten", "a", "--seconds", "x"), "'x' is no number"),
        (("portal", "a"), "the following arguments are required: --priority"),
        (("tighten", "a", "--seconds", "0"), "0 is out of 1 to 86400"),
        (("visibility", "a", "b", *HORIZON, "--moon", "200"), "200 is out of 0 to 180"),
        (("replay", "a", "--program", "it's"), "\"it's\" is no command: No closing quotation"),
        (("resume", "a"), "the following arguments are required: --script"),
        (("portal", "a", "--priority", "1", "--targets", "-"), "--targets has to name a file: the lines go to standard"),
        (("serve", ""), "'' is no name of a journal, such as tonight"),
        (("serve", "night/"), "'night/' is no name of a journal, such as tonight"),
        (("chart", "a", "--plan", "p.svg", "--accounts", "./p.svg"), "--plan and --accounts name the same file"),
        (("chart", "a", "--plan", "p.svg", "--accounts", "p.gif"), "p.gif: a picture's file ends in .svg or .png"),
    ],
)
def test_wrong_words_are_told(run, words, message: str) -> None:
    ran = run(*words)
    assert ran.status == 2 and message in ran.err


def test_hidden_targets_are_told_and_left(run) -> None:
    ran = run("visibility", "north.json", "south.json", *HORIZON, "--hidden", files=FILES)
    assert ran.status == 0
    assert [line["spans"] for line in ran.lines()] == [[], []]
    assert "never visible from any of the sites in these days: Acrux, sigma Oct" in ran.err


def test_a_site_without_a_night_is_told(run) -> None:
    files = {"sites.json": [SITES[0], {"site": "alert", "latitude": 82.5, "longitude": -62.3}]}
    ran = run("nights", "sites.json", "--from", "2026-06-21", "--days", "1", files=files)
    assert ran.status == 0 and ran.lines()[1]["spans"] == []
    assert ran.err == "purvelj: alert has no night: the Sun doesn't sink to -18 degrees there\n"


def test_a_missing_package_is_named(monkeypatch: pytest.MonkeyPatch, run) -> None:
    monkeypatch.setitem(sys.modules, "matplotlib.figure", None)
    for name in [name for name in sys.modules if name.startswith("purvelj.chart")]:
        monkeypatch.delitem(sys.modules, name)
    ran = run("chart", "export.json", "--plan", "p.svg", files={"export.json": EXPORT})
    wanted = "purvelj: matplotlib.figure isn't there: python/setup installs python3-matplotlib\n"
    assert (ran.status, ran.err) == (3, wanted)


def test_the_shell_commands_find_debians_python(tmp_path: Path) -> None:
    environment = {**os.environ, "PATH": f"{tmp_path}:/usr/bin:/bin"}
    (tmp_path / "python3").write_text("#!/bin/sh\nexit 9\n")
    (tmp_path / "python3").chmod(0o755)
    done = subprocess.run([TOP / "run", "--version"], env=environment, capture_output=True, text=True, check=False)
    assert (done.returncode, done.stdout, done.stderr) == (0, "purvelj 0.1.0\n", "")
    assert subprocess.run([TOP / "setup", "--tests"], env=environment, check=False).returncode == 0
