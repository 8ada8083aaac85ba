"""A short script whose replies were worked out by hand, and its replies."""

from __future__ import annotations

from pathlib import Path

LINES = [
    '{"do":"open","now":0,"slice":300,"horizon":12,"semester":[0,15552000],"lanes":1,"rounds":8,"workers":1}',
    '{"do":"instrument","type":"1M0-SCICAM-SINISTRO","front_ms":0,"config_ms":0,"readout_ms":0,"change_ms":0}',
    '{"do":"telescope","site":"coj","enclosure":"doma","telescope":"1m0a","class":"1m0",'
    '"instruments":["1M0-SCICAM-SINISTRO"]}',
    '{"do":"night","site":"coj","spans":[[0,3600]]}',
    '{"do":"visibility","target":"M51","site":"coj","spans":[[0,3600]]}',
    '{"do":"grant","proposal":"P1","account":"standard","instrument_type":"1M0-SCICAM-SINISTRO","seconds":1000}',
    '{"do":"submit","group":{"name":"g","proposal":"P1","operator":"SINGLE","observation_type":"NORMAL",'
    '"requests":[{"location":{"telescope_class":"1m0"},"windows":[{"start":0,"end":3600}],'
    '"configurations":[{"instrument_type":"1M0-SCICAM-SINISTRO","target":{"name":"M51"},'
    '"instrument_configs":[{"exposure_time_ms":300000,"exposure_count":1}]}]}]}}',
    '{"do":"plan"}',
    '{"do":"export"}',
]

CLAIM = '{"bound":50000,"placements":[[1,0,0]],"prices":[50000],"value":50000}'
SNAPSHOT = (
    '{"first":0,"groups":[{"group":1,"operator":"SINGLE","requests":[{"request":1,"seconds":300,"targets":[0],'
    '"telescopes":[0],"value":50000,"windows":[[0,3600]]}]}],"len":300,"skies":[{"site":0,"spans":[[0,3600]],'
    '"target":0}],"slices":12,"telescopes":[{"site":0,"usable":[[0,3600]]}],"version":7}'
)
REPLIES = [
    '{"caller":0,"line":1,"ok":"opened","version":0}',
    '{"caller":0,"line":2,"ok":"instrument","version":1}',
    '{"caller":0,"line":3,"ok":"telescope","telescope":0,"version":2}',
    '{"caller":0,"line":4,"ok":"night","version":3}',
    '{"caller":0,"line":5,"ok":"visibility","version":4}',
    '{"balance":1000,"caller":0,"line":6,"ok":"granted","version":5}',
    '{"caller":0,"group":1,"ipp_charged":0,"line":7,"ok":"submitted","requests":[1],"version":6}',
    '{"caller":0,"line":8,"ok":"taken","version":7}',
    '{"caller":0,"claim":%s,"line":8,"ok":"published","version":7}' % CLAIM,
    '{"caller":0,"claim":%s,"line":9,"ok":"exported","snapshot":%s,"version":8}' % (CLAIM, SNAPSHOT),
]


def joined(lines: list[str]) -> str:
    """The text of these lines."""
    return "".join(f"{line}\n" for line in lines)


def journal(folder: Path, lines: str, replies: str) -> Path:
    """The name of a journal with these contents."""
    (folder / "night.lines.jsonl").write_text(lines)
    (folder / "night.replies.jsonl").write_text(replies)
    return folder / "night"
