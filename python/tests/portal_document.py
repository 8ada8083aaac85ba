"""A request group as an observation portal has it."""

DOCUMENT = """{
  "name": "M 51 in r", "proposal": "LCO2026B-001", "ipp_value": 1.05, "operator": "SINGLE",
  "observation_type": "NORMAL",
  "requests": [{
    "acceptability_threshold": 90,
    "location": {"telescope_class": "1m0", "site": "", "enclosure": null},
    "windows": [{"start": "2026-11-27T00:00:00Z", "end": "2026-11-29 12:30:00"}],
    "configurations": [{
      "type": "EXPOSE", "instrument_type": "1M0-SCICAM-SINISTRO",
      "target": {"type": "ICRS", "name": "M51", "ra": 202.4696, "dec": 47.1952},
      "instrument_configs": [{"exposure_time": 30.5, "exposure_count": 3}]
    }]
  }]
}"""
