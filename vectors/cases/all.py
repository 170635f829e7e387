"""All cases, by operation."""
from __future__ import annotations

from typing import Dict

from cases import feed_cases, feed_time_cases, frame_cases, ground_cases, log_cases, near_cases, pair_cases, printed
from cases import worked, zone_cases
from cases.case import OPERATIONS, Collection


def chosen() -> Dict[str, Collection]:
    """The cases of each operation, the printed ones first."""
    found = {operation: Collection(operation) for operation in OPERATIONS}
    printed.add_frames(found["parity"], found["fields"], found["altitude"])
    printed.add_places(found["local"], found["pair"], found["surface-pair"])
    frame_cases.add_parity(found["parity"])
    frame_cases.add_fields(found["fields"])
    frame_cases.add_altitude(found["altitude"])
    zone_cases.add_zone_counts(found["nl"])
    zone_cases.add_encode(found["encode"])
    near_cases.add_local(found["local"])
    pair_cases.add_pairs(found["pair"])
    ground_cases.add_surface_pairs(found["surface-pair"])
    log_cases.add_logs(found["log"])
    feed_cases.add_feeds(found["feed"])
    feed_time_cases.add_feed_times(found["feed"])
    worked.add_layout(found["fields"])
    worked.add_places(found["local"], found["pair"], found["surface-pair"])
    worked.add_logs(found["log"])
    return found
