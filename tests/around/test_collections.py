"""warc-collection where something fails, and its reading room as clients see it: the parts of the trials that need no
root and are soon at their end."""
from __future__ import annotations

from typing import Iterator

import collection_faults
import pytest
import serve
from collection_trial import Trial

from .conftest import built, hold, needs

# These mount disks, or take rights away, or start a server of PostgreSQL, as root; or they trace calls of the system;
# or what they say depends on how soon something is done. They are in `make stress`.
LEFT_OUT = {
    *("no_room", "odd_temporary", "frames", "limited_time", "long_readers", "damage_without_room"),
    *("payloads_without_room", "kept_rows", "unknown_names", "later_damage", "rot_beside_failures"),
    *("hostile_tables", "synced_jobs", "slow_pieces", "run_beside_replay", "stopped_export", "whole_night"),
}
FAULTS = [part for part in collection_faults.PARTS if part.__name__ not in LEFT_OUT]
# Comparing each capture of a crawl with a replay takes minutes: that is in `make stress`, too.
SERVED = (
    *(serve.odd_captures, serve.bad_input, serve.browsers, serve.changed_files),
    *(serve.many_archives, serve.unpacked_bytes, serve.one_that_dies, serve.passed_socket),
)


@pytest.mark.parametrize("part", FAULTS, ids=[part.__name__ for part in FAULTS])
def test_fault(part: collection_faults.Part, trial: Trial) -> None:
    needs("gzip", "zstd", "wget")
    part(trial)
    hold(trial)


@pytest.fixture(name="room", scope="module")
def room_fixture(warc: str, tmp_path_factory: pytest.TempPathFactory) -> Iterator[Trial]:
    """The programs over a folder in which parts find what others made."""
    needs("parallel", "gzip", "wget")
    built("out/python/zogwedu/libwarc.so")
    yield Trial(warc, str(tmp_path_factory.mktemp("room")))


@pytest.mark.xdist_group("served")
@pytest.mark.parametrize("part", SERVED, ids=[part.__name__ for part in SERVED])
def test_served(part: serve.Part, room: Trial) -> None:
    before = room.surprises
    room.begin(part.__name__)
    part(room, None)
    assert room.tried[room.part] > 0 and room.surprises == before


def test_each_part_is_known() -> None:
    """A part that was renamed is noticed here."""
    assert LEFT_OUT <= {part.__name__ for part in collection_faults.PARTS}
