"""A few drawn walks of avr-gdb through a run; gdb_walks.py takes as many as one likes."""
import shutil

from firmware import compiled
from gdb_walks import walks
from support import SEED, TOP
from test_gdb import PROGRAM, needs_all

WALKS = 8


@needs_all
def test_drawn_walks_stand_where_the_trace_says(tmp_path):
    for name in ("packet.toml", "packet.c", "radio.h"):
        shutil.copy(f"{TOP}/examples/{name}", tmp_path)
    compiled(tmp_path / "packet.c", tmp_path, "-Os")
    assert walks(str(tmp_path), PROGRAM, range(SEED, SEED + WALKS)) == WALKS
