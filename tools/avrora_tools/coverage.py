"""What files of results are of: of which campaign and which parts of it, and how many results are of another version
than the campaign is now. And the parts of a campaign made one."""
import contextlib
import dataclasses
import os
import re
from collections.abc import Callable, Iterable, Iterator, Sequence
from typing import Any

from avrora_tools import campaigns, checkers, draws, files, results, sittings, stored
from avrora_tools.campaigns import Campaign, Shard
from avrora_tools.errors import BadInput
from avrora_tools.stored import Reading
from avrora_tools.writing import Folder

SHARD_FOLDER = re.compile("shard-([1-9][0-9]{0,5})-of-([1-9][0-9]{0,5})")
MOST_NAMED = 10  # parts that are told one by one


def shard_of(reading: Reading) -> Shard:
    """The part of a campaign that a file has. Raises BadInput where it does not say."""
    match = re.fullmatch("([0-9]{1,6})/([0-9]{1,6})", reading.about.get("shard", ""))
    if not match or not 1 <= int(match[1]) <= int(match[2]):
        raise BadInput(f"{files.shown(reading.path)}: it does not say which part of a campaign it is")
    return Shard(int(match[1]), int(match[2]))


@dataclasses.dataclass
class Coverage:
    """What some files have together, and in words what is not as it should be."""

    told: list[str]
    is_whole: bool = True


def covered(readings: Sequence[Reading], is_asked: bool) -> Coverage:
    """Of files that are told as one; where the user asked for one part alone (`is_asked`) no other one lacks. Raises
    BadInput where they are not of one campaign, or a part is there twice."""
    found = Coverage([])
    for reading in readings:
        told = reading.trust.told()
        found.told += [f"{files.shown(reading.path)}: {line}" for line in told]
        found.is_whole = found.is_whole and not told
    known = [reading for reading in readings if reading.about]
    if len(known) < len(readings):
        found.is_whole = False
        if len(readings) > 1:
            lost = next(reading for reading in readings if not reading.about)
            path = files.shown(lost.path)
            raise BadInput(f"{path}: it is not trusted, so it is told with no other file")
        return found
    parts: dict[int, Reading] = {}
    for reading in known:
        first, shard = known[0], shard_of(reading)
        if reading.about.get("campaign") != first.about.get("campaign"):
            one, other = files.shown(reading.path), files.shown(first.path)
            raise BadInput(f"{one} is of another campaign than {other}, or of other files")
        if shard.count != shard_of(first).count:
            raise BadInput(f"{files.shown(reading.path)} is a part of another division than {files.shown(first.path)}")
        if shard.number in parts:
            twice = files.shown(parts[shard.number].path)
            raise BadInput(f"{files.shown(reading.path)}: the part {shard} is in {twice} already")
        parts[shard.number] = reading
    if not is_asked:
        tell_lacking(found, parts, known[0])
    return found


def tell_lacking(found: Coverage, parts: dict[int, Reading], first: Reading) -> None:
    """Says which parts of the campaign are in no file."""
    count, total = shard_of(first).count, int(first.about.get("campaign_total", "0"))
    lacking = [number for number in range(1, count + 1) if number not in parts]
    if lacking:
        runs_lacking = sum(len(Shard(number, count).numbers(total)) for number in lacking)
        named = ", ".join(f"{number}/{count}" for number in lacking[:MOST_NAMED])
        more = f" and {len(lacking) - MOST_NAMED:,} more" if len(lacking) > MOST_NAMED else ""
        found.told.append(f"not here are the parts {named}{more}: {runs_lacking:,} of {total:,} runs of the campaign")
        found.is_whole = False


# ---- versions


def of_other_versions(reading: Reading, campaign: Campaign | None, simulator: str | None) -> int:
    """How many results of a file are of another version: than the campaign is now; without it, than the last
    sitting."""
    if campaign is None:
        return count_of_earlier(reading)
    recorded, generation = reading.about.get("inputs"), reading.about.get("generation")
    digests: dict[str, campaigns.Digests] = {}
    checker = checkers.version()
    is_drawn_as_now = not campaign.drawn or bool(recorded) and draws.is_as_recorded(recorded or "", campaign.folder)
    count = 0
    for row, of in rows_of(reading):
        program = simulator or of.program
        whole = sittings.whole_of(program, checker, campaign.signature, generation or "")
        if of.identity == whole and is_drawn_as_now:
            continue
        run = campaign.called(row[1])
        if run is None or isinstance(run.group, draws.DrawnGroup):
            count += 1
            continue
        if program not in digests:
            digests[program] = campaigns.Digests(campaign, program, checker)
        count += bytes.fromhex(digests[program].of(run)) != row[results.DIGEST]
    return count


def rows_of(reading: Reading) -> Iterator[tuple[list[Any], results.Names]]:
    for row in reading.database.execute(stored.RECORDS.format(table="run")):
        yield list(row[: len(stored.NAMES)]), results.Names(*row[len(stored.NAMES) : -2])


def count_of_earlier(reading: Reading) -> int:
    query = """SELECT count(*) FROM run JOIN sitting ON sitting.id = run.sitting
        WHERE identity IS NOT (SELECT identity FROM sitting ORDER BY id DESC LIMIT 1)"""
    return int(reading.database.execute(query).fetchone()[0])


def tell_versions(
    found: Coverage, readings: Iterable[Reading], campaign: Campaign | None, simulator: str | None
) -> None:
    count = sum(of_other_versions(reading, campaign, simulator) for reading in readings)
    if count:
        other = "the campaign's files, the program or the checker are now" if campaign else "the last sitting was by"
        found.told.append(f"{count:,} results are of another version than {other}: the campaign makes these runs again")
        found.is_whole = False


# ---- parts made one


def shards_in(folder: str) -> list[str]:
    """The files of results of the parts in a folder of results."""
    with contextlib.suppress(OSError):
        found = [(SHARD_FOLDER.fullmatch(name), name) for name in os.listdir(folder)]
        parts = sorted((int(match[2]), int(match[1]), name) for match, name in found if match)
        paths = [os.path.join(folder, name, results.FILE) for _, _, name in parts]
        return [path for path in paths if os.path.lexists(path)]
    return []


def merge(
    campaign: Campaign, store: results.Store, paths: Sequence[str], adopts: bool, say: Callable[[str], None]
) -> tuple[int, list[str]]:
    """Takes the results of parts over into the results of the whole campaign: how many, and what is not as it should
    be. What the campaign has already, of the same version, stays. Raises BadInput where a file is of another
    campaign."""
    count = 0
    with contextlib.ExitStack() as stack:
        readings = [stack.enter_context(results.reading(path, adopts, say)) for path in paths]
        told = covered(readings, False).told
        for reading in readings:
            if reading.about.get("campaign") != campaign.signature:
                path = files.shown(reading.path)
                raise BadInput(f"{path}: of another campaign than {campaign.path}, or of other files")
        for reading in readings:
            with Folder.above(reading.path) as folder:
                count += merged(store, reading, folder)
    return count, told


def about_whole(campaign: Campaign, store: results.Store, paths: Sequence[str]) -> dict[str, str]:
    """What the results of the whole campaign say of themselves once parts are taken over."""
    with results.reading(paths[0], True) as first:
        kept = {key: first.about.get(key, "") for key in ("inputs", "generation")}
    return {**sittings.about_of(campaign, Shard()), **{key: value for key, value in kept.items() if value}}


def merged(store: results.Store, reading: Reading, folder: Folder) -> int:
    count = 0
    for row, of in rows_of(reading):
        store.adopt(row, of)
        name = str(row[1])
        stem = campaigns.file_name(name)
        store.remove_files(name)
        with contextlib.suppress(OSError, BadInput), folder.below("runs") as beside:
            for file_name in (f"{stem}.toml", f"{stem}.trace.gz"):
                copy_file(beside, file_name, store)
            with contextlib.suppress(OSError, BadInput), beside.below(f"{stem}.images") as images:
                contents = {name: content_of(images, name) for name in images.names() if images.is_file(name)}
                store.write_images(f"{stem}.images", contents)
        count += 1
        if count % results.ROWS_A_TRANSACTION == 0:
            store.commit()
    store.commit()
    return count


def copy_file(folder: Folder, name: str, store: results.Store) -> None:
    if folder.is_file(name):
        store.write_file(name, content_of(folder, name))


def content_of(folder: Folder, name: str) -> bytes:
    with open(os.open(name, os.O_RDONLY | os.O_NOFOLLOW | os.O_CLOEXEC, dir_fd=folder.descriptor), "rb") as file:
        return file.read(campaigns.LARGEST_GOLDEN)

