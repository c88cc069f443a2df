"""What a hunt varies: each kind draws trials of its own, by a seed.

A kind is told what came of each of its trials, and may draw what follows from that: a packet that was sent again
because the first was cut can be cut too."""
import math
import random
from collections.abc import Mapping, Sequence
from typing import Protocol

from avrora_tools.hunting.changes import (
    FOR_GOOD,
    MOST_WAITING,
    Change,
    Cut,
    Document,
    Input,
    Latency,
    Left,
    Trial,
    ends_of,
    inputs_of,
)
from avrora_tools.hunting.said import Burst
from avrora_tools.scenarios import DEFAULT_TIME
from avrora_tools.sweeping.events import EVERY

MOST_CUTS = 3  # packets of one link in a row
LONGEST_ABSENCE = 8  # the part of the time to the deadline for which a node is absent at most
LEAST_ROOM = 10_000  # cycles within which starts are drawn at least
PART_OF_BYTE = 4  # a link's latency is at most this part of a byte time, unless the scenario has a longer one


class Facts:
    """What a kind may know: the scenario, what was said in the run that is not varied, the deadline."""

    def __init__(self, document: Document, bursts: Sequence[Burst], until: int, has_check: bool) -> None:
        self.document, self.bursts, self.until, self.has_check = document, bursts, until, has_check
        self.inputs = inputs_of(document)
        self.byte_time = int(document.get("byte_time", DEFAULT_TIME))
        self.cycles = int(document["cycles"])
        self.hearers: dict[int, list[int]] = {}
        for link in document.get("link", []):
            self.hearers.setdefault(link["from"], []).append(link["to"])


class Kind(Protocol):
    """Draws trials."""

    name: str
    covers: str  # what it varies, in words

    def draw(self, random_: random.Random) -> Trial | None:
        """The next trial; None where there is none any more, or not yet."""

    def passed(self, trial: Trial, bursts: Sequence[Burst]) -> None:
        """A trial of this kind came out as it should, and this was said in it."""


def log_uniform(random_: random.Random, low: int, high: int) -> int:
    """A number whose size is drawn: as many between 10 and 100 as between 100 and 1,000."""
    return round(math.exp(random_.uniform(math.log(max(1, low)), math.log(max(1, low, high)))))


class Starts:
    """When nodes get their first byte, by which their programs start."""

    name = "starts"
    covers = "when nodes start"

    def __init__(self, facts: Facts) -> None:
        self.inputs = [it for it in facts.inputs if it.hex]
        self.first = min((it.at for it in self.inputs), default=0)
        last = max((it.at for it in self.inputs), default=0)
        self.room = max(last - self.first, LEAST_ROOM)

    def draw(self, random_: random.Random) -> Trial | None:
        if not self.inputs:
            return None
        ways = [self.staggered, self.drawn, self.one, self.together]
        what, ats = random_.choice(ways)(random_)
        changes: list[Change] = [
            Input(it.node, at, it.every, it.hex) for it, at in zip(self.inputs, ats) if at != it.at
        ]
        return Trial(self.name, what, tuple(changes))

    def staggered(self, random_: random.Random) -> tuple[str, list[int]]:
        apart = log_uniform(random_, 1, max(1, self.room // max(1, len(self.inputs) - 1)))
        order = list(range(len(self.inputs)))
        if random_.random() < 0.5:
            random_.shuffle(order)
        return f"starts {apart:,} apart", [self.first + apart * place for place in order]

    def drawn(self, random_: random.Random) -> tuple[str, list[int]]:
        room = log_uniform(random_, 1_000, self.room)
        return f"starts drawn within {room:,}", [self.first + random_.randrange(room) for _ in self.inputs]

    def one(self, random_: random.Random) -> tuple[str, list[int]]:
        ats = [it.at for it in self.inputs]
        place = random_.randrange(len(ats))
        by = random_.choice((-1, 1)) * log_uniform(random_, 1, self.room)
        ats[place] = min(max(self.first, ats[place] + by), self.first + self.room)
        return f"node {self.inputs[place].node} starts at another time", ats

    def together(self, random_: random.Random) -> tuple[str, list[int]]:
        """Some nodes start at nearly the same time, as another one does."""
        ats = [it.at for it in self.inputs]
        places = random_.sample(range(len(ats)), random_.randint(min(2, len(ats)), len(ats)))
        at, room = ats[places[0]], log_uniform(random_, 1, self.room // 2)
        for place in places[1:]:
            ats[place] = min(max(self.first, at + random_.randint(-room, room)), self.first + self.room)
        return f"{len(places)} nodes start within {2 * room:,}", ats

    def passed(self, trial: Trial, bursts: Sequence[Burst]) -> None:
        pass


class Cuts:
    """Links that lose a packet, a part of one, or some in a row."""

    name = "cuts"
    covers = f"links cut for a packet, a byte, an exchange, {MOST_CUTS} packets in a row; nodes absent for a while"

    def __init__(self, facts: Facts, random_: random.Random) -> None:
        self.facts = facts
        self.single = [(burst, to) for burst in facts.bursts for to in facts.hearers.get(burst.node, [])]
        random_.shuffle(self.single)
        self.singles = len(self.single)
        self.following: list[Trial] = []  # of cuts after which nodes sent otherwise
        self.idle: list[Trial] = []  # of cuts that changed nothing that was sent

    def draw(self, random_: random.Random) -> Trial | None:
        if not self.singles:
            return None
        chance = random_.random()
        if self.following and (chance < 0.4 or not self.single and chance < 0.85):
            return self.following.pop(random_.randrange(len(self.following)))
        if self.single and chance < 0.85:
            burst, to = self.single.pop()
            return Trial(self.name, "a packet is lost", (cut_of(burst, to),))
        if self.idle and chance < 0.9:
            return self.idle.pop(random_.randrange(len(self.idle)))
        return self.other(random_)

    def other(self, random_: random.Random) -> Trial:
        burst = random_.choice([it for it in self.facts.bursts if self.facts.hearers.get(it.node)])
        to = random_.choice(self.facts.hearers[burst.node])
        way = random_.randrange(4)
        if way == 0:
            changes = [cut_of(burst, hearer) for hearer in self.facts.hearers[burst.node]]
            return Trial(self.name, "a packet is heard by nobody", tuple(changes))
        if way == 1:
            first = random_.randrange(burst.first, burst.last + 1)
            last = min(burst.last, first + random_.choice((0, 1, 4)) * self.facts.byte_time)
            return Trial(self.name, "a part of a packet is lost", (Cut(burst.node, to, first, last + 1),))
        if way == 2:
            return self.absent(burst, to, random_)
        answers = [it for it in self.facts.bursts if it.node == to and it.first > burst.first]
        end = answers[0].last + 1 if answers else burst.last + 1
        both = [Cut(burst.node, to, burst.first, end)]
        if burst.node in self.facts.hearers.get(to, []):
            both.append(Cut(to, burst.node, burst.first, end))
        return Trial(self.name, "a packet and what follows are lost both ways", tuple(both))

    def absent(self, burst: Burst, node: int, random_: random.Random) -> Trial:
        """A node that neither hears nor is heard for a while from a packet on, as its neighbours see one that is reset,
        or behind a door."""
        length = log_uniform(random_, burst.last + 1 - burst.first, max(1, self.facts.until // LONGEST_ABSENCE))
        links = [ends_of(link) for link in self.facts.document["link"] if node in ends_of(link)]
        changes = [Cut(*link, burst.first, burst.first + length) for link in links]
        return Trial(self.name, "a node neither hears nor is heard for a while", tuple(changes))

    def left(self) -> Left:
        return Left(len(self.single), tuple(self.following), tuple(self.idle))

    def take_up(self, left: Left) -> None:
        """Goes on where an earlier hunt was."""
        del self.single[left.count :]
        self.following, self.idle = list(left.following), list(left.idle)

    def passed(self, trial: Trial, bursts: Sequence[Burst]) -> None:
        """Of what was sent behind the last cut of a link the next packets can be cut too: first where somebody answered
        the cut, so that a protocol's second try is lost as well as its first one."""
        cuts = trial.cuts()
        is_row = len({(cut.sender, cut.hearer) for cut in cuts}) == 1 and len(cuts) == len(trial.changes)
        waiting = self.idle if list(bursts) == list(self.facts.bursts) else self.following
        if not is_row or len(cuts) >= MOST_CUTS or len(waiting) > MOST_WAITING:
            return
        last = cuts[-1]
        behind = [it for it in bursts if it.node == last.sender and it.first >= last.end]
        for burst in behind[:2]:
            changes = (*trial.changes, cut_of(burst, last.hearer))
            waiting.append(Trial(self.name, f"{len(changes)} packets of a link are lost", changes))


def cut_of(burst: Burst, hearer: int) -> Cut:
    return Cut(burst.node, hearer, burst.first, burst.last + 1)


class Losses:
    """Links that are lost for good, or come late; nodes that nobody hears any more, or that hear nobody."""

    name = "losses"
    covers = "links lost for good or open late, nodes silent or deaf"

    def __init__(self, facts: Facts) -> None:
        self.links = [ends_of(link) for link in facts.document.get("link", [])]
        self.until = facts.until

    def draw(self, random_: random.Random) -> Trial | None:
        if not self.links:
            return None
        at = random_.randrange(1, self.until)
        one, way = random_.choice(self.links), random_.randrange(4)
        if way == 0:
            return Trial(self.name, "a link is lost for good", (Cut(*one, at, FOR_GOOD),))
        if way == 1:
            both = [link for link in (one, one[::-1]) if link in self.links]
            return Trial(self.name, "a link opens late", tuple(Cut(*link, 0, at // 4 + 1) for link in both))
        node = one[0]
        gone = [link for link in self.links if node in (link[:1] if way == 2 else link[1:])]
        what = f"node {node} is {'heard by nobody' if way == 2 else 'deaf'} from some cycle on"
        return Trial(self.name, what, tuple(Cut(*link, at, FOR_GOOD) for link in gone))

    def passed(self, trial: Trial, bursts: Sequence[Burst]) -> None:
        pass


class Inputs:
    """Bytes that arrive earlier, later, nearer to each other; where the user has a check, also twice or not at all."""

    name = "inputs"
    covers = "inputs earlier, later and nearer to each other"

    def __init__(self, facts: Facts) -> None:
        self.inputs = [it for it in facts.inputs if len(it.hex) > 2]
        self.first = min((it.at for it in facts.inputs if it.hex), default=0)  # before it no receiver need be enabled
        self.loses = facts.has_check
        self.until = facts.until

    def draw(self, random_: random.Random) -> Trial | None:
        if not self.inputs:
            return None
        it = random_.choice(self.inputs)
        way = random_.randrange(4 if self.loses else 2)
        count = len(it.hex) // 2
        if way == 0:
            every = min(log_uniform(random_, 200, 2 * it.every), EVERY.stop - 1)
            return Trial(self.name, "bytes arrive at another distance", (Input(it.node, it.at, every, it.hex),))
        if way == 1:
            by = log_uniform(random_, 1, it.every * count)
            is_earlier = random_.random() < 0.5 and it.at - by >= self.first
            at = it.at - by if is_earlier else it.at + by
            return Trial(self.name, "all bytes arrive earlier or later", (Input(it.node, at, it.every, it.hex),))
        place = 2 * random_.randrange(1, count)
        doubled = it.hex[: place + 2] + it.hex[place : place + 2] * (way == 2) + it.hex[place + 2 :]
        hex_ = doubled if way == 2 else it.hex[:place] + it.hex[place + 2 :]
        what = "a byte arrives twice" if way == 2 else "a byte does not arrive"
        return Trial(self.name, what, (Input(it.node, it.at, it.every, hex_),))

    def passed(self, trial: Trial, bursts: Sequence[Burst]) -> None:
        pass


def longest_latency(document: Document) -> int:
    """The longest that a scenario gives one of its links."""
    usual = int(document.get("latency", DEFAULT_TIME))
    return max((int(link.get("latency", usual)) for link in document.get("link", [])), default=usual)


class Latencies:
    """Links of other latencies, none longer than a field has: light goes far within a part of a byte time, and what a
    radio takes itself the scenario says."""

    name = "latencies"
    covers = "latencies of links"

    def __init__(self, facts: Facts) -> None:
        self.links = [ends_of(link) for link in facts.document.get("link", [])]
        self.longest = max(longest_latency(facts.document), facts.byte_time // PART_OF_BYTE)

    def draw(self, random_: random.Random) -> Trial | None:
        if not self.links:
            return None
        if random_.random() < 0.5:
            one = random_.choice(self.links)
            latency = Latency(*one, log_uniform(random_, 1, self.longest))
            return Trial(self.name, "a link has another latency", (latency,))
        changes = tuple(Latency(*link, log_uniform(random_, 1, self.longest)) for link in self.links)
        return Trial(self.name, "all links have latencies of their own", changes)

    def passed(self, trial: Trial, bursts: Sequence[Burst]) -> None:
        pass


class Pairs:
    """Two variations of different kinds at a time."""

    name = "pairs"
    covers = "pairs of these"

    def __init__(self, kinds: Sequence[Kind]) -> None:
        self.kinds = kinds

    def draw(self, random_: random.Random) -> Trial | None:
        if len(self.kinds) < 2:
            return None
        one, two = random_.sample(list(self.kinds), 2)
        first, second = one.draw(random_), two.draw(random_)
        if first is None or second is None or touched(first) & touched(second):
            return None
        return Trial(self.name, f"{first.what}, and {second.what}", (*first.changes, *second.changes))

    def left(self) -> Left:
        return next((kind.left() for kind in self.kinds if isinstance(kind, Cuts)), Left())

    def take_up(self, left: Left) -> None:
        """Goes on where an earlier hunt was."""
        for kind in self.kinds:
            if isinstance(kind, Cuts):
                kind.take_up(left)

    def passed(self, trial: Trial, bursts: Sequence[Burst]) -> None:
        pass


def left_of(kinds: Sequence[Kind]) -> dict[str, Left]:
    """What those kinds have still to draw that go through a list, by their names."""
    return {kind.name: kind.left() for kind in kinds if isinstance(kind, (Cuts, Pairs))}


def take_up(kinds: Sequence[Kind], left: Mapping[str, Left]) -> None:
    """Kinds go on where an earlier hunt was."""
    for kind in kinds:
        if isinstance(kind, (Cuts, Pairs)) and kind.name in left:
            kind.take_up(left[kind.name])


def touched(trial: Trial) -> set[object]:
    """What a trial changes as a whole, so that another must not change it too."""
    return {
        ("input", change.node) if isinstance(change, Input) else ("latency", change.sender, change.hearer)
        for change in trial.changes
        if not isinstance(change, Cut)
    }


def kinds_of(facts: Facts, random_: random.Random, chosen: set[str] | None) -> list[Kind]:
    """The kinds that a hunt has turns for, in their order."""
    single: list[Kind] = [Starts(facts), Cuts(facts, random_), Inputs(facts), Latencies(facts), Losses(facts)]
    single = [kind for kind in single if chosen is None or kind.name in chosen]
    has_pairs = chosen is None or Pairs.name in chosen
    fresh: list[Kind] = [Starts(facts), Cuts(facts, random_), Inputs(facts)]
    return [*single, *([Pairs(fresh)] if has_pairs else [])]


NAMES = (Starts.name, Cuts.name, Inputs.name, Latencies.name, Losses.name, Pairs.name)

