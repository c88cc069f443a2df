"""Moves through a run: to breakpoints, writes of what is watched, and steps, forwards and backwards."""
import bisect
from collections.abc import Callable, Iterable, Iterator, Sequence
from typing import NamedTuple

from avrora_tools.debugging import target
from avrora_tools.debugging.history import STEP_SPAN, History, Traced
from avrora_tools.debugging.ranges import ways_out
from avrora_tools.debugging.sightings import Interrupted, Piece
from avrora_tools.debugging.watchpoints import Watchpoints, Write
from avrora_tools.observing.places import Change, Kind
from avrora_tools.observing.places import Place as Seen

TRAP, INTERRUPTED, ILLEGAL = 5, 2, 4  # numbers of signals, as gdb has them

# Where so many breakpoints were met one behind another, what gdb asks of so many further ones is asked for ahead.
HASTY, EXPECTED = 3, 3

# Behind so many rows a step looks for the ways out of its range. It takes about as long as some hundred rows.
LONG_STEP = 512

# Behind so many rows a step looks whether gdb asks it to stop.
ROWS_A_LOOK = 256


class Place(NamedTuple):
    """Where gdb stands: before what the node does in this cycle. Nodes do their cycle in order of number."""

    cycle: int
    node: int


class Stop(NamedTuple):
    """Why a run through time ended."""

    signal: int = TRAP
    more: str = ""  # behind the thread in gdb's stop reply


class Action(NamedTuple):
    """What gdb lets run: a node a step (over a range of byte addresses), or time; whether that node alone goes on, else
    which nodes do."""

    steps: bool
    first: int
    end: int
    alone: bool
    node: int
    others: Sequence[int]


class Point(NamedTuple):
    """A breakpoint: the number of a program, and a word address in it."""

    program: int
    word: int


class Meeting(NamedTuple):
    """Where a node comes to a breakpoint, or stops: then with the row that tells it."""

    place: Place
    word: int
    stop: Traced | None = None


class Looked(NamedTuple):
    """What there is in a piece of the run, in order."""

    piece: Piece
    meetings: list[Meeting]
    writes: list[Write]


class Motion:
    """Where gdb stands in a run, and how it moves."""

    def __init__(
        self,
        history: History,
        at: Place,
        programs: Sequence[int],
        wants_stop: Callable[[], bool],
        tell: Callable[[str], None],
    ) -> None:
        """`programs`: the number of each node's program. `wants_stop` says whether gdb asks to stop; `tell` shows a
        text to its user."""
        self.history, self.programs = history, programs
        self.wants_stop, self.tell = wants_stop, tell
        self.points: dict[Point, int] = {}  # how often each is set
        # Where gdb stood before it took its breakpoints out for one step: those of other nodes may have been passed by.
        self.unseen: Place | None = None
        self.watches = Watchpoints(programs)
        # The write behind which gdb stands, where it stopped for one.
        self.told_write: tuple[Place, Write] | None = None
        self.shows_interrupts = False
        self.hasty = 0  # so many breakpoints were met since gdb's user had time to think
        self.stand(at)

    def stand(self, at: Place, word: int | None = None) -> None:
        """Goes to a place, and notes the word address at which the node stands there, where that is known."""
        self.at, self.word = at, word

    def jump(self, at: Place) -> None:
        """Goes to a place with no way there: nothing was passed by."""
        self.unseen = self.told_write = None
        self.stand(at)

    # ---- breakpoints

    def add_point(self, point: Point) -> None:
        self.points[point] = self.points.get(point, 0) + 1

    def remove_point(self, point: Point) -> None:
        left = self.points.pop(point, 0) - 1
        if left > 0:
            self.points[point] = left

    def is_point(self, node: int, word: int) -> bool:
        return Point(self.programs[node], word) in self.points

    def point_places(self, nodes: Iterable[int]) -> list[Seen]:
        chosen = set(nodes)
        return [
            Seen(node, Kind.AT, point.word)
            for point in self.points
            for node in chosen
            if self.programs[node] == point.program
        ]

    # ---- steps

    def step(self, action: Action) -> Stop:
        """To the node's next instruction, the first outside of the range where there is one."""
        before = self.unseen or self.at
        self.stand(self.at._replace(node=action.node))
        if not action.alone:  # else gdb only passes over a breakpoint
            self.watches.go()
            self.history.foresee(action.node, self.at.cycle)
        begun = self.at
        stop = self.stepped(action)
        self.unseen = before if action.alone else None
        if write := self.write_between(begun, self.at, action.others):
            return self.behind(write)
        if not action.alone and (other := self.point_of_others(before, action)):
            self.stand(other)
            return self.hit(None)
        return stop

    def stepped(self, action: Action) -> Stop:
        for count, row in enumerate(self.steps_from(self.at.cycle), 1):
            self.stand(Place(row.cycle, self.at.node), row.address)
            if row.kind == "stop":
                return self.stopped_by(row)
            if not action.first <= 2 * row.address < action.end or self.is_point(self.at.node, row.address):
                if not action.alone:
                    self.history.foresee(self.at.node, row.cycle)
                return Stop()
            if count % ROWS_A_LOOK == 0 and self.wants_stop():
                return Stop(INTERRUPTED)
            if count == LONG_STEP and not self.shows_interrupts and (stop := self.left(action)):
                return stop
        return self.at_end()

    def left(self, action: Action) -> Stop | None:
        """A step whose range the node does not leave for long: to where it does; None where it may go anywhere."""
        node, cycle = self.at.node, self.at.cycle
        words = ways_out(self.history.flash(node), action.first, action.end)
        if words is None:
            return None
        places = [*(Seen(node, Kind.AT, word) for word in words), *self.point_places([node])]
        sightings = self.history.sightings
        try:
            pieces = sightings.pieces_on(cycle + 1, self.history.limit)
            for piece, seen in sightings.searched(pieces, places, self.wants_stop):
                self.stand(Place(piece.first, node))
                for one in seen:
                    if self.is_point(node, one.place.address) or self.comes_from(action, node, one.cycle):
                        self.stand(Place(one.cycle, node), one.place.address)
                        self.history.foresee(node, one.cycle)
                        return Stop()
                for whose, row in self.history.stops(piece.first, piece.end):
                    if whose == node:
                        self.stand(Place(row.cycle, node), row.address)
                        return self.stopped_by(row)
        except Interrupted:
            return Stop(INTERRUPTED)
        return self.at_end()

    def comes_from(self, action: Action, node: int, cycle: int) -> bool:
        """Whether the instruction that a node executed before this one, interrupts aside, lies in the range of a
        step."""
        row = self.executed_before(node, cycle)
        return row is not None and action.first <= 2 * row.address < action.end

    def steps_from(self, cycle: int) -> Iterator[Traced]:
        """The node's rows behind a cycle; interrupts are stepped over, unless they are to be shown or a breakpoint lies
        in them. Over the one that begins in this cycle too: gdb still shows what it interrupts."""
        row = self.history.row_in(self.at.node, cycle)
        depth = 1 if row and row.kind == "enter" else 0
        while (row := self.history.next_row(self.at.node, cycle)) is not None:
            cycle = row.cycle
            if self.shows_interrupts or row.kind == "stop":
                yield row
            elif row.kind == "enter":
                depth += 1
            elif depth and row.rest == "reti":
                depth -= 1
            elif not depth or self.is_point(self.at.node, row.address):
                yield row

    def point_of_others(self, before: Place, action: Action) -> Place | None:
        """The first breakpoint that another node meets before where this one stands now."""
        others = [node for node in action.others if node != self.at.node]
        if not others or not self.points:
            return None
        first, end = before.cycle, self.at.cycle + 1
        if end - first < STEP_SPAN:
            words = {point.word for point in self.points}
            rows = [
                (cycle, node)
                for number in range(first // STEP_SPAN, (min(end, self.history.limit) - 1) // STEP_SPAN + 1)
                for cycle, node, word in self.history.window(number).begins_at(words)
                if node in others and self.is_point(node, word)
            ]
        else:
            rows = [(change.cycle, change.place.node) for change in self.seen_on(first, end, self.point_places(others))]
        return next((Place(*row) for row in rows if before < Place(*row) < self.at), None)

    def write_between(self, before: Place, behind: Place, nodes: Sequence[int]) -> Write | None:
        """The first write of what is watched in a step forwards, the last one in a step back."""
        first, end = min(before, behind), max(before, behind)
        changes = list(self.seen_on(first.cycle, end.cycle, self.watches.places(nodes))) if self.watches.here else []
        writes = self.watches.writes(changes)
        return None if not writes else writes[0] if before < behind else writes[-1]

    def behind(self, write: Write) -> Stop:
        """A step passed a write: it ends where the node goes on behind that, which is mostly where it ended."""
        row = self.history.next_row(write.node, write.last)
        if write.node != self.at.node or row is None or row.cycle < self.at.cycle:
            return self.written(write)
        self.told_write = (self.at, write)
        return self.watch_stop(write)

    def seen_on(self, first: int, end: int, places: list[Seen]) -> Iterator[Change]:
        sightings = self.history.sightings
        for _, seen in sightings.searched(sightings.pieces_on(first, end), places):
            yield from seen

    def step_back(self, node: int) -> Stop:
        """To the instruction that the node executed before; over interrupts, unless they are to be shown."""
        self.unseen = None
        self.watches.go()
        self.stand(self.at._replace(node=node))
        self.history.foresee(node, self.at.cycle)
        before = self.at
        row = self.executed_before(node, before.cycle)
        if row is None:
            return self.at_beginning()
        self.stand(Place(row.cycle, node), row.address)
        self.history.foresee(node, row.cycle)
        if write := self.write_between(before, self.at, [node]):
            last = self.history.last_row(node, write.first + 1)  # where the writing instruction begins
            if last and last.cycle > row.cycle:
                self.stand(Place(last.cycle, node), last.address)
            return self.watch_stop(write)
        return Stop()

    def executed_before(self, node: int, cycle: int) -> Traced | None:
        """What a node executed last before a cycle, interrupts aside unless they are to be shown, or have a
        breakpoint."""
        depth = 0
        while (row := self.history.last_row(node, cycle)) is not None:
            cycle = row.cycle
            if row.kind == "stop":
                continue
            if not self.shows_interrupts and row.kind == "instr" and row.rest == "reti":
                depth += 1
            elif depth and row.kind == "enter":
                depth -= 1
            elif self.shows_interrupts or (row.kind == "instr" and (not depth or self.is_point(node, row.address))):
                return row
        return None

    # ---- on and on

    def go_on(self, nodes: Sequence[int]) -> Stop:
        """To the next breakpoint of these nodes; behind the next write of what is watched of them; to a stop, or to the
        end of the run."""
        start, own = self.unseen or self.at, self.at
        self.unseen = None
        self.watches.go()
        pieces = self.history.sightings.pieces_on(start.cycle, self.history.limit, whole=bool(self.watches.here))
        reached = own
        try:
            for looked in self.looked_at(pieces, nodes):
                write = self.first_write(looked.writes, own)
                ahead = (one for one in looked.meetings if start < one.place and not is_behind(one.place, own))
                meeting = next(ahead, None)
                if write and (meeting is None or Place(write.last, write.node) < meeting.place):
                    return self.written(write)
                if meeting:
                    self.expect(looked.meetings, meeting)
                    return self.met(meeting)
                reached = max(own, Place(looked.piece.end, own.node))
        except Interrupted:
            self.stand(reached)
            return Stop(INTERRUPTED)
        return self.at_end()

    def go_back(self, nodes: Sequence[int]) -> Stop:
        """To the last breakpoint of these nodes before this, or before the last write of what is watched, or to the
        beginning."""
        self.unseen = None
        start = reached = self.at
        self.watches.go()
        end = min(start.cycle + 1, self.history.limit)
        pieces = self.history.sightings.pieces_back(end, self.history.first, whole=bool(self.watches.here))
        try:
            for looked in self.looked_at(pieces, nodes):
                write = next((one for one in reversed(looked.writes) if Place(one.first, one.node) < start), None)
                meeting = next((one for one in reversed(looked.meetings) if one.place < start), None)
                if write and (meeting is None or Place(write.first, write.node) > meeting.place):
                    self.stand(Place(write.first, write.node))
                    return self.watch_stop(write)
                if meeting:
                    return self.met(meeting)
                reached = min(start, Place(looked.piece.first, start.node))
        except Interrupted:
            self.stand(reached)
            return Stop(INTERRUPTED)
        return self.at_beginning()

    def looked_at(self, pieces: Iterator[Piece], nodes: Sequence[int]) -> Iterator[Looked]:
        """Piece by piece what these nodes meet and what they write of what is watched. Raises Interrupted where gdb
        asks to stop."""
        places = [*self.point_places(nodes), *self.watches.places(nodes)]
        for piece, seen in self.history.sightings.searched(pieces, places, self.wants_stop):
            meetings = [
                Meeting(
                    Place(one.cycle, one.place.node), one.place.address
                ) for one in seen if one.place.kind is Kind.AT
            ]
            if stops := self.history.stops(piece.first, piece.end):
                meetings += [Meeting(Place(row.cycle, node), row.address, row) for node, row in stops if node in nodes]
                meetings.sort(key=lambda one: one.place)
            yield Looked(piece, meetings, self.watches.writes([one for one in seen if one.place.kind is Kind.BYTE]))

    def first_write(self, writes: Iterable[Write], own: Place) -> Write | None:
        """The first write of what is watched that is not behind this."""
        told = self.told_write[1] if self.told_write and self.told_write[0] == own else None
        floor = Place(told.last, told.node) if told else own
        for write in writes:
            here = Place(write.last, write.node)
            if here > floor or not told and here == floor:
                return write
        return None

    def written(self, write: Write) -> Stop:
        """Behind a write: where the node goes on."""
        self.unseen = Place(write.last, write.node)
        self.stand(Place(write.last + 1, write.node))
        self.told_write = (self.at, write)
        return self.watch_stop(write)

    def watch_stop(self, write: Write) -> Stop:
        return Stop(more=f"watch:{target.DATA_SPACE + write.watched.first:x};")

    def expect(self, meetings: Sequence[Meeting], met: Meeting) -> None:
        """gdb goes on at once where a breakpoint's condition does not hold: then what it asks of the next ones is asked
        for ahead."""
        self.hasty += 1
        if self.hasty < HASTY:
            return
        place = bisect.bisect_right(meetings, met.place, key=lambda one: one.place)
        for one in meetings[place : place + EXPECTED]:
            self.history.state_soon(one.place.cycle)
            self.history.window_soon(one.place.cycle // STEP_SPAN)

    def rest(self) -> None:
        """gdb's user thinks: what a step would need is asked for ahead."""
        self.hasty = 0
        if self.history.first <= self.at.cycle < self.history.limit:
            self.history.foresee(self.at.node, self.at.cycle)

    def met(self, meeting: Meeting) -> Stop:
        self.stand(meeting.place, meeting.word)
        self.history.state_soon(meeting.place.cycle)  # gdb asks for it next
        return self.hit(meeting.stop)

    def hit(self, stop: Traced | None) -> Stop:
        return self.stopped_by(stop) if stop else Stop(more="swbreak:;")

    def stopped_by(self, row: Traced) -> Stop:
        self.tell(f"node {self.at.node} stops in cycle {row.cycle:,}: {row.rest}")
        return Stop(ILLEGAL)

    def at_end(self) -> Stop:
        self.stand(Place(self.history.limit, self.at.node))
        return Stop(more="replaylog:end;")

    def at_beginning(self) -> Stop:
        self.stand(Place(self.history.first, self.at.node))
        return Stop(more="replaylog:begin;")


def is_behind(place: Place, own: Place) -> bool:
    """Whether the node that gdb stands at has done this."""
    return place.node == own.node and place.cycle <= own.cycle
