#!/usr/bin/env python3
"""Draws the case files of `air_facts` and `record_facts` that are too long to write by hand, with their answers.

    bench/air_cases.py FOLDER

It writes into FOLDER (crates/command_facts/data) drawn_steps.txt, drawn_states.txt, drawn_log.txt and
drawn_taken.txt, which are of air_facts, and drawn_record.txt, which is of record_facts. The bytes are always the
same. For each record of drawn_record.txt, drawn_taken.txt has the same steps up to its first cut, so that the record
and the core without a record are asked the same.

It is the rules of docs/AIR.md once more, written plainly and slowly. Whether something is heard, needed, consistent
or allowed is asked over all cycles or all sends that there are. It shares nothing with the crates that it tests.
"""
import random
import sys
from collections import namedtuple

Link = namedtuple("Link", "source target latency spans")
Send = namedtuple("Send", "node cycle byte")
Ask = namedtuple("Ask", "node cycle")


class World:
    """A topology, all sends and all samples."""

    def __init__(self, nodes, limit, latency, byte_time, links, own, spans, sends, asks):
        self.nodes, self.limit, self.latency, self.byte_time = nodes, limit, latency, byte_time
        self.pairs, self.own, self.spans = links, own, spans
        self.links = [
            Link(source, target, own[place] if own else latency, [(a, b) for p, a, b in spans if p == place])
            for place, (source, target) in enumerate(links)
        ]
        self.sends, self.asks = sends, asks
        self.reach = max([latency] + own)

    def sends_of(self, node):
        return [x for x in self.sends if x.node == node]

    def link(self, source, target):
        found = [x for x in self.links if (x.source, x.target) == (source, target)]
        return found[0] if found else None


def is_open(link, cycle):
    return not link.spans or any(a <= cycle < b for a, b in link.spans)


def heard(world, sends, node, cycle):
    """Status, byte and age of what a node hears of these sends."""
    found = []
    for x in sends:
        link = world.link(x.node, node)
        if link and is_open(link, x.cycle):
            first = x.cycle + link.latency
            if first <= cycle < first + world.byte_time:
                found.append((x.byte, min(255, (cycle - first) // 16)))
    if not found:
        return (0, 0, 0)
    if len(found) == 1:
        return (1, *found[0])
    clash = 0
    for byte, _ in found:
        clash |= byte
    return (2, clash, 0)


def needs(world, source, node, cycle):
    """Whether there is a cycle in which the link is open and whose byte is heard in this cycle."""
    link = world.link(source, node)
    if not link:
        return False
    return any(
        t + link.latency <= cycle < t + link.latency + world.byte_time and is_open(link, t)
        for t in range(max(0, cycle - link.latency - world.byte_time), cycle + 1)
    )


def count_below(world, node, cycle):
    return len([x for x in world.sends_of(node) if x.cycle < cycle])


class State:
    """Clocks, counts of posted sends, and the record, cut up to the floor."""

    def __init__(self, world):
        self.clocks, self.sent = [0] * world.nodes, [0] * world.nodes
        self.floor, self.sends, self.samples = 0, [], []

    def copy(self):
        new = State.__new__(State)
        new.clocks, new.sent = list(self.clocks), list(self.sent)
        new.floor, new.sends, new.samples = self.floor, list(self.sends), list(self.samples)
        return new


def behind(world, state, node, cycle):
    """The nodes for which a sample has to wait."""
    return [
        k
        for k in range(world.nodes)
        if needs(world, k, node, cycle) and state.clocks[k] <= cycle - world.link(k, node).latency
    ]


def is_allowed(world, state, step):
    kind, node, cycle = step
    if kind == "r":
        return (
            node < world.nodes
            and state.clocks[node] <= cycle <= world.limit
            and count_below(world, node, cycle) <= state.sent[node]
        )
    if kind == "p":
        return node < world.nodes and state.sent[node] < len(world.sends_of(node))
    return Ask(node, cycle) in world.asks and state.floor <= cycle and not behind(world, state, node, cycle)


def take(world, state, step):
    kind, node, cycle = step
    if kind == "r":
        state.clocks[node] = cycle
    elif kind == "p":
        state.sends.append(world.sends_of(node)[state.sent[node]])
        state.sent[node] += 1
    else:
        state.samples.append((Ask(node, cycle), heard(world, state.sends, node, cycle)))


def may_cut(world, state, floor):
    return state.floor <= floor <= world.limit and all(
        count_below(world, k, floor) <= state.sent[k] for k in range(world.nodes)
    )


def is_kept(world, floor, send):
    return send.cycle + world.reach + world.byte_time > floor


def cut(world, state, floor):
    state.floor = floor
    state.sends = [x for x in state.sends if is_kept(world, floor, x)]
    state.samples = [x for x in state.samples if x[0].cycle >= floor]


def posted(world, sent):
    return [x for k in range(world.nodes) for x in world.sends_of(k)[: sent[k]]]


def is_consistent(world, state):
    nodes = range(world.nodes)
    if len(state.clocks) != world.nodes or len(state.sent) != world.nodes:
        return False
    if any(x.node >= world.nodes or x.cycle >= world.limit for x in state.sends):
        return False
    for k in nodes:
        whole = world.sends_of(k)
        if state.sent[k] > len(whole):
            return False
        kept = [x for x in whole[: state.sent[k]] if is_kept(world, state.floor, x)]
        if [x for x in state.sends if x.node == k] != kept:
            return False
        if state.clocks[k] > world.limit or count_below(world, k, state.clocks[k]) > state.sent[k]:
            return False
        if count_below(world, k, state.floor) > state.sent[k]:
            return False
    so_far = posted(world, state.sent)
    for ask, value in state.samples:
        if ask not in world.asks or ask.cycle < state.floor:
            return False
        if value != heard(world, world.sends, *ask) or value != heard(world, so_far, *ask):
            return False
        for k in nodes:
            if needs(world, k, *ask):
                if count_below(world, k, ask.cycle - world.link(k, ask.node).latency + 1) > state.sent[k]:
                    return False
    return True


def drawn_spans(draw, links, limit):
    spans = []
    for place in range(len(links)):
        if draw.random() < 0.5:
            ends = sorted(draw.sample(range(limit + 200), 2 * draw.randint(1, 3)))
            spans += [(place, ends[i], ends[i + 1]) for i in range(0, len(ends), 2)]
    return spans


def drawn_topology(draw, limit=None):
    nodes = draw.choice([2, 3, 3, 3, 4])
    latency, byte_time = draw.choice([1, 60, 150, 300, 500]), draw.choice([256, 257, 300, 400])
    pairs = [(k, j) for k in range(nodes) for j in range(nodes) if k != j]
    links = draw.sample(pairs, draw.randint(1, min(6, len(pairs))))
    limit = limit or draw.randint(900, 2000)
    own = [draw.choice([1, 40, 150, 299, 301, 500, 700]) for _ in links] if draw.random() < 0.6 else []
    spans = drawn_spans(draw, links, limit) if draw.random() < 0.6 else []
    return World(nodes, limit, latency, byte_time, links, own, spans, [], [])


def meetings(world, sends, k):
    """Cycles in which a send of node k comes to some node just with a byte of another node, or begins or ends beside it."""
    return [
        x.cycle + one.latency - own.latency + d
        for own in world.links
        if own.source == k
        for one in world.links
        if one.target == own.target and one.source != k
        for x in sends
        if x.node == one.source
        for d in (0, 1, 1 - world.byte_time, world.byte_time - 1, world.byte_time)
    ]


def drawn_sends(draw, world):
    """Sends of each node, most of them as close as they may lie, at an end of a span, or where they meet another one."""
    sends = []
    for k in range(world.nodes):
        free = 0
        ends = [e + d for x in world.links if x.source == k for a, b in x.spans for e, d in ((a, -1), (a, 0), (b, -1), (b, 0))]
        for _ in range(draw.randint(1, 4)):
            near = [c for c in ends + 2 * meetings(world, sends, k) if free <= c < free + 700]
            first = free + draw.choice([0, 0, 1, draw.randint(2, 200)])
            cycle = draw.choice(near) if near and draw.random() < 0.7 else first
            if cycle >= world.limit:
                break
            sends.append(Send(k, cycle, draw.choice([1, 2, 4, 8, 16, 32, 64, 128, 0])))
            free = cycle + world.byte_time
    draw.shuffle(sends)
    return sorted(sends, key=lambda x: x.cycle) if draw.random() < 0.5 else in_order(sends)


def in_order(entries):
    """The entries with the places of each node's in rising order of cycles."""
    rising = {k: iter(sorted(x for x in entries if x.node == k)) for k in {x.node for x in entries}}
    return [next(rising[x.node]) for x in entries]


def drawn_asks(draw, world):
    """Samples, most of them in a first or last cycle of a byte, or one beside it."""
    asks = set()
    edges = [
        (x.target, s.cycle + x.latency + d)
        for x in world.links
        for s in world.sends_of(x.source)
        for d in (-1, 0, 15, 16, world.byte_time - 1, world.byte_time)
    ]
    edges += [
        (x.target, e + x.latency + d)
        for x in world.links
        for a, b in x.spans or [(0, 0)]
        for e, d in ((a, -1), (a, 0), (b, world.byte_time - 2), (b, world.byte_time - 1))
    ]
    edges += 5 * [(j, s) for j, s in edges if heard(world, world.sends, j, s)[0] == 2]
    for _ in range(draw.randint(3, 9)):
        j, s = draw.choice(edges) if draw.random() < 0.8 else (draw.randrange(world.nodes), draw.randrange(world.limit))
        if 0 <= s < world.limit:
            asks.add(Ask(j, s))
    entries = sorted(asks)
    draw.shuffle(entries)
    return in_order(entries)


def drawn_world(draw):
    world = drawn_topology(draw)
    world.sends = drawn_sends(draw, world)
    world.asks = drawn_asks(draw, world)
    return world


def drawn_clock(draw, world, state, node):
    """A cycle at which something changes for this node's clock, or one beside it."""
    edges = [x.cycle + d for x in world.sends_of(node) for d in (0, 1)]
    edges += [world.limit, world.limit + 1, state.clocks[node], state.clocks[node] - 1]
    for ask in world.asks:
        link = world.link(node, ask.node)
        if link:
            edges += [ask.cycle - link.latency + d for d in (-1, 0, 1)] * 2
    if draw.random() < 0.1:
        edges = [draw.randrange(world.limit)]
    if draw.random() < 0.8:
        edges = [c for c in edges if state.clocks[node] < c] or edges
    return max(0, draw.choice(edges))


def drawn_step(draw, world, state):
    kind = draw.choice("rrppsss")
    node = world.nodes if draw.random() < 0.01 else draw.randrange(world.nodes)
    if kind == "r":
        return ("r", node, drawn_clock(draw, world, state, min(node, world.nodes - 1)))
    if kind == "p":
        return ("p", node, 0)
    if not world.asks or draw.random() < 0.02:
        return ("s", node, draw.randrange(world.limit))
    return ("s", *draw.choice(world.asks))


def step_text(step):
    kind, node, cycle = step
    return f"p {node}" if kind == "p" else f"r {node}:{cycle}" if kind == "r" else f"s {node}@{cycle}"


def listed(word, entries):
    return " ".join([word] + list(entries))


def send_texts(sends):
    return [f"{x.node}@{x.cycle}:{x.byte}" for x in sends]


def sample_texts(samples):
    return [f"{a.node}@{a.cycle}:{h[0]}.{h[1]}.{h[2]}" for a, h in samples]


def state_text(state):
    return " ".join(
        [
            listed("clocks", map(str, state.clocks)),
            listed("sent", map(str, state.sent)),
            listed("record", send_texts(state.sends)),
            listed("samples", sample_texts(state.samples)),
        ]
    )


def topo_text(world):
    text = f"topo {world.nodes} {world.limit} {world.latency} {world.byte_time}"
    text += " " + listed("links", (f"{k}>{j}" for k, j in world.pairs))
    if world.own:
        text += " " + listed("own", map(str, world.own))
    if world.spans:
        text += " " + listed("spans", (f"{p}:{a}-{b}" for p, a, b in world.spans))
    return text


def world_text(world):
    asks = (f"{a.node}@{a.cycle}" for a in world.asks)
    return "\n".join([topo_text(world), listed("sends", send_texts(world.sends)) + " " + listed("asks", asks), ""])


def sample_answer(world, state, ask):
    waits = behind(world, state, *ask)
    if waits:
        return f"waits {waits[0]}:{state.clocks[waits[0]]}"
    return heard_text(heard(world, state.sends, *ask))


def drawn_list(draw, world):
    """A list of steps and what comes of it: the first step that is not allowed, the state, or the answer of a sample."""
    state, steps = State(world), []
    turns, ends = draw.choice([(5, 0.2), (15, 0.06), (40, 0.03), (70, 0.02)])
    for _ in range(turns):
        step = drawn_step(draw, world, state)
        if step[0] == "s" and any(x[0] == step[1:] for x in state.samples):
            continue
        if is_allowed(world, state, step):
            steps.append(step)
            take(world, state, step)
        elif draw.random() < ends:
            place = len(steps)
            steps += [step, ("p", 0, 0)]
            return listed("steps", map(step_text, steps)) + f" replay illegal {place}\n"
    text = listed("steps", map(step_text, steps))
    if draw.random() < 0.5:
        text += f" {state_text(state)} replay state"
    for ask in draw.sample(world.asks, min(len(world.asks), draw.randint(1, 3))):
        text += f" then {ask.node}@{ask.cycle} {sample_answer(world, state, ask)}"
    return text + "\n"


def spoiled(draw, world, state):
    """The state with one thing changed, which may leave it consistent."""
    new = state.copy()
    kind = draw.randrange(14)
    k = draw.randrange(world.nodes)
    if kind == 0:
        new.clocks[k] = drawn_clock(draw, world, state, k)
    elif kind == 1:
        new.sent[k] = max(0, new.sent[k] + draw.choice([-1, 1]))
    elif kind == 2 and new.sends:
        new.sends.pop(draw.randrange(len(new.sends)))
    elif kind == 3 and new.sends:
        new.sends.insert(draw.randrange(len(new.sends) + 1), draw.choice(new.sends))
    elif kind == 4 and len(new.sends) > 1:
        i = draw.randrange(len(new.sends) - 1)
        new.sends[i], new.sends[i + 1] = new.sends[i + 1], new.sends[i]
    elif kind == 5 and new.sends:
        i = draw.randrange(len(new.sends))
        new.sends[i] = new.sends[i]._replace(byte=new.sends[i].byte ^ 1)
    elif kind == 6 and new.samples:
        i = draw.randrange(len(new.samples))
        ask, (status, byte, age) = new.samples[i]
        new.samples[i] = (ask, draw.choice([(0, 0, 0), (1, byte, age ^ 1), (1, byte ^ 1, age), (2, byte, 0)]))
    elif kind in (7, 8) and world.asks:
        ask = draw.choice(world.asks)
        new.samples.append((ask, heard(world, draw.choice([world.sends, state.sends]), *ask)))
    elif kind == 9 and new.samples:
        ask, value = draw.choice(new.samples)
        new.samples.append((Ask(ask.node, ask.cycle + 1), value))
    elif kind == 10:
        new.floor = max(0, new.floor + draw.choice([-1, 1, -world.byte_time, world.byte_time]))
    elif kind == 11 and world.sends:
        new.sends.append(draw.choice(world.sends))
    elif kind == 12 and world.sends:
        x = draw.choice(world.sends)
        new.floor = x.cycle + world.reach + world.byte_time + draw.choice([-1, 0])
        new.samples = [y for y in new.samples if y[0].cycle >= new.floor]
    elif kind == 13:
        new.clocks = new.clocks + [0] if draw.random() < 0.5 else new.clocks[:-1]
    return new


def run_on(draw, world, state, turns):
    for _ in range(turns):
        if draw.random() < 0.08:
            ends = [x.cycle + world.reach + world.byte_time + d for x in world.sends for d in (-1, 0)]
            floor = draw.choice(ends + [draw.randrange(world.limit)])
            if may_cut(world, state, floor):
                cut(world, state, floor)
        step = drawn_step(draw, world, state)
        if is_allowed(world, state, step):
            take(world, state, step)


def drawn_state(draw, world):
    """A state of the world, reached by steps and cuts, spoiled in half of the cases."""
    state = State(world)
    run_on(draw, world, state, draw.choice([5, 20, 60, 120]))
    if not is_consistent(world, state):
        raise SystemExit("a step or a cut left a state that is not consistent")
    if draw.random() < 0.7:
        state = spoiled(draw, world, state)
    answer = "yes" if is_consistent(world, state) else "no"
    return f"floor {state.floor} {state_text(state)} consistent {answer}\n"


def drawn_log(draw, world):
    """A record of sends that is posted to, cut and listened to, line by line."""
    log, floor = [], 0
    last = [-1] * world.nodes
    lines = ["log 1000\n"]
    now = 0
    for _ in range(draw.choice([3, 10, 25])):
        line = drawn_push(draw, world, log, last, now)
        now = max([now] + last)
        for _ in range(draw.randint(1, 5)):
            j, s = drawn_ear(draw, world, log, floor, now)
            line += f" listen {j}@{s} {heard_text(heard(world, log, j, s))}"
        if draw.random() < 0.3:
            ends = [x.cycle + world.reach + world.byte_time + d for x in log for d in (-1, 0)]
            floor = draw.choice([e for e in ends if e >= floor] or [floor])
            log = [x for x in log if is_kept(world, floor, x)]
            line += f" cut {floor} " + listed("record", send_texts(log)) + " kept state"
        lines.append(line + "\n")
    return lines


def drawn_push(draw, world, log, last, now):
    """Posts some sends, of one node or of all: sends of a node rise, and those of two nodes come in any order."""
    pushed = []
    for _ in range(draw.choice([1, 1, 2, 8, 30])):
        k = draw.randrange(world.nodes)
        cycle = last[k] + draw.choice([1, draw.randint(2, world.byte_time), world.byte_time + draw.randint(0, 99)])
        if cycle >= world.limit:
            break
        pushed.append(Send(k, cycle, draw.choice([1, 2, 4, 8, 16, 32, 64, 128, 0])))
        last[k] = cycle
    log += pushed
    return listed("push", send_texts(pushed)) if pushed else "push"


def drawn_ear(draw, world, log, floor, now):
    """A node and a cycle in which it listens: often at the end of a byte, and often long ago."""
    edges = [
        (x.target, s.cycle + x.latency + d)
        for x in world.links
        for s in log
        if s.node == x.source
        for d in (-1, 0, world.byte_time - 1, world.byte_time)
    ]
    if edges and draw.random() < 0.8:
        return draw.choice(edges)
    return draw.randrange(world.nodes), draw.randint(floor, max(floor, now) + 1000)


def heard_text(value):
    status, byte, age = value
    return ["quiet", f"byte {byte}.{age}", f"clash {byte}"][status]


def full_log(draw, world, epoch):
    """Each node sends as often as it may, and the record, cut at the end of each epoch, has just the room that it is to need."""
    room = world.nodes * ((world.reach + world.byte_time + epoch) // world.byte_time + 1)
    lines, log, now, free = [f"log {room}\n"], [], 0, [draw.choice([0, 1]) for _ in range(world.nodes)]
    for _ in range(6):
        line = "push"
        while min(free) < now + epoch:
            k = free.index(min(free))
            log.append(Send(k, free[k], 1 << (free[k] % 8)))
            line += " " + send_texts(log[-1:])[0]
            free[k] += world.byte_time
        if len(log) > room:
            raise SystemExit("a record outgrew its room")
        now += epoch
        log = [x for x in log if is_kept(world, now, x)]
        lines.append(line + f" cut {now} " + listed("record", send_texts(log)) + " kept state\n")
    return lines


def drawn_logs(draw):
    lines = []
    for _ in range(LOG_WORLDS):
        world = drawn_topology(draw, 6000)
        lines += ["\n", topo_text(world) + "\n"] + drawn_log(draw, world)
    for epoch in (256, 1000, 3000):
        for latency in (1, 300, 1300):
            world = World(3, 40000, latency, 256, [(0, 1), (1, 2)], [7, latency + 5], [], [], [])
            lines += ["\n", topo_text(world) + "\n"] + full_log(draw, world, epoch)
    return lines


EPOCH = 262144


class Record:
    """A record of a world with the nodes' clocks, as it is stepped on, and the lines that say so."""

    def __init__(self, world):
        self.world, self.state, self.lines, self.words = world, State(world), [], ["open"]
        self.taken, self.uncut, self.waited = [], None, None

    def take(self, step):
        take(self.world, self.state, step)
        if not self.uncut:
            self.taken.append(step)

    def taken_lines(self):
        """The steps that changed anything, up to the first cut, and the state that they lead to; and the last sample before
        that which had to wait, behind the steps before it."""
        if not self.taken:
            return []
        lines = [f"{listed('steps', map(step_text, self.taken))} {state_text(self.uncut or self.state)} replay state\n"]
        if self.waited:
            count, ask, answer = self.waited
            steps = listed("steps", map(step_text, self.taken[:count]))
            lines.append(f"{steps} then {ask.node}@{ask.cycle} {answer}\n")
        return lines

    def end_line(self):
        self.lines.append(" ".join(self.words) + "\n")
        self.words = []

    def tell(self):
        """What the record holds."""
        self.words += [
            listed("record", send_texts(self.state.sends)),
            listed("samples", sample_texts(self.state.samples)),
            f"floor {self.state.floor}",
        ]
        self.end_line()

    def raise_clock(self, node, clock):
        if is_allowed(self.world, self.state, ("r", node, clock)):
            self.take(("r", node, clock))
            self.words.append(f"r {node}:{clock}")

    def post(self, node, number):
        sends, count = self.world.sends_of(node), self.state.sent[node]
        if number >= len(sends) or sends[number].cycle >= self.state.floor + EPOCH:
            return
        if number == count:
            self.take(("p", node, 0))
            answer = "added"
        else:
            answer = "there" if number < count else f"early {count}"
        self.words.append(f"p {node}.{number} {answer}")

    def sample(self, ask):
        if ask.cycle < self.state.floor:
            return
        answer = sample_answer(self.world, self.state, ask)
        if not answer.startswith("waits"):
            true = heard(self.world, self.world.sends, *ask)
            if answer != heard_text(true):
                raise SystemExit("a sample is not what all sends give")
            self.take(("s", *ask))
            if self.state.samples[-1] != (ask, true):
                raise SystemExit("a sample is not what the posted sends give")
        elif not self.uncut:
            self.waited = (len(self.taken), ask, answer)
        self.words.append(f"s {ask.node}@{ask.cycle} {answer}")

    def cut(self, floor):
        if not self.state.floor <= floor <= self.world.limit:
            return
        late = [k for k in range(self.world.nodes) if self.state.clocks[k] < floor]
        if late:
            answer = f"behind {late[0]}:{self.state.clocks[late[0]]}"
        else:
            self.uncut = self.uncut or self.state.copy()
            cut(self.world, self.state, floor)
            answer = "done"
        self.words.append(f"cut {floor} {answer}")


def drawn_floor(draw, record):
    """A floor beside one at which a send is dropped, beside a clock, or anywhere."""
    world, state = record.world, record.state
    edges = [x.cycle + world.reach + world.byte_time + d for x in state.sends for d in (-1, 0)]
    edges += [c + d for c in state.clocks for d in (0, 0, 1)] + [x[0].cycle + d for x in state.samples for d in (0, 1)]
    edges = [e for e in edges if state.floor <= e <= min(state.clocks)] * 3 + [e for e in edges if state.floor <= e]
    return draw.choice(edges) if edges and draw.random() < 0.9 else draw.randrange(world.limit)


def drawn_record(draw, world):
    """A record of the world, on which steps are taken in a drawn order."""
    record = Record(world)
    cuts = draw.choice(["", "", "c", "cc"])
    for _ in range(draw.choice([10, 25, 60, 120])):
        kind, node = draw.choice("rrrppsss" + cuts), draw.randrange(world.nodes)
        taken = [x[0] for x in record.state.samples]
        if kind == "r":
            record.raise_clock(node, drawn_clock(draw, world, record.state, node))
        elif kind == "p":
            record.post(node, max(0, record.state.sent[node] + draw.choice([-2, -1, 0, 0, 0, 0, 1, 2])))
        elif kind == "s" and world.asks:
            ask = draw.choice(world.asks)
            if ask not in taken or draw.random() < 0.05:
                record.sample(ask)
        elif kind == "c":
            record.cut(drawn_floor(draw, record))
            if draw.random() < 0.3:
                record.tell()
        if draw.random() < 0.05:
            record.tell()
    record.tell()
    return record.lines, record.taken_lines()


def full_record(world):
    """Each node sends as often as it may. Its sends are posted as soon as they may be, and the record is cut at the end of
    each epoch, so that it comes to hold as many sends as it ever can."""
    record = Record(world)
    while True:
        posted = list(record.state.sent)
        for k in range(world.nodes):
            for number in range(posted[k], len(world.sends_of(k)) + 1):
                record.post(k, number)
        record.tell()
        floor = min(world.limit, record.state.floor + EPOCH)
        if floor == record.state.floor:
            return record.lines
        for k in range(world.nodes):
            record.raise_clock(k, floor)
        for ask in world.asks:
            record.sample(ask)
        record.cut(floor)
        record.tell()


def crowded_world(nodes, latency, byte_time):
    """A world whose nodes send as often as they may, through three epochs and a part of one. They begin in cycle 100, so that
    the first send that a cut keeps lies close behind the last one that it drops, and the room is used to the last place."""
    limit = 3 * EPOCH + 10000
    sends = [Send(k, t, (t // byte_time + k) % 256) for k in range(nodes) for t in range(100 + k, limit, byte_time)]
    links = [(k, k + 1) for k in range(nodes - 1)]
    asks = [Ask(j, t) for j in range(nodes) for t in range(j, limit, 99991)]
    return World(nodes, limit, latency, byte_time, links, [], [], sends, asks)


def drawn_records(draw):
    """The lines of drawn_record.txt, and those of drawn_taken.txt."""
    lines, taken = [], []
    for _ in range(RECORD_WORLDS):
        world = drawn_world(draw)
        lines += ["\n", world_text(world)]
        taken += ["\n", world_text(world)]
        for _ in range(4):
            record_lines, taken_lines = drawn_record(draw, world)
            lines += record_lines
            taken += taken_lines
    for world in (crowded_world(2, 65535, 4096), crowded_world(3, 1, 4096), crowded_world(1, 1000, 1024)):
        lines += ["\n", world_text(world)] + full_record(world)
    return lines, taken


HEAD = """# Source: drawn, and answered, by bench/air_cases.py, a slow program from the rules of docs/AIR.md that shares no code with
# the crates. Do not edit: it writes the same bytes again.
#
"""

STEPS = """# Lists of steps, and what comes of each.
# {head}# topo NODES LIMIT LATENCY BYTE_TIME, links FROM>TO, own LATENCY of each link, spans LINK:FROM-UNTIL, sends NODE@CYCLE:BYTE,
# asks NODE@CYCLE; steps: r NODE:CYCLE raises a clock, p NODE posts the next send, s NODE@CYCLE samples.
# replay asks to what they lead: illegal PLACE, or state, the one of clocks, sent, record and samples (NODE@CYCLE:STATUS.BYTE.AGE).
# then NODE@CYCLE asks what a sample is answered after them: waits NODE:CLOCK, quiet, byte BYTE.AGE or clash BYTE.

"""

TAKEN = """# The lists of steps of drawn_record.txt, each up to its first cut, and what comes of each: what the record under a lock is asked
# there, the core without one is asked here.
# {head}# The words are those of drawn_steps.txt.

"""

LOGS = """# Records of sends that are posted to, cut and listened to, line by line.
# {head}# The words are those of drawn_steps.txt; log ROOM begins a record with room for so many sends, push posts sends, cut CYCLE cuts the
# record at a floor, listen NODE@CYCLE asks what a node hears of it, and kept whether it is the list behind record (state).

"""

STATES = """# States of clocks, sends and samples, cut up to a floor, and whether each is consistent.
# {head}# The words are those of drawn_steps.txt; consistent asks of the state of floor, clocks, sent, record and samples: yes or no.

"""

RECORDS = """# Records of the air: what each step is answered, and what the record then holds.
# {head}# topo NODES LIMIT LATENCY BYTE_TIME, links FROM>TO, own LATENCY of each link, spans LINK:FROM-UNTIL, sends NODE@CYCLE:BYTE,
# asks NODE@CYCLE. open begins the record of this world. Steps: r NODE:CYCLE raises a clock; p NODE.NUMBER posts a send, counted from 0:
# added, there, or early COUNT; s NODE@CYCLE samples: waits NODE:CLOCK, quiet, byte BYTE.AGE or clash BYTE; cut CYCLE: done, or
# behind NODE:CLOCK. record, samples (NODE@CYCLE:STATUS.BYTE.AGE) and floor are what the record holds.

"""


def write(path, head, lines):
    with open(path, "w", encoding="ascii", newline="\n") as out:
        out.write(head.format(head=HEAD[2:]))
        out.writelines(lines)


def main(folder):
    draw = random.Random(15)
    lines = []
    for _ in range(STEP_WORLDS):
        world = drawn_world(draw)
        lines += ["\n", world_text(world)] + [drawn_list(draw, world) for _ in range(8)]
    write(f"{folder}/drawn_steps.txt", STEPS, lines)
    lines = []
    for _ in range(STATE_WORLDS):
        world = drawn_world(draw)
        lines += ["\n", world_text(world)] + [drawn_state(draw, world) for _ in range(8)]
    write(f"{folder}/drawn_states.txt", STATES, lines)
    write(f"{folder}/drawn_log.txt", LOGS, drawn_logs(draw))
    lines, taken = drawn_records(random.Random(16))
    write(f"{folder}/drawn_record.txt", RECORDS, lines)
    write(f"{folder}/drawn_taken.txt", TAKEN, taken)


STEP_WORLDS = 320
STATE_WORLDS = 80
LOG_WORLDS = 60
RECORD_WORLDS = 160

if __name__ == "__main__":
    if sys.argv[1:2] in (["--help"], ["-h"]):
        sys.exit(print(__doc__))
    main(sys.argv[1])
