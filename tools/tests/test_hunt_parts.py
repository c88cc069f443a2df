"""The parts of a hunt, by hand: what is changed in a scenario, what a run is judged by, how a failing scenario becomes
small."""
import copy
import dataclasses
import json
import random
import re
from types import SimpleNamespace

import pytest

from avrora_tools.errors import BadInput
from avrora_tools.hunting import telling
from avrora_tools.hunting.causes import Finding, Uneven, look_of, uneven
from avrora_tools.hunting.changes import FOR_GOOD, Cut, Input, Latency, Left, Trial, record_of, trial_of, without_node
from avrora_tools.hunting.corpus import Corpus, Known, Progress
from avrora_tools.hunting.handing import Overwritten
from avrora_tools.hunting.kinds import NAMES, Cuts, Facts, Inputs, Latencies, kinds_of, left_of, take_up
from avrora_tools.hunting.oracles import DOUBLED, LOST, SILENT, STOPPED, WRONG, Failure, Oracle, Reference
from avrora_tools.hunting.races import Races, sweep_command
from avrora_tools.hunting.said import Burst, bursts_of, clashes_at, without_samples
from avrora_tools.hunting.smaller import Scene, Smaller, earlier_ends, key, last_arrival
from avrora_tools.hunting.visits import Visit, stretches
from avrora_tools.hunting.waiting import Failing, Waiting
from avrora_tools.hunting.watching import breach_in, row_of
from avrora_tools.scenarios import Scenario
from avrora_tools.sweeping.always import Breach
from avrora_tools.sweeping.events import InputByte
from avrora_tools.sweeping.limits import Limit
from avrora_tools.sweeping.simulation import scenario_text

DOCUMENT = {
    "version": 3,
    "cycles": 100_000,
    "byte_time": 1_000,
    "node": [{"image": f"{name}.hex"} for name in "abc"],
    "link": [{"from": 0, "to": 1}, {"from": 1, "to": 0, "open": [[10, 500], [600, 900]]}, {"from": 1, "to": 2}],
    "input": [{"node": 0, "at": 100, "hex": "00"}, {"node": 2, "at": 300, "every": 400, "hex": "024142"}],
}

TRIAL = Trial("cuts", "a packet is lost", (Cut(1, 0, 400, 700), Input(2, 350, 400, "024142"), Latency(0, 1, 9)))


def rows(*texts):
    return "".join(f"{text}\n" for text in texts).encode()


def serial(text, node=0, begin=1_000):
    return rows(*(f"{begin + 10 * i} {node} serial {byte:02X}" for i, byte in enumerate(text)))


def test_changes_of_a_scenario():
    changed = TRIAL.applied(DOCUMENT)
    assert changed["link"] == [
        {"from": 0, "to": 1, "latency": 9},
        {"from": 1, "to": 0, "open": [[10, 400], [700, 900]]},
        {"from": 1, "to": 2},
    ]
    assert changed["input"][1] == {"node": 2, "at": 350, "every": 400, "hex": "024142"}
    assert DOCUMENT["link"][0] == {"from": 0, "to": 1}
    Scenario.of_text(scenario_text(changed), "changed")
    never = Cut(0, 1, 0, FOR_GOOD).applied(DOCUMENT)
    assert never["link"][0]["open"] == [[FOR_GOOD - 1, FOR_GOOD]]
    Scenario.of_text(scenario_text(never), "never")


@pytest.mark.parametrize(
    "record",
    [
        {"kind": "\x1b[31m"},
        {"kind": "cuts\nfound"},
        {"changes": [{"form": "input", "node": 0, "at": 1, "every": 1, "hex": '41"\n[[node]]'}]},
        {"changes": [{"form": "input", "node": 0, "at": 1, "every": 1, "hex": "4"}]},
        {"changes": [{"form": "cut", "sender": "0", "hearer": 1, "first": 0, "end": 1}]},
        {"changes": [{"form": "node", "image": "/etc/passwd"}]},
        {"changes": [[]]},
        {"changes": [{"form": "cut", "sender": 0, "hearer": 1, "first": 2 * k, "end": 2 * k + 1} for k in range(513)]},
    ],
)
def test_a_trial_of_a_file_says_nothing_else(record):
    """A corpus may be a stranger's: it is printed, and becomes scenarios."""
    assert trial_of(record_of(TRIAL)) == TRIAL
    with pytest.raises(BadInput, match="no trial of a hunt"):
        trial_of({**record_of(TRIAL), **record})


@pytest.mark.parametrize(
    "text",
    [
        "[]",
        "{}",
        "[" * 100_000,
        '{"version": 1, "seed": NaN}',
        '{"version": 2, "seed": 1, "rounds": 0, "failed": []}',
        '{"version": 1, "seed": 1, "rounds": Infinity, "failed": []}',
        '{"version": 1, "seed": 1, "rounds": 0, "failed": {}}',
        '{"version": 1, "seed": 1, "rounds": 0, "failed": [[]]}',
        '{"version": 1, "seed": 1, "rounds": 0, "failed": [], "credit": []}',
        '{"version": 1, "seed": 1, "rounds": 0, "failed": [], "arrivals": [{"node": 1}]}',
        '{"version": 1, "seed": 1, "rounds": 0, "failed": [], "arrivals": {}}',
        '{"version": 1, "seed": 1, "rounds": 0, "failed": [], "credit": {"cuts": {}}}',
        '{"version": 1, "seed": 1, "rounds": 0, "failed": [], "left": {"cuts": {"count": 1}}}',
        '{"version": 1, "seed": 1, "rounds": 0, "failed": [], "left": {"cuts": {"count": 1, "following": [5], "idle": []}}}',
    ],
)
def test_a_corpus_that_is_none_is_refused(tmp_path, text):
    (tmp_path / "hunt.json").write_text(text)
    with pytest.raises(BadInput, match="no corpus of a hunt|no trial of a hunt|of another version"):
        Corpus(str(tmp_path))


@pytest.mark.parametrize(
    "changed, longest",
    [({"latency": 100}, 250), ({"latency": 100, "byte_time": 2_000}, 500), ({"latency": 900}, 900), ({}, 3_072)],
)
def test_no_latency_is_longer_than_a_field_has(changed, longest):
    """A quarter of a byte time, or the scenario's longest; a scenario that gives none has 3,072."""
    kind, random_ = Latencies(Facts({**DOCUMENT, **changed}, [], 50_000, False)), random.Random(1)
    drawn = [change.cycles for _ in range(400) for change in kind.draw(random_).changes]
    assert min(drawn) == 1 and 0.8 * longest < max(drawn) <= longest
    links = [{"from": 0, "to": 1, "latency": 1_700}, {"from": 1, "to": 0}]
    document = {**DOCUMENT, "latency": 100, "link": links}
    assert Latencies(Facts(document, [], 50_000, False)).longest == 1_700


def test_a_node_goes_and_those_behind_move_up():
    small = without_node(DOCUMENT, 0)
    assert [node["image"] for node in small["node"]] == ["b.hex", "c.hex"]
    assert small["link"] == [{"from": 0, "to": 1}] and [it["node"] for it in small["input"]] == [1]


def test_trials_are_kept_as_they_are(tmp_path):
    assert trial_of(json.loads(json.dumps(record_of(TRIAL)))) == TRIAL
    for record in ({}, {"kind": 1, "what": "", "changes": [{"form": "cut", "sender": "0"}]}, [], {"changes": 5}):
        with pytest.raises(BadInput):
            trial_of(record)
    corpus = Corpus(str(tmp_path / "it.hunt"))
    corpus.clear()
    assert corpus.begin(3, "a") == Progress()
    corpus.progress = progress = Progress(7, {"cuts": 2}, {"cuts": Left(3, (TRIAL,), (TRIAL, TRIAL)), "pairs": Left(5)}, 9)
    visits = [Visit(InputByte(2, 1), first, first + 9, frozenset({0x50, 0x51})) for first in (5, 40)]
    corpus.take(Known([TRIAL, TRIAL], visits * 2))
    corpus.write()

    def again():
        return Corpus(str(tmp_path / "it.hunt"))

    assert again().known == Known([TRIAL], visits) and again().begin(3, "a") == progress
    assert again().begin(4, "a") == Progress() and again().begin(3, "another program") == Progress(7)
    (tmp_path / "it.hunt" / "hunt.json").write_text('{"version": 1}')
    with pytest.raises(BadInput, match="no corpus"):
        Corpus(str(tmp_path / "it.hunt"))


def test_how_far_a_stranger_came_counts_for_nothing(tmp_path):
    """Else a corpus would leave out the rounds that fail, and its hunt would tell of rounds that nobody made."""
    corpus = Corpus(str(tmp_path))
    corpus.begin(3, "a")
    corpus.progress = Progress(7, {"cuts": 2}, {"cuts": Left(3, (TRIAL,), (TRIAL, TRIAL))}, 9)
    corpus.take(Known([TRIAL]))
    corpus.write()
    path = tmp_path / "hunt.json"
    mine = json.loads(path.read_text())
    assert Corpus(str(tmp_path)).begin(3, "a").rounds == 7
    strange = {"rounds": 8}, {"turns": 8}, {"credit": {}}, {"left": {}}, {"whose": "b"}, {"seal": "00" * 16}, {"seal": 7}
    for theirs in (*strange, {"seed": 4}):
        path.write_text(json.dumps({**mine, **theirs}))
        found = Corpus(str(tmp_path))
        assert found.begin(3, "a") == found.begin(4, "b") == Progress(), theirs
        assert found.known.trials == [TRIAL], theirs
    path.write_text(json.dumps({name: value for name, value in mine.items() if name != "seal"}))
    assert Corpus(str(tmp_path)).begin(3, "a") == Progress()


def test_a_trial_of_another_scenario_changes_nothing():
    alone = {"cycles": 100, "node": [{"image": "a.hex"}]}
    for change in (Cut(0, 1, 0, 5), Latency(0, 1, 7), Input(0, 1, 1, "41")):
        assert Trial("cuts", "", (change,)).applied(alone).get("link", []) == []


SAID = rows("100 1 sent AA", "1100 1 sent BB", "1500 0 heard 2 FF 0", "5000 1 sent CC", "5100 0 sent DD")


def test_what_was_said():
    assert bursts_of(SAID, 1_000) == [
        Burst(1, 100, 1_100, b"\xaa\xbb"), Burst(1, 5_000, 5_000, b"\xcc"), Burst(0, 5_100, 5_100, b"\xdd"),
    ]  # fmt: skip
    assert (clashes_at(SAID, 0), clashes_at(SAID, 1)) == (1, 0)


def test_rows_that_are_looked_at():
    samples = rows("90 0 heard 0 00 0", "95 0 heard 1 AA 91")
    assert without_samples(samples + SAID + samples) == SAID
    case = Oracle(range(3), user=object())  # a check of the user may count all samples
    assert case.rows(samples) == samples and Oracle(range(3)).rows(samples) == b""


BREACH = Breach(2, "queued <= 1", "queued is 2", "enqueue+0x28 alarm.c:27")


def test_a_condition_that_does_not_hold():
    assert breach_in(SAID + row_of(BREACH)) == BREACH and breach_in(SAID) is None
    oracle = Oracle(range(3), has_conditions=True)
    found = oracle.failure(REFERENCE, None, serial(b"a\n") + row_of(BREACH))
    assert found.text == "node 2: `queued <= 1` does not hold: queued is 2, by enqueue+0x28 alarm.c:27"
    assert found.cause() == ("not met", "`queued <= 1` broken by enqueue+0x28 alarm.c:27")
    assert oracle.failure(REFERENCE, None, serial(b"a\n")) is None  # what is written it does not look at
    other = Breach(2, "queued <= 1", "queued is 3", "main")
    assert oracle.failure(REFERENCE, None, row_of(other)).cause() != found.cause()


REFERENCE = Reference(serial(b"a\nb\n") + serial(b"c\n", begin=60_000), 50_000, 100_000)


@pytest.mark.parametrize(
    "output, class_",
    [
        (serial(b"b\na\n") + serial(b"c\n", begin=90_000), None),  # another order, and later
        (serial(b"a\nb\n"), None),  # c is not due
        (serial(b"a\nb\n", begin=70_000), None),  # late, and there at the end
        (serial(b"a\n"), LOST),
        (serial(b"a\nb\nb\n"), DOUBLED),
        (serial(b"a\nb\nx\n"), WRONG),
        (serial(b"a\nb\nc\n"), None),  # earlier
        (serial(b"a\nb\n") + rows("9 1 stop 0050 adc"), STOPPED),
    ],
)
def test_what_is_wrong_without_a_check(output, class_):
    found = Oracle(range(3)).failure(REFERENCE, None, output)
    assert (found and found.class_) == class_


def test_a_link_that_is_lost_for_good_excuses_what_is_lost_and_nothing_twice():
    for_good = Trial("losses", "", (Cut(0, 1, 5, FOR_GOOD),))
    oracle = Oracle(range(3))
    assert oracle.failure(REFERENCE, for_good, serial(b"a\n")) is None
    assert oracle.failure(REFERENCE, TRIAL, serial(b"a\n")).class_ == LOST
    assert oracle.failure(REFERENCE, for_good, serial(b"a\na\n")).class_ == DOUBLED


def test_a_node_that_sends_all_the_time_must_not_fall_silent():
    beacons = rows(*(f"{cycle} 2 sent AA" for cycle in range(500, 100_000, 5_000)))
    reference = Reference(beacons, 50_000, 100_000)
    assert Oracle(range(3)).failure(reference, None, rows("500 2 sent AA")).class_ == SILENT
    assert Oracle(range(2)).failure(reference, None, rows("500 2 sent AA")) is None
    seldom = Reference(rows("500 2 sent AA", "99000 2 sent AA"), 50_000, 100_000)
    assert Oracle(range(3)).failure(seldom, None, rows("500 2 sent AA")) is None


def facts():
    return Facts(DOCUMENT, [Burst(0, 100, 2_100, b"abc"), Burst(1, 5_000, 6_000, b"de")], 50_000, False)


def drawn(seed):
    kinds = kinds_of(facts(), random.Random(seed), None)
    return [kind.draw(random.Random(f"{seed} {kind.name} {i}")) for kind in kinds for i in range(20)]


def test_a_seed_draws_the_same_and_all_is_a_scenario():
    assert drawn(1) == drawn(1) != drawn(2)
    for trial in filter(None, drawn(1) + drawn(2)):
        Scenario.of_text(scenario_text(trial.applied(DOCUMENT)), str(trial))
    assert {trial.kind for trial in drawn(1) if trial} == set(NAMES)


def test_no_input_comes_before_the_first_start_of_the_scenario():
    """Before that a program may not listen yet, and right firmware loses its number."""
    inputs = Inputs(facts())
    ats = [inputs.draw(random.Random(seed)).changes[0].at for seed in range(200)]
    assert min(ats) >= 100 and any(at < 300 for at in ats) and any(at > 300 for at in ats)


def test_each_packet_is_lost_once_and_what_follows_is_lost_too():
    cuts, random_ = Cuts(facts(), random.Random(1)), random.Random(2)
    assert cuts.singles == 3
    trials = [cuts.draw(random_) for _ in range(60)]
    singles = [it.changes[0] for it in trials if it.what == "a packet is lost"]
    assert sorted(singles, key=str) == sorted([Cut(0, 1, 100, 2_101), Cut(1, 0, 5_000, 6_001), Cut(1, 2, 5_000, 6_001)], key=str)
    one = Trial("cuts", "a packet is lost", (Cut(1, 0, 5_000, 6_001),))
    cuts.passed(one, [Burst(1, 5_000, 6_000, b"de"), Burst(1, 9_000, 9_900, b"de"), Burst(1, 20_000, 20_900, b"f")])
    assert [it.changes for it in cuts.following] == [
        (Cut(1, 0, 5_000, 6_001), Cut(1, 0, 9_000, 9_901)), (Cut(1, 0, 5_000, 6_001), Cut(1, 0, 20_000, 20_901)),
    ]  # fmt: skip
    cuts.passed(Trial("cuts", "a packet is lost", (Cut(0, 1, 50, 60),)), facts().bursts)
    assert [it.changes for it in cuts.idle] == [(Cut(0, 1, 50, 60), Cut(0, 1, 100, 2_101))]
    full = Trial("cuts", "", tuple(Cut(1, 0, at, at + 9) for at in (1, 20, 40)))
    cuts.passed(full, [Burst(1, 9_000, 9_900, b"de")])
    assert len(cuts.following) == 2
    rows_of = [it for it in (cuts.draw(random_) for _ in range(60)) if it.what == "2 packets of a link are lost"]
    assert [it.changes[0].sender for it in rows_of] == [1, 1, 0]  # first what followed from an answer


def test_kinds_go_on_where_they_were():
    """Two rounds in one hunt draw what a round each of two hunts draws."""
    draw = [random.Random(f"1 {i}") for i in range(8)]
    whole = kinds_of(facts(), random.Random(1), None)
    cut = kinds_of(facts(), random.Random(1), None)
    follows = [Burst(1, 5_000, 6_000, b"de"), Burst(1, 9_000, 9_900, b"de")]
    for kinds in (whole, cut):
        for kind in kinds:
            for it in map(copy.copy, draw[:4]):
                kind.draw(it)
        kinds[1].passed(Trial("cuts", "", (Cut(1, 0, 5_000, 6_001),)), follows)
    again = kinds_of(facts(), random.Random(1), None)
    take_up(again, left_of(cut))
    second = [[kind.draw(it) for kind in kinds for it in map(copy.copy, draw)] for kinds in (whole, again)]
    assert second[0] == second[1]
    assert any(len(it.changes) == 2 for it in second[0] if it and it.kind == "cuts")


def test_a_node_is_absent_for_a_while():
    cuts = Cuts(facts(), random.Random(1))
    trials = [cuts.absent(facts().bursts[0], 1, random.Random(seed)) for seed in range(20)]
    for trial in trials:
        assert [(it.sender, it.hearer) for it in trial.changes] == [(0, 1), (1, 0), (1, 2)]
        assert {it.first for it in trial.changes} == {100} and not trial.lasts()
        assert all(2_001 <= it.end - it.first <= 50_000 // 8 for it in trial.changes)
    assert len({it.changes[0].end for it in trials}) > 10


class FakeRunner:
    """Node 0 writes `a`; it does not where link 1 to 0 is cut in cycle 450 and node 2 is there."""

    def outputs(self, documents):
        for document in documents:
            link = next((it for it in document["link"] if (it["from"], it["to"]) == (1, 0)), None)
            is_open = link is None or any(first <= 450 < end for first, end in link.get("open", [[0, FOR_GOOD]]))
            yield serial(b"a\n") if is_open or len(document["node"]) < 2 else rows("100 0 end 5 asleep")


def test_a_failing_scenario_becomes_small():
    trial = Trial("pairs", "", (Cut(0, 1, 0, 50), Cut(1, 0, 400, 500), Input(2, 350, 400, "024142")))
    smaller = Smaller(FakeRunner(), lambda count: Oracle(range(count)), True, lambda: False)
    scene = Scene(DOCUMENT, 50_000, trial)
    small, failure = smaller.smaller(scene, smaller.failure(scene))
    assert small.trial.changes == (Cut(1, 0, 400, 500),) and failure.class_ == LOST
    assert [len(small.document["node"]), len(small.document["link"])] == [2, 1]
    assert small.until < 50_000 and small.document["cycles"] - small.until == 50_000


def test_a_failure_that_lacks_something_else_is_another():
    def lacking(*parts):
        return Failure(LOST, 0, "", parts=frozenset(parts))

    assert lacking(b"a").is_alike(lacking(b"a", b"b")) and lacking(b"a", b"c").is_alike(lacking(b"a"))
    assert not lacking(b"c").is_alike(lacking(b"a", b"b")) and not lacking().is_alike(lacking(b"a"))
    assert not Failure(DOUBLED, 0, "", parts=frozenset([b"a"])).is_alike(lacking(b"a"))
    found = Oracle(range(3)).failure(REFERENCE, None, serial(b"a\n"))
    assert found.parts == {b"b"} and Oracle(range(3)).failure(REFERENCE, None, serial(b"a\nb\nb\n")).parts == {b"b"}


class Drifting(FakeRunner):
    """Node 0 writes neither `a` nor `b` where link 1 to 0 is cut in cycle 450, and where node 2 is not there it lacks
    `c` then."""

    def outputs(self, documents):
        for document in documents:
            link = next((it for it in document["link"] if (it["from"], it["to"]) == (1, 0)), {})
            is_open = any(first <= 450 < end for first, end in link.get("open", [[0, FOR_GOOD]]))
            lacks = b"c\n" if len(document["node"]) < 3 else b"a\nb\n"
            yield serial(b"".join(line for line in (b"a\n", b"b\n", b"c\n") if is_open or line not in lacks))


def test_a_scenario_becomes_no_other_failure():
    smaller = Smaller(Drifting(), lambda count: Oracle(range(count)), True, lambda: False)
    scene = Scene(DOCUMENT, 50_000, Trial("cuts", "", (Cut(0, 1, 0, 50), Cut(1, 0, 400, 500))))
    small, failure = smaller.smaller(scene, smaller.failure(scene))
    assert len(small.document["node"]) == 3 and failure.parts == {b"a", b"b"}
    assert small.trial.changes == (Cut(1, 0, 400, 500),)


class Late(FakeRunner):
    """Node 0 writes `a` in cycle 90,000 where link 1 to 0 is cut in cycle 450, and never where 0 to 1 was cut too."""

    def outputs(self, documents):
        for document in documents:
            opens = {(it["from"], it["to"]): it.get("open", [[0, FOR_GOOD]]) for it in document["link"]}
            is_cut = not any(first <= 450 < end for first, end in opens.get((1, 0), [[0, FOR_GOOD]]))
            at = 90_000 if is_cut else 100
            is_written = at < document["cycles"] and not (is_cut and opens.get((0, 1), [[0]])[0][0] > 0)
            yield b"%d 0 serial 61\n%d 0 serial 0A\n" % (at, at + 1) if is_written else rows("100 0 end 5 asleep")


def test_what_is_late_in_a_shorter_run_is_not_lost():
    smaller = Smaller(Late(), lambda count: Oracle(range(count)), False, lambda: False)
    changes = (Cut(0, 1, 0, 50), Cut(1, 0, 400, 500))
    scene = Scene({**DOCUMENT, "cycles": 100_000}, 50_000, Trial("cuts", "", changes))
    small, failure = smaller.smaller(scene, smaller.failure(scene))
    assert small.document["cycles"] < 80_000  # in 100,000 what one of the changes alone does is late
    assert small.trial.changes == changes
    assert smaller.failure(small.in_full()).is_alike(failure)


class Unanswered(FakeRunner):
    """As FakeRunner, of node 2 of DOCUMENT or not; node 1 sends until it hears node 0, and node 0 writes what node 2
    sends where it hears it."""

    def outputs(self, documents):
        for document, output in zip(documents, super().outputs(documents)):
            links = [(it["from"], it["to"]) for it in document["link"]]
            times = 1 if (0, 1) in links else 100
            yield output + b"".join(rows(f"{600 + k} 1 sent AA") for k in range(times)) + serial(
                b"b\n" if (2, 0) in links else b"", begin=2_000
            )


def test_a_small_scenario_has_what_the_protocol_needs():
    """Without the link to node 1 that one sends without end, and without that of node 2 a line is lost: what fails there
    fails for that."""
    document = {**DOCUMENT, "link": [*DOCUMENT["link"], {"from": 2, "to": 0}, {"from": 0, "to": 2}]}
    scene = Scene(document, 50_000, Trial("cuts", "", (Cut(1, 0, 400, 500),)))
    smaller = Smaller(Unanswered(), lambda count: Oracle(range(count)), False, lambda: False)
    links = [{"from": 0, "to": 1}, DOCUMENT["link"][1]]
    for busy, kept in ((document["input"], [*links, {"from": 2, "to": 0}]), ([], links)):
        it = dataclasses.replace(scene, document={**document, "input": busy})
        if not busy:
            it = dataclasses.replace(it, document={**it.document, "link": document["link"][:3]})
        small, _ = smaller.stepped(it, smaller.failure(it), smaller.failure(it), smaller.fewer_links)
        assert small.document["link"] == kept


def test_nodes_that_are_left_have_their_numbers():
    """What nodes send is compared with what the same ones sent before others went."""
    scene = Scene(DOCUMENT, 50_000, TRIAL)
    assert scene.without({0}) == (1, 2)
    small = dataclasses.replace(scene, document=without_node(DOCUMENT, 0), numbers=scene.without({0}))
    assert [small.number(node) for node in (0, 1)] == [1, 2] and small.without({0}) == (2,)
    smaller = Smaller(FakeRunner(), lambda count: Oracle(range(count)), True, lambda: False)
    most = int(1.5 * 100 + 32)
    sent = b"".join(rows(f"{k} 1 sent AA") for k in range(100)) + rows("1 2 sent AA")
    for node, count, works in ((0, most, True), (0, most + 1, False), (1, 33, True), (1, 34, False)):
        output = b"".join(rows(f"{k} {node} sent AA") for k in range(count))
        smaller.right = {key(scene): reference(sent), key(small): reference(output)}
        assert smaller.works(small, scene) == works


def reference(output):
    return Reference(output, 50_000, 100_000)


class Detour(FakeRunner):
    """As FakeRunner; where the link is cut, node 2 sends too."""

    def outputs(self, documents):
        for document, output in zip(documents, super().outputs(documents)):
            nodes = len(document["node"])
            yield output + (b"" if b"serial" in output else rows(f"500 {nodes - 1} sent AA"))


@pytest.mark.parametrize("may_renumber", [True, False])
def test_what_only_the_failing_run_uses_stays(may_renumber):
    """The right run would not show that the rest works without it."""
    document = {**DOCUMENT, "link": [*DOCUMENT["link"], {"from": 2, "to": 0}]}
    scene = Scene(document, 50_000, Trial("cuts", "", (Cut(1, 0, 400, 500),)))
    smaller = Smaller(Detour(), lambda count: Oracle(range(count)), may_renumber, lambda: False)
    small, _ = smaller.smaller(scene, smaller.failure(scene))
    assert smaller.only_failing(scene) == {2} and len(small.document["node"]) == 3
    assert [(it["from"], it["to"]) for it in small.document["link"]] == [(1, 0), (2, 0)]


@pytest.mark.parametrize(
    "changes, least",
    [
        ((Cut(1, 0, 400, 500),), 40_000),
        ((Cut(1, 0, 400, 500), Cut(1, 0, 70_000, FOR_GOOD)), 40_000),
        ((Cut(1, 0, 400, 40_000),), 60_000),
        ((Input(0, 59_000, 400, "00"),), 60_000),
        ((Input(0, 59_000, 2_000, "0000"),), 80_000),
        ((Input(2, 350, 400, "024142"),), None),  # it comes last where nothing varies
        ((Latency(0, 1, 9),), 40_000),
    ],
)
def test_a_run_ends_no_earlier_than_what_is_changed(changes, least):
    late = {"node": 2, "at": 69_000, "every": 400, "hex": "024142"}
    document = {**DOCUMENT, "cycles": 150_000, "input": [DOCUMENT["input"][0], late]}
    scene = Scene(document, 100_000, Trial("pairs", "", changes))
    ends = list(earlier_ends(scene, 100_000 - last_arrival(document)))
    assert min((it.until for it in ends), default=None) == least
    assert all(it.document["cycles"] - it.until == 50_000 for it in ends)


def test_a_check_knows_nodes_by_their_numbers():
    trial = Trial("pairs", "", (Cut(1, 0, 400, 500), Input(2, 350, 400, "024142")))
    smaller = Smaller(FakeRunner(), lambda count: Oracle(range(count)), False, lambda: False)
    scene = Scene(DOCUMENT, 50_000, trial)
    small, _ = smaller.smaller(scene, smaller.failure(scene))
    assert len(small.document["node"]) == 3 and small.trial.changes == (Cut(1, 0, 400, 500),)
    assert small.document["link"] == [DOCUMENT["link"][1]] and [it["node"] for it in small.document["input"]] == [0]
    assert small.size()[:2] == (2, 1)


def test_the_run_without_changes_is_made_once():
    made = []

    class Counting(FakeRunner):
        def outputs(self, documents):
            made.extend(map(str, documents))
            return super().outputs(documents)

    smaller = Smaller(Counting(), lambda count: Oracle(range(count)), True, lambda: False)
    scenes = [Scene(DOCUMENT, 50_000, Trial("cuts", "", (Cut(1, 0, at, 500),))) for at in (400, 430, 460)]
    assert [found and found.class_ for found in smaller.failures(scenes)] == [LOST, LOST, None]
    assert len(made) == 4 and made.count(str(DOCUMENT)) == 1


def failing(what, text="node 0 did not write 'a'", look=(LOST,), changes=1):
    return Failing(Trial("starts", what, TRIAL.changes[:changes]), Failure(LOST, 0, text), look)


def test_what_differs_most_is_made_small_first():
    waiting = Waiting()
    waiting.count_small(failing("starts 5 apart"))
    assert waiting.knows((LOST,)) and not waiting.knows((DOUBLED,))
    alike, large = failing("starts 70 apart"), failing("node 1 starts at another time", changes=3)
    small, lost = failing("node 2 starts at another time"), failing("starts 80 apart", "node 0 did not write 'b'")
    rare = failing("starts 90 apart", look=(DOUBLED,))
    for it in (alike, large, small, lost, rare):
        waiting.put(it)
    order = []
    while waiting.count():
        order.append(waiting.next())
        waiting.count_small(order[-1])
    assert order[0] is rare and set(map(id, order[1:3])) == {id(small), id(lost)} and order[-1] is alike
    waiting.put(alike)
    assert list(waiting.rest()) == [alike] and waiting.count() == 0


def test_a_piece_of_work_has_a_limit_of_its_own():
    now = [0.0]
    whole = Limit(100.0, lambda: now[0])
    now[0] = 60.0
    part = whole.part(0.1)
    now[0] = 66.0
    assert whole.is_over(0.5) and not whole.is_over() and part.is_over(0.5) and not part.is_over()
    now[0] = 70.0
    assert part.is_over() and not whole.is_over()
    late = whole.part(0.9)
    now[0] = 100.0
    assert late.is_over() and not Limit().part(0.1).is_over()


class Sweeping(Races):
    """Sweeps nothing, and keeps what it was to sweep."""

    def __init__(self, visits):
        self.document, self.events, self.waiting, self.ready = DOCUMENT, [], iter([visits]), []
        self.seen, self.unsayable, self.turns, self.is_wide, self.swept_ = set(), 0, 0, False, []

    def moved(self, visit):
        return visit.first != 9

    def drawn(self, random_):
        return Visit(InputByte(2, 1), 5_000, 8_000, frozenset())

    def swept(self, visit, scenario, options, oracle, reference):
        self.swept_.append((visit.first, options.per_place))
        return []


def test_fresh_code_is_swept_first_and_then_drawn_spans_too():
    codes = [(1, 0x50), (2, 0x60), (3, 0x50), (4, 0x50), (9, 0x70), (5, 0x60)]
    races = Sweeping([Visit(InputByte(2, 1), first, first + 9, frozenset([code])) for first, code in codes])
    for _ in range(9):
        races.turn(random.Random(1), None, None)
    assert races.swept_[:2] == [(1, None), (2, None)] and races.unsayable == 1 and races.is_wide
    assert [first == 5_000 for first, _ in races.swept_[2:]] == [True, False, True, False, True, False, True]
    assert sorted(first for first, per_place in races.swept_[2:] if per_place is None) == [3, 4, 5]
    later = Sweeping([Visit(InputByte(2, 1), first, first + 9, frozenset([code])) for first, code in codes])
    later.skip(4)
    for _ in range(5):
        later.turn(random.Random(1), None, None)
    assert later.swept_ == races.swept_[4:]


def test_a_sweep_of_what_fails():
    command = sweep_command(InputByte(2, 1, is_alone=True), (5, 40), "a b.elf")
    assert command == "--input 2:1=5..40 --alone -e 'a b.elf'"


def test_looks_of_causes():
    lost = Failure(LOST, 0, "node 0 did not write 'a'")
    assert look_of(TRIAL, DOCUMENT, lost) == (LOST, "", "a cut", "a latency", "a start")
    other = Trial("inputs", "", (Input(2, 300, 9, "024142"),))
    assert look_of(other, DOCUMENT, Failure(LOST, 0, "", True)) == (LOST, "with a clash there", "an input")


def test_findings_of_one_cause():
    lost, doubled = Failure(LOST, 0, ""), Failure(DOUBLED, 0, "")
    inbox, queue = Overwritten(1, "inbox", "a.c:7", 5, 9), Overwritten(2, "queue", "a.c:9", 5, 9)
    place = Finding((LOST, "a cut"), lost, overwritten=(inbox,))
    assert place.is_of(Finding((LOST, "a start"), lost, overwritten=(dataclasses.replace(inbox, node=2),)))
    for other in (
        Finding(place.look, lost), Finding(place.look, lost, overwritten=(queue,)),
        Finding(place.look, doubled, overwritten=(inbox,)),
    ):  # fmt: skip
        assert not place.is_of(other) and not other.is_of(place)
    one = Finding(place.look, lost, lines=("a.c:3",))
    assert one.is_of(Finding(place.look, lost, lines=("a.c:3",)))
    assert not one.is_of(Finding(place.look, lost)) and not one.is_of(Finding((LOST, "a start"), lost, lines=("a.c:3",)))


def test_small_findings_are_told_first_and_nothing_is_lost_between(tmp_path, monkeypatch, capsys):
    """The scenarios have the numbers that are told; at each moment each finding has one."""
    lost = Failure(LOST, 0, "node 0 did not write 'a'")
    cut, more = Cut(1, 0, 400, 500), Cut(0, 1, 0, 50)
    scenes = {
        "large": Scene(DOCUMENT, 50_000, Trial("cuts", "large", (cut, more))),
        "small": Scene(without_node(DOCUMENT, 2), 50_000, Trial("cuts", "small", (cut, more))),
        "least": Scene(without_node(DOCUMENT, 2), 50_000, Trial("cuts", "least", (cut,))),
    }
    findings = [Finding((LOST,), lost, scene, scene.trial) for scene in scenes.values()]
    race = Finding((LOST, "a race"), lost, places=("a.c:3",), opened="avrora-tools look")
    corpus = Corpus(str(tmp_path))
    for number, finding in enumerate(findings, 1):
        telling.write_finding(corpus.found(number), finding, 1, "")
    (tmp_path / "race-1.toml").touch()
    there, write = [], telling.write_finding

    def watched(*words):
        write(*words)
        there.append({re.search(r"cuts: (.*)\.$", it.read_text(), re.M)[1] for it in tmp_path.glob("found-?.toml")})

    monkeypatch.setattr(telling, "write_finding", watched)
    monkeypatch.setattr(telling, "not_covered", lambda hunt: [])
    monkeypatch.setattr(telling, "print_tried", lambda hunt: None)
    hunt = SimpleNamespace(findings=[*findings, race], seed=1, document=DOCUMENT)
    telling.print_hunt(hunt, corpus, "it.toml", [])
    assert all(it == set(scenes) for it in there)
    names = sorted(path.name for path in tmp_path.iterdir())
    both = [f"found-{number}{right}.toml" for number in (2, 3, 4) for right in ("-right", "")]
    assert names == [*both, "race-1.toml"]
    out = capsys.readouterr().out
    order = [re.search(r"cuts: (.*)\.$", (tmp_path / f"found-{k}.toml").read_text(), re.M)[1] for k in (2, 3, 4)]
    assert order == ["least", "small", "large"] and out.index("a.c:3") < out.index("2 nodes of 3")
    assert out.index("found-2.toml") < out.index("found-3.toml") < out.index("found-4.toml")


def test_lines_that_come_apart():
    right = {"a.c:1": {1: 3, 2: 4}, "a.c:9": {1: 3, 2: 4}, "a.c:5": {1: 30, 2: 40}, "a.c:6": {1: 31, 2: 40}}
    failing = {"a.c:1": {1: 3, 2: 4}, "a.c:9": {1: 2, 2: 4}, "a.c:5": {1: 20, 2: 40}, "a.c:6": {1: 31}}
    assert list(uneven(failing, right)) == [Uneven(1, "a.c:1", 3, "a.c:9", 2)]
    assert list(uneven(right, right)) == []


def test_visits_of_shared_code():
    event = InputByte(2, 1)
    cycles = [(1_000, 0x50), (1_003, 0x51), (1_150, 0x50), (9_000, 0x60), *((20_000 + 90 * i, 0x70) for i in range(30))]
    found = list(stretches(event, cycles))
    assert [(it.first + 12, it.last - 12, sorted(it.addresses)) for it in found] == [
        (1_000, 1_003, [0x50, 0x51]), (1_150, 1_150, [0x50]), (9_000, 9_000, [0x60]), (20_000, 21_980, [0x70]),
        (22_070, 22_610, [0x70]),
    ]  # fmt: skip
