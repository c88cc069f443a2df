"""A second matcher of `expect`, written after tools/README.md ("Cases of `expect`") and not after the tool, and cases
and traces by chance on which the two are compared.

    second_matcher.py [COUNT] [SEED]    so many cases (20,000), drawn by a seed (1)

Status: 1 where the verdict of a case, or what is not met, is another one."""
import random
import re
import sys
import tempfile
from collections import Counter
from pathlib import Path

sys.path.insert(0, str(Path(__file__).resolve().parent.parent))

from avrora_tools import expectations
from avrora_tools.errors import BadInput

# ---- the matcher

SIGNS = {
    "==": lambda a, b: a == b,
    "!=": lambda a, b: a != b,
    "<": lambda a, b: a < b,
    "<=": lambda a, b: a <= b,
    ">": lambda a, b: a > b,
    ">=": lambda a, b: a >= b,
}


def in_range(word, value, base=10):
    """Whether a number is A..B, A.., ..B, C+-D or itself."""
    word = word.replace("_", "")
    if ".." in word:
        low, high = word.split("..")
        return (not low or value >= int(low, base)) and (not high or value <= int(high, base))
    if "+-" in word:
        middle, off = map(int, word.split("+-"))
        return abs(value - middle) <= off
    return value == int(word, base)


def part_matches(word, text, base):
    """Whether a part of a row is what stands in its place in a pattern."""
    if word == "*":
        return True
    if word.startswith("{"):
        return any(part_matches(one, text, base) for one in word[1:-1].split(","))
    if base is None or not re.fullmatch("[0-9A-F]+", text) or base == 10 and not text.isdigit():
        return word == text
    if re.fullmatch(r"[0-9A-F_]*\.\.[0-9A-F_]*|[0-9_]+\+-[0-9_]+", word):
        # spelled as rows have it: hexadecimal numbers have so many digits
        end = "[0-9_]*" if base == 10 else f"(?:[0-9A-F]{{{len(text)}}})?"
        return bool(re.fullmatch(rf"{end}(\.\.|\+-){end}", word)) and in_range(word, int(text, base), base)
    return word == text


# Whether the parts behind the kind are hexadecimal digits, decimal ones, or words.
BASES = {
    "serial": [16],
    "sent": [16],
    "heard": [10, 16, 10],
    "enter": [16, 16],
    "end": [10, None],
    "stop": [16],
    "instr": [16],
}


def row_matches(pattern, row, base_cycle):
    words, parts = pattern.split(), row.split()
    is_open = words[-1] == "*"
    if is_open:
        words = words[:-1]
    if len(words) > len(parts) or len(words) < len(parts) and not is_open:
        return False
    for place, (word, text) in enumerate(zip(words, parts)):
        if place == 0 and word.startswith("+"):
            if not part_matches(word[1:], str(int(text) - base_cycle), 10):
                return False
        elif place < 2:
            choices = word[1:-1].split(",") if word.startswith("{") else [word]
            if not any(one == "*" or in_range(one, int(text)) for one in choices):
                return False
        elif place == 2:
            if not part_matches(word, text, None):
                return False
        else:
            bases = BASES[parts[2]]
            if not part_matches(word, text, bases[place - 3] if place - 3 < len(bases) else None):
                return False
    return True


def verdict(case, trace):
    """Whether the rows that are expected in order came, and the numbers of the other lines that are not met; None for
    those where the order is not met, as then it is open between which rows something was not to come."""
    rows = trace.splitlines()
    nodes, kinds, seen = None, None, []
    lines = [(number, line.split("#")[0].strip()) for number, line in enumerate(case.splitlines(), 1)]
    for _, line in lines:
        if line.startswith("only "):
            words = line.split()[1:]
            nodes = {n for word in words if word[0].isdigit() for n in listed(word)} or None
            kinds = {word for word in words if not word[0].isdigit()} or None
    for row in rows:
        _, node, kind = row.split()[:3]
        if (nodes is None or int(node) in nodes) and (kinds is None or kind in kinds):
            seen.append(row)
    unmet = set()
    order = []
    for number, line in lines:
        match = re.fullmatch(r"within (\S+): (.*)", line)
        span, what = (match[1], match[2]) if match else (None, line)
        if not what or what.startswith("only "):
            continue
        here = [row for row in seen if span is None or in_range(span, int(row.split()[0]))]
        if match := re.fullmatch(r"count (\S+) (\d+): (.*)", what):
            count = sum(row_matches(match[3], row, 0) for row in here)
            unmet |= {number} if not SIGNS[match[1]](count, int(match[2])) else set()
        elif match := re.fullmatch(r"text (\d+) lines (\S+) (\d+)", what):
            count = written(rows, match[1], span).count("\n")
            unmet |= {number} if not SIGNS[match[2]](count, int(match[3])) else set()
        elif match := re.fullmatch(r"text (\d+) '(.*)'", what):
            unmet |= {number} if match[2] not in written(rows, match[1], span) else set()
        elif match := re.fullmatch(r"text (\d+) matches '(.*)'", what):
            unmet |= {number} if not re.search(match[2], written(rows, match[1], span), re.M) else set()
        elif what.startswith("never ") and span:
            unmet |= {number} if any(row_matches(what[6:], row, 0) for row in here) else set()
        else:
            order.append((number, what))
    return in_order(order, seen, unmet)


def listed(word):
    first, _, last = word.partition("-")
    return range(int(first), int(last or first) + 1)


def written(rows, node, span):
    found = ""
    for row in rows:
        parts = row.split()
        if parts[1] == node and parts[2] == "serial" and (span is None or in_range(span, int(parts[0]))):
            found += chr(int(parts[3], 16))
    return found


def in_order(order, seen, unmet):
    at, base, nevers = 0, 0, []
    for number, what in order:
        if what.startswith("never "):
            nevers.append((number, what[6:]))
            continue
        match = re.fullmatch(r"next(?: (\d+):)? (.*)", what)
        pattern, most = (match[2], int(match[1] or 0)) if match else (what, None)
        found = next((i for i in range(at, len(seen)) if row_matches(pattern, seen[i], base)), None)
        if found is None or most is not None and found - at > most:
            return False, unmet
        unmet |= {line for line, never in nevers if any(row_matches(never, row, base) for row in seen[at:found])}
        at, base, nevers = found + 1, int(seen[found].split()[0]), []
    unmet |= {line for line, never in nevers if any(row_matches(never, row, base) for row in seen[at:])}
    return True, unmet


# ---- cases and traces by chance

INSTRUCTIONS = ["nop", "ldi r24, 0x05", "sbis 0x0B, 7", "rjmp .-4", "inc r1", "st X+, r0"]


def drawn_trace(draw):
    nodes, cycle, rows = draw.randint(1, 4), 0, []
    stopped = set()
    sent = {}
    window = draw.random() < 0.5
    for _ in range(draw.randint(1, 25)):
        cycle += draw.choice([1, 2, 10, 50, 300])
        for node in sorted(draw.sample(range(nodes), draw.randint(1, nodes))):
            if node in stopped:
                continue
            byte = f"{draw.choice([0x41, 0x42, 0x0A, 0x72, draw.randrange(256)]):02X}"
            kind = draw.choice(["serial", "serial", "sent", "heard", "stop", "instr", "enter"])
            if kind == "serial":
                rows.append(f"{cycle} {node} serial {byte}")
            elif kind == "sent" and cycle - sent.get(node, -256) >= 256:
                sent[node] = cycle
                rows.append(f"{cycle} {node} sent {byte}")
            elif kind == "heard":
                rows.append(
                    f"{cycle} {node} heard "
                    + draw.choice(["0 00 0", f"1 {byte} {draw.randint(0, 255)}", f"2 {byte} 0"])
                )
            elif kind == "stop" and draw.random() < 0.1:
                stopped.add(node)
                rows.append(f"{cycle} {node} stop 0102 " + draw.choice(["break", "reserved opcode", "adc"]))
            elif kind == "instr" and window:
                rows.append(f"{cycle} {node} instr 00{byte} {draw.choice(INSTRUCTIONS)}")
            elif kind == "enter" and window:
                rows.append(f"{cycle} {node} enter 00{draw.choice(['18', '1E', '24'])} 00{byte}")
    cycle += draw.randint(1, 20)
    states = {node: "stopped" if node in stopped else draw.choice(["asleep", "running"]) for node in range(nodes)}
    return "".join(
        f"{row}\n"
        for row in rows + [f"{cycle} {node} end {draw.randint(0, cycle)} {states[node]}" for node in range(nodes)]
    )


def drawn_pattern(draw, rows, relative):
    """A pattern of one of the rows, or of one that is near it."""
    row = draw.choice([row for row in rows if " end " not in row or draw.random() < 0.1] or rows)
    parts = row.split()
    found = []
    for place, text in enumerate(parts):
        way = draw.random()
        is_number = place < 2 or len(text) == 2 and place > 2 and parts[2] in ("serial", "sent")
        if way < 0.45 and place != 2 or way < 0.15:
            found.append("*")
        elif way < 0.6 and is_number:
            found.append(drawn_range(draw, text, 16 if place > 2 else 10))
        elif way < 0.7 and place == 2:
            found.append("{" + ",".join(draw.sample([text, draw.choice(["sent", "serial", "stop"])], 2)) + "}")
            return " ".join([*found, "*"])
        elif way < 0.75 and place == 1:
            found.append(draw.choice(rows).split()[1])
        else:
            found.append(text)
    if relative and draw.random() < 0.3:
        found[0] = "+" + draw.choice(
            ["*", "0..", f"..{draw.randint(0, 400)}", f"{draw.randint(0, 60)}..", "10"]
        ).replace("*", "1..")
    if draw.random() < 0.5:
        found = [*found[: draw.randint(3, len(found))], "*"]
    return " ".join(found)


def drawn_range(draw, text, base):
    value, off = int(text, base), draw.choice([0, 1, 5, 100])
    low, high = max(0, value - off), value + draw.choice([0, 1, 5, 100])
    if base == 16:
        high = min(high, 255)
        words = [f"{low:02X}..{high:02X}", f"{low:02X}..", f"..{high:02X}", f"{{{text},{draw.randrange(256):02X}}}"]
    else:
        words = [
            f"{low}..{high}",
            f"{low}..",
            f"..{high}",
            f"{value}+-{off}",
            f"{{{value},{value + 1 if value > 3 else value}}}",
        ]
    return draw.choice(words)


def drawn_case(draw, trace):
    rows = trace.splitlines()
    lines = []
    if draw.random() < 0.2:
        lines.append("only " + draw.choice(["serial", "sent serial", "0", "0-1 serial stop", "heard sent serial end"]))
    for _ in range(draw.randint(1, 4)):
        kind = draw.choice(
            ["row", "row", "row", "next", "never", "never", "count", "within", "text", "lines", "matches"]
        )
        node = draw.choice(rows).split()[1]
        span = draw.choice(
            ["", f"within {drawn_range(draw, str(draw.randint(0, 600)), 10)}: ".replace("{", "0..").replace("}", "")]
        )
        span = "" if "," in span else span
        if kind == "row":
            lines.append(drawn_pattern(draw, rows, True))
        elif kind == "next":
            lines.append(f"next {draw.choice(['', f'{draw.randint(0, 4)}: '])}{drawn_pattern(draw, rows, True)}")
        elif kind == "never":
            lines.append(f"never {drawn_pattern(draw, rows, True)}")
        elif kind == "within":
            lines.append(f"{span or 'within 0..300: '}never {drawn_pattern(draw, rows, False)}")
        elif kind == "count":
            lines.append(
                f"{span}count {draw.choice(list(SIGNS))} {draw.randint(0, 6)}: {drawn_pattern(draw, rows, False)}"
            )
        elif kind == "text":
            lines.append(f"{span}text {node} '{draw.choice(['A', 'AB', 'r', 'BA'])}'")
        elif kind == "matches":
            lines.append(f"{span}text {node} matches '{draw.choice(['^A', 'B$', 'A.*r', '[AB]{2}'])}'")
        else:
            lines.append(f"{span}text {node} lines {draw.choice(list(SIGNS))} {draw.randint(0, 3)}")
    return "\n".join(lines) + "\n"


def told(path, trace):
    """What the tool says: whether the order is met, and the lines of the others that are not."""
    case = expectations.read_case(str(path))
    outcome = expectations.check(case, iter([trace.encode()]))
    lines = {int(number) for number in re.findall(r"^\S+, line (\d+): ", outcome.failure or "", re.M)}
    ordered = {statement.line for statement in case.statements if isinstance(statement, expectations.Expected)}
    return not lines & ordered, lines - ordered


def differences(count, seed, folder):
    """Cases of which the two say something else; how many were compared, refused, and met."""
    found, seen = [], Counter()
    path = Path(folder) / "drawn.expect"
    for number in range(count):
        draw = random.Random(f"{seed} {number}")
        trace = drawn_trace(draw)
        case = drawn_case(draw, trace)
        path.write_text(case, encoding="ascii")
        try:
            others = told(path, trace)
        except BadInput:
            seen["refused"] += 1
            continue
        mine = verdict(case, trace)
        seen["met" if mine == (True, set()) else "not met"] += 1
        if mine[0] != others[0] or mine[0] and mine[1] != others[1]:
            found.append(f"seed {seed}, case {number}: {mine} here, {others} by the tool\n{case}---\n{trace}")
    return found, seen


def main():
    count, seed = [int(word) for word in sys.argv[1:]] + [20_000, 1][len(sys.argv) - 1 :]
    with tempfile.TemporaryDirectory() as folder:
        found, seen = differences(count, seed, folder)
    print("\n".join(found[:3]))
    print(f"{count} cases drawn by seed {seed}: {dict(seen)}; {len(found)} differ")
    return 1 if found else 0


if __name__ == "__main__":
    if sys.argv[1:2] in (["--help"], ["-h"]):
        sys.exit(print(__doc__))
    sys.exit(main())
