"use strict";
// The timeline of a run: its lanes, what is chosen in them, and how one moves along.

const CHOSEN = ["sent", "heard", "clash", "serial", "enter", "stop"];  // the kinds that a click can choose
const NEAR = 8, LEAST_SPAN = 20;

function makeTimeline(data) {
  const element = id => document.getElementById(id), root = element("timeline");
  const sky = element("sky"), strip = element("strip"), tip = element("tip"), detail = element("detail");
  const fills = document.body.classList.contains("alone");
  const it = {
    data, from: data.first, to: data.end, chosen: null, pointer: null, ways: [], marks: { A: null, B: null }, step: 20,
    left: 96, width: 0,
  };
  const shown = kind => root.querySelector(`input[data-kind=${kind}]`)?.checked ?? true;
  const events = makeEvents(data), lanes = makeLanes(it, root, events, shown, tellStatus);
  const { byNumber, clashes, hearersOf, sendersOf, waysOf, title, told, around, values } = events;
  const { y, scale, cycleAt, rowAt, tracksOf, size, draw, paint, bottom } = lanes;
  it.paint = paint;

  const clock = data.hz || data.clock;
  function seconds(cycles) {
    const time = cycles / clock, least = Math.abs(time);
    if (least >= 1 || !least) return time.toFixed(6) + " s";
    return least >= 1e-3 ? (time * 1e3).toFixed(4) + " ms" : (time * 1e6).toFixed(3) + " \u00b5s";
  }
  const both = cycle => grouped(cycle) + " = " + seconds(cycle);

  function tellStatus() {
    element("cursor").textContent = it.pointer === null ? "" : "cycle " + both(it.pointer);
    element("span").textContent = "shown: " + grouped(it.from) + " to " + grouped(it.to) + ", " +
      seconds(it.to - it.from);
    const { A, B } = it.marks;
    const parts = [A === null ? "" : "A " + both(A), B === null ? "" : "B " + both(B)].filter(part => part);
    if (A !== null && B !== null) parts.push("B \u2212 A: " + both(Math.round(B) - Math.round(A)));
    element("marks").textContent = parts.join("; ");
  }

  // ---- what is near the pointer, and what is chosen

  // The event nearest to a cycle of a node, at most so many cycles off: kind, event; where several are as near, the
  // weightiest.
  function nearest(node, cycle, off) {
    let best = null;
    for (const kind of CHOSEN) {
      if (!shown(kind)) continue;
      const events = node[kind], at = place(events, cycle);
      for (const i of [at - 1, at]) {
        const event = events[i];
        if (!event) continue;
        const inside = kind === "sent" && cycle >= event[0] && cycle < event[0] + data.byteTime;
        const distance = inside ? off * 0.6 : Math.abs(event[0] - cycle);
        const weight = distance * (kind === "clash" || kind === "stop" ? 0.5 : 1);
        if (distance <= off && (!best || weight < best.weight)) best = { kind, event, weight, node: node.node };
      }
    }
    return best;
  }

  // The value of a variable that begins nearest to a cycle, at most so many cycles off.
  function nearestValue(node, track, cycle, off) {
    const { changes } = track, at = place(changes, cycle);
    const near = [changes[at - 1], changes[at]].filter(event => event && Math.abs(event[0] - cycle) <= off);
    if (!near.length) return null;
    const event = near.reduce((a, b) => Math.abs(b[0] - cycle) < Math.abs(a[0] - cycle) ? b : a);
    return { kind: "track", event, track, node: node.node };
  }

  const make = (name, text, more = {}) => Object.assign(document.createElement(name), { textContent: text, ...more });
  const jump = (cycle, number, words) => make("button", words || "node " + number + " at " + grouped(cycle), {
    type: "button", onclick: () => { choose(number, cycle); sky.focus({ preventScroll: true }); } });

  const jumpTo = (node, track, event) => make("button", `${grouped(event[0])}: ${track.texts[event[1]]}`, {
    type: "button", onclick: () => { take({ kind: "track", event, track, node: node.node }); sky.focus({ preventScroll: true }); } });

  function fact(list, name, ...values) {
    if (!values.length) return;
    const value = make("dd", "");
    value.append(...values);
    list.append(make("dt", name), value);
  }

  const inQuotes = word => "'" + word.replaceAll("'", "'\\''") + "'";

  function commandsAbout(node, kind, event, track) {
    const { scenario, trace, programs } = data.files || {}, cycle = event[0];
    if (!scenario) return [];
    if (kind === "track") {
      const words = programs ? ` ${programs}` : "", name = inQuotes(track.name);
      return [`avrora-tools changes${words} -n ${node.node} -w ${name} --last-before ${cycle} ${scenario}`];
    }
    const span = `${Math.max(0, cycle - 200)} ${Math.min(data.limit || data.end, cycle + 200)}`;
    const source = programs ? ` | avrora-tools annotate -s ${scenario} ${programs}` : "";
    const found = [`avrora-tools window ${scenario} ${span}${source}`];
    if (kind === "clash" && trace) found.push(`avrora-tools links --clashes ${scenario} ${trace}`);
    found.push(`avrora-tools gdb --at ${cycle} --node ${node.node}${programs ? " " + programs : ""} ${scenario}`);
    return found;
  }

  function tellChosen() {
    detail.replaceChildren();
    if (!it.chosen) {
      detail.append(make("p",
        "Click an event, or move the pointer over it: who sent it, who heard it, with whom it clashed.",
        { className: "faint" }));
      return;
    }
    const { kind, event, track } = it.chosen, node = byNumber.get(it.chosen.node).node, list = make("dl", "");
    const heading = make("p", "");
    heading.append(make("b", `node ${node.name}: ${told(node, kind, event, track)}`), ` in cycle ${both(event[0])}`);
    detail.append(heading, list);
    const where = node.where && node.where[event[0]];
    if (where !== undefined) fact(list, "executed", make("code", data.texts[where]));
    if (kind === "sent") {
      const hearers = hearersOf(node.node, event[0]), heard = hearers.filter(one => one[1] === "heard");
      const lost = hearers.filter(one => one[1] === "clash"), reached = new Set(hearers.map(one => one[0]));
      const deaf = data.links.filter(([from, to]) => from === node.node && !reached.has(to)).map(([, to]) => to);
      fact(list, "heard by", ...(heard.length ? heard.map(([to, , cycle]) => jump(cycle, to)) : ["nobody alone"]));
      fact(list, "clashed at", ...lost.map(([to, , cycle]) => jump(cycle, to)));
      if (deaf.length) fact(list, "not heard by", deaf.map(one => "node " + one).join(", "));
      fact(list, "on the air", `${grouped(event[0])} to ${grouped(event[0] + data.byteTime)}`);
    }
    const senders = sendersOf(node.node, kind, event);
    fact(list, kind === "clash" ? "clash of" : "sent by", ...senders.map(({ sender, send }) =>
      send ? jump(send[0], sender, `node ${sender}'s ${inWords(send[1])} of ${grouped(send[0])}`) : `node ${sender}`));
    if (kind === "serial") {
      const line = node.lines[place(node.lines, event[0] + 1) - 1];
      if (line && event[0] <= line[0] + line[1]) fact(list, "line", make("code", line[2]));
    }
    if (kind === "track") {
      const at = place(track.changes, event[0]), next = track.changes[at + 1];
      fact(list, "until", next ? jumpTo(node, track, next) : `${grouped(data.end)}, the end of what is drawn`);
    }
    fact(list, kind === "track" ? "who wrote it" : "to look closer",
      ...commandsAbout(node, kind, event, track).map(text => make("code", text, { className: "command" })));
  }

  const waysTo = found => found && !found.track ? waysOf(found.node, found.kind, found.event) : [];

  function choose(number, cycle, keepsView = false) {
    const entry = byNumber.get(number);
    const found = entry && nearest(entry.node, cycle, 0.5) || entry && nearest(entry.node, cycle, NEAR / scale());
    return take(found, keepsView);
  }

  function take(found, keepsView = false) {
    it.chosen = found || null;
    it.ways = waysTo(it.chosen);
    if (found && !keepsView && (found.event[0] < it.from || found.event[0] >= it.to)) goTo(found.event[0]);
    tellChosen(); draw();
    const place_ = !found ? "#timeline" : `#${found.event[0]}${found.track ? "" : "@" + found.node}`;
    try { history.replaceState(null, "", place_); } catch { /* a page without a history */ }
    return found;
  }

  const near = (node, track, cycle) =>
    track ? nearestValue(node, track, cycle, NEAR / scale()) : nearest(node, cycle, NEAR / scale());

  function hover(event) {
    const frame = sky.getBoundingClientRect(), px = event.clientX - frame.left, py = event.clientY - frame.top;
    const { row, track: at } = rowAt(py), node = data.nodes[row], track = at < 0 || !node ? null : tracksOf(node)[at];
    tip.hidden = true;
    it.pointer = px >= it.left && px <= it.width - RIGHT ? Math.max(data.first, Math.round(cycleAt(px))) : null;
    const found = node && it.pointer !== null ? near(node, track, cycleAt(px)) : null;
    it.ways = waysTo(found || it.chosen);
    if (found || node && it.pointer !== null) {
      const lines = [title(node)];
      if (found) lines.push(grouped(found.event[0]).padStart(12) + "  " + told(node, found.kind, found.event, track));
      lines.push(...track ? [] : around(node, it.pointer), ...values(node, it.pointer, track));
      tip.textContent = lines.join("\n");
      tip.hidden = lines.length === 1 && py > bottom();
      tip.style.left = Math.max(0, Math.min(event.clientX + 14, innerWidth - tip.offsetWidth - 8)) + "px";
      tip.style.top = Math.min(event.clientY + 16, innerHeight - tip.offsetHeight - 8) + "px";
    }
    draw();
  }

  // ---- moving

  function view(first, end) {
    const span = Math.max(LEAST_SPAN, Math.min(end - first, data.end - data.first));
    it.from = Math.max(data.first, Math.min(first, data.end - span)); it.to = it.from + span;
    draw();
  }
  const zoom = (factor, at) => view(at - (at - it.from) * factor, at + (it.to - at) * factor);
  const pan = part => view(it.from + part * (it.to - it.from), it.to + part * (it.to - it.from));
  function goTo(cycle) {
    const half = Math.min((it.to - it.from) / 2, data.byteTime * 10);
    view(cycle - half, cycle + half);
  }
  const middle = () => it.pointer ?? (it.from + it.to) / 2;
  Object.assign(it, { view, zoom, pan, goTo, choose, nearest });

  function goToClash(forward) {
    const whole = it.from <= data.first && it.to >= data.end, near = (it.to - it.from) / 1e4 + 0.5;
    const edge = forward ? -1 : Infinity, seen = whole ? edge : (it.from + it.to) / 2;
    const base = it.chosen && it.chosen.kind === "clash" ? it.chosen.event[0] : seen;
    const found = forward
      ? clashes.find(([cycle]) => cycle > base + near)
      : clashes.findLast(([cycle]) => cycle < base - near);
    if (!found) return;
    goTo(found[0]);
    choose(found[1], found[0]);
    const at = sky.getBoundingClientRect().top + y(byNumber.get(found[1]).row);
    if (at < 60 || at > innerHeight - 60) scrollBy(0, at - innerHeight / 2);
  }

  // The event before or behind the chosen one of its node.
  function goToEvent(forward) {
    if (it.chosen && it.chosen.track) {
      const { track, event: from } = it.chosen, at = place(track.changes, from[0]) + (forward ? 1 : -1);
      if (track.changes[at]) take({ ...it.chosen, event: track.changes[at] });
      return;
    }
    const node = it.chosen ? byNumber.get(it.chosen.node).node : data.nodes[0];
    const base = it.chosen ? it.chosen.event[0] : middle();
    let best = null;
    for (const kind of CHOSEN) {
      if (!shown(kind)) continue;
      const event = node[kind][forward ? place(node[kind], base + 1) : place(node[kind], base) - 1];
      if (event && (!best || forward === event[0] < best)) best = event[0];
    }
    if (best !== null) choose(node.node, best);
  }

  // From row to row: nodes, and the variables of each below it.
  function goToRow(by) {
    const rows = data.nodes.flatMap(node => [{ node, track: null }, ...tracksOf(node).map(track => ({ node, track }))]);
    const chosen = it.chosen, cycle = chosen ? chosen.event[0] : middle();
    const isHere = row => chosen && row.node.node === chosen.node && row.track === (chosen.track || null);
    for (let at = chosen ? rows.findIndex(isHere) + by : 0; rows[at]; at += by) {
      const { node, track } = rows[at];
      const found = track ? nearestValue(node, track, cycle, data.end) : nearest(node, cycle, data.end);
      if (found) { take(found); return; }
    }
  }

  function mark(name, cycle) {
    it.marks[name] = it.marks[name] === Math.round(cycle) ? null : Math.round(cycle);
    draw();
  }
  const markHere = name => mark(name, it.pointer ?? (it.chosen ? it.chosen.event[0] : middle()));

  // ---- pointers and keys

  const fingers = new Map();
  let drag = null, moved = false;
  sky.addEventListener("wheel", event => {
    if (event.shiftKey || !fills && !event.ctrlKey && document.activeElement !== sky) return;
    event.preventDefault();
    zoom(Math.exp(Math.max(-200, Math.min(200, event.deltaY)) / 400),
      cycleAt(event.clientX - sky.getBoundingClientRect().left));
  }, { passive: false });
  sky.addEventListener("pointerdown", event => {
    fingers.set(event.pointerId, event.clientX);
    drag = { px: event.clientX, from: it.from, to: it.to, apart: apart() }; moved = false;
    sky.setPointerCapture?.(event.pointerId);
  });
  const apart = () => fingers.size === 2 ? Math.abs([...fingers.values()][0] - [...fingers.values()][1]) : 0;
  sky.addEventListener("pointermove", event => {
    if (!fingers.has(event.pointerId)) { hover(event); return; }
    fingers.set(event.pointerId, event.clientX);
    if (fingers.size === 2 && drag.apart) {
      const factor = drag.apart / Math.max(10, apart()), center = (drag.from + drag.to) / 2;
      moved = true;
      view(center - (center - drag.from) * factor, center + (drag.to - center) * factor);
      return;
    }
    const by = drag.px - event.clientX;
    moved ||= Math.abs(by) > 3;
    if (moved) view(drag.from + by / scale(), drag.to + by / scale());
  });
  function released(event) {
    const wasClick = drag && !moved && fingers.size === 1 && event.type === "pointerup";
    fingers.delete(event.pointerId);
    if (!fingers.size) drag = null;
    if (!wasClick) return;
    const frame = sky.getBoundingClientRect(), px = event.clientX - frame.left;
    const { row, track: at } = rowAt(event.clientY - frame.top), node = data.nodes[row];
    sky.focus({ preventScroll: true });
    if (event.shiftKey) { mark("B", cycleAt(px)); return; }
    if (event.clientY - frame.top < TOP) { mark("A", cycleAt(px)); return; }
    const found = node ? near(node, at < 0 ? null : tracksOf(node)[at], cycleAt(px)) : null;
    if (found) take(found, true); else { it.chosen = null; it.ways = []; tellChosen(); draw(); }
  }
  sky.addEventListener("pointerup", released);
  sky.addEventListener("pointercancel", released);
  sky.addEventListener("pointerleave", () => { tip.hidden = true; it.pointer = null; draw(); });
  sky.addEventListener("dblclick", () => view(data.first, data.end));

  const acrossStrip = event => event.clientX - strip.getBoundingClientRect().left - it.left;
  const atStrip = event => data.first + acrossStrip(event) * (data.end - data.first) / (it.width - it.left - RIGHT);
  let grip = null;
  strip.addEventListener("pointerdown", event => {
    const cycle = atStrip(event), near = 8 * (data.end - data.first) / it.width;
    grip = Math.abs(cycle - it.from) < near ? "from" : Math.abs(cycle - it.to) < near ? "to" : "all";
    strip.setPointerCapture?.(event.pointerId); slide(event);
  });
  function slide(event) {
    if (!grip) return;
    const cycle = atStrip(event), half = (it.to - it.from) / 2;
    if (grip === "from") view(Math.min(cycle, it.to - LEAST_SPAN), it.to);
    else if (grip === "to") view(it.from, Math.max(cycle, it.from + LEAST_SPAN));
    else view(cycle - half, cycle + half);
  }
  strip.addEventListener("pointermove", slide);
  strip.addEventListener("pointerup", () => { grip = null; });

  const deeds = {
    before: () => goToClash(false), after: () => goToClash(true),
    in: () => zoom(0.5, middle()), out: () => zoom(2, middle()),
    all: () => view(data.first, data.end), markA: () => markHere("A"), markB: () => markHere("B"),
  };
  for (const button of root.querySelectorAll("button[data-do]")) {
    button.addEventListener("click", deeds[button.dataset.do]);
  }
  for (const box of root.querySelectorAll("input[data-kind]")) {
    box.addEventListener("change", box.dataset.kind === "track" ? size : draw);
  }
  element("goto").addEventListener("change", event => {
    const digits = event.target.value.replace(/[^0-9]/g, "");
    if (digits) goTo(Number(digits));
  });
  const keys = {
    "+": deeds.in, "=": deeds.in, "-": deeds.out, "0": deeds.all, n: deeds.after, p: deeds.before,
    a: deeds.markA, b: deeds.markB,
    ArrowLeft: () => pan(-0.2), ArrowRight: () => pan(0.2), ArrowUp: () => goToRow(-1), ArrowDown: () => goToRow(1),
    ",": () => goToEvent(false), ".": () => goToEvent(true), g: () => element("goto").focus(),
    Escape: () => { it.chosen = null; it.ways = []; it.marks = { A: null, B: null }; tellChosen(); draw(); },
  };
  addEventListener("keydown", event => {
    const isElsewhere = /^(INPUT|SELECT|TEXTAREA|BUTTON|SUMMARY|A)$/.test(event.target.tagName);
    if (event.target.id === "goto" && event.key === "Escape") event.target.blur();
    if (isElsewhere || !fills && event.target !== sky || event.ctrlKey || event.metaKey || event.altKey) return;
    if (keys[event.key]) { event.preventDefault(); keys[event.key](); }
  });

  // page.html#CYCLE, page.html#FROM-TO or page.html#CYCLE@NODE
  function follow() {
    const wanted = /^#(\d+)(?:-(\d+)|@(\d+))?$/.exec(location.hash);
    if (!wanted) return;
    if (!fills) root.scrollIntoView({ block: "center" });
    if (wanted[2]) { view(+wanted[1], +wanted[2]); return; }
    goTo(+wanted[1]);
    if (wanted[3]) choose(+wanted[3], +wanted[1]);
  }
  addEventListener("hashchange", follow);
  addEventListener("resize", size);
  matchMedia("(prefers-color-scheme: dark)").addEventListener("change", size);
  // Print is light, also where the screen is dark.
  addEventListener("beforeprint", () => { document.documentElement.classList.add("printing"); size(); paint(); });
  addEventListener("afterprint", () => { document.documentElement.classList.remove("printing"); size(); });
  element("thinned").textContent = data.thinned.split(":")[0];  // which kinds are told on hovering
  element("thinned").title = data.thinned;
  for (const name of ["before", "after"]) root.querySelector(`[data-do=${name}]`).disabled = clashes.length === 0;
  element("track-key").hidden = !data.nodes.some(node => node.tracks.length);
  tellChosen();
  size();
  follow();
  return it;
}

const timelineData = document.getElementById("timeline-data");
const timeline = timelineData ? makeTimeline(JSON.parse(timelineData.textContent)) : null;
