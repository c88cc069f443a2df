"use strict";
// The events of a run, from the data that a page carries: who heard whom, and what each event is in words.

// What is drawn of a node, each kind with how many numbers an event of it has, of which the first is its cycle.
const FIELDS = { sent: 2, heard: 4, clash: 3, quiet: 1, serial: 2, lines: 3, asleep: 2, enter: 2, stop: 2 };

const MOST_TOLD = 8;  // variables of a node that are told at the pointer

// The place of the first event of a cycle of at least `cycle`.
function place(events, cycle) {
  let low = 0, high = events.length;
  while (low < high) {
    const middle = low + high >> 1;
    if (events[middle][0] < cycle) low = middle + 1; else high = middle;
  }
  return low;
}

// The lists of the data hold the distance of each event's cycle from the one before; here they become lists of events.
function unpacked(flat, kind) {
  const events = [];
  let cycle = 0;
  if (kind === "quiet") {  // a distance, and how often it comes
    for (let i = 0; i < flat.length; i += 2) for (let n = 0; n < flat[i + 1]; n++) events.push([cycle += flat[i]]);
    return events;
  }
  for (let i = 0; i < flat.length; i += FIELDS[kind]) {
    cycle += flat[i];
    events.push([cycle, ...flat.slice(i + 1, i + FIELDS[kind])]);
  }
  return events;
}

// A track of the data as a list of changes: its cycle, and the place of the value from it on.
function unpackedTrack(track, number) {
  const changes = [];
  let cycle = 0;
  for (let i = 0; i < track.changes.length; i += 2) changes.push([cycle += track.changes[i], track.changes[i + 1]]);
  const numbers = track.numbers || null, finite = (numbers || []).filter(value => value !== null);
  return {
    name: track.name, look: track.look, number, changes, numbers, texts: track.texts || numbers.map(String),
    least: finite.reduce((a, b) => Math.min(a, b), Infinity), most: finite.reduce((a, b) => Math.max(a, b), -Infinity),
  };
}

const grouped = number => Math.round(number).toLocaleString("en");
const inHex = byte => byte.toString(16).toUpperCase().padStart(2, "0");
const isVisible = byte => byte > 0x20 && byte < 0x7f;
const inWords = byte => inHex(byte) + (isVisible(byte) ? " '" + String.fromCharCode(byte) + "'" : "");

function makeEvents(data) {
  for (const node of data.nodes) {
    for (const kind in FIELDS) node[kind] = unpacked(node[kind], kind);
    node.tracks = (node.tracks || []).map(unpackedTrack);
  }
  const byNumber = new Map(data.nodes.map((node, row) => [node.node, { node, row }]));
  const latencies = new Map(data.links.map(([from, to, latency]) => [from * 64 + to, latency]));
  // All clashes in order: cycle and hearer.
  const clashes = data.nodes.flatMap(node => node.clash.map(event => [event[0], node.node]));
  clashes.sort((a, b) => a[0] - b[0]);

  // The send of `sender` that `hearer` hears in `cycle`, or null: where the page is thinned it may be left out.
  function sendHeard(sender, hearer, cycle) {
    const other = byNumber.get(sender), latency = latencies.get(sender * 64 + hearer);
    if (!other || latency === undefined) return null;
    const at = place(other.node.sent, cycle - latency + 1) - 1;
    const send = at >= 0 ? other.node.sent[at] : null;
    return send && cycle - latency - send[0] < data.byteTime ? send : null;
  }

  // Where a send was heard, clean or in a clash: hearer, kind, cycle.
  function hearersOf(sender, sent) {
    const found = [];
    for (const [from, to, latency] of data.links) {
      const hearer = byNumber.get(to);
      if (from !== sender || !hearer) continue;
      for (const kind of ["heard", "clash"]) {
        const events = hearer.node[kind], end = sent + latency + data.byteTime;
        for (let i = place(events, sent + latency); i < events.length && events[i][0] < end; i++) {
          const isHeard = kind === "heard" ? events[i][3] === sender : events[i][2].includes(sender);
          if (isHeard) found.push([to, kind, events[i][0]]);
        }
      }
    }
    return found;
  }

  const waysOf = (node, kind, event) => kind === "sent"
    ? hearersOf(node, event[0]).map(([hearer, way, cycle]) => [event[0], node, cycle, hearer, way])
    : sendersOf(node, kind, event).filter(one => one.send).map(one => [one.send[0], one.sender, event[0], node, kind]);

  // Who sent what a sample heard: the node, and its send where the page has it.
  function sendersOf(node, kind, event) {
    const senders = kind === "clash" ? event[2] : kind === "heard" && event[3] >= 0 ? [event[3]] : [];
    return senders.map(sender => ({ sender, send: sendHeard(sender, node, event[0]) }));
  }

  const title = node => "node " + node.name + (node.state ? ", at the end " + node.state : "");

  // The value that a track has in a cycle, and since when.
  function valueAt(track, cycle) {
    const at = place(track.changes, cycle + 1) - 1;
    return at < 0 ? null : { text: track.texts[track.changes[at][1]], since: track.changes[at][0] };
  }

  // What an event is, in words.
  function told(node, kind, event, track) {
    if (kind === "track") {
      const before = valueAt(track, event[0] - 1);
      return track.name + " = " + track.texts[event[1]] + (before ? ", before " + before.text : "");
    }
    if (kind === "sent") return "sent " + inWords(event[1]);
    if (kind === "heard") return "heard " + inWords(event[1]) + (event[3] >= 0 ? " of node " + event[3] : "") +
      ", age " + event[2];
    if (kind === "serial") return "wrote " + inWords(event[1]) + " to USART0";
    if (kind === "enter") return "interrupt " + (data.vectors[event[1]] || event[1]);
    if (kind === "stop") return "stopped at " + event[1];
    const names = sendersOf(node.node, kind, event).map(({ sender, send }) =>
      "node " + sender + (send ? "'s " + inWords(send[1]) + " of " + grouped(send[0]) : ""));
    return "CLASH of " + (names.join(", ") || "several bytes");
  }

  // What holds at a cycle of a node: sleep, closed links.
  function around(node, cycle) {
    const lines = [], nap = node.asleep[place(node.asleep, cycle + 1) - 1];
    if (nap && cycle < nap[0] + nap[1]) lines.push("asleep from " + grouped(nap[0]) + ", " + grouped(nap[1]) +
      " cycles");
    else if (node.rest) {
      const i = data.buckets.findIndex((end, at) => at && cycle < end) - 1;
      if (i >= 0) {
        const [first, end] = [data.buckets[i], data.buckets[i + 1]];
        const part = (100 * node.rest[i] / (end - first)).toFixed(1);
        lines.push(`asleep ${part}% of ${grouped(first)} to ${grouped(end)}`);
      }
    }
    for (const [first, end, sender] of node.closed) {
      if (cycle >= first && cycle < end) lines.push("the link from node " + sender + " is closed until " +
        grouped(end));
    }
    for (const [stop, cause] of node.stop) if (cycle >= stop) lines.push("stopped at " + cause);
    return lines;
  }

  // The variables of a node in a cycle: the one that is pointed at, or the first ones.
  function values(node, cycle, only) {
    const tracks = only ? [only] : node.tracks.slice(0, MOST_TOLD), lines = [];
    for (const track of tracks) {
      const value = valueAt(track, cycle);
      if (value) lines.push(track.name + " = " + value.text + " since " + grouped(value.since));
    }
    if (!only && node.tracks.length > MOST_TOLD) lines.push("and " + (node.tracks.length - MOST_TOLD) + " more");
    return lines;
  }

  return { byNumber, clashes, hearersOf, sendersOf, waysOf, title, told, around, values };
}
