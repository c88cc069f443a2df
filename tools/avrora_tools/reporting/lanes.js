"use strict";
// The lanes of a timeline: a row a node, with what it sent, wrote and heard, below it one for each variable that is
// watched, and a strip above of the whole run.

const TOP = 24, RIGHT = 10, LEAST_ROW = 14, MOST_ROW = 190, ROOMY = 42, DETAIL = 130, STRIP = 38,
  TRACK = 19, NAMED = 11, MOST_NAME = 210, LOWEST = 0.12,
  ASIDE = 4, LETTERS = 13;  // between a value's edge and its text, and how far above the base line letters reach
// Of a roomy lane: where each part begins, and how high it is.
const BAND = { sent: [0.06, 0.34], serial: [0.40, 0.26], heard: [0.70, 0.28] };
const PAINTS = ["paper", "panel", "ink", "faint", "rule", "focus", "sent", "heard", "clash", "quiet", "serial",
  "asleep", "enter", "track", "window", "closed", "stopped", "stop"];

// Paints the state `it` of a timeline on its two canvases; `shown` tells which kinds of events are, `isPainted` is
// called behind each painting.
function makeLanes(it, root, events, shown, isPainted) {
  const { data } = it, { byNumber } = events;
  const sky = document.getElementById("sky"), strip = document.getElementById("strip");
  const pen = sky.getContext("2d"), thin = strip.getContext("2d");
  const fills = document.body.classList.contains("alone"), colours = {};
  let width = 0, height = 0, left = 96, tops = [], bottom = TOP, trackHigh = TRACK;

  const scale = () => (width - left - RIGHT) / (it.to - it.from);
  const x = cycle => left + (cycle - it.from) * scale();
  const cycleAt = px => it.from + (px - left) / scale();
  const y = row => tops[row];
  const tracksOf = node => shown("track") ? node.tracks : [];
  // The row at a height, and which of its tracks; -1 for none.
  function rowAt(py) {
    const row = py < TOP || py >= bottom ? -1 : tops.findLastIndex(top => top <= py);
    const track = row < 0 ? -1 : Math.floor((py - tops[row] - it.step) / trackHigh);
    return { row, track: track < tracksOf(data.nodes[row] || { tracks: [] }).length ? track : -1 };
  }

  function readColours() {
    const style = getComputedStyle(document.documentElement);
    for (const name of PAINTS) colours[name] = style.getPropertyValue("--" + name).trim();
  }

  function fitted(canvas, wide, high) {
    const ratio = devicePixelRatio || 1;
    canvas.width = wide * ratio; canvas.height = high * ratio;
    canvas.style.width = wide + "px"; canvas.style.height = high + "px";
  }

  function size() {
    readColours();
    width = root.clientWidth;
    const longest = node => Math.max(node.name.length, ...tracksOf(node).map(track => track.name.length));
    left = width < 640 ? 30 : Math.min(MOST_NAME, 30 + 7 * Math.max(...data.nodes.map(longest)));
    trackHigh = width < 640 ? TRACK + NAMED : TRACK;  // where names have no room beside the rows they stand in them
    const count = data.nodes.reduce((sum, node) => sum + tracksOf(node).length, 0);
    const beside = Math.max(300, Math.min(innerHeight - 260, 620));  // in a page with other parts
    const room = fills ? root.clientHeight - sky.offsetTop - DETAIL - 34 : beside;
    const each = Math.floor((room - TOP - 4 - count * trackHigh) / data.nodes.length);
    it.step = Math.max(count ? ROOMY : LEAST_ROW, Math.min(fills ? MOST_ROW : 110, each));
    bottom = TOP;
    tops = data.nodes.map(node => { const top = bottom; bottom += it.step + trackHigh * tracksOf(node).length; return top; });
    height = bottom + 4;
    fitted(sky, width, height);
    fitted(strip, width, STRIP);
    it.left = left; it.width = width;
    draw();
  }

  // Calls `put` for the events in sight, one for each half of a pixel.
  function eachInSight(events, reach, put) {
    let last = -1e9;
    for (let i = place(events, it.from - reach); i < events.length && events[i][0] < it.to; i++) {
      const px = x(events[i][0]);
      if (px - last < 0.5) continue;
      last = px; put(px, events[i], events[i + 1]);
    }
  }

  function drawGrid() {
    // With a clock ticks stand at round milliseconds, else at round cycles.
    const cycles = data.hz ? data.hz / 1000 : 1, least = (it.to - it.from) / cycles / Math.max(1, (width - left) / 110);
    let power = data.hz ? -6 : 0, unit = 0;
    for (let factor = 1; (unit = factor * 10 ** power) < least; factor = factor === 1 ? 2 : factor === 2 ? 5 : 1) {
      if (factor === 5) power++;
    }
    const digits = Math.max(0, -power);
    pen.textAlign = "center"; pen.font = "11px sans-serif";
    for (let number = Math.ceil(it.from / cycles / unit); number * unit * cycles < it.to; number++) {
      const cycle = number * unit * cycles;
      const label = data.hz ? (number * unit).toFixed(digits) + " ms" : grouped(cycle);
      pen.fillStyle = colours.rule; pen.fillRect(x(cycle), TOP - 7, 1, height);
      const half = pen.measureText(label).width / 2 + 2;
      pen.fillStyle = colours.faint; pen.fillText(label, Math.max(left + half, Math.min(width - half, x(cycle))), 12);
    }
    const [first, end] = data.window;
    pen.fillStyle = colours.window;
    if (end > first) pen.fillRect(x(first), TOP - 5, Math.max(2, x(end) - x(first)), 3);
  }

  function drawSleep(node, top, high) {
    if (!shown("asleep")) return;
    pen.fillStyle = colours.asleep;
    if (node.rest) for (let i = 0; i + 1 < data.buckets.length; i++) {  // a shade: which part of a span it slept
      const first = data.buckets[i], end = data.buckets[i + 1];
      if (end <= it.from || first >= it.to || !node.rest[i]) continue;
      pen.globalAlpha = node.rest[i] / (end - first);
      pen.fillRect(x(first), top, x(end) - x(first) + 0.5, high);
    }
    pen.globalAlpha = 1;
    const [first, end] = data.window;
    if (node.rest && end > first) {  // where it is known exactly
      pen.fillStyle = colours.paper; pen.fillRect(x(first), top, x(end) - x(first), high);
      pen.fillStyle = colours.asleep;
    }
    for (const [cycle, cycles] of node.asleep) pen.fillRect(x(cycle), top, Math.max(0.5, cycles * scale()), high);
  }

  function drawNode(node, row) {
    const top = y(row), high = it.step - 3, bar = data.byteTime * scale(), roomy = high >= ROOMY;
    const [sentTop, sentHigh] = roomy ? BAND.sent : [0.04, 0.4];
    const [heardTop, heardHigh] = roomy ? BAND.heard : [0.64, 0.36];
    pen.fillStyle = colours.rule; pen.fillRect(0, top + high + 1, width, 1);
    pen.save(); pen.beginPath(); pen.rect(left, top, width - left, high + 1); pen.clip();
    for (const [cycle] of node.stop) { pen.fillStyle = colours.stopped; pen.fillRect(x(cycle), top, width, high); }
    drawSleep(node, top, high);
    pen.fillStyle = colours.closed;
    for (const [first, end] of node.closed) {
      const last = Math.min(width, x(end));
      for (let px = Math.max(left, x(first)); px < last; px += 4) pen.fillRect(px, top + high - 2, 2, 2);
    }
    pen.fillStyle = colours.enter;
    if (shown("enter")) eachInSight(node.enter, 0, px => pen.fillRect(px, top, 1.2, Math.min(9, high * 0.3)));
    const font = Math.max(9, Math.min(13, high * sentHigh - 3));
    pen.font = font + "px sans-serif"; pen.textAlign = "left";
    if (shown("sent")) eachInSight(node.sent, data.byteTime, (px, event) => {
      const long = Math.max(1, bar - 0.6), words = (bar > 46 ? inWords : inHex)(event[1]);
      pen.fillStyle = colours.sent; pen.fillRect(px, top + high * sentTop, long, high * sentHigh);
      pen.fillStyle = colours.paper;
      const middle = top + high * (sentTop + sentHigh / 2) + font * 0.36;
      if (bar > 22 && high * sentHigh > 9) pen.fillText(words, Math.max(px, left) + 3, middle);
    });
    pen.fillStyle = colours.quiet;
    if (shown("quiet")) eachInSight(node.quiet, 0, px => pen.fillRect(px, top + high * 0.8, 0.7, high * 0.2));
    pen.font = Math.max(9, Math.min(12, high * 0.2)) + "px sans-serif";
    if (shown("heard")) eachInSight(node.heard, 0, (px, event, next) => {
      pen.fillStyle = colours.heard; pen.fillRect(px, top + high * heardTop, 1.6, high * heardHigh);
      if (roomy && (!next || x(next[0]) - px > 22)) pen.fillText(inHex(event[1]), px + 4, top + high - 3);
    });
    if (shown("clash")) eachInSight(node.clash, 0, (px, event, next) => {
      pen.fillStyle = colours.clash;
      pen.fillRect(px - 0.3, top + high * (heardTop - 0.12), 2.2, high * (heardHigh + 0.12));
      if (high > 12) pen.fillRect(px - 3, top + high * (heardTop - 0.12), 8, 2);
      if (roomy && (!next || x(next[0]) - px > 30)) pen.fillText("\u00d7" + event[2].length, px + 6, top + high - 3);
    });
    if (shown("serial")) drawSerial(node, top, high, roomy);
    pen.fillStyle = colours.stop; pen.textAlign = "left"; pen.font = "11px sans-serif";
    for (const [cycle, cause] of node.stop) {
      const words = "\u25B6 " + cause, px = x(cycle);
      pen.fillText(words, Math.max(left, Math.min(px, width - pen.measureText(words).width - 4)), top + high / 2 + 4);
    }
    pen.restore();
    pen.textAlign = "right"; pen.font = "11px sans-serif";
    pen.fillStyle = it.chosen && it.chosen.node === node.node ? colours.focus : colours.ink;
    pen.fillText(width < 640 ? node.node : node.name, left - 8, top + high / 2 + 4, left - 10);
    tracksOf(node).forEach((track, at) => drawTrack(node, track, top + it.step + at * trackHigh));
  }

  // A variable over time: a line for what is true or false, a step as high as a number is great, a box with the text
  // of any other value; where values stand closer than pixels, a bar over all that they are.
  function drawTrack(node, track, top) {
    const low = top + trackHigh - 3, high = TRACK - 5, span = track.most - track.least, { changes } = track;
    const levelOf = place => {
      if (track.look === "name") return 1;
      const number = track.numbers[place];
      if (track.look === "flag") return number ? 1 : 0;
      return number === null || !span ? LOWEST : LOWEST + (1 - LOWEST) * (number - track.least) / span;
    };
    const isChosen = it.chosen && it.chosen.track === track;
    pen.fillStyle = colours.rule; pen.fillRect(left, low + 1, width - left, 0.6);
    pen.font = "11px sans-serif"; pen.fillStyle = isChosen ? colours.focus : colours.faint;
    if (width >= 640) { pen.textAlign = "right"; pen.fillText(track.name, left - 8, low - 3, left - 12); }
    pen.save(); pen.beginPath(); pen.rect(left, top, width - left - RIGHT, trackHigh); pen.clip();
    pen.font = "11px ui-monospace, monospace"; pen.textAlign = "left";
    const letter = pen.measureText("m").width;
    const from = Math.max(0, place(changes, it.from + 1) - 1);
    for (let i = from; i < changes.length && changes[i][0] < it.to; i++) {
      const begin = Math.max(left, x(changes[i][0]));
      let least = levelOf(changes[i][1]), most = least, last = i;
      const ends = at => at + 1 < changes.length ? x(changes[at + 1][0]) : x(data.end);
      while (last + 1 < changes.length && changes[last + 1][0] < it.to && ends(last) < begin + 1) {
        last++;
        const level = levelOf(changes[last][1]);
        least = Math.min(least, level); most = Math.max(most, level);
      }
      const end = Math.min(width, ends(last)), text = track.texts[changes[last][1]], level = levelOf(changes[last][1]);
      pen.fillStyle = colours.track;
      if (last > i) {  // several values within a pixel
        pen.globalAlpha = 0.75;
        pen.fillRect(begin, low - high * most, 1.2, Math.max(1.5, high * (most - (track.look === "name" ? 0 : least))));
        pen.globalAlpha = 1;
      }
      pen.globalAlpha = 0.2; pen.fillRect(begin, low - high * level, end - begin, high * level); pen.globalAlpha = 1;
      const room = Math.floor((end - begin - 7) / letter);
      const words = room < Math.min(text.length, 3) || (track.look === "flag" && room <= 8) ? ""
        : text.length <= room ? text : text.slice(0, room - 1) + "\u2026";
      // A line through letters reads as a minus sign before them: it begins behind the text of a number.
      const isCrossed = words && track.look === "number" && high * level > 1.8 && high * level < LETTERS;
      const behind = isCrossed ? Math.min(end, begin + ASIDE * 2 + letter * words.length) : begin;
      pen.fillRect(behind, low - high * level, end - behind, 1.2);
      if (changes[last][0] > data.first && x(changes[last][0]) >= left) {
        const before = i > 0 ? levelOf(changes[i - 1][1]) : 0, edge = Math.max(before, level);
        const foot = track.look === "name" ? 0 : Math.min(before, level);
        pen.fillRect(begin, low - high * edge, 1.2, Math.max(1.2, high * (edge - foot)));
      }
      if (words) {
        pen.strokeStyle = colours.paper; pen.lineWidth = 3; pen.strokeText(words, begin + ASIDE, low - 3);
        pen.fillStyle = colours.ink; pen.fillText(words, begin + ASIDE, low - 3);
      }
      i = last;
    }
    if (width < 640) {
      pen.font = "10px sans-serif";
      pen.fillStyle = isChosen ? colours.focus : colours.faint; pen.fillText(track.name, left + 4, top + 10);
    }
    pen.restore();
  }

  // USART0: lines as text where there is room for them, else bytes as dots.
  function drawSerial(node, top, high, roomy) {
    const [at, part] = roomy ? BAND.serial : [0.44, 0.2], size = Math.max(9, Math.min(13, high * part));
    const middle = top + high * (at + part / 2);
    pen.fillStyle = colours.serial;
    let last = -1e9, room = -1e9;
    pen.font = size + "px monospace"; pen.textAlign = "left";
    const letter = pen.measureText("m").width, inText = [];
    const before = high >= 20 ? Math.max(0, place(node.lines, it.from) - 1) : node.lines.length;
    for (let i = before; i < node.lines.length && node.lines[i][0] < it.to; i++) {
      const [first, cycles, text] = node.lines[i], next = node.lines[i + 1];
      const begin = Math.max(x(first), left + 2), end = next ? Math.min(x(next[0]), width) : width;
      const most = Math.floor((end - begin - 4) / letter);
      if (begin < room || x(first + cycles) < left && begin > left + 2 || most < Math.min(text.length, 4)) continue;
      if (letter * text.length < cycles * scale() * 0.8) continue;  // its bytes have room of their own
      pen.fillText(text.length <= most ? text : text.slice(0, most - 1) + "\u2026", begin, middle + size * 0.36);
      room = begin + letter * Math.min(most, text.length) + 2;
      inText.push([first, first + cycles]);
    }
    pen.textAlign = "center";
    let told = 0;
    eachInSight(node.serial, 0, (px, event) => {
      while (told < inText.length && inText[told][1] < event[0]) told++;
      const isEnd = event[1] === 13 || event[1] === 10;  // of a line, which its text shows
      if (told < inText.length && event[0] >= inText[told][0] || isEnd && inText.length) return;
      if (isVisible(event[1]) && high >= 20 && px - last > letter + 1) {
        pen.fillText(String.fromCharCode(event[1]), px, middle + size * 0.36);
      } else { pen.beginPath(); pen.arc(px, middle, Math.min(2.5, high * 0.16), 0, 7); pen.fill(); }
      last = px;
    });
  }

  // Lines from a send to where it is heard, or from where several clash to their sends.
  function drawWays(ways) {
    for (const [sent, sender, heard, hearer, kind] of ways) {
      if (!byNumber.has(sender) || !byNumber.has(hearer)) continue;
      pen.strokeStyle = colours[kind === "clash" ? "clash" : "heard"]; pen.lineWidth = 1.4;
      pen.setLineDash(kind === "clash" ? [5, 3] : []);
      pen.beginPath();
      pen.moveTo(x(sent), y(byNumber.get(sender).row) + it.step * 0.35);
      pen.lineTo(x(heard), y(byNumber.get(hearer).row) + it.step * 0.7);
      pen.stroke();
    }
    pen.setLineDash([]);
  }

  function drawCursor() {
    if (it.chosen) {
      const { node, row } = byNumber.get(it.chosen.node), px = x(it.chosen.event[0]);
      const at = it.chosen.track ? tracksOf(node).indexOf(it.chosen.track) : -1;
      const [top, high] = at < 0 ? [y(row) + 1, it.step - 5] : [y(row) + it.step + at * trackHigh + 1, trackHigh - 3];
      pen.strokeStyle = colours.focus; pen.lineWidth = 2; pen.strokeRect(px - 5, top, 12, high);
    }
    for (const name of ["A", "B"]) if (it.marks[name] !== null) {
      const px = x(it.marks[name]);
      if (px < left || px > width) continue;
      pen.fillStyle = colours.focus; pen.fillRect(px, TOP - 8, 1.5, height); pen.fillRect(px - 6, 0, 13, 14);
      pen.fillStyle = colours.paper; pen.textAlign = "center"; pen.font = "bold 11px sans-serif";
      pen.fillText(name, px + 0.5, 11);
    }
    if (it.pointer !== null) { pen.fillStyle = colours.faint; pen.fillRect(x(it.pointer), TOP - 8, 0.8, height); }
  }

  // The whole run: how much is sent, where something clashes or stops, and which part of it is shown below.
  function drawStrip() {
    const whole = data.end - data.first, wide = Math.max(1, Math.floor(width - left - RIGHT)), high = 38,
      base = high - 9;
    const at = cycle => left + (cycle - data.first) * wide / whole;
    const ratio = devicePixelRatio || 1;
    thin.setTransform(ratio, 0, 0, ratio, 0, 0);
    thin.fillStyle = colours.panel; thin.fillRect(0, 0, width, high);
    if (!it.strip || it.strip.wide !== wide) {
      const columns = { wide, sent: new Float64Array(wide + 1), serial: new Float64Array(wide + 1),
        clash: new Float64Array(wide + 1) };
      for (const node of data.nodes) for (const kind of ["sent", "serial", "clash"]) for (const event of node[kind]) {
        columns[kind][Math.floor((event[0] - data.first) * wide / whole)]++;
      }
      it.strip = columns;
    }
    const { sent, serial, clash } = it.strip;
    const most = Math.max(1, ...sent, ...serial);
    for (let px = 0; px < wide; px++) {
      const tall = count => count ? 3 + (base - 5) * Math.log1p(count) / Math.log1p(most) : 0;
      for (const [counts, colour] of [[serial, colours.serial], [sent, colours.sent]]) {
        thin.fillStyle = colour;
        if (counts[px]) thin.fillRect(left + px, base - tall(counts[px]), 1, tall(counts[px]));
      }
      if (clash[px]) { thin.fillStyle = colours.clash; thin.fillRect(left + px - 0.5, base + 2, 2, 6); }
    }
    thin.fillStyle = colours.stop;
    for (const node of data.nodes) for (const [cycle] of node.stop) thin.fillText("\u25B6", at(cycle) - 3, base + 8);
    const [first, end] = data.window;
    thin.fillStyle = colours.window;
    if (end > first) thin.fillRect(at(first), 0, Math.max(2, at(end) - at(first)), 3);
    thin.fillStyle = colours.stopped; thin.globalAlpha = 0.7;
    thin.fillRect(left, 0, at(it.from) - left, high); thin.fillRect(at(it.to), 0, left + wide - at(it.to), high);
    thin.globalAlpha = 1; thin.fillStyle = colours.focus;
    thin.fillRect(at(it.from) - 1, 0, 2, high); thin.fillRect(at(it.to) - 1, 0, 2, high);
    thin.fillStyle = colours.faint; thin.textAlign = "right"; thin.font = "11px sans-serif";
    thin.fillText(width < 640 ? "" : "whole run", left - 8, 23);
  }

  // Paints with the next frame, once for all that asked.
  let asked = false;
  function draw() {
    if (!asked) requestAnimationFrame(paint);
    asked = true;
  }

  function paint() {
    asked = false;
    const ratio = devicePixelRatio || 1;
    pen.setTransform(ratio, 0, 0, ratio, 0, 0);
    pen.fillStyle = colours.paper; pen.fillRect(0, 0, width, height);
    pen.save(); pen.beginPath(); pen.rect(left - 1, 0, width, height); pen.clip(); drawGrid(); pen.restore();
    data.nodes.forEach(drawNode);
    pen.save(); pen.beginPath(); pen.rect(left, 0, width, height); pen.clip();
    drawWays(it.ways); drawCursor();
    pen.restore();
    drawStrip();
    isPainted();
  }

  return { x, y, scale, cycleAt, rowAt, tracksOf, size, draw, paint, bottom: () => bottom };
}
