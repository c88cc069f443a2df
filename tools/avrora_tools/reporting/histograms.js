"use strict";
// A histogram of the runs of a campaign: a bar for each value of a parameter, of how many runs came to what, or of a
// number that runs came to, from its least to its greatest with its mean.

function makeHistogram(data) {
  const place = document.getElementById("histogram"), status = document.getElementById("histogram-status");
  const parameter = document.getElementById("histogram-parameter"),
    outcome = document.getElementById("histogram-outcome");
  const SVG = "http://www.w3.org/2000/svg", HIGH = 280, TOP = 14, LEFT = 62, RUNS = "runs by what they came to";
  const made = (name, attributes, text = "") => {
    const element = document.createElementNS(SVG, name);
    for (const key in attributes) element.setAttribute(key, attributes[key]);
    element.textContent = text;
    return element;
  };
  const rounded = number => Number.isInteger(number) ? number : Number(number.toPrecision(4));
  const shown = number => rounded(number).toLocaleString("en");

  function ticks(greatest) {
    let unit = 10 ** Math.floor(Math.log10(greatest / 5 || 1));
    for (const factor of [1, 2, 5, 10]) if (greatest / (unit * factor) <= 6) { unit *= factor; break; }
    return Array.from({ length: Math.floor(greatest / unit) + 1 }, (_, number) => number * unit);
  }

  function draw() {
    const { name, bins } = data.parameters[parameter.value], width = Math.max(300, place.clientWidth),
      isRuns = outcome.value === RUNS;
    const sum = bin => Object.values(bin.outcomes).reduce((a, b) => a + b, 0),
      measure = bin => bin.measures[outcome.value];
    const greatest = Math.max(isRuns ? 1 : 1e-9,
      ...bins.map(bin => isRuns ? sum(bin) : measure(bin) ? measure(bin)[1] : 0));
    const wide = (width - LEFT - 10) / bins.length, slanted = bins.some(bin => bin.label.length * 6.4 > wide - 4);
    const svg = made("svg", { viewBox: `0 0 ${width} ${TOP + HIGH + (slanted ? 76 : 24)}`, role: "img", "font-size": 11,
      "aria-label": `${outcome.value} by ${name}` });
    const y = value => TOP + HIGH - value / greatest * HIGH;
    for (const tick of ticks(greatest)) {
      svg.append(made("line", { class: "grid", x1: LEFT, x2: width - 10, y1: y(tick), y2: y(tick) }));
      svg.append(made("text", { x: LEFT - 6, y: y(tick) + 4, "text-anchor": "end" }, shown(tick)));
    }
    const bar = Math.max(2, Math.min(60, wide * 0.76));
    bins.forEach((bin, number) => {
      const x = LEFT + number * wide + (wide - bar) / 2, middle = x + bar / 2;
      const group = made("g", {}), words = [];
      if (isRuns) {
        let base = 0;
        for (const word of data.outcomes) {
          const count = bin.outcomes[word] || 0;
          if (!count) continue;
          group.append(made("rect",
            { class: "fill-" + data.colours[word], x, y: y(base + count), width: bar,
              height: y(base) - y(base + count) }));
          base += count; words.push(`${shown(count)} ${word}`);
        }
      } else if (measure(bin)) {
        const [least, most, all, count] = measure(bin), mean = all / count;
        group.append(made("rect",
          { class: "fill-listening", x: middle - bar / 4, y: y(most), width: bar / 2,
            height: Math.max(1.5, y(least) - y(most)) }));
        group.append(made("rect", { class: "fill-sent", x, y: y(mean) - 1.5, width: bar, height: 3 }));
        words.push(`${shown(least)} to ${shown(most)}, mean ${shown(mean)}, of ${shown(count)} runs`);
      }
      const told = `${name} = ${bin.label}: ${words.join(", ") || "nothing"}`;
      group.append(made("title", {}, told));
      group.append(made("rect", { x: LEFT + number * wide, y: TOP, width: wide, height: HIGH, "fill-opacity": 0 }));
      group.addEventListener("mouseenter", () => { status.textContent = told; });
      svg.append(group);
      const at = { x: middle, y: TOP + HIGH + 15, "text-anchor": slanted ? "end" : "middle" };
      if (slanted) at.transform = `rotate(-32 ${middle} ${TOP + HIGH + 15})`;
      const room = slanted ? 15 : 40;
      svg.append(made("text", at, bin.label.length > room ? bin.label.slice(0, room - 1) + "\u2026" : bin.label));
    });
    place.replaceChildren(svg);
    const key = document.createElement("p");
    key.className = "keys";
    const spans = [["listening", "from the least to the greatest"], ["sent", "mean"]];
    const entries = isRuns ? data.outcomes.map(word => [data.colours[word], word]) : spans;
    for (const [colour, word] of entries) {
      const swatch = made("svg", { width: 12, height: 12, class: "swatch" }), entry = document.createElement("span");
      swatch.append(made("rect", { width: 12, height: 12, class: "fill-" + colour }));
      entry.append(swatch, word);
      key.append(entry);
    }
    place.append(key);
    status.textContent = `${outcome.value}, by ${name}`;
  }

  data.parameters.forEach((one, number) => parameter.append(new Option(one.name, number)));
  for (const name of [RUNS, ...data.measures]) outcome.append(new Option(name, name));
  for (const chooser of [parameter, outcome]) chooser.addEventListener("change", draw);
  addEventListener("resize", draw);
  draw();
}

const histogramData = document.getElementById("histogram-data");
if (histogramData && document.getElementById("histogram")) makeHistogram(JSON.parse(histogramData.textContent));
