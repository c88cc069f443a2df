"use strict";
// The flame graph: a box a function below the one that called it, as wide as what it took with all that it called.

function makeFlames(data) {
  const place = document.getElementById("flames"), status = document.getElementById("flame-status");
  const chooser = document.getElementById("flame-node"), find = document.getElementById("flame-find");
  const SVG = "http://www.w3.org/2000/svg", ROW = 20, LEAST = 0.4, LETTER = 6.4, COLOURS = 6;
  const whole = data.graphs.map(graph => root("all", graph.roots));
  let graph = whole[0], top = graph;

  function root(name, roots) {
    const node = { name, own: 0, above: null, children: [] };
    node.children = roots.map(one => grown(one, node));
    node.total = node.children.reduce((sum, child) => sum + child.total, 0);
    return node;
  }
  function grown([name, own, children], above) {
    const node = { name: data.names[name], own, above, children: [] };
    node.children = children.map(child => grown(child, node)).sort((a, b) => b.total - a.total);
    node.total = own + node.children.reduce((sum, child) => sum + child.total, 0);
    return node;
  }
  const share = node => (100 * node.total / graph.total).toFixed(2) + "%";
  const path = node => node.above ? (node.above.above ? path(node.above) + " > " : "") + node.name : node.name;
  const shown = number => number.toLocaleString("en");
  const told = node => `${path(node)}: ${shown(node.total)} cycles, ${share(node)}; its own ${shown(node.own)}`;
  // A function has its colour wherever it stands; handlers of interrupts have theirs.
  function colour(name) {
    if (/_vect$/.test(name)) return "flame-handler";
    let sum = 0;
    for (const letter of name) sum = (sum * 31 + letter.charCodeAt(0)) % 9973;
    return "flame-" + sum % COLOURS;
  }
  const made = (name, attributes) => {
    const element = document.createElementNS(SVG, name);
    for (const key in attributes) element.setAttribute(key, attributes[key]);
    return element;
  };

  function draw() {
    const width = place.clientWidth, scale = width / top.total, wanted = find.value.toLowerCase();
    let deepest = 0;
    const svg = made("svg", { class: "flame", role: "group", "aria-label": "call stacks" });
    const above = [];
    for (let node = top; node; node = node.above) above.unshift(node);
    const put = (node, left, wide, depth) => {
      if (wide < LEAST) return;
      deepest = Math.max(deepest, depth);
      const group = made("g", { tabindex: wide > 3 ? 0 : -1, role: "button", "aria-label": told(node) });
      const isFound = wanted && node.name.toLowerCase().includes(wanted);
      const mark = !wanted || node === graph ? "" : isFound ? " flame-found" : " flame-other";
      group.append(made("rect", { x: left, y: depth * ROW, width: Math.max(0.2, wide - 0.6), height: ROW - 1,
        class: (node === graph ? "flame-root" : colour(node.name)) + mark }));
      const room = Math.floor((wide - 6) / LETTER);
      if (room > 2) {
        const text = made("text", { x: left + 4, y: depth * ROW + 14 });
        text.textContent = node.name.length <= room ? node.name : node.name.slice(0, room - 1) + "\u2026";
        group.append(text);
      }
      const zoom = () => { top = node; draw(); status.textContent = told(node); };
      group.addEventListener("click", zoom);
      group.addEventListener("keydown",
        event => { if (event.key === "Enter" || event.key === " ") { event.preventDefault(); zoom(); } });
      for (const kind of ["mouseenter", "focus"]) group.addEventListener(kind,
        () => { status.textContent = told(node); });
      svg.append(group);
    };
    above.forEach((node, depth) => put(node, 0, width, depth));
    const below = (node, left, depth) => {
      for (const child of node.children) {
        put(child, left, child.total * scale, depth);
        if (child.total * scale >= LEAST) below(child, left, depth + 1);
        left += child.total * scale;
      }
    };
    below(top, 0, above.length);
    svg.setAttribute("viewBox", `0 0 ${width} ${(deepest + 1) * ROW}`);
    place.replaceChildren(svg);
    if (!status.textContent) status.textContent = told(top);
  }

  data.graphs.forEach((one, number) => chooser.append(new Option(one.label, number)));
  chooser.parentElement.hidden = data.graphs.length < 2;
  chooser.addEventListener("change", () => { graph = top = whole[chooser.value]; status.textContent = ""; draw(); });
  find.addEventListener("input", draw);
  document.getElementById("flame-all").addEventListener("click",
    () => { top = graph; status.textContent = ""; draw(); });
  place.addEventListener("keydown", event => { if (event.key === "Escape") { top = graph; draw(); } });
  addEventListener("resize", draw);
  addEventListener("beforeprint", draw);
  draw();
}

const flameData = document.getElementById("flame-data");
if (flameData) makeFlames(JSON.parse(flameData.textContent));
