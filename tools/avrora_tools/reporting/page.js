"use strict";
// Tables that are sorted by a click on a title, and filtered by what is typed above them.

const cellValue = (row, column) => {
  const cell = row.cells[column], text = cell.dataset.value ?? cell.textContent;
  const number = Number(text.replace(/[, %]/g, ""));
  return text.trim() !== "" && !Number.isNaN(number) ? number : text;
};

function compared(one, other) {
  if (typeof one === "number" && typeof other === "number") return one - other;
  if (typeof one === "number") return -1;
  return typeof other === "number" ? 1 : one.localeCompare(other, "en", { numeric: true });
}

function makeSortable(table) {
  const body = table.tBodies[0];
  [...table.tHead.rows[0].cells].forEach((title, column) => {
    if (!title.textContent) return;
    const button = document.createElement("button");
    button.type = "button"; button.className = "sort"; button.textContent = title.textContent;
    title.replaceChildren(button);
    button.addEventListener("click", () => {
      const falls = title.getAttribute("aria-sort") === "ascending" || !title.hasAttribute("aria-sort") &&
        title.classList.contains("n");
      for (const other of table.tHead.rows[0].cells) other.removeAttribute("aria-sort");
      title.setAttribute("aria-sort", falls ? "descending" : "ascending");
      const rows = [...body.rows].map((row, place) => [cellValue(row, column), place, row]);
      rows.sort((a, b) => (falls ? -1 : 1) * compared(a[0], b[0]) || a[1] - b[1]);
      body.append(...rows.map(one => one[2]));
    });
  });
}

function makeFilter(field) {
  const table = document.getElementById(field.dataset.filter);
  const count = document.querySelector(`[data-count="${field.dataset.filter}"]`), rows = [...table.tBodies[0].rows];
  const texts = rows.map(row => row.textContent.toLowerCase());
  field.addEventListener("input", () => {
    const wanted = field.value.toLowerCase();
    let shown = 0;
    rows.forEach((row, place) => { row.hidden = !texts[place].includes(wanted); shown += !row.hidden; });
    count.textContent = wanted ? `${shown} of ${rows.length}` : "";
  });
}

for (const table of document.querySelectorAll("table.sortable")) makeSortable(table);
for (const field of document.querySelectorAll("input[data-filter]")) makeFilter(field);

// What is folded up is printed only where it is short.
const MOST_PRINTED = 4000;
let opened = [];
addEventListener("beforeprint", () => {
  opened = [...document.querySelectorAll("main details:not([open])")].filter(one =>
    one.textContent.length < MOST_PRINTED);
  for (const one of opened) one.open = true;
});
addEventListener("afterprint", () => { for (const one of opened) one.open = false; });
