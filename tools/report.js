"use strict";
const table = document.querySelector(".findings");
const filters = document.querySelector("#filters");
const more = document.querySelector("#more");
const texts = new Map();
let limit = more ? Number(more.dataset.step) : 0;

function bodies() {
  return [...table.tBodies];
}

function textOf(body) {
  if (!texts.has(body)) texts.set(body, body.textContent.toLowerCase());
  return texts.get(body);
}

function matches(body, wanted) {
  return ["code", "from", "to", "waived"].every(name => !wanted[name] || body.dataset[name] === wanted[name])
    && (!wanted.text || textOf(body).includes(wanted.text.toLowerCase()));
}

function show() {
  const wanted = Object.fromEntries(new FormData(filters));
  let found = 0;
  for (const body of bodies()) {
    const isFound = matches(body, wanted);
    found += isFound ? 1 : 0;
    body.hidden = !isFound || found > limit;
  }
  more.hidden = found <= limit;
  document.querySelector("#shown").textContent = `${Math.min(found, limit)} shown, ${found} found, ${bodies().length} in all`;
}

function showFromTheFirst() {
  limit = Number(more.dataset.step);
  show();
}

function showMore() {
  limit += Number(more.dataset.step);
  show();
}

function keyOf(body, column) {
  return body.rows[0].cells[column].textContent;
}

function sort(column) {
  const heads = [...table.tHead.rows[0].cells];
  const direction = heads[column].getAttribute("aria-sort") === "ascending" ? "descending" : "ascending";
  const order = new Intl.Collator("en", { numeric: true }).compare;
  const sign = direction === "ascending" ? 1 : -1;
  const rows = bodies().map(body => [keyOf(body, column), body]);
  rows.sort((one, other) => sign * order(one[0], other[0]));
  table.append(...rows.map(([, body]) => body));
  heads.forEach(head => head.removeAttribute("aria-sort"));
  heads[column].setAttribute("aria-sort", direction);
  show();
}

function setDrawings(open) {
  for (const body of bodies()) {
    if (!body.hidden) body.querySelector("details").open = open;
  }
}

function showPair(button) {
  filters.reset();
  for (const name of ["code", "from", "to"]) filters.elements[name].value = button.dataset[name];
  showFromTheFirst();
  document.querySelector("#findings").scrollIntoView();
  filters.elements.text.focus({ preventScroll: true });
}

if (table) {
  filters.hidden = false;
  filters.addEventListener("input", showFromTheFirst);
  filters.addEventListener("reset", () => setTimeout(showFromTheFirst));
  filters.addEventListener("submit", event => event.preventDefault());
  document.querySelector("#open").addEventListener("click", () => setDrawings(true));
  document.querySelector("#close").addEventListener("click", () => setDrawings(false));
  table.querySelectorAll("thead button").forEach(button => button.addEventListener("click", () => sort(Number(button.dataset.column))));
  document.querySelectorAll(".matrix button").forEach(button => button.addEventListener("click", () => showPair(button)));
  more.addEventListener("click", showMore);
  addEventListener("beforeprint", () => setDrawings(true));
  show();
}
