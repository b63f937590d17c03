// What a page shows, for the test to compare with the document.

const found = (root, selector) => [...root.querySelectorAll(selector)];
const textOf = element => element.textContent;
const textsOf = (root, selector) => found(root, selector).map(textOf);

const cellsOf = root => found(root, ".cell").map(cell =>
  [cell.firstChild.data, textOf(cell.querySelector("b")), textOf(cell.querySelector("s")), cell.classList.contains("moved")]);

// The box of an element, measured from the stage.
function boxOf(element) {
  const { left, top } = document.querySelector(".stage").getBoundingClientRect();
  const box = element.getBoundingClientRect();
  return [box.left - left, box.top - top, box.right - left, box.bottom - top];
}

const threadShown = thread => ({
  now: found(thread, ".code [aria-current]").map(line => line.dataset.at),
  lit: found(thread, ".code .now").map(line => line.dataset.at),
  done: found(thread, ".code .done").map(line => line.dataset.at),
  struck: found(thread, ".code .text").filter(text => getComputedStyle(text).textDecorationLine === "line-through")
    .map(text => text.closest("[data-at]").dataset.at),
  full: textsOf(thread, ".slot.full"),
  came: textsOf(thread, ".slot.moved"),
  left: textsOf(thread, ".buffer s"),
  slots: found(thread, ".slot").map(boxOf),
  cells: cellsOf(thread),
  registers: found(thread, ".cell").map(boxOf),
});

// What is shown after a step.
const stepShown = () => ({
  count: textOf(document.querySelector(".count")),
  slider: document.querySelector("#step").value,
  valueText: document.querySelector("#step").getAttribute("aria-valuetext"),
  said: textOf(document.querySelector(".say")),
  threads: found(document, ".thread").map(threadShown),
  memory: cellsOf(document.querySelector(".memory")),
  locations: found(document, ".memory .cell").map(boxOf),
  passing: found(document, ".fence.passing").map(fence => fence.dataset.gap),
  row: found(document, "tbody tr[aria-current]").map(row => textOf(row.firstChild)),
  later: found(document, "tbody tr.later").length,
  here: found(document, ".graph .here").map(box => box.parentNode.dataset.event),
  arrows: found(document, ".arrows > path").map(path => path.getAttribute("d").match(/-?[\d.]+(e-?\d+)?/g).map(Number)),
  moments: textsOf(document, ".moments [aria-current]"),
  unused: found(document, ".controls button").map(button => button.getAttribute("aria-disabled") === "true"),
});

const pressRight = () =>
  document.body.dispatchEvent(new KeyboardEvent("keydown", { key: "ArrowRight", bubbles: true, cancelable: true }));

// What is shown at each step of a run, from the start on, stepped through by the right arrow key; once more at the end.
function runShown(steps) {
  const shown = [stepShown()];
  for (let i = 0; i <= steps; i++) {
    pressRight();
    shown.push(stepShown());
  }
  return shown;
}

// How many tokens move in the next step.
function tokensOfStep() {
  pressRight();
  return document.querySelectorAll(".token").length;
}

// Whether the texts of a box in the graph lie in it.
function isInside(event) {
  const box = event.querySelector("rect").getBBox();
  return found(event, "text").every(text => {
    const { x, width } = text.getBBox();
    return x >= box.x && x + width <= box.x + box.width;
  });
}

const graphShown = () => ({
  edges: found(document, ".edge").map(edge => [edge.dataset.edge, edge.classList.contains("red")]),
  events: found(document, "[data-event]").map(event => event.dataset.event),
  red: found(document, ".node.in").map(box => box.parentNode.dataset.event),
  cuts: found(document, ".cut").length,
  isInside: found(document, ".graph g").every(isInside),
  cycle: textsOf(document, ".cycle li"),
  aside: found(document, ".aside").length,
  acyclic: found(document, ".acyclic").length,
});

// What is shown of the whole run.
const pageShown = () => ({
  heading: textOf(document.querySelector("h1")),
  lead: textOf(document.querySelector(".lead")),
  notes: textsOf(document, ".notes p"),
  text: textOf(document.querySelector("main")),
  tabs: found(document, "[role=tab]").map(tab => [textOf(tab), tab.getAttribute("aria-label"), tab.getAttribute("aria-selected"), tab.tabIndex]),
  panels: found(document, "[role=tabpanel]").length,
  controls: found(document, "input, table").length,
  fences: found(document, ".fence").map(fence =>
    [fence.dataset.gap, textOf(fence), fence.classList.contains("out"), fence.nextElementSibling.dataset.at]),
  programs: found(document, ".thread").map(thread => textsOf(thread, ".code [data-at]")),
  heads: textsOf(document, "th"),
  rows: found(document, "tbody tr").map(row => textsOf(row, "td")),
  pass: found(document, "tbody tr").findIndex(row => row.classList.contains("pass")),
  title: found(document, ".wrong h2").map(textOf).join(""),
  moments: textsOf(document, ".moments li"),
  bad: textsOf(document, ".moments .bad"),
  also: textsOf(document, ".also"),
  passed: textsOf(document, ".passed"),
  commands: textsOf(document, ".command"),
  scripts: document.scripts.length,
  foreign: found(document, "main b").filter(bold => !bold.closest(".cell, .cycle")).length + found(document, "main img").length,
});

// The boxes around an element that scroll.
function scrollers(element) {
  const boxes = [];
  for (let at = element.parentElement; at !== document.body; at = at.parentElement) {
    boxes.push(...getComputedStyle(at).overflowY === "visible" ? [] : [at]);
  }
  return boxes;
}

// Whether an element lies in the window, and in each of the boxes.
function isInSight(element, boxes) {
  const { left, top, right, bottom } = element.getBoundingClientRect();
  const isIn = box => left >= box.left - 1 && top >= box.top - 1 && right <= box.right + 1 && bottom <= box.bottom + 1;
  return [...boxes.map(box => box.getBoundingClientRect()), { left: 0, top: 0, right: innerWidth, bottom: innerHeight }].every(isIn);
}

// Cells, slots and executed instructions that are out of sight, with the step: after each of so many steps of a run. Where a
// thread is given for the step, the boxes of the others may be scrolled out of sight, in a box that is in sight.
function outOfSight(last, steps, threadOf) {
  const slider = document.querySelector("#step");
  const threads = found(document, ".thread");
  const holder = document.querySelector(".threads");
  const boxes = new Map([holder, ...found(document, ".cell, .slot, .code li")].map(element => [element, scrollers(element)]));
  const hidden = [];
  for (let i = 0; i <= steps; i++) {
    slider.value = Math.round(i * last / steps);
    slider.dispatchEvent(new Event("input"));
    const own = threadOf[slider.value];
    const mayHide = element => own !== null && holder.contains(element) && !threads[own].contains(element);
    hidden.push(...[holder, ...found(document, ".cell, .slot, .code .now")]
      .filter(element => !mayHide(element) && !isInSight(element, boxes.get(element))).map(element => `${slider.value}: ${textOf(element)}`));
  }
  return hidden;
}

// What does not fit in its box or in the window from left to right; the picture of the graph may be wider than its box.
function cutOff() {
  const cut = element => element.scrollWidth > element.clientWidth + 1 && getComputedStyle(element).overflowX !== "visible"
    || element.getBoundingClientRect().right > innerWidth + 1;
  return found(document, "main *").filter(element => !element.closest("svg, input, .bubble, .split > .scroll") && element.checkVisibility() && cut(element))
    .map(element => `${element.tagName}.${element.className}`);
}

// The thirds of the window, from left to right, in which no card stands.
function emptyParts() {
  const cards = found(document, ".card").map(card => card.getBoundingClientRect());
  return [0, 1, 2].filter(part => !cards.some(({ left, right }) => left < innerWidth * (part + 0.4) / 3 && right > innerWidth * (part + 0.6) / 3
    || left >= innerWidth * part / 3 && right <= innerWidth * (part + 1) / 3));
}

// In how many rows the tabs stand.
const tabRows = () => new Set(found(document, "[role=tab]").map(tab => tab.getBoundingClientRect().top)).size;

const luminance = channels => {
  const [red, green, blue] = channels.slice(0, 3).map(value => value / 255)
    .map(value => value <= 0.03928 ? value / 12.92 : ((value + 0.055) / 1.055) ** 2.4);
  return 0.2126 * red + 0.7152 * green + 0.0722 * blue;
};

const channelsOf = color => color.match(/[\d.]+/g).map(Number);

// The color that an element's text stands on.
function groundOf(element) {
  for (let at = element; at; at = at.parentElement) {
    const channels = channelsOf(getComputedStyle(at).backgroundColor);
    if (channels.length === 3 || channels[3] === 1) {
      return channels;
    }
  }
  return [255, 255, 255];
}

// The texts whose contrast is below 4.5, but for pictures and for buttons that do nothing.
function faintTexts() {
  const walker = document.createTreeWalker(document.querySelector("main"), NodeFilter.SHOW_TEXT);
  const faint = [];
  for (let text = walker.nextNode(); text; text = walker.nextNode()) {
    const element = text.parentElement;
    if (text.data.trim() && !element.closest("svg, [aria-disabled=true]")) {
      const ink = luminance(channelsOf(getComputedStyle(element).color));
      const ground = luminance(groundOf(element));
      const ratio = (Math.max(ink, ground) + 0.05) / (Math.min(ink, ground) + 0.05);
      if (ratio < 4.5) {
        faint.push([text.data, ratio.toFixed(2)]);
      }
    }
  }
  return faint;
}
