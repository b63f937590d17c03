"use strict";

// The document that the page shows, and the words and elements that all parts of the page use.

const given = JSON.parse(document.getElementById("data").textContent);

// Gives an element its attributes, listeners and children. A child is an element or a text, never markup, since the
// names of the document may hold anything. An attribute that is null or false is left out.
function furnish(element, { on = {}, ...attributes }, children) {
  for (const [event, listener] of Object.entries(on)) {
    element.addEventListener(event, listener);
  }
  for (const [name, value] of Object.entries(attributes)) {
    if (value !== null && value !== false) {
      element.setAttribute(name, value === true ? "" : value);
    }
  }
  element.append(...children.flat().filter(child => child !== null && child !== ""));
  return element;
}

const html = (tag, attributes = {}, ...children) => furnish(document.createElement(tag), attributes, children);

const svg = (tag, attributes = {}, ...children) =>
  furnish(document.createElementNS("http://www.w3.org/2000/svg", tag), attributes, children);

const all = (root, selector) => [...root.querySelectorAll(selector)];

// Marks an element as the current one of its kind, for style sheets and for screen readers.
function mark(element, isCurrent) {
  if (isCurrent) {
    element.setAttribute("aria-current", "step");
  } else {
    element.removeAttribute("aria-current");
  }
}

// Texts up to this length are not broken.
const SHORT_CODE = 24;

const code = text => html("code", text.length > SHORT_CODE ? { class: "long" } : {}, text);

// A command, whose words are not broken.
const command = text => html("code", { class: "long" },
  text.split(" ").flatMap((word, i) => [i > 0 ? " " : "", html("span", { class: "word" }, word)]));

const threadName = thread => "P" + thread;

// `x=1`, of a store or of what is read.
const assignment = access => `${access.location}=${access.value}`;

const assignments = accesses => accesses.map(access => code(assignment(access)));

// The parts as they are listed in a sentence: `a, b and c`.
function listed(parts, last = " and ") {
  return parts.flatMap((part, i) => i === 0 ? [part] : [i === parts.length - 1 ? last : ", ", part]);
}

// The thread and the instruction of a gap.
const gapPlace = gap => gap.split(":").map(Number);

const gapCost = gap => given.gaps.find(priced => priced.gap === gap).cost;

// The gaps that go together with a gap, itself among them.
const tieOf = gap => (given.ties ?? []).find(tie => tie.includes(gap)) ?? [gap];

// The gaps that are fenced: those of the answer, or those that `fencer witness` was asked to fence.
const fencedGaps = () => given.answer ? given.answer.set : given.fences ?? [];

const instructionText = (thread, number) => given.threads[thread].instructions[number].text;

// The instruction that a gap lies before, with its thread, the gap, the line of the file in which the instruction stands,
// and what else is said of the gap.
function placeOf(gap, more = "") {
  const [thread, number] = gapPlace(gap);
  const { text, line } = given.threads[thread].instructions[number];
  return [code(text), ` of ${threadName(thread)} (gap ${gap}, line ${line}${more})`];
}

// The quantifier of the file's condition, and its formula without the parentheses around it.
const quantifier = () => given.condition.split(" ")[0];
const formulaText = () => given.condition.slice(quantifier().length).trim().slice(1, -1);

// What is said beside the answer, and whether a note of this kind is.
const notes = given.notes ?? [];

const hasNote = kind => notes.some(note => note.kind === kind);

const outcomeText = run => run.outcome.map(({ name, value }) => `${name}=${value};`).join(" ");

const initialText = location => `${location}=${given.initial.memory[given.locations.indexOf(location)]}`;
