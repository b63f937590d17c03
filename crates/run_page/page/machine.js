// The machine as a picture: the program in a column for each thread, beside or below it the thread's registers and its
// store buffer, and the memory at the bottom.

// The cells of registers or locations, as a list.
const cellList = (label, names) =>
  html("ul", { class: "cells", "aria-label": label },
    names.map(name => html("li", { class: "cell" }, name, html("b"), html("s"))));

// The lines of a thread's program: its labels and instructions, and the fences.
function programLines({ instructions, end }, thread, leftOut) {
  const lines = instructions.flatMap(({ labels, text }, number) => {
    const gap = `${thread}:${number}`;
    const label = html("span", { class: "label" }, labels.map(name => name + ": ").join(""));
    const line = html("li", { "data-number": number, "data-at": gap }, label, html("span", { class: "text" }, text));
    return fencedGaps().includes(gap) ? [fenceLine(gap, leftOut !== null && tieOf(leftOut).includes(gap)), line] : [line];
  });
  if (end.length > 0) {
    const label = html("span", { class: "label" }, end.map(name => name + ":").join(" "));
    lines.push(html("li", { "data-at": `${thread}:${instructions.length}` }, label));
  }
  return lines;
}

// A fence, with its cost in the pages of answers, and the gaps that go together with it.
function fenceLine(gap, isOut) {
  const others = tieOf(gap).filter(other => other !== gap);
  const together = others.length > 0 ? ` with ${others.join(", ")}` : "";
  const cost = given.gaps ? [" ", html("small", {}, `${isOut ? "left out, " : ""}cost ${gapCost(gap)}${together}`)] : [];
  return html("li", { class: isOut ? "fence out" : "fence", "data-gap": gap }, "MFENCE", ...cost);
}

// A store buffer with room for as many stores as ever wait in it. Its newest store is at the top.
function bufferBox(thread, depth) {
  return html("div", { class: "buffer" }, html("h4", {}, "store buffer", html("s")),
    html("ol", { "aria-label": `store buffer of ${threadName(thread)}, oldest first` },
      Array.from({ length: depth }, () => html("li", { class: "slot" }))));
}

function registerBox(thread) {
  const names = given.registers[thread];
  return html("div", { class: "registers" }, html("h4", {}, "registers"),
    names.length > 0 ? cellList(`registers of ${threadName(thread)}`, names)
      : html("p", { class: "soft none" }, "none"));
}

// A thread's registers, and its store buffer where the machine has one.
function stateBoxes(run, thread) {
  const depth = Math.max(1, ...run.states.map(state => state.buffers[thread].length));
  return html("div", { class: "low" }, registerBox(thread), run.isSequential ? "" : bufferBox(thread, depth));
}

// A thread's column. Without a run it is the program alone.
function threadColumn(program, thread, run) {
  const lines = programLines(program, thread, run ? run.gap : null);
  return html("section", { class: "thread", "aria-label": "thread " + threadName(thread) },
    html("div", { class: "column" },
      html("div", { class: "program" }, html("h3", {}, threadName(thread)), html("ol", { class: "code" }, lines)),
      run ? stateBoxes(run, thread) : ""));
}

// The columns stand in one row where it has room for them, and else in several.
const threadColumns = run => html("div", {
  class: "threads", role: "group", "aria-label": "the threads", style: `--threads: ${given.threads.length}`,
}, given.threads.map((program, thread) => threadColumn(program, thread, run)));

// Up to so many columns fit on a screen beside the texts.
const BESIDE = 4;

const isBeside = () => given.threads.length <= BESIDE;

// Shows values in cells, each with its former value where it changes. The cell that is written is lit also where its
// value stays the same.
function showValues(cells, values, former, written) {
  cells.forEach((cell, i) => {
    const hasChanged = values[i] !== former[i];
    cell.querySelector("b").textContent = values[i];
    cell.querySelector("s").textContent = hasChanged ? former[i] : "";
    cell.classList.toggle("moved", hasChanged || cell.firstChild.data === written);
  });
}

// How much higher than its registers and its buffer a column is at least, in pixels: beside its program, and below it.
const BESIDE_PROGRAM = 16;
const BELOW_PROGRAM = 100;

class Machine {
  constructor(run) {
    this.run = run;
    this.columns = threadColumns(run);
    this.threads = all(this.columns, ".thread");
    this.memory = html("section", { class: "memory", "aria-label": "memory" },
      html("h3", {}, "memory"), cellList("memory", given.locations));
    this.arrows = svg("svg", { class: "arrows", "aria-hidden": "true" });
    this.stage = html("div", { class: "stage" }, this.columns, this.memory, this.arrows);
  }

  // Shows the state after some steps.
  show(steps) {
    const state = this.run.states[steps];
    const former = this.run.states[Math.max(0, steps - 1)];
    const step = steps > 0 ? this.run.steps[steps - 1] : null;
    this.threads.forEach((column, thread) => this.showThread(column, thread, steps));
    const reached = step && step.reaches ? step.reaches.location : null;
    showValues(all(this.memory, ".cell"), state.memory, former.memory, reached);
    const fence = this.stage.querySelector(`.out[data-gap="${this.run.gap}"]`);
    if (fence) {
      fence.classList.toggle("passing", steps > this.run.pass && steps <= this.run.arrival);
    }
    this.fit();
    this.follow(steps);
  }

  // Makes each row of columns high enough for registers and buffers, and for some lines where the program is above them.
  // Where the rows are higher than their box, it scrolls, also by keyboard.
  fit() {
    const needs = this.threads.map(column => {
      const boxes = [...column.querySelector(".low").children].map(box => box.getBoundingClientRect());
      const low = Math.max(...boxes.map(box => box.bottom)) - Math.min(...boxes.map(box => box.top));
      return low + (boxes[0].left > column.querySelector(".code").getBoundingClientRect().right ? BESIDE_PROGRAM : BELOW_PROGRAM);
    });
    this.stage.style.setProperty("--row", `${Math.ceil(Math.max(...needs))}px`);
    this.columns.tabIndex = this.columns.scrollHeight > this.columns.clientHeight ? 0 : -1;
  }

  // Scrolls the threads as little as it takes to have the one of the step in sight, and each list of instructions so that
  // the one that is executed, or else the next one, stands in the middle; to its end where the thread has ended.
  follow(steps) {
    const { offsetTop: top, offsetHeight: height } = this.threads[steps > 0 ? this.run.threads[steps - 1] : 0];
    this.columns.scrollTop = Math.min(top, Math.max(this.columns.scrollTop, top + height - this.columns.clientHeight));
    this.threads.forEach((column, thread) => {
      const lines = column.querySelector(".code");
      const line = lines.querySelector(".now") ?? lines.querySelector(`[data-number="${this.run.next(steps, thread)}"]`);
      lines.scrollTop = line === null ? lines.scrollHeight
        : line.offsetTop + line.offsetHeight / 2 - lines.clientHeight / 2;
    });
  }

  showThread(column, thread, steps) {
    const step = steps > 0 && this.run.threads[steps - 1] === thread ? this.run.steps[steps - 1] : null;
    const former = this.run.states[Math.max(0, steps - 1)];
    const state = this.run.states[steps];
    this.showPlace(column, thread, step ? step.instruction : null, steps);
    if (!this.run.isSequential) {
      this.showBuffer(column, state.buffers[thread], former.buffers[thread]);
    }
    const written = step ? this.run.target(steps - 1) : null;
    showValues(all(column, ".cell"), state.registers[thread], former.registers[thread], written);
  }

  // Shows the stores that wait, the one that came in lit, and the one that left struck out above them.
  showBuffer(column, buffer, former) {
    all(column, ".slot").forEach((slot, i) => {
      slot.textContent = i < buffer.length ? assignment(buffer[i]) : "";
      slot.classList.toggle("full", i < buffer.length);
      slot.classList.toggle("moved", buffer.length > former.length && i === buffer.length - 1);
    });
    column.querySelector(".buffer s").textContent = buffer.length < former.length ? assignment(former[0]) : "";
  }

  // Lights the instruction that the step executes, greys the ones that were executed, and strikes out the ones that were
  // jumped over.
  showPlace(column, thread, executed, steps) {
    const lines = column.querySelector(".code");
    const next = this.run.next(steps, thread);
    all(lines, "[data-at]").forEach(line => {
      const number = gapPlace(line.dataset.at)[1];
      const isNow = number === executed;
      const isSkipped = this.run.isSkipped(steps, thread, number);
      line.classList.toggle("now", isNow);
      line.classList.toggle("done", !isNow && !isSkipped && number < next);
      line.classList.toggle("skipped", isSkipped);
      mark(line, isNow);
    });
  }
}
