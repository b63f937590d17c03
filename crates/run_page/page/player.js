// The player: a run that a reader steps through, with what goes wrong in it, the machine, the table and the graph.

const PLAY_INTERVAL = 1800;
const ADDRESS_DELAY = 400;

// What the table says of a step, a cell each. Where nothing waits there is no cell for it.
function stepCells(run, i) {
  const { label, instruction, reads, stores, reaches, buffer } = run.steps[i];
  const source = reads && (reads.from === "buffer" ? "its buffer" : "memory");
  const jump = run.jumpLabel(i);
  const effects = [reads && `reads ${assignment(reads)} from ${source}`, stores && `stores ${assignment(stores)}`,
    jump && `jumps to ${jump}`];
  return [
    String(i + 1),
    label,
    threadName(run.threads[i]),
    instruction === null ? "–" : run.text(i),
    effects.filter(Boolean).join(", ") || "–",
    ...run.isSequential ? [] : [buffer.map(assignment).join(" ") || "–"],
    reaches ? assignment(reaches) : "–",
  ];
}

const tableHeads = run => ["#", "step", "thread", "instruction", "what it does", ...run.isSequential ? [] : ["still waits"],
  "reaches memory"];

// A label, a thread and an instruction are not broken up to this length.
const SHORT_CELL = 14;

// What a place of the slider is: `step 5 of 12: P0 reads y=0`.
const placeText = (run, steps) => steps === 0 ? "start"
  : `step ${steps} of ${run.last}: ${shortWords(run, steps - 1).map(part => part.textContent ?? part).join("")}`;

// A part of the page that a reader can scroll, also by keyboard.
const region = (kind, label, ...children) =>
  html("section", { class: `card scroll ${kind}`, role: "region", tabindex: 0, "aria-label": label }, children);

class Player {
  constructor(run) {
    this.run = run;
    this.at = 0;
    this.timer = null;
    this.machine = new Machine(run);
    this.makeControls();
    this.rows = run.steps.map((_, i) => this.row(i));
    this.table = this.tableBox();
    this.holder = html("div", { class: "scroll", role: "region", tabindex: 0, "aria-label": "candidate execution" });
    this.whole = html("input", { type: "checkbox", on: { change: () => this.drawGraph() } });
    this.body = this.panel();
  }

  makeControls() {
    const button = (name, label, act) =>
      html("button", { type: "button", "aria-label": name, on: { click: act } }, label);
    this.first = button("Start", "Start", () => this.step(0));
    this.back = button("Back", "◀ Back", () => this.step(this.at - 1));
    this.play = html("button", { type: "button", on: { click: () => this.turnPlaying() } }, "▶ Play");
    this.forward = button("Next", "Next ▶", () => this.step(this.at + 1));
    this.final = button("End", "End", () => this.step(this.run.last));
    this.slider = html("input", {
      type: "range", id: "step", min: 0, max: this.run.last, value: 0, "aria-label": "step of the run",
      on: { input: () => this.step(Number(this.slider.value)), mousemove: event => this.hint(this.stepUnder(event)),
        mouseleave: () => this.hint(null) },
    });
    this.bubble = html("span", { class: "bubble", "aria-hidden": "true", hidden: true });
    this.count = html("span", { class: "count soft" });
    this.say = html("p", { class: "say", "aria-live": "polite" });
  }

  // The step that the slider would go to from where the mouse is: its thumb is 16 pixels wide and stays inside.
  stepUnder({ offsetX }) {
    const share = (offsetX - 8) / (this.slider.clientWidth - 16);
    return Math.round(Math.max(0, Math.min(1, share)) * this.run.last);
  }

  // Says above the slider what a step is.
  hint(steps) {
    this.bubble.hidden = steps === null;
    if (steps !== null) {
      this.bubble.textContent = placeText(this.run, steps);
    }
  }

  // The parts in the order in which they are read. Where there is room, the machine fills the screen beside the texts.
  panel() {
    const buttons = [this.first, this.back, this.play, this.forward, this.final];
    const place = html("div", { class: "place" }, html("div", { class: "track" }, this.slider, this.ticks(), this.bubble), this.count);
    const bar = html("section", { class: "bar player", "aria-label": "player" },
      html("div", { class: "controls" }, buttons, place), this.say);
    this.view = html("div", { class: "card view" }, bar, region("machine", "the machine", this.machine.stage));
    const texts = html("div", { class: "texts", role: "region", tabindex: 0, "aria-label": "the run in words" },
      this.momentBox(), this.table, this.graphBox());
    return html("div", { class: "panel" }, texts, this.view);
  }

  // The moments that matter, in the order of their first steps.
  moments() {
    const { run } = this;
    const isCompared = run.gap !== null && !given.answer.condition;
    const words = isCompared ? conditionWords(run.run) : [];
    const end = { steps: [run.last], say: ["The run ends with ", ...verdictWords(run), ...words] };
    return [...allMoments(run), end];
  }

  // Marks of the moments at the slider.
  ticks() {
    const steps = this.moments().slice(0, -1).flatMap(({ steps, isBad }) => steps.map(step => [step, isBad]));
    return html("div", { class: "ticks", "aria-hidden": "true" }, steps.map(([step, isBad]) =>
      html("span", { class: isBad ? "tick bad" : "tick", style: `--share: ${step / this.run.last}` })));
  }

  // The moments, each with buttons to its steps.
  momentBox() {
    const lines = this.moments().map(({ steps, isBad, say }) => html("li", { class: isBad ? "bad" : "" },
      html("span", { class: "where" }, steps.map(step => this.stepButton(step))), html("span", {}, say)));
    const title = this.run.gap === null ? ["How the run ends"]
      : [`What goes wrong without the ${tieOf(this.run.gap).length === 1 ? "fence" : "fences"} before `,
        ...listed(tieOf(this.run.gap).map(gap => html("span", {}, ...placeOf(gap))))];
    return region("wrong", "what goes wrong", html("h2", {}, title), html("ol", { class: "moments" }, lines), this.otherGaps());
  }

  stepButton(step) {
    return html("button", { type: "button", "data-step": step, on: { click: () => this.step(step) } }, `step ${step}`);
  }

  // The other gaps that the run passes: a fence in one of them serves too, against this run.
  otherGaps() {
    const leftOut = this.run.gap === null ? [] : tieOf(this.run.gap);
    const others = this.run.run.passed.filter(gap => !leftOut.includes(gap));
    if (this.run.isSequential) {
      return "";
    }
    if (this.run.gap === null) {
      const passed = others.length > 0 ? `It passes ${others.join(", ")}.` : "It passes no gap.";
      return html("p", { class: "soft note passed" }, passed,
        " A run passes a gap where its thread goes on with a store waiting; a fence there prevents the run.");
    }
    const places = others.map(gap => html("span", {}, "before ", ...placeOf(gap, `, cost ${gapCost(gap)}`)));
    return places.length === 0 ? ""
      : html("p", { class: "soft note also" }, "A fence ", ...listed(places, " or "), " would prevent this run too.");
  }

  row(i) {
    const cells = stepCells(this.run, i).map((text, column) =>
      html("td", { class: column < 4 && text.length <= SHORT_CELL ? "word" : "" }, text));
    if (i === this.run.pass) {
      cells[cells.length - 1].append(html("small", { class: "out" }, ` ← ${this.run.gap}`));
    }
    return html("tr", { class: i === this.run.pass ? "pass" : "", on: { click: () => this.step(i + 1) } }, cells);
  }

  tableBox() {
    const heads = tableHeads(this.run).map(text => html("th", { scope: "col" }, text));
    const model = this.run.run.model === "sequential" ? "--model sequential " : "";
    const text = `fencer trace ${model}LITMUS ${this.run.steps.map(step => step.label).join(" ")}`;
    return region("table", "the run as a table",
      html("table", {}, html("caption", {}, "The run, step by step"), html("thead", {}, html("tr", {}, heads)),
        html("tbody", {}, this.rows)),
      html("p", { class: "soft note" }, "e0: P0 executes its next instruction. ",
        this.run.isSequential ? "" : "f0: the oldest store of P0's buffer reaches memory. ",
        this.run.gap === null ? "" : `← ${this.run.gap}: here the run passes the gap whose fence is left out. `,
        "This command shows the same run, with your file as LITMUS: ", html("span", { class: "command" }, command(text))));
  }

  graphBox() {
    const title = this.run.gap === null ? "The candidate execution" : "Why no sequential run does this";
    return region("graph", "the candidate execution in words", html("h2", {}, title),
      html("div", { class: "split" }, this.holder, html("div", {}, this.cycleBox(),
        html("p", { class: "soft" }, "po: program order. rf: a read reads from this write. co: the order in which ",
          "stores reach memory. fr: a read comes before the write that replaces what it read."),
        html("label", { class: "pick" }, this.whole, " show every thread, edge and initial value"))));
  }

  cycleBox() {
    const sentences = cycleWords(this.run);
    if (sentences.length === 0) {
      return [html("p", { class: "acyclic" }, "There is no cycle: some sequential run has the same reads and writes.")];
    }
    const close = this.run.gap === null
      ? "sequential run has these reads and writes. Another sequential run may still have the same outcome."
      : "sequential run has these reads and writes. fencer also checked that no other sequential run has this outcome.";
    const isOver = this.run.gap === null || this.run.cycle().some(({ from, to }) => this.run.isAroundGap(from, to));
    return [
      html("p", {}, "Suppose that the accesses took effect one after the other, each thread's in program order. Then:"),
      html("ol", { class: "cycle" }, sentences),
      html("p", {}, "So the first access would come before itself, which is impossible: no ", close),
      isOver ? "" : html("p", { class: "aside" },
        "This cycle does not lead over the fence that is left out, but over other gaps that the run passes."),
    ];
  }

  drawGraph() {
    this.holder.replaceChildren(new Graph(this.run, this.whole.checked).draw());
    this.markEvent();
  }

  markEvent() {
    for (const event of all(this.holder, "[data-event]")) {
      event.firstChild.classList.toggle("here", event.dataset.event === String(this.at - 1));
    }
  }

  // Called once the body is on the page.
  start(steps) {
    this.drawGraph();
    this.show(steps);
    const redraw = () => drawArrows(this.machine, this.at, false);
    const resize = () => {
      this.machine.fit();
      this.machine.follow(this.at);
      redraw();
    };
    new ResizeObserver(resize).observe(this.machine.stage);
    all(this.machine.stage, ".threads, .code").forEach(box => box.addEventListener("scroll", redraw));
  }

  // Goes to a step that a reader asks for, with the machine in sight.
  step(steps) {
    this.stop();
    this.show(steps);
    this.view.scrollIntoView({ block: "nearest" });
  }

  stop() {
    clearInterval(this.timer);
    this.timer = null;
    this.play.textContent = "▶ Play";
  }

  turnPlaying() {
    if (this.timer !== null) {
      return this.stop();
    }
    if (this.at === this.run.last) {
      this.show(0);
    }
    this.play.textContent = "⏸ Pause";
    this.timer = setInterval(() => this.at < this.run.last ? this.show(this.at + 1) : this.stop(), PLAY_INTERVAL);
    return undefined;
  }

  // Shows the state after some steps.
  show(steps) {
    const target = Math.max(0, Math.min(this.run.last, steps));
    const flies = target === this.at + 1;
    this.at = target;
    this.showControls();
    this.machine.show(target);
    this.showRows();
    for (const button of all(this.body, ".moments button")) {
      mark(button, Number(button.dataset.step) === target);
    }
    this.markEvent();
    drawArrows(this.machine, target, flies);
    addressLater(this.run.gap, target);
  }

  showControls() {
    const { at, run: { last } } = this;
    this.slider.value = at;
    this.slider.setAttribute("aria-valuetext", placeText(this.run, at));
    this.count.textContent = at > 0 ? `Step ${at} of ${last}` : "Start";
    const look = this.run.gap === null ? "" : "verdict";
    const end = at === last ? [html("span", { class: look }, " The outcome is "), ...verdictWords(this.run)] : [];
    this.say.replaceChildren(...stepWords(this.run, at), ...end);
    // A button that is disabled would lose the focus, and with it the keyboard.
    for (const [button, limit] of [[this.first, 0], [this.back, 0], [this.forward, last], [this.final, last]]) {
      button.setAttribute("aria-disabled", at === limit);
    }
  }

  showRows() {
    this.rows.forEach((row, i) => {
      mark(row, i === this.at - 1);
      row.classList.toggle("later", i >= this.at);
    });
    const row = this.rows[this.at - 1];
    const { scrollTop, clientHeight } = this.table;
    if (row && (row.offsetTop < scrollTop + 40 || row.offsetTop > scrollTop + clientHeight - 60)) {
      this.table.scrollTop = row.offsetTop - clientHeight / 2;
    }
  }
}

let addressTimer = null;

// The page's address names the fence and the step, once stepping rests: browsers ration changes of it.
function addressLater(gap, steps) {
  clearTimeout(addressTimer);
  addressTimer = setTimeout(() => history.replaceState(null, "", `#${gap ?? "run"}/${steps}`), ADDRESS_DELAY);
}
