// The page: what the answer is, and a player for each of its fences, or for the one run of a trace or a witness.

const main = document.getElementById("page");

const introduction = [
  "On x86 a store first waits in its thread's store buffer. Until it reaches memory no other thread sees it, and the ",
  "thread's later loads do not wait for it. An MFENCE makes its thread wait until the buffer is empty.",
];

// What the outcomes are compared by.
function comparedWords() {
  if (given.answer.condition) {
    return ", as far as the file's condition tells them apart";
  }
  return given.answer.observed
    ? " in the registers and locations that the file's condition and its locations line name" : "";
}

// How many fences a thread gets: `2 in P0`.
function fencesByThread(gaps) {
  const counts = given.threads.map((_, thread) => gaps.filter(gap => gapPlace(gap)[0] === thread).length);
  return counts.map((count, thread) => count > 0 ? `${count} in ${threadName(thread)}` : "").filter(Boolean);
}

// The answer in a sentence.
function answerWords(gaps) {
  const isOne = gaps.length === 1;
  const places = gaps.length <= 3 ? listed(gaps.map(gap => html("span", {}, "before ", ...placeOf(gap))))
    : listed(fencesByThread(gaps));
  const fences = isOne ? "an MFENCE " : gaps.length <= 3 ? "MFENCE " : `${gaps.length} MFENCEs, `;
  const cost = `${isOne ? "It costs" : "Together they cost"} ${given.answer.cost}`;
  return ["A cheapest set of fences: ", fences, ...places, `. ${cost}; no cheaper set is enough.`];
}

// How many fences, or with ties how many lines, the answer has: each has a run.
function countWords(gaps) {
  const some = given.runs.length;
  if (given.ties) {
    return `${some === 1 ? "one fenced line" : `${some} fenced lines`} (${gaps.length} MFENCEs)`;
  }
  return some === 1 ? "a fence" : `${some} fences`;
}

// What a page is about, folded where it has a run to show.
const about = (isOpen, ...says) => html("details", { class: "about soft", open: isOpen },
  html("summary", {}, "What this is about, and how to read it"), says);

const howToRead = [
  "Next, the Left and Right keys and the slider step through the run; Space plays it. An arrow shows what a step moves; what ",
  "it changes is outlined, with the former value struck out. Executed instructions are grey, those that were jumped over are ",
  "struck out. Instructions are numbered from 0 in each thread, so that gap 0:7 lies before instruction 7 of P0. A line is ",
  "one of your file; ",
];

const gapsCommand = [command("fencer gaps LITMUS"), " lists all gaps with their lines."];

// The program alone, with its condition.
const programBox = () =>
  region("program", "the program", html("h2", {}, "The program"), threadColumns(null),
    html("p", { class: "note" }, "The file's condition: ", code(given.condition)));

function showNoFence() {
  const heading = hasNote("no_fence_mends") ? `${given.test} is wrong without store buffers too: no fence mends it`
    : `${given.test} needs no fence`;
  document.title = heading;
  main.replaceChildren(
    html("h1", {}, heading),
    noteBox(),
    html("p", { class: "lead" }, `Every outcome is sequential${comparedWords()}: store buffers show nothing here that `
      + "would not happen if each instruction took effect at once."),
    about(true, html("p", {}, introduction)),
    programBox());
}

function showAnswer(gaps) {
  const isOne = gaps.length === 1;
  document.title = `${given.test}: why ${isOne ? "a fence is" : "fences are"} needed`;
  main.replaceChildren(html("header", {},
    html("h1", {}, `Why ${given.test} needs ${countWords(gaps)}`),
    html("p", { class: "lead" }, answerWords(gaps)),
    noteBox(),
    about(false,
      html("p", {}, introduction, " In a sequential run there are no store buffers: each instruction ",
        `takes effect at once. With ${isOne ? "this fence" : "these fences"} the program has exactly the outcomes of its `,
        `sequential runs${comparedWords()}.`),
      html("p", {}, howToRead, gapsCommand))));
  showRuns(given.runs.map(run => new Run(run)));
}

// Tabs, one for each fence, over the player of its run.
function showRuns(runs) {
  const panel = html("div", { role: "tabpanel", id: "panel", "aria-labelledby": "tab0" });
  const tabs = runs.map(({ gap }, i) => html("button", {
    type: "button", role: "tab", id: "tab" + i, "aria-controls": "panel",
    "aria-label": `without the fence before ${tieOf(gap).map(own => placeOf(own).map(part => part.textContent ?? part).join("")).join(" and ")}`,
    on: { click: () => pick(i, 0), keydown: event => pickByKey(event, i) },
  }, tieOf(gap).map(own => `${threadName(gapPlace(own)[0])} ${own}`).join(", ")));
  let player = null;

  function pick(chosen, steps) {
    if (player !== null) {
      player.stop();
    }
    tabs.forEach((tab, i) => {
      tab.setAttribute("aria-selected", i === chosen);
      tab.tabIndex = i === chosen ? 0 : -1;
    });
    panel.setAttribute("aria-labelledby", "tab" + chosen);
    player = new Player(runs[chosen]);
    panel.replaceChildren(player.body);
    player.start(steps);
  }

  function pickByKey(event, i) {
    const target = { ArrowRight: i + 1, ArrowLeft: i - 1, Home: 0, End: tabs.length - 1 }[event.key];
    if (target !== undefined) {
      event.preventDefault();
      event.stopPropagation();
      const chosen = (target + tabs.length) % tabs.length;
      pick(chosen, 0);
      tabs[chosen].focus();
    }
  }

  main.classList.add(isBeside() ? "framed" : "stacked");
  main.append(html("div", { class: "choice" }, html("span", {}, "Leave out"),
    html("div", { role: "tablist", "aria-label": "the fences of the answer" }, tabs),
    html("span", {}, "and a run becomes possible whose outcome no sequential run has.")), panel);
  const [gap, steps] = address();
  const named = runs.findIndex(run => run.gap === gap);
  pick(Math.max(0, named), named < 0 ? 0 : steps);
  listenToKeys(() => player);
}

// One run alone, under a heading and what is said of it.
function showOneRun(heading, lead) {
  const player = new Player(new Run(given.run));
  document.title = `${given.test}: a run`;
  main.classList.add(isBeside() ? "framed" : "stacked");
  main.replaceChildren(html("header", {},
    html("h1", {}, heading),
    html("p", { class: "lead" }, lead),
    noteBox(),
    about(false, given.run.model === "buffered" ? html("p", {}, introduction) : "", html("p", {}, howToRead, gapsCommand))),
    player.body);
  player.start(address()[1]);
  listenToKeys(() => player);
}

// The one run of `fencer trace`.
function showTrace() {
  showOneRun(`A run of ${given.test}`, given.run.model === "buffered" ? "A run on the machine with store buffers."
    : "A sequential run: each instruction takes effect at once.");
}

// The machine of `fencer witness`, with the fences.
function machineWords() {
  const machine = given.model === "buffered" ? "on the machine with store buffers" : "on the sequential machine";
  const fences = fencedGaps().map(gap => html("span", {}, "before ", ...placeOf(gap)));
  return fences.length === 0 ? [machine] : [machine, ", with MFENCE ", ...listed(fences)];
}

// What a run of `fencer witness` says of what the file's condition is about, or that there is no such run.
function soughtHeading() {
  const { test, meets_condition: meets, run } = given;
  if (run !== null) {
    return `${subjectText()} ${happens(meets)} in a run of ${test}`;
  }
  return meets ? `${subjectText()} never ${happens(true)} in ${test}` : `${subjectText()} ${happens(true)} in every run of ${test}`;
}

// Whether the file's condition holds of the machine, where one run, or that there is none, decides that.
function soughtVerdict() {
  const isSome = (given.run !== null) === given.meets_condition;
  const isDecided = given.run !== null ? given.meets_condition !== (quantifier() === "forall") : true;
  const holds = quantifier() === "~exists" ? !isSome : isSome;
  return isDecided ? [" So the condition ", code(given.condition), holds ? " holds there." : " fails there."] : [];
}

// The run of `fencer witness`, or that there is none.
function showWitness() {
  const heading = soughtHeading();
  if (given.run !== null) {
    const leaves = given.meets_condition ? "leaves " : "does not leave ";
    return showOneRun(heading, ["A run ", ...machineWords(), `, which ${leaves}`, code(formulaText()), ".", ...soughtVerdict()]);
  }
  const says = given.meets_condition ? "No run " : "Each run ";
  document.title = heading;
  main.replaceChildren(
    html("h1", {}, heading),
    noteBox(),
    html("p", { class: "lead" }, says, ...machineWords(), " leaves ", code(formulaText()), ".", ...soughtVerdict()),
    about(true, given.model === "buffered" ? html("p", {}, introduction) : ""),
    programBox());
}

// The gap and the step that the page's address names.
function address() {
  const [gap, steps] = location.hash.slice(1).split("/");
  return [gap, Number(steps) || 0];
}

// Whether an element has a use of its own for a key.
function hasOwnUse(element, key) {
  if (key === " ") {
    return element.matches("button:not([role=tab]), summary, input[type=checkbox]");
  }
  const isScrolled = element.matches(".scroll") && element.scrollWidth > element.clientWidth;
  return isScrolled || element.matches("input[type=range], [role=tab]");
}

// Steps by Left and Right anywhere, and by Home and End in the player, and plays by Space, but not where the focused
// element has a use of its own for them.
function listenToKeys(player) {
  document.addEventListener("keydown", event => {
    if (event.altKey || event.ctrlKey || event.metaKey || hasOwnUse(event.target, event.key)) {
      return;
    }
    const { at, run: { last } } = player();
    const inPlayer = event.target.closest(".player, .moments") !== null;
    const targets = { ArrowRight: at + 1, ArrowLeft: at - 1, ...(inPlayer ? { Home: 0, End: last } : {}) };
    const target = targets[event.key];
    if (event.key === " ") {
      event.preventDefault();
      player().turnPlaying();
    } else if (target !== undefined) {
      event.preventDefault();
      player().step(target);
    }
  });
  // Some browsers press a button when Space is let go.
  document.addEventListener("keyup", event => {
    if (event.key === " " && !hasOwnUse(event.target, " ")) {
      event.preventDefault();
    }
  });
}

function show() {
  if (given.format !== "fencer 1" || !["why", "trace", "witness"].includes(given.command)) {
    main.replaceChildren(html("p", {}, "This page shows documents of fencer why, trace and witness, format 1."));
  } else if (given.command === "trace") {
    showTrace();
  } else if (given.command === "witness") {
    showWitness();
  } else if (given.answer.set.length > 0) {
    showAnswer(given.answer.set);
  } else {
    showNoFence();
  }
}

show();
