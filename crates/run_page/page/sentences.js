// The sentences about a run.

// What a step after the passed gap does with the stores that waited there and have not reached memory yet: its words,
// and whether it is where the fence is missing; null if it does nothing with them.
function momentOf(run, i, late) {
  const step = run.steps[i];
  const thread = threadName(run.threads[i]);
  const isOwn = run.threads[i] === run.gapThread;
  const newest = access => late.filter(store => access && store.location === access.location).slice(-1);
  if (i === run.pass) {
    return { say: passingWords(run, late), isBad: true };
  }
  if (isOwn && step.reads && step.reads.from === "memory") {
    const own = listed(assignments(late));
    return { say: [`${thread} reads `, code(assignment(step.reads)), ", ahead of its own waiting ", ...own, "."] };
  }
  if (!isOwn && newest(step.reads).length > 0) {
    const hidden = assignments(newest(step.reads));
    return {
      say: [`${thread} reads `, code(assignment(step.reads)), `: ${threadName(run.gapThread)}'s `, ...hidden,
        " still waits, and no other thread sees it."],
    };
  }
  if (!isOwn && newest(step.reaches).length > 0) {
    return { say: [`${thread}'s store `, code(assignment(step.reaches)), " reaches memory first."] };
  }
  if (isOwn && step.instruction === null) {
    const end = late.length > 1 ? " reaches memory only now." : " reaches memory only now: too late.";
    return { say: [`${thread}'s store `, code(assignment(step.reaches)), end] };
  }
  return null;
}

function passingWords(run, late) {
  const { reads } = run.steps[run.pass];
  return [
    `${threadName(run.gapThread)} goes on to `, code(run.text(run.pass)),
    late.length > 1 ? " while its stores " : " while its store ", ...listed(assignments(late)),
    late.length > 1 ? " still wait in its buffer" : " still waits in its buffer",
    ...(reads ? [", and reads ", code(assignment(reads))] : []),
    ". A fence here would have made it wait.",
  ];
}

// What a step does, in a few words.
function shortWords(run, i) {
  const { instruction, reads, stores, reaches } = run.steps[i];
  const thread = threadName(run.threads[i]);
  const label = run.jumpLabel(i);
  if (instruction === null) {
    return [`${thread}'s store `, code(assignment(reaches)), " reaches memory"];
  }
  if (reads) {
    const from = reads.from === "buffer" ? [" from its buffer"] : [];
    return [`${thread} reads `, code(assignment(reads)), ...from, ...stores ? [" and stores ", code(assignment(stores))] : []];
  }
  if (stores) {
    return [`${thread} stores `, code(assignment(stores)), reaches ? "" : " in its buffer"];
  }
  return label === null ? [`${thread} executes `, code(run.text(i))] : [`${thread} jumps to `, code(label)];
}

// The moments with the step that decides the file's condition among them, in the order of their first steps. It is bad in
// a run that a fence prevents, and where it breaks the condition.
function allMoments(run) {
  const says = decisionWords(run);
  if (run.decided === null || says === null) {
    return run.moments;
  }
  const isAlone = moment => moment.steps.length === 1 && moment.steps[0] === run.decided;
  const same = run.moments.find(isAlone);
  const say = [...same ? [...same.say, " "] : [...shortWords(run, run.decided - 1), ". "], ...says];
  const others = run.moments.filter(moment => moment !== same);
  const isBad = run.gap !== null || isBroken(run);
  return [...others, { steps: [run.decided], say, isBad }].sort((a, b) => a.steps[0] - b.steps[0]);
}

// Whether a run breaks the file's condition: alone it can't break one with `exists`.
const isBroken = run => quantifier() !== "exists" && run.run.meets_condition === (quantifier() === "~exists");

// What is said of the step that decides the condition; null where the condition is neither broken nor met, and not asked
// about.
function decisionWords(run) {
  if (isBroken(run)) {
    return ["This breaks the condition ", code(given.condition), "."];
  }
  if (quantifier() === "exists" && run.run.meets_condition) {
    return ["This meets the condition ", code(given.condition), "."];
  }
  const isAsked = given.command === "witness" || given.answer && given.answer.condition;
  return isAsked ? [`From here on the formula of the condition is ${run.run.meets_condition}.`] : null;
}

// What happens in the last of some steps.
function stepWords(run, steps) {
  if (steps === 0) {
    const empty = run.isSequential ? "" : ", and the store buffers are empty";
    return [`Before the first step: nothing has been executed${empty}. Press Next, or the right arrow key; Space plays.`];
  }
  const i = steps - 1;
  const step = run.steps[i];
  const thread = threadName(run.threads[i]);
  if (step.instruction === null) {
    return [`${thread}'s oldest waiting store leaves its buffer: `, code(assignment(step.reaches)),
      " is in memory now, where every thread sees it."];
  }
  const say = [`${thread} executes `, code(run.text(i)), ...effectWords(run, i)];
  if (i === run.pass) {
    say.push(html("span", { class: "verdict" }, ` Its own ${run.waiting.map(assignment).join(" ")} still `
      + `${run.waiting.length > 1 ? "wait" : "waits"}: the fence that is left out would have made ${thread} wait here `
      + "until its buffer is empty."));
  }
  return say;
}

// What an instruction does, after its text.
function effectWords(run, i) {
  const step = run.steps[i];
  const { reads, stores, reaches } = step;
  if (reads && stores) {
    return [run.isSequential ? ": it reads " : ": with its buffer empty, it reads ", code(assignment(reads)), " and stores ",
      code(assignment(stores)), " in memory, at once."];
  }
  if (stores && reaches) {
    return [": ", code(assignment(stores)), " is in memory at once, where every thread sees it."];
  }
  if (stores) {
    const found = step.memory[given.locations.indexOf(stores.location)];
    return [": ", code(assignment(stores)), " goes into its store buffer. No other thread sees it yet; memory still ",
      "has ", code(`${stores.location}=${found}`), "."];
  }
  return reads ? loadWords(run, i) : localWords(run, i);
}

function loadWords(run, i) {
  const { reads } = run.steps[i];
  const from = reads.from === "buffer" ? " from its own store buffer, where only it can see it." : " from memory.";
  const say = [" and reads ", code(assignment(reads)), from];
  run.states[i].buffers.forEach((buffer, thread) => {
    const hidden = buffer.filter(store => store.location === reads.location).slice(-1);
    if (thread !== run.threads[i] && hidden.length > 0) {
      say.push(` It cannot see ${threadName(thread)}'s `, ...assignments(hidden), ", which still waits.");
    }
  });
  return say;
}

// An instruction that neither reads nor stores: where the run goes on tells whether a jump was taken.
function localWords(run, i) {
  const text = run.text(i);
  const label = run.jumpLabel(i);
  if (text === "MFENCE") {
    return [run.isSequential ? ", which has nothing to wait for." : ": its store buffer is empty, so the fence lets it go on."];
  }
  if (label !== null) {
    return [", and jumps to ", code(label), "."];
  }
  return [text.startsWith("J") ? ", and goes on with the next instruction." : "."];
}

// What the file's condition is about, as its quantifier says: its formula, which must not happen with `~exists`. As words
// of a sentence, and as a text.
const subject = () => quantifier() === "~exists" ? ["What must not happen (", code(formulaText()), ")"] : [code(formulaText())];

const subjectText = () => quantifier() === "~exists" ? `What must not happen (${formulaText()})` : formulaText();

// Whether that is so in a run, by whether the run meets the formula.
function happens(meets) {
  const verb = quantifier() === "forall" ? ["holds", "fails"] : ["happens", "does not happen"];
  return verb[meets ? 0 : 1];
}

// What is said beside the answer: of the condition by its formula, of a slip by its line.
function noteWords({ kind, line, message }) {
  if (kind === "no_fence_mends" || kind === "happens_sequentially") {
    const end = kind === "no_fence_mends" ? ": no fence mends it." : ".";
    return [...subject(), ` ${happens(quantifier() !== "forall")} without store buffers too${end}`];
  }
  const sentence = line === null ? message[0].toUpperCase() + message.slice(1) : `Line ${line}: ${message}`;
  return [sentence.endsWith("?") ? sentence : sentence + "."];
}

// Which command shows a sequential run that breaks the condition.
const sequentialCommand = () =>
  [" ", command(`fencer witness --model sequential ${quantifier() === "forall" ? "--not " : ""}LITMUS`), " shows such a run."];

// A paragraph for each note.
const noteBox = () => notes.length === 0 ? "" : html("div", { class: "notes", role: "note" },
  notes.map(note => note.kind === "no_fence_mends"
    ? html("p", { class: "verdict" }, noteWords(note), sequentialCommand()) : html("p", {}, noteWords(note))));

// A condition that names a part of what is compared may be decided sequentially too, with other final values.
const elsewhere = () => hasNote("no_fence_mends") || hasNote("happens_sequentially")
  ? [", and in a sequential run too, which ends otherwise."] : [", and in no sequential run."];

// A run that keeps the condition shows no need of its fence for the condition alone.
const fewer = () => ["; but registers or memory end as they sequentially cannot. For the condition alone fewer fences may be ",
  "enough: ", command("fencer why --condition LITMUS"), " asks for those."];

// Whether the run's outcome is what the file's condition is about.
function conditionWords(run) {
  const isDecided = run.meets_condition === (quantifier() !== "forall");
  return [...subject(), ` ${happens(run.meets_condition)} in this run`, ...isDecided ? elsewhere() : fewer()];
}

// Whether what the condition is about is so in the run, as in no sequential run.
function aloneWords(run) {
  const others = run.meets_condition ? ", and in no sequential run." : `; it ${happens(true)} in each sequential run.`;
  return [" ", ...subject(), ` ${happens(run.meets_condition)} in this run${others}`];
}

// How the run ends. That no sequential run has the outcome is said by `fencer why`, not by `fencer trace`.
function verdictWords(run) {
  if (run.gap === null) {
    return [code(outcomeText(run.run)), " ", ...subject(), ` ${happens(run.run.meets_condition)} in this run.`];
  }
  if (given.answer.condition) {
    return [code(outcomeText(run.run)), html("span", { class: "verdict" }, aloneWords(run.run))];
  }
  return [code(outcomeText(run.run)), html("span", { class: "verdict" }, " No sequential run has this outcome. ")];
}

// The cycle of the candidate execution, a sentence for each edge.
function cycleWords(run) {
  const name = event => [threadName(run.threads[event]) + "'s ", code(run.text(event))];
  const edges = run.cycle();
  return edges.map(({ relation, from, to }, i) => {
    const last = i === edges.length - 1 ? ": back at the first access." : ".";
    return html("li", {}, name(from), " ", edgeWords(run, relation, from, name(to), to), " (",
      html("b", {}, relation), ")", last);
  });
}

function edgeWords(run, relation, from, target, to) {
  const { reads, stores } = run.steps[from];
  if (relation === "po") {
    return ["comes before ", ...target, " in the program"];
  }
  if (relation === "rf") {
    return ["stores ", code(assignment(stores)), ", which ", ...target, " reads"];
  }
  if (relation === "co") {
    return ["stores ", code(assignment(stores)), ", and then ", ...target, " overwrites it"];
  }
  const overwritten = run.steps[to].stores;
  return ["reads ", code(assignment(reads)), ", so it comes before ", ...target, ", which stores ",
    code(assignment(overwritten))];
}
