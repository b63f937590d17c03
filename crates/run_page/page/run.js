// A run, as far as its steps show it: the state after each step, and the moments that matter. Nothing is executed
// here: each value comes from the document.

class Run {
  constructor(run) {
    this.run = run;
    this.steps = run.steps;
    this.threads = run.steps.map(step => Number(step.label.slice(1)));
    this.states = this.findStates();
    this.moments = [];
    this.gap = run.without ?? null;
    if (this.gap !== null) {
      this.findGap();
      this.findMoments();
    }
    this.decided = decidingStep(this);
  }

  // Whether it is a run of the machine without store buffers.
  get isSequential() {
    return this.run.model === "sequential";
  }

  get last() {
    return this.steps.length;
  }

  // The whole state before the first step, and after each one.
  findStates() {
    const states = [{
      memory: given.initial.memory,
      registers: given.initial.registers,
      buffers: given.threads.map(() => []),
    }];
    this.steps.forEach((step, i) => {
      const before = states[i];
      const own = (values, value) => values.map((other, thread) => thread === this.threads[i] ? value : other);
      states.push({
        memory: step.memory,
        registers: own(before.registers, step.registers),
        buffers: own(before.buffers, step.buffer),
      });
    });
    return states;
  }

  // The instruction that a thread executes next after some steps, or the number of its instructions where it has ended.
  next(steps, thread) {
    const executes = (step, i) => i >= steps && this.threads[i] === thread && step.instruction !== null;
    const found = this.steps.find(executes);
    return found ? found.instruction : given.threads[thread].instructions.length;
  }

  // Whether a thread has jumped over an instruction in some steps.
  isSkipped(steps, thread, number) {
    const executes = (step, i) => i < steps && this.threads[i] === thread && step.instruction === number;
    return number < this.next(steps, thread) && !this.steps.some(executes);
  }

  // The label that a step jumps to; null where it does not jump, or jumps to the next instruction.
  jumpLabel(i) {
    const { instruction } = this.steps[i];
    const isJump = instruction !== null && this.text(i).startsWith("J");
    return isJump && this.next(i + 1, this.threads[i]) !== instruction + 1 ? this.text(i).split(" ")[1] : null;
  }

  // The register that a step puts a value in: the operand of a load, an exchange or a move that is no location.
  target(i) {
    if (this.steps[i].instruction === null || !/^(MOV|XCHG) /.test(this.text(i))) {
      return null;
    }
    const operands = this.text(i).split(" ")[1].split(",");
    const isExchange = this.text(i).startsWith("XCHG");
    return operands.slice(0, isExchange ? 2 : 1).find(operand => !operand.startsWith("[")) ?? null;
  }

  // After how many steps a register `0:EAX` or a location has its last value.
  lastWrite(name) {
    const [thread, register] = name.split(":");
    return 1 + this.steps.findLastIndex((step, i) => register === undefined
      ? step.reaches !== null && step.reaches.location === name
      : this.threads[i] === Number(thread) && this.target(i) === register);
  }

  // What a register or a location holds in the end.
  finalValue(name) {
    const { memory, registers } = this.states[this.last];
    const [thread, register] = name.split(":");
    const values = register === undefined ? memory : registers[thread];
    return values[(register === undefined ? given.locations : given.registers[thread]).indexOf(register ?? name)] ?? 0;
  }

  // Whether a step reads or stores.
  isAccess(i) {
    return this.steps[i].reads !== null || this.steps[i].stores !== null;
  }

  text(i) {
    return instructionText(this.threads[i], this.steps[i].instruction);
  }

  // The step that passes the gap that is left out, and the stores that wait there, the oldest first.
  findGap() {
    [this.gapThread, this.gapInstruction] = gapPlace(this.gap);
    this.pass = this.steps.findIndex((step, i) =>
      this.threads[i] === this.gapThread && step.instruction === this.gapInstruction);
    this.waiting = this.states[this.pass].buffers[this.gapThread];
  }

  // The moments from the step that passes the gap to the one at which the last store that waited there has reached
  // memory: `arrival`. Moments with the same words are one moment with several steps.
  findMoments() {
    let late = this.waiting;
    for (let i = this.pass; late.length > 0 && i < this.last; i++) {
      const moment = momentOf(this, i, late);
      if (moment !== null) {
        this.addMoment(i + 1, moment);
      }
      if (this.threads[i] === this.gapThread && this.steps[i].instruction === null) {
        late = late.slice(1);
        this.arrival = i;
      }
    }
  }

  addMoment(step, { say, isBad }) {
    const words = say.map(part => part.textContent ?? part).join("");
    const same = this.moments.find(moment => moment.words === words);
    if (same) {
      same.steps.push(step);
    } else {
      this.moments.push({ steps: [step], words, say, isBad });
    }
  }

  // The edges of the cycle: where each one comes from, where it leads to, and its relation.
  cycle() {
    const { cycle } = this.run.execution;
    return cycle.map(({ event, relation }, i) => ({
      relation,
      from: event,
      to: cycle[(i + 1) % cycle.length].event,
    }));
  }

  // Whether a pair of events of one thread lies around the gap that is left out.
  isAroundGap(from, to) {
    return this.gap !== null && this.threads[from] === this.gapThread && this.threads[to] === this.gapThread
      && this.steps[from].instruction < this.gapInstruction && this.gapInstruction <= this.steps[to].instruction;
  }
}
