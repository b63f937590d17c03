// The formula of the file's condition, as far as it takes to find the step that decides it. What the formula comes to is
// the document's to say.

// Truths are true, false or null, which is not known.
const anyOf = truths => truths.includes(true) ? true : truths.includes(null) ? null : false;
const allOf = truths => truths.includes(false) ? false : truths.includes(null) ? null : true;
const opposite = truth => truth === null ? null : !truth;

// A formula, read once: a function from the values of names to its truth.
class FormulaReader {
  constructor(condition) {
    this.signs = condition.slice(condition.indexOf(" ")).match(/[()]|[^\s()]+/g);
    this.at = 0;
  }

  takes(sign) {
    const isNext = this.signs[this.at] === sign;
    this.at += isNext ? 1 : 0;
    return isNext;
  }

  // Operands with this sign between them.
  operands(sign, operand) {
    const found = [operand()];
    while (this.takes(sign)) {
      found.push(operand());
    }
    return found;
  }

  disjunction() {
    const parts = this.operands("\\/", () => this.conjunction());
    return valueOf => anyOf(parts.map(part => part(valueOf)));
  }

  conjunction() {
    const parts = this.operands("/\\", () => this.negation());
    return valueOf => allOf(parts.map(part => part(valueOf)));
  }

  negation() {
    if (this.takes("not")) {
      const inner = this.negation();
      return valueOf => opposite(inner(valueOf));
    }
    if (this.takes("(")) {
      const inner = this.disjunction();
      this.takes(")");
      return inner;
    }
    return this.atom();
  }

  atom() {
    const sign = this.signs[this.at++];
    if (sign === "true" || sign === "false") {
      return () => sign === "true";
    }
    const [name, value] = sign.split("=");
    return valueOf => {
      const found = valueOf(name);
      return found === null ? null : found === Number(value);
    };
  }
}

const formulaOf = condition => new FormulaReader(condition).disjunction();

// After how many steps of a run the formula is decided: from there on no write that comes changes its truth. A register
// or a location counts once its last write is made. Null where it is decided before the first step, or where the formula
// comes to something else than the document says.
function decidingStep(run) {
  const truth = formulaOf(given.condition);
  const truthAfter = steps => truth(name => run.lastWrite(name) <= steps ? run.finalValue(name) : null);
  const decided = run.states.findIndex((_, steps) => truthAfter(steps) !== null);
  return decided > 0 && truthAfter(run.last) === run.run.meets_condition ? decided : null;
}
