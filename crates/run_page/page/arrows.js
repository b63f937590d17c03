// What moves in a step: an arrow over the machine from where it was to where it is, and where motion is welcome a token
// that goes along it.

const calm = matchMedia("(prefers-reduced-motion: reduce)");

// An arrow that is less high than this has no label.
const LABEL_HEIGHT = 34;

// Points on elements, measured from the stage.
class Places {
  constructor(stage) {
    this.origin = stage.getBoundingClientRect();
  }

  top(element) {
    const { left, top, width } = element.getBoundingClientRect();
    return [left - this.origin.left + width / 2, top - this.origin.top];
  }

  bottom(element) {
    const { left, bottom, width } = element.getBoundingClientRect();
    return [left - this.origin.left + width / 2, bottom - this.origin.top];
  }

  // The lower right corner, where no text is.
  corner(element) {
    const { right, bottom } = element.getBoundingClientRect();
    return [right - this.origin.left - 24, bottom - this.origin.top];
  }
}

// The ends of the arrows of a step, and what moves along each.
function movesOf(machine, steps) {
  const { run } = machine;
  const { reads, stores, reaches, buffer } = run.steps[steps - 1];
  const column = machine.threads[run.threads[steps - 1]];
  const places = new Places(machine.stage);
  const slots = all(column, ".slot");
  const cell = location => all(machine.memory, ".cell")[given.locations.indexOf(location)];
  const moves = [];
  if (reads) {
    const waiting = run.states[steps - 1].buffers[run.threads[steps - 1]].map(store => store.location);
    const source = reads.from === "buffer" ? slots[waiting.lastIndexOf(reads.location)] : cell(reads.location);
    moves.push({ from: places.top(source), to: places.bottom(column.querySelector(".cell.moved")), value: reads });
  }
  if (stores && !reaches) {
    const target = slots[buffer.length - 1];
    moves.push({ from: places.corner(column.querySelector(".now")), to: places.top(target), value: stores });
  }
  if (reaches) {
    const from = stores ? places.corner(column.querySelector(".now")) : places.bottom(slots[0]);
    moves.push({ from, to: places.top(cell(reaches.location)), value: reaches });
  }
  return moves;
}

// Where an arrow's label stands: on the way between the threads and the memory where the arrow leads over it, since no
// text is there. Of two arrows the first has its label nearer to its start.
function labelSpot(machine, line, move, isFirstOfTwo) {
  const length = line.getTotalLength();
  const spots = Array.from({ length: 21 }, (_, i) => line.getPointAtLength(length * i / 20));
  if (isFirstOfTwo) {
    return spots[7];
  }
  const way = machine.memory.getBoundingClientRect().top - machine.stage.getBoundingClientRect().top - 19;
  if (Math.max(move.from[1], move.to[1]) <= way) {
    return spots[10];
  }
  return spots.reduce((best, spot) => Math.abs(best.y - way) <= Math.abs(spot.y - way) ? best : spot);
}

function drawMove(machine, move, isFirstOfTwo, flies) {
  const [[x1, y1], [x2, y2]] = [move.from, move.to];
  const bend = (y2 - y1) / 2;
  const path = `M${x1},${y1} C${x1},${y1 + bend} ${x2},${y2 - bend} ${x2},${y2}`;
  const line = svg("path", { d: path, "marker-end": "url(#head)" });
  const label = assignment(move.value);
  machine.arrows.append(line);
  if (Math.abs(y2 - y1) > LABEL_HEIGHT) {
    drawLabel(machine, label, labelSpot(machine, line, move, isFirstOfTwo));
  }
  if (flies && !calm.matches) {
    fly(machine.stage, path, label);
  }
}

// Draws a label, above those that are there, and inside of the stage.
function drawLabel({ arrows, stage }, label, { x: middle, y }) {
  const width = label.length * 8 + 12;
  const x = Math.max(width / 2, Math.min(stage.clientWidth - width / 2, middle));
  const isInTheWay = ({ x: left, y: top, width: size }) =>
    Math.abs(left + size / 2 - x) < (size + width) / 2 && Math.abs(top + 10 - y) < 20;
  const height = all(arrows, "rect").map(box => box.getBBox()).some(isInTheWay) ? y - 22 : y;
  arrows.append(
    svg("rect", { x: x - width / 2, y: height - 10, width, height: 20, rx: 10 }),
    svg("text", { x, y: height + 4, "text-anchor": "middle" }, label));
}

function fly(stage, path, label) {
  const style = `offset-path: path("${path}"); offset-rotate: 0deg`;
  const token = html("div", { class: "token", "aria-hidden": "true", style }, label);
  stage.append(token);
  const flight = [{ offsetDistance: "0%" }, { offsetDistance: "100%" }];
  token.animate(flight, { duration: 750, easing: "ease-in-out" }).onfinish = () => token.remove();
}

// A marker with the head of an arrow.
function arrowHead(id, color, size) {
  const head = svg("path", { d: "M0,0 L10,5 L0,10 z", style: `fill: var(${color}); stroke: none` });
  return svg("marker", {
    id, viewBox: "0 0 10 10", refX: 9, refY: 5, markerWidth: size, markerHeight: size, markerUnits: "userSpaceOnUse",
    orient: "auto",
  }, head);
}

// Draws the arrows of the last of some steps anew.
function drawArrows(machine, steps, flies) {
  machine.arrows.replaceChildren(svg("defs", {}, arrowHead("head", "--now", 12)));
  all(machine.stage, ".token").forEach(token => token.remove());
  if (steps === 0 || !machine.stage.isConnected) {
    return;
  }
  const moves = movesOf(machine, steps);
  moves.forEach((move, i) => drawMove(machine, move, moves.length > 1 && i === 0, flies));
}
