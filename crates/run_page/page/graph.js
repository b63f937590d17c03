// The candidate execution as a picture: threads as columns in program order, and the initial writes above them.

const GRAPH = { left: 50, height: 46, row: 92, lane: 20, initialHeight: 28 };

// What an event does, as it is written in its box: `R x=0  W x=1`.
function accessText(step) {
  const parts = [step.reads && "R " + assignment(step.reads), step.stores && "W " + assignment(step.stores)];
  return parts.filter(Boolean).join("  ");
}

class Graph {
  // Without `isWhole` it has the threads of the cycle alone, with program order and the edges of the cycle.
  constructor(run, isWhole) {
    this.run = run;
    this.events = run.steps.map((_, i) => i).filter(i => run.isAccess(i));
    const texts = this.events.flatMap(i => [run.text(i), accessText(run.steps[i])]);
    this.width = 20 + 7.6 * Math.max(0, ...texts.map(text => text.length));
    this.cycle = run.cycle();
    const inCycle = this.cycle.map(edge => run.threads[edge.from]);
    this.columns = given.threads.map((_, thread) => thread)
      .filter(thread => isWhole || inCycle.length === 0 || inCycle.includes(thread));
    this.edges = this.chosenEdges(isWhole);
    this.spots = new Map();
    this.placeEvents();
    this.placeInitialWrites();
    this.lanes = 0;
  }

  // The edges that are shown, those of the cycle last, so that they lie above the others.
  chosenEdges(isWhole) {
    const { execution } = this.run.run;
    const isRed = (relation, from, to) =>
      this.cycle.some(edge => edge.relation === relation && edge.from === from && edge.to === to);
    const edges = ["po", "rf", "co", "fr"].flatMap(relation => execution[relation].map(([from, to]) =>
      ({ relation, from, to, isRed: isRed(relation, from, to) })));
    const isShown = edge => isWhole || edge.isRed
      || edge.relation === "po" && this.columns.includes(this.run.threads[edge.from]);
    return edges.filter(isShown).sort((a, b) => a.isRed - b.isRed);
  }

  // Initial writes stand in a row at the top, if an edge leads from one.
  get initialLocations() {
    return given.locations.filter(location => this.edges.some(edge => edge.from === location));
  }

  placeEvents() {
    const top = this.initialLocations.length > 0 ? 104 : 34;
    const rows = given.threads.map(() => 0);
    for (const i of this.events) {
      const thread = this.run.threads[i];
      const column = this.columns.indexOf(thread);
      if (column >= 0) {
        const row = rows[thread]++;
        const x = GRAPH.left + column * (this.width + 90);
        this.spots.set(i, { thread, column, row, x, y: top + GRAPH.row * row });
      }
    }
    this.top = top;
    this.bottom = top + GRAPH.row * (Math.max(...rows) - 1) + GRAPH.height + 16;
    this.used = this.columns.filter(thread => rows[thread] > 0);
  }

  placeInitialWrites() {
    const locations = this.initialLocations;
    const texts = locations.map(location => 7.8 * `W ${initialText(location)}`.length + 20);
    this.initialWidth = Math.max(90, ...texts);
    const row = locations.length * (this.initialWidth + 14);
    this.wide = Math.max(2 * GRAPH.left + (this.width + 90) * (this.columns.length - 1) + this.width, row);
    locations.forEach((location, i) => {
      const x = (this.wide - row) / 2 + i * (this.initialWidth + 14) + 7;
      this.spots.set(location, { thread: -1, column: -1, row: -1, x, y: 10 });
    });
  }

  // The line of an edge, and where its relation is written.
  route({ relation, from, to }, i) {
    const a = this.spots.get(from);
    const b = this.spots.get(to);
    const shift = ((i % 3) - 1) * 8; // so that lines between the same boxes lie apart
    if (a.thread < 0) {
      return this.routeFromInitial(a, b, shift);
    }
    if (relation === "po") {
      const x = a.x + this.width / 2;
      return { path: `M${x},${a.y + GRAPH.height} L${x},${b.y}`, x: x + 14, y: (a.y + GRAPH.height + b.y) / 2 + 4 };
    }
    if (a.thread === b.thread) {
      return this.routeInThread(a, b);
    }
    return Math.abs(a.column - b.column) > 1 ? this.routeBelow(a, b, shift) : this.routeAcross(a, b, shift);
  }

  routeFromInitial(a, b, shift) {
    const x = a.x + this.initialWidth / 2;
    const y = a.y + GRAPH.initialHeight;
    if (b.row === 0) {
      const end = b.x + this.width / 2 + shift * 2;
      const path = `M${x},${y} C${x},${y + 42} ${end},${b.y - 34} ${end},${b.y}`;
      return { path, x: (x + 3 * end) / 4, y: (y + 3 * b.y) / 4 - 6 };
    }
    const isLeft = b.column < this.columns.length / 2;
    const end = isLeft ? b.x : b.x + this.width;
    const bow = isLeft ? -46 : 46;
    const height = b.y + GRAPH.height / 2 + shift;
    const path = `M${x},${y} C${x},${y + 42} ${end + bow},${height} ${end},${height}`;
    return { path, x: end + bow * 0.6, y: height - 9 };
  }

  routeInThread(a, b) {
    const bow = a.x - 26 - 9 * Math.abs(a.row - b.row);
    const from = a.y + GRAPH.height / 2 + 6;
    const to = b.y + GRAPH.height / 2 - 6;
    const path = `M${a.x},${from} C${bow},${from} ${bow},${to} ${a.x},${to}`;
    return { path, x: a.x + (bow - a.x) * 0.75, y: (from + to) / 2 };
  }

  routeAcross(a, b, shift) {
    const side = b.x > a.x ? 1 : -1;
    const [x1, x2] = this.sides(a, b);
    const y1 = a.y + GRAPH.height / 2 + shift;
    const y2 = b.y + GRAPH.height / 2 + shift;
    const path = `M${x1},${y1} C${x1 + 46 * side},${y1} ${x2 - 46 * side},${y2} ${x2},${y2}`;
    return { path, x: x1 + 24 * side, y: y1 + (y2 - y1) * 0.16 + 4 };
  }

  // Below all boxes, in a lane of its own, since other columns lie between.
  routeBelow(a, b, shift) {
    const side = b.x > a.x ? 1 : -1;
    const [x1, x2] = this.sides(a, b);
    const y = this.bottom + GRAPH.lane * this.lanes++;
    const out = (16 + 4 * this.lanes) * side;
    const y1 = a.y + GRAPH.height / 2 + shift;
    const y2 = b.y + GRAPH.height / 2 + shift;
    return { path: `M${x1},${y1} H${x1 + out} V${y} H${x2 - out} V${y2} H${x2}`, x: (x1 + x2) / 2, y: y + 4 };
  }

  sides(a, b) {
    return b.x > a.x ? [a.x + this.width, b.x] : [a.x, b.x + this.width];
  }

  drawEdge(edge, i) {
    const { path, x, y } = this.route(edge, i);
    const red = edge.isRed ? " red" : "";
    return {
      line: svg("path", {
        d: path, class: "edge" + red, "marker-end": edge.isRed ? "url(#red)" : "url(#grey)",
        "data-edge": `${edge.relation} ${edge.from} ${edge.to}`,
      }),
      tag: svg("text", { x, y, "text-anchor": "middle", class: "tag" + red }, edge.relation),
    };
  }

  // The missing fence, across the edge of program order that leads over its gap.
  drawGap() {
    const edge = this.edges.find(({ relation, from, to }) => relation === "po" && this.run.isAroundGap(from, to));
    if (!edge) {
      return [];
    }
    const { x, y: top } = this.spots.get(edge.from);
    const y = (top + GRAPH.height + this.spots.get(edge.to).y) / 2;
    return [
      svg("line", { class: "cut", x1: x + 6, x2: x + this.width - 6, y1: y, y2: y }),
      svg("text", { x: x + this.width / 2 - 8, y: y - 6, "text-anchor": "end", class: "tag red" }, "no fence"),
    ];
  }

  drawEvent(event, { x, y, thread }) {
    const middle = (width, height, text, weight) =>
      svg("text", { x: x + width / 2, y: y + height, "text-anchor": "middle", "font-weight": weight }, text);
    if (thread < 0) {
      return svg("g", { "data-event": event },
        svg("rect", { class: "node", x, y, width: this.initialWidth, height: GRAPH.initialHeight, rx: 14 }),
        middle(this.initialWidth, 18, `W ${initialText(event)}`, null));
    }
    const inCycle = this.cycle.some(edge => edge.from === event);
    return svg("g", { "data-event": event },
      svg("rect", { class: inCycle ? "node in" : "node", x, y, width: this.width, height: GRAPH.height, rx: 6 }),
      middle(this.width, 19, this.run.text(event), null),
      middle(this.width, 37, accessText(this.run.steps[event]), 700));
  }

  draw() {
    const edges = this.edges.map((edge, i) => this.drawEdge(edge, i));
    const nodes = [...this.spots].map(([event, spot]) => this.drawEvent(event, spot));
    const heads = this.used.map(thread => {
      const x = GRAPH.left + this.columns.indexOf(thread) * (this.width + 90);
      return svg("text", { x, y: this.top - 8, "font-weight": 700 }, threadName(thread));
    });
    const height = this.bottom + GRAPH.lane * this.lanes;
    const label = this.cycle.length > 0
      ? "The candidate execution; its forbidden cycle is in words in the list beside it"
      : "The candidate execution, which has no forbidden cycle";
    return svg("svg", {
      role: "img", "aria-label": label, width: this.wide, height, viewBox: `0 0 ${this.wide} ${height}`,
      style: `min-width: ${Math.round(this.wide * 0.8)}px`,
    }, svg("defs", {}, arrowHead("red", "--bad", 11), arrowHead("grey", "--soft", 11)),
    edges.map(edge => edge.line), this.drawGap(), nodes, edges.map(edge => edge.tag), heads);
  }
}
