// The intersection: legs, lanes with heads and detectors, crossings with buttons.
// A place is told as (along, across): how far out on the leg, and how far to the right
// of who enters by it.

import { byId, mark, onPress, say, svg } from "./dom.js";

const X = 340, Y = 320;
const TURN = { west: 0, north: 90, east: 180, south: 270 };
const LANES = { left: 15, through: 45, right: 75 };
const HALF = 92, CROSSING = 98, ZEBRA = 26, STOP = 130, HEAD = 136, LENS = 17, FIRST = 200, DETECTOR = 28, IN_LANE = 3;
const EDGE = 312;
const LAMPS = ["R", "Y", "G"];
// An overlap of this type is a flashing yellow arrow, whose head has four lenses.
const ARROW = 2, ARROW_LAMPS = ["R", "Y", "P", "G"], ARROW_LENS = 14.5;
// How far an arrow that points up as one enters from the west, to the left, is turned.
const POINTS = { left: 0, through: 90, right: 180 };
// Where the digits of each kind begin among those of all inputs, and the letter of each.
const KINDS = {
  vehicle: { begins: 0, letter: "D", name: "detector" },
  pedestrian: { begins: 64, letter: "B", name: "button" },
  preempt: { begins: 80, letter: "I", name: "preempt input" },
};

/** The point of a place on a leg. */
function point(leg, along, across) {
  const angle = (TURN[leg] * Math.PI) / 180;
  const [cos, sin] = [Math.round(Math.cos(angle)), Math.round(Math.sin(angle))];
  return [X - along * cos - across * sin, Y - along * sin + across * cos];
}

const text = (x, y, words, name = "") => svg("text", { x, y, class: name }, words);

/** The lens of an arrow, which points where the lane turns as one who enters sees it. */
function arrowLens(x, y, leg, turn) {
  const rotated = `rotate(${(TURN[leg] ?? -90) + POINTS[turn]} ${x} ${y})`;
  return svg("path", { d: `M${x} ${y - 7} l7 7 h-2.6 v6.5 h-8.8 v-6.5 h-2.6 z`, transform: rotated });
}

export class Intersection {
  /** `ask` sends a request, `mode` gives how a click acts, and `pulse` asks for a pulse of an input. */
  constructor(ask, mode, pulse) {
    this.ask = ask;
    this.mode = mode;
    this.pulse = pulse;
    this.node = byId("map");
    this.now = 0;
    this.inputs = new Map();
    // (which detectors of each phase are in view, where there are more than places)
    this.pages = new Map();
    this.heads = [];
    this.moves = [];
    this.walks = [];
    this.switches = [];
  }

  /** Draws a plan's intersection anew. */
  draw(plan) {
    this.plan = plan;
    this.inputs.clear();
    this.heads = [];
    this.moves = [];
    this.walks = [];
    this.switches = [];
    this.node.replaceChildren();
    this.beside = 0;
    this.roads(plan);
    const lanes = Object.entries(plan.layout.lanes).map(([number, lane]) => ["P", Number(number), lane]);
    const overlaps = Object.entries(plan.layout.overlaps).map(([number, lane]) => ["O", Number(number), lane]);
    for (const [kind, number, lane] of [...lanes, ...overlaps]) this.lane(kind, number, lane);
    for (const [number, leg] of Object.entries(plan.layout.crossings)) this.crossing(Number(number), leg);
    plan.preempts.forEach((number, at) => this.preempt(number, at));
  }

  legs(plan) {
    const used = [...Object.values(plan.layout.lanes), ...Object.values(plan.layout.overlaps)].map((it) => it.leg);
    const found = new Set([...used, ...Object.values(plan.layout.crossings)].filter((it) => it in TURN));
    for (const leg of used.filter((it) => it in TURN)) {
      const across = { west: "east", east: "west", north: "south", south: "north" };
      found.add(across[leg]);
    }
    return [...found];
  }

  roads(plan) {
    for (const leg of this.legs(plan)) {
      const turn = `rotate(${TURN[leg]} ${X} ${Y})`;
      const road = svg("g", { transform: turn, class: "road" },
        svg("rect", { x: X - EDGE, y: Y - HALF, width: EDGE - HALF, height: 2 * HALF, class: "asphalt" }),
        svg("line", { x1: X - EDGE, x2: X - STOP, y1: Y, y2: Y, class: "middle" }),
        svg("line", { x1: X - STOP, x2: X - STOP, y1: Y, y2: Y + HALF, class: "stop" }));
      for (const across of [30, 60]) {
        road.append(svg("line", { x1: X - EDGE, x2: X - STOP, y1: Y + across, y2: Y + across, class: "between" }));
      }
      this.node.append(road);
      const street = plan.layout.streets[leg];
      const [x, y] = point(leg, EDGE - 42, -46);
      if (street) this.node.append(text(x, y, street, "street"));
    }
    this.node.append(svg("rect", { x: X - HALF, y: Y - HALF, width: 2 * HALF, height: 2 * HALF, class: "asphalt" }));
  }

  /** The protected turn of a flashing yellow arrow; 0 of all else. */
  turnOf(kind, number) {
    const { overlapType, overlapModifierPhases } = this.plan.values;
    if (kind !== "O" || overlapType?.[number] !== ARROW) return 0;
    return this.plan.phases.find((it) => (overlapModifierPhases?.[number] >> (it - 1)) & 1) ?? 0;
  }

  /** Whether an arrow is the head of a phase's lane, in place of the phase's own. */
  isArrows(phase, lane) {
    return Object.entries(this.plan.layout.overlaps).some(([number, it]) =>
      this.turnOf("O", Number(number)) === phase && it.leg === lane.leg && it.turn === lane.turn);
  }

  /** A lane of a phase or an overlap: its head, its detectors and its movement. */
  lane(kind, number, lane) {
    if (!(lane.leg in TURN)) return this.listed(kind, number, lane);
    const across = LANES[lane.turn];
    const turn = `rotate(${TURN[lane.leg]} ${X} ${Y})`;
    // (a right turn is drawn over the crossings too: its bend alone would be too short to see)
    const far = CROSSING + ZEBRA;
    const paths = {
      through: `M${X - HALF} ${Y + across} L${X + HALF - 14} ${Y + across}`,
      left: `M${X - HALF} ${Y + across} Q${X + across} ${Y + across} ${X + across} ${Y - HALF + 14}`,
      right: `M${X - far} ${Y + across} L${X - HALF} ${Y + across} Q${X - across} ${Y + across} ${X - across} ${Y + HALF} V${Y + far - 12}`,
    };
    const ends = {
      through: `M${X + HALF - 16} ${Y + across - 9} l14 9 l-14 9 z`,
      left: `M${X + across - 9} ${Y - HALF + 16} l9 -14 l9 14 z`,
      right: `M${X - across - 9} ${Y + far - 14} l9 14 l9 -14 z`,
    };
    const protectedTurn = this.turnOf(kind, number);
    if (kind !== "P" || !this.isArrows(number, lane)) {
      const move = svg("g", { transform: turn, class: `move ${protectedTurn ? "A" : kind}` },
        svg("path", { d: paths[lane.turn], class: "way" }), svg("path", { d: ends[lane.turn], class: "arrow" }));
      this.node.append(move);
      this.moves.push([kind, number, move]);
      if (protectedTurn) this.arrow(number, protectedTurn, lane, across, turn);
      else this.head(kind, number, lane.leg, across, turn);
    }
    if (kind === "P") {
      const places = Array.from({ length: IN_LANE }, (_, at) => point(lane.leg, FIRST + DETECTOR / 2 + at * (DETECTOR + 5), across));
      this.detectors(number, places);
    }
  }

  /** The detectors of a phase, at these places. Where there are more, the last place scrolls through them. */
  detectors(phase, places) {
    const found = Object.entries(this.plan.detectors).filter(([, it]) => it === phase).map(([detector]) => Number(detector));
    const step = found.length > places.length ? places.length - 1 : places.length;
    const nodes = found.map((detector, at) => {
      const [x, y] = places[at % step];
      const node = this.input("vehicle", detector, x, y, DETECTOR, 23);
      this.node.append(node);
      return node;
    });
    if (found.length > places.length) this.scroll(phase, nodes, step, places.at(-1));
  }

  /** What shows so many of these nodes at a time: the next ones at each press, and then the first again. */
  scroll(phase, nodes, step, [x, y]) {
    const count = Math.ceil(nodes.length / step);
    const label = text(x, y, "", "small");
    const node = svg("g", { class: "input more", tabindex: 0, role: "button", id: `more-${phase}` },
      svg("rect", { x: x - DETECTOR / 2, y: y - 11.5, width: DETECTOR, height: 23, rx: 11 }), label);
    const show = (page) => {
      this.pages.set(phase, page);
      nodes.forEach((it, at) => (it.style.display = Math.floor(at / step) === page ? "" : "none"));
      say(label, `${page + 1}/${count}`);
      node.setAttribute("aria-label", `detectors of phase ${phase}: ${page + 1} of ${count}, press for the next`);
    };
    onPress(node, () => show((this.pages.get(phase) + 1) % count), () => {});
    show((this.pages.get(phase) ?? 0) % count);
    this.node.append(node);
  }

  /** A head of three lenses, the red one farthest from the stop line, and its name. */
  head(kind, number, leg, across, turn) {
    const box = svg("rect", {
      x: X - HEAD - 3 * LENS - 3, y: Y + across - LENS / 2 - 3, width: 3 * LENS + 6, height: LENS + 6, rx: 4,
      transform: turn, class: "housing",
    });
    const lenses = LAMPS.map((lamp, at) => {
      const [x, y] = point(leg, HEAD + LENS * (2.5 - at), across);
      const letter = text(x, y, lamp, "letter");
      return [lamp, svg("g", { class: `lens ${lamp}` }, svg("circle", { cx: x, cy: y, r: LENS / 2 - 1 }), letter), letter];
    });
    const [x, y] = point(leg, EDGE - 14, across);
    const name = kind === "P" ? String(number) : `O${number}`;
    this.node.append(svg("g", { role: "img", "aria-label": `head ${kind}${number}`, id: `head-${kind}${number}` },
      box, ...lenses.map(([, lens]) => lens)), text(x, y, name, "phase-name"));
    this.heads.push([kind, number, lenses]);
  }

  /** The head of an arrow: four lenses as arrows, the red one farthest from the stop line, and the name of its turn. */
  arrow(number, phase, { leg, turn }, across, rotated) {
    const box = svg("rect", {
      x: X - HEAD - 4 * ARROW_LENS - 3, y: Y + across - LENS / 2 - 3, width: 4 * ARROW_LENS + 6, height: LENS + 6, rx: 4,
      transform: rotated, class: "housing",
    });
    const lenses = ARROW_LAMPS.map((lamp, at) => {
      const [x, y] = point(leg, HEAD + ARROW_LENS * (3.5 - at), across);
      const letter = text(x, y, lamp, "letter");
      return [lamp, svg("g", { class: `lens ${lamp}` }, arrowLens(x, y, leg, turn), letter), letter];
    });
    const [x, y] = point(leg, EDGE - 14, across);
    this.node.append(svg("g", { role: "img", "aria-label": `arrow O${number} of phase ${phase}`, id: `head-O${number}` },
      svg("title", {}, `overlap ${number}, the flashing yellow arrow of phase ${phase}`),
      box, ...lenses.map(([, lens]) => lens)),
      svg("text", { x, y, class: "phase-name" }, String(phase), svg("tspan", { dx: 2 }, `O${number}`)));
    this.heads.push(["O", number, lenses]);
  }

  /** What has no place: a head in the list at the upper right. */
  listed(kind, number, lane) {
    const x = 530, y = 30 + 34 * this.beside;
    this.beside += 1;
    const isArrow = this.turnOf(kind, number) > 0, step = isArrow ? ARROW_LENS : LENS, lamps = isArrow ? ARROW_LAMPS : LAMPS;
    const lenses = lamps.map((lamp, at) => {
      const at_x = x + 40 + step * at, letter = text(at_x, y, lamp, "letter");
      const shape = isArrow ? arrowLens(at_x, y, "", lane.turn) : svg("circle", { cx: at_x, cy: y, r: LENS / 2 - 1 });
      return [lamp, svg("g", { class: `lens ${lamp}` }, shape, letter), letter];
    });
    this.node.append(text(x, y, kind === "P" ? `${number}` : `O${number}`, "phase-name"),
      svg("rect", { x: x + 28, y: y - LENS / 2 - 3, width: step * lamps.length + 6, height: LENS + 6, rx: 4, class: "housing" }),
      svg("g", { id: `head-${kind}${number}` }, ...lenses.map(([, lens]) => lens)));
    this.heads.push([kind, number, lenses]);
    if (kind === "O") this.node.append(text(x + 114, y, this.included(number), "small"));
    else {
      this.detectors(number, [[x + 106, y], [x + 136, y]]);
    }
  }

  /** The phases that an overlap includes, as 2+3. */
  included(number) {
    const list = this.plan.values.overlapIncludedPhases[number];
    return this.plan.phases.filter((it) => (list >> (it - 1)) & 1).join("+");
  }

  /** A crossing with its signals and the buttons that call it. */
  crossing(number, leg) {
    const group = svg("g", { class: "crossing" });
    let [x, y] = [X, Y], buttons = [[X, Y + 30], [X + 34, Y + 30]];
    if (leg in TURN) {
      for (let across = -HALF + 6; across < HALF; across += 15) {
        group.append(svg("rect", { x: X - CROSSING - ZEBRA, y: Y + across, width: ZEBRA, height: 8 }));
      }
      group.setAttribute("transform", `rotate(${TURN[leg]} ${X} ${Y})`);
      [x, y] = point(leg, STOP + 16, -HALF - 20);
      buttons = [point(leg, STOP + 16, HALF + 20), point(leg, STOP + 46, HALF + 20)];
    } else if (leg === "all") {
      for (const turn of [45, 135]) {
        for (let along = -HALF + 2; along < HALF; along += 15) {
          group.append(svg("rect", {
            x: X + along, y: Y - 9, width: 8, height: 18, transform: `rotate(${turn} ${X} ${Y})`,
          }));
        }
      }
    } else {
      [x, y] = [530, 30 + 34 * this.beside];
      buttons = [[x + 60, y], [x + 92, y]];
      this.beside += 1;
    }
    const letter = text(x, y, "D", "letter");
    const signal = svg("g", { class: "walker", id: `head-W${number}`, role: "img" },
      svg("rect", { x: x - 12, y: y - 12, width: 24, height: 24, rx: 4 }), letter);
    this.node.append(group, signal, text(x, y - 20, `${number} ped`, "small"));
    this.walks.push([number, group, signal, letter]);
    const found = Object.entries(this.plan.buttons).filter(([, phase]) => phase === number);
    found.slice(0, 2).forEach(([button], at) => {
      const [bx, by] = buttons[at];
      this.node.append(this.input("pedestrian", Number(button), bx, by, 26, 26));
    });
  }

  /** A preempt: its switch and its input, in the upper left. */
  preempt(number, at) {
    const y = 24 + Math.min(34, 204 / this.plan.preempts.length) * at;
    const toggle = svg("g", { class: "input switch", tabindex: 0, role: "switch", "aria-label": `switch of preempt ${number}`, id: `switch-${number}` },
      svg("rect", { x: 92, y: y - 12, width: 58, height: 24, rx: 12 }), text(121, y, "switch"));
    const isOn = () => toggle.getAttribute("aria-checked") === "true";
    onPress(toggle, () => this.ask({ do: "switch", number, to: isOn() ? "off" : "on" }), () => {});
    this.node.append(text(48, y, `Preempt ${number}`, "label"), toggle, this.input("preempt", number, 172, y, 30, 24));
    this.switches.push([number, toggle]);
  }

  /** An input of the rows, to press with the pointer or the keyboard. */
  input(kind, number, x, y, width, height) {
    const { begins, letter, name } = KINDS[kind];
    const label = text(x, y, `${letter}${number}`);
    const shape = kind === "pedestrian"
      ? svg("circle", { cx: x, cy: y, r: width / 2 })
      : svg("rect", { x: x - width / 2, y: y - height / 2, width, height, rx: kind === "preempt" ? 12 : 2 });
    const hand = svg("path", { d: `M${x + width / 2 - 8} ${y - height / 2} h8 v8 z`, class: "hand" });
    const node = svg("g", { class: `input ${kind}`, tabindex: 0, role: "button", id: `${kind}-${number}` },
      svg("title", {}, `${name} ${number}: space or enter as the click below says, L to latch, P for a pulse, G to give it back`),
      shape, hand, label);
    const where = begins + number - 1;
    this.inputs.set(where, { kind, number, node, name });
    this.pressed(node, kind, number, where);
    return node;
  }

  pressed(node, kind, number, where) {
    let pressed = null;
    const isOn = () => node.getAttribute("aria-pressed") === "true";
    const latch = () => this.ask({ do: "hold", kind, number, on: !isOn() });
    const pulse = () => this.pulse(kind, number);
    onPress(node, () => {
      const mode = this.mode();
      if (mode === "latch") latch();
      else if (mode === "pulse") pulse();
      else {
        pressed = this.now;
        this.ask({ do: "hold", kind, number, on: true });
      }
    }, () => {
      if (pressed === null) return;
      const was = pressed;
      pressed = null;
      // (a press in which no tick passed is one of a tick)
      this.ask(() => (was === this.now ? { do: "pulse", kind, number, ticks: 1 } : { do: "hold", kind, number, on: false }));
    });
    node.addEventListener("keydown", (event) => {
      const acts = { l: latch, p: pulse, g: () => this.ask({ do: "free", kind, number }) };
      const act = acts[event.key.toLowerCase()];
      if (act && !event.ctrlKey && !event.metaKey && !event.repeat) act();
    });
  }

  /** Lets all inputs go that hands have. */
  freeAll(state) {
    for (const where of Object.keys(state.hands)) {
      const { kind, number } = this.inputs.get(Number(where)) ?? {};
      if (kind) this.ask({ do: "free", kind, number });
    }
  }

  /** Shows a state. */
  show(state) {
    this.now = state.now;
    const [, vehicles, pedestrians] = state.line.split(" ");
    const { overlaps } = state;
    const letterOf = (kind, number) => (kind === "P" ? vehicles : overlaps)[number - 1];
    for (const [kind, number, lenses] of this.heads) this.light(letterOf(kind, number), lenses);
    for (const [kind, number, move] of this.moves) {
      const letter = letterOf(kind, number);
      for (const it of ["G", "Y", "P"]) mark(move, it, letter === it);
    }
    for (const [number, group, signal, letter] of this.walks) {
      const shown = pedestrians[number - 1];
      for (const it of ["W", "C", "D"]) {
        mark(group, it, shown === it);
        mark(signal, it, shown === it);
      }
      say(letter, shown === "-" ? "" : shown);
      signal.setAttribute("aria-label", `pedestrians of phase ${number}: ${shown}`);
    }
    for (const [where, it] of this.inputs) this.shown(where, it, state);
    for (const [number, node] of this.switches) {
      node.setAttribute("aria-checked", state.switches.includes(number));
    }
  }

  light(letter, lenses) {
    for (const [lamp, lens, shown] of lenses) {
      const isLit = letter === lamp || (letter === "F" && lamp === "R");
      mark(lens, "lit", isLit);
      say(shown, letter === "F" && lamp === "R" ? "F" : lamp);
    }
  }

  shown(where, { kind, number, node, name }, state) {
    const isOn = state.row[where] === "1";
    const isActive = kind === "vehicle" && state.active.includes(number);
    const isAlarmed = kind === "vehicle" && state.alarms.includes(number);
    const hand = state.hands[where] !== undefined;
    node.setAttribute("aria-pressed", isOn);
    mark(node, "active", isActive);
    mark(node, "alarm", isAlarmed);
    mark(node, "held", hand);
    const parts = [isOn ? "on" : "off", hand ? "by hand" : "", isActive ? "output on" : "", isAlarmed ? "alarm" : ""];
    node.setAttribute("aria-label", `${name} ${number}: ${parts.filter(Boolean).join(", ")}`);
  }
}
