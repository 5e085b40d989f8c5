// The controller: ring and barrier diagram, rings, waits, pattern, preempts, alarms,
// trip and lamps. All of it is what the bench's status says.

import { byId, el, mark, say, seconds } from "./dom.js";
import { members } from "./numbers.js";

const LETTERS = { P: ["G", "Y", "R"], W: ["W", "C", "D"], O: ["G", "Y", "R", "P"] };
const FREE = 254, ARROW = 2, LIST_MOST = 65535;

export class Controller {
  /** `ask` sends a request, and `told` shows what is wrong with what was typed. */
  constructor(ask, told) {
    this.ask = ask;
    this.phases = new Map();
    byId("select-pattern").addEventListener("click", () => ask({ do: "pattern", number: Number(byId("patterns").value) }));
    byId("reset").addEventListener("click", () => ask({ do: "reset" }));
    byId("head").addEventListener("change", () => this.letters());
    byId("light").addEventListener("click", () => ask({ do: "lamp", head: byId("head").value, lamp: byId("lamp-letter").value }));
    byId("no-lamp").addEventListener("click", () => ask({ do: "nolamp" }));
    byId("omit").addEventListener("click", () => {
      try {
        ask({ do: "omit", number: members(byId("omitted").value, "overlap", LIST_MOST) });
      } catch (fault) {
        told(fault);
      }
    });
  }

  /** Draws what a plan has. */
  draw(plan) {
    this.plan = plan;
    this.sequence = null;
    const names = [0, ...plan.patterns];
    byId("patterns").replaceChildren(...names.map((it) => el("option", { value: it }, it ? `pattern ${it}` : "free operation")));
    const heads = [
      ...plan.phases.map((it) => `P${it}`),
      ...Object.keys(plan.layout.crossings).map((it) => `W${it}`),
      ...Object.keys(plan.layout.overlaps).map((it) => `O${it}`),
    ];
    byId("head").replaceChildren(...heads.map((it) => el("option", { value: it }, it)));
    this.letters();
    const types = plan.values.overlapType ?? {};
    const hasArrow = Object.keys(plan.layout.overlaps).some((it) => types[it] === ARROW);
    for (const id of ["arrows-name", "arrows"]) byId(id).hidden = !hasArrow;
  }

  letters() {
    const kind = byId("head").value[0] ?? "P";
    byId("lamp-letter").replaceChildren(...LETTERS[kind].map((it) => el("option", { value: it }, it)));
  }

  /** Draws the rings in the sequence that is in use. */
  rings(sequence) {
    if (this.sequence === sequence) return;
    this.sequence = sequence;
    this.phases.clear();
    const rows = this.plan.sequences[sequence];
    const sides = [...new Set(rows.flat().map((it) => this.plan.sides[it]))].sort();
    const parts = sides.map((side) => {
      const rings = rows.map((phases) => el("div", { class: "ring" }, ...phases
        .filter((it) => this.plan.sides[it] === side)
        .map((it) => this.phase(it))));
      return el("div", { class: "side" }, ...rings);
    });
    byId("rings").replaceChildren(el("div", { class: "side names" }, ...rows.map((_, at) => el("div", { class: "ring" }, `ring ${at + 1}`))), ...parts);
  }

  phase(number) {
    const letter = el("span", { class: "state" });
    const calls = el("span", { class: "calls" });
    const node = el("div", { class: "phase", id: `phase-${number}` }, el("b", {}, String(number)), letter, calls);
    this.phases.set(number, { node, letter, calls });
    return node;
  }

  show(state) {
    const running = /^pattern (\d+)$/.exec(state.pattern);
    this.rings(running ? this.plan.sequence_of[running[1]] ?? 1 : 1);
    const vehicles = state.line.split(" ")[1];
    for (const [number, { node, letter, calls }] of this.phases) {
      const isOn = state.on.includes(number), isNext = state.next.includes(number);
      const shown = vehicles[number - 1];
      for (const it of ["G", "Y", "R", "F"]) mark(node, it, shown === it);
      mark(node, "on", isOn);
      mark(node, "next", isNext);
      say(letter, isNext && !isOn ? "next" : isOn && shown === "R" ? "clears" : shown);
      const marks = [state.vehicle_calls.includes(number) ? "V" : "", state.pedestrian_calls.includes(number) ? "P" : ""];
      say(calls, marks.join(" ").trim());
      calls.title = "V: vehicle call, P: pedestrian call";
      const words = [`phase ${number}`, shown, isNext ? "next" : "", calls.textContent ? `called ${calls.textContent}` : ""];
      node.setAttribute("aria-label", words.filter(Boolean).join(", "));
    }
    this.left(state.rings);
    byId("waits").replaceChildren(...(state.waits.length
      ? state.waits.map((it) => el("li", { id: `wait-${it.phase}` }, el("b", {}, `Phase ${it.phase}`), ` waits for ${it.says}`))
      : [el("li", { class: "none" }, "no phase waits")]));
    this.facts(state);
  }

  left(rings) {
    const body = byId("ring-status").tBodies[0];
    const rows = [["status", rings.map((it) => it.says)]];
    for (const name of Object.keys(rings[0].left)) {
      rows.push([name, rings.map((it) => {
        const left = it.left[name];
        return name === "gap" && left !== null ? `${seconds(left)} of ${seconds(it.gap)}` : seconds(left);
      })]);
    }
    while (body.rows.length < rows.length) {
      const at = body.rows.length;
      body.append(el("tr", { class: at ? "" : "says" }, el("th", { scope: "row" }), el("td", { id: `ring-1-${at}` }), el("td", { id: `ring-2-${at}` })));
    }
    rows.forEach(([name, cells], at) => {
      const row = body.rows[at];
      say(row.cells[0], name);
      cells.forEach((it, ring) => {
        say(row.cells[ring + 1], it);
        mark(row.cells[ring + 1], "off", it === "–");
      });
    });
  }

  facts(state) {
    const local = state.local === null ? "" : `, local counter ${seconds(state.local)}`;
    say(byId("pattern"), `${state.pattern}${local}`);
    const preempts = this.plan.preempts.map((it) => `${it}: ${state.preempts[it - 1]}`);
    say(byId("preempts"), preempts.join("; ") || "none in this plan");
    say(byId("alarms"), state.alarms.length ? `detectors ${state.alarms.join(", ")}` : "none");
    say(byId("flashing"), state.flashing.length ? `overlaps ${state.flashing.join(", ")} flash` : "none flashes");
    say(byId("flash"), state.flash);
    say(byId("lamp"), state.lamp === null ? "none is lit" : `${state.lamp} is lit`);
    byId("reset").disabled = !state.tripped;
  }
}
