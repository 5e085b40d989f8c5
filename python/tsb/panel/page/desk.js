// The desk: a station's transaction, by the names, units and ranges of the manual.

import { byId, el, mark, say } from "./dom.js";
import { listed, memberOf, members, whole } from "./numbers.js";

const NUMBER_MOST = 2 ** 32 - 1; // the greatest number that a command can have

/** A value with its unit; a list by the numbers of its members too. */
function inUnit(value, unit) {
  const name = memberOf(unit);
  if (!name) return `${value} (${unit})`;
  return `${value} (${name}s ${value ? listed(value).replaceAll(",", ", ") : "none"})`;
}

/** What an index that is a table's or a sequence's means, as `18 is table 2, phase 2`. */
function parts(it, index) {
  if (!it.parts.length || !/^\d+$/.test(index) || index < 1 || index > it.count) return "";
  let left = index - 1;
  const found = it.parts.map(([name, , step]) => {
    const number = Math.floor(left / step) + 1;
    left %= step;
    return `${name} ${number}`;
  });
  return `Index ${index} is ${found.join(", ")}. `;
}

export class Desk {
  constructor(ask, told) {
    this.ask = ask;
    const station = () => Number(byId("station").value);
    for (const word of ["begin", "verify", "commit", "abort"]) {
      byId(word).addEventListener("click", () => ask({ do: word, station: station() }));
    }
    byId("set-form").addEventListener("submit", (event) => {
      event.preventDefault();
      try {
        ask({ do: "set", station: station(), ...this.typed() });
      } catch (fault) {
        told(fault);
      }
    });
    for (const id of ["object", "index"]) byId(id).addEventListener("input", () => this.describe());
  }

  /** What is typed of a value: its object, index and number. */
  typed() {
    const name = byId("object").value, text = byId("value").value;
    // (what is out of the range of an object, the bench refuses in its own words)
    const index = whole(byId("index").value, "an index", 0, NUMBER_MOST);
    const member = memberOf(this.all[name]?.unit);
    return { name, index, value: member ? members(text, member, NUMBER_MOST) : whole(text, "a value", 0, NUMBER_MOST) };
  }

  /** The objects that there are. */
  objects(objects) {
    this.all = objects;
    byId("object").replaceChildren(...Object.keys(objects).map((it) => el("option", { value: it }, it)));
    byId("object").value = "phaseMaximum1";
  }

  /** A plan's values are those in effect. */
  draw(plan) {
    this.plan = plan;
    this.describe();
    const changes = plan.committed;
    say(byId("committed-says"), changes.length ? "" : "The plan in effect is that of the file.");
    byId("committed").hidden = !changes.length;
    byId("committed").tBodies[0].replaceChildren(...changes.map((it) => el("tr", {},
      el("td", {}, it.name), el("td", {}, this.named({ object: it.name, index: it.index })),
      el("td", {}, inUnit(it.before, it.unit)), el("td", {}, inUnit(it.after, it.unit)))));
  }

  describe() {
    const name = byId("object").value, it = this.all[name];
    if (!it) return;
    say(byId("index-name"), it.index);
    byId("index").max = it.count;
    const now = this.plan?.values[name]?.[byId("index").value] ?? 0;
    const rest = it.structural ? " A commit changes it only while nothing is in service." : "";
    say(byId("object-says"), `${it.meaning}. ${parts(it, byId("index").value)}Index 1 to ${it.count}, value ${it.range}; in effect: ${inUnit(now, it.unit)}.${rest}`);
    const shown = memberOf(it.unit) ? listed(now) : String(now);
    if (document.activeElement !== byId("value")) byId("value").value = shown;
  }

  /** The index of an edit, with what it means. */
  named({ object, index }) {
    const said = parts(this.all[object], String(index));
    return said ? `${index} (${said.replace(/.* is |\. $/g, "")})` : String(index);
  }

  show(state) {
    const { owner, says, rule, places, edits } = state.desk;
    say(byId("desk-state"), owner === null ? says : `station ${owner}: ${says}`);
    const rows = edits.map((it) => el("tr", {},
      el("td", {}, it.object), el("td", {}, this.named(it)), el("td", {}, inUnit(it.value, it.unit))));
    byId("edits").tBodies[0].replaceChildren(...rows);
    const at = places.map((it) => `${it}. `).join("");
    say(byId("rule"), rule === null ? "" : `Rule ${rule.name}: ${at}${rule.holds} Usual cause: ${rule.cause}. Cure: ${rule.cure}.`);
    mark(byId("rule"), "warned", rule !== null);
  }
}
