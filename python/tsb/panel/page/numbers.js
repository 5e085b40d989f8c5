// Numbers as they are typed: what is none is told in words, and asked of nobody.

/** What was typed and is none: what to enter. */
export class Typed extends Error {
  constructor(what, cure) {
    super(what);
    this.told = { title: "this was not done", text: what, cause: "", cure };
  }
}

/** A number with commas between thousands. */
const long = (number) => String(number).replace(/\B(?=(\d{3})+$)/g, ",");

/** The whole number of a field, from one to another; `name` is what it is called. */
export function whole(text, name, low, high) {
  const typed = text.trim();
  const number = Number(typed);
  const cure = `enter ${name} from ${long(low)} to ${long(high)}`;
  if (!typed) throw new Typed(`${name} is empty`, cure);
  if (!/^[-+]?\d+$/.test(typed)) throw new Typed(`${typed} is no whole number`, cure);
  if (number < low || number > high) throw new Typed(`${typed} is not in this range`, cure);
  return number;
}

/** The ticks of a time in seconds that is typed, as 0.5, from one to another. */
export function ticks(text, name, low, high) {
  const typed = text.trim(), cure = `enter ${name} from ${long(low / 10)} to ${long(high / 10)} s, with one decimal at most`;
  if (!typed) throw new Typed(`${name} is empty`, cure);
  const found = /^[-+]?(\d+(\.\d?0*)?|\.\d0*)$/.test(typed) ? Math.round(10 * Number(typed)) : NaN;
  if (!(found >= low && found <= high)) throw new Typed(`${typed} s is no such time`, cure);
  return found;
}

/** The day, if there is one, and the time that are typed, as 7:42:10 or 2026-11-22 7:42, as commands have them. */
export function moment(text, isDated) {
  const typed = text.trim(), form = isDated ? "2026-11-22 7:42:10" : "7:42:10, or with its day as 2026-11-22 7:42:10";
  const found = /^(?:(\d{4}-\d\d-\d\d)[ T]+)?(\d\d?):(\d\d)(?::(\d\d(?:\.\d)?))?$/.exec(typed);
  if (!found || (isDated && !found[1])) throw new Typed(`${typed || "nothing"} is no ${isDated ? "day and time" : "time"}`, `enter it as ${form}`);
  return { day: found[1], time: `${found[2].padStart(2, "0")}:${found[3]}:${found[4] ?? "00"}` };
}

/** The number of a list of phases or overlaps: as 2,6, or as `= 34` the number itself. */
export function members(text, name, high) {
  const typed = text.trim();
  if (typed.startsWith("=")) return whole(typed.slice(1), "the number behind =", 0, high);
  const cure = `enter ${name}s with commas between, as 2,6; 0 for none; or = and their number, as =34`;
  const parts = typed.split(/[,;\s]+/).filter((part) => part);
  if (!parts.length) throw new Typed(`the list of ${name}s is empty`, cure);
  let found = 0;
  for (const it of parts) {
    const number = Number(it);
    if (!/^\d+$/.test(it) || number > 16) throw new Typed(`${it} is no ${name}`, cure);
    if (number === 0 && typed !== "0") throw new Typed(`0 is no ${name}`, cure);
    if (number) found += ((found >> (number - 1)) & 1) ? 0 : 2 ** (number - 1);
  }
  if (found > high) throw new Typed(`${typed} is no list of this object`, cure);
  return found;
}

/** What a value is a list of, as phase; nothing of other units. */
export const memberOf = (unit) => /^list of (.+)s$/.exec(unit ?? "")?.[1] ?? "";

/** The members of a list that has this number, as they are typed. */
export function listed(number) {
  const found = Array.from({ length: 16 }, (_, at) => at + 1).filter((it) => (number >> (it - 1)) & 1);
  return found.join(",") || "0";
}
