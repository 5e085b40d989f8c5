// The page: one request at a time goes to the bench, and each answer is shown.

import { Controller } from "./controller.js";
import { Desk } from "./desk.js";
import { Diagram } from "./diagram.js";
import { byId, clock, day, el, say, setClock } from "./dom.js";
import { Intersection } from "./intersection.js";
import { moment, ticks, whole } from "./numbers.js";

const WAITING_MOST = 40; // requests that wait for an earlier one
const LAST_TICK = 6000000;
const PULSE_MOST = 36000; // ticks
// What was asked at the desk or at what is kept is answered there too.
const BESIDE = {
  begin: "desk-said", set: "desk-said", verify: "desk-said", commit: "desk-said", abort: "desk-said",
  save: "keep-said", load: "keep-said", undo: "time-said", drop: "time-said", go: "time-said", mark: "time-said",
  find: "time-said", clock: "time-said",
};
const BEAT = 50, SELDOM = 400, ALIVE = 20000; // milliseconds
const WATCHES = {
  interval: "interval of phase", ped: "pedestrian part of phase", call: "call of phase", output: "output of detector",
  alarm: "alarm of detector", input: "input of detector", button: "button", preempt: "input of preempt",
  stage: "preempt and stage", trip: "trip",
};

/** What was asked and could not be: the server's own words. */
class Fault extends Error {
  constructor(told) {
    super(told.title);
    this.told = told;
  }
}

async function post(path, body) {
  let answer;
  try {
    answer = await fetch(path, { method: "POST", headers: { "Content-Type": "application/json" }, body: JSON.stringify(body) });
  } catch {
    throw new Fault({ title: "the panel does not answer", text: "its program may have ended", cause: "", cure: "start it again, and open the address that it prints; runs that were saved are as they were" });
  }
  if (answer.ok) return answer;
  const none = { title: "the panel has a fault", text: `it answered ${answer.status}`, cause: "", cure: "look at what its program has written" };
  throw new Fault((await answer.json().catch(() => ({}))).fault ?? none);
}

class Page {
  constructor() {
    this.waiting = [];
    this.isAsking = false;
    this.speed = 0;
    this.plan = 0;
    this.state = null;
    this.overviewAt = 0;
    this.target = null;
    const ask = (what) => this.ask(what);
    this.intersection = new Intersection(ask, () => this.mode(), (kind, number) => this.pulse(kind, number));
    this.controller = new Controller(ask, (fault) => this.told(fault));
    this.beside = null;
    this.desk = new Desk(ask, (fault) => this.toldBeside("desk-said", fault));
    this.detail = new Diagram("detail", 13);
    this.overview = new Diagram("overview", 10);
    this.listen();
  }

  mode() {
    return document.querySelector("input[name=mode]:checked").value;
  }

  pulse(kind, number) {
    this.tried("pulse-said", () => {
      this.ask({ do: "pulse", kind, number, ticks: ticks(byId("pulse").value, "a pulse", 1, PULSE_MOST) });
    });
  }

  // Asking

  async open() {
    const session = sessionStorage.getItem("session");
    try {
      const opened = await (await post("open", { session })).json();
      sessionStorage.setItem("session", opened.session);
      this.page = opened.page;
      this.desk.objects(opened.objects);
      this.runs(opened.runs);
      say(byId("folder"), `Runs are kept in ${opened.folder}, each with plan.json, run.log and run.commands: tsb run plan.json run.log < run.commands gives its lines again.`);
      this.show(opened);
      say(byId("said"), opened.said);
      await this.ask({ do: "look" });
    } catch (fault) {
      this.told(fault);
    }
  }

  /** Asks the bench, after what was asked before. `what` is a request, or gives one. */
  ask(what) {
    if (this.waiting.length >= WAITING_MOST) return Promise.resolve();
    return new Promise((done) => {
      this.waiting.push([what, done]);
      document.querySelector("main").setAttribute("aria-busy", true);
      this.next();
    });
  }

  async next() {
    if (this.isAsking || !this.waiting.length || !this.page) return;
    this.isAsking = true;
    const [what, done] = this.waiting.shift();
    const request = typeof what === "function" ? what() : what;
    const slow = setTimeout(() => (byId("busy").hidden = false), 300);
    try {
      if (request.do !== "advance" && request.do !== "look") this.clear();
      this.beside = BESIDE[request.do] ?? null;
      const body = { ...request, page: this.page, plan: this.plan, ...this.views(request) };
      this.show(await (await post("ask", body)).json());
    } catch (fault) {
      this.told(fault);
    }
    clearTimeout(slow);
    byId("busy").hidden = true;
    this.isAsking = false;
    if (!this.waiting.length) document.querySelector("main").removeAttribute("aria-busy");
    done();
    this.next();
  }

  /** What the page looks at: what is around now, and now and then the whole run. */
  views(request) {
    const span = Number(byId("zoom").value), now = this.expected(request);
    const first = Math.max(0, Math.round(now - 0.75 * span));
    const found = { view: { first, last: Math.min(first + span, LAST_TICK), columns: this.detail.columns } };
    const time = performance.now();
    if (request.do !== "advance" || time - this.overviewAt > SELDOM) {
      this.overviewAt = time;
      found.overview = this.overview.columns;
    }
    return found;
  }

  /** The tick at which a request will leave the bench, or nearly. */
  expected(request) {
    const now = this.state?.now ?? 0;
    if (request.do === "go") return request.tick;
    if (request.do === "advance" && request.ticks < 1000) return now + request.ticks;
    return now;
  }

  // Showing

  show(answer) {
    if (answer.plan) {
      this.plan = answer.plan.serial;
      this.intersection.draw(answer.plan);
      this.controller.draw(answer.plan);
      this.desk.draw(answer.plan);
    }
    if (answer.runs) this.runs(answer.runs);
    if (answer.state?.line) this.shown(answer.state);
    if (answer.view) this.detail.draw(answer.view, this.state.now);
    if (answer.overview) this.overview.draw(answer.overview, this.state.now);
    if (answer.view) this.chips(answer.view.marks);
    this.found = answer.target ?? null;
    if (answer.said) say(byId("said"), answer.said);
    if (answer.said && this.beside) say(byId(this.beside), answer.said);
    if (answer.fault) this.told(new Fault(answer.fault));
    if (answer.state?.died) this.died(answer.state.died);
  }

  shown(state) {
    this.state = state;
    say(byId("source"), state.source);
    document.title = `${state.source} – tsb panel`;
    setClock(state.clock, state.now);
    say(byId("tick"), String(state.now));
    say(byId("clock"), day(state.now) + clock(state.now));
    if (this.firstDay !== day(1) + clock(1) && day(1)) byId("begin-time").value = day(1) + clock(1).padStart(10, "0");
    this.firstDay = day(1) + clock(1);
    say(byId("line"), state.line);
    byId("trip").hidden = !state.tripped;
    byId("unsaved").hidden = state.saved;
    this.intersection.show(state);
    this.controller.show(state);
    this.desk.show(state);
    const scrubber = byId("scrubber");
    scrubber.max = state.end;
    if (this.target === null) scrubber.value = state.now;
    scrubber.setAttribute("aria-valuetext", `tick ${state.now}, ${clock(state.now)}`);
    const ahead = state.end - state.now;
    byId("drop").hidden = !ahead;
    say(byId("ahead"), ahead ? `${ahead} ticks lie ahead: they are taken again as they were, until something is changed here.` : "");
    this.given(state);
  }

  given(state) {
    const last = state.given.at(-1);
    const seen = `${state.given_count} ${last?.tick} ${last?.line}`;
    if (this.givenSeen === seen) return;
    this.givenSeen = seen;
    const rows = state.given.map((it) => el("li", {},
      el("button", { type: "button", class: "link", on: { click: () => this.go(it.tick) } }, `tick ${it.tick}`), ` ${it.line}`));
    byId("given").replaceChildren(...rows.reverse());
  }

  chips(marks) {
    const seen = JSON.stringify(marks.map((it) => [it.name, it.count]));
    if (this.marksSeen === seen) return;
    this.marksSeen = seen;
    const changes = (count) => (count === 1 ? "1 change" : `${count} changes`);
    byId("marks").replaceChildren(...marks.map((it, at) => el("li", {}, `${at + 1}: ${it.name}, ${changes(it.count)} `,
      el("button", { type: "button", "aria-label": `mark ${it.name} no more`, on: { click: () => this.ask({ do: "mark", watch: it.watch, number: it.number, on: false }) } }, "✕"))));
  }

  runs(names) {
    byId("runs").replaceChildren(...names.map((it) => el("option", { value: it }, it)));
    byId("load").disabled = !names.length;
  }

  /** Shows what went wrong. */
  told(fault) {
    this.pause();
    const { title, text, cause, cure } = fault.told ?? { title: "the page has a fault", text: String(fault), cause: "", cure: "reload it" };
    byId("message").hidden = false;
    say(byId("message-title"), title);
    say(byId("message-text"), text);
    say(byId("message-cause"), cause ? `Usual cause: ${cause}.` : "");
    say(byId("message-cure"), cure ? `Cure: ${cure}.` : "");
    if (this.beside) say(byId(this.beside), [title, text, cure && `Cure: ${cure}.`].filter((it) => it).join(": "));
  }

  /** Shows what went wrong with what was typed, beside its button too. */
  toldBeside(id, fault) {
    this.clear();
    this.beside = id;
    this.told(fault);
    this.beside = null;
  }

  /** Does what a field asks for, or tells what to enter in it. */
  tried(id, act) {
    try {
      act();
    } catch (fault) {
      this.toldBeside(id, fault);
    }
  }

  died(how) {
    if (byId("message").hidden) this.told(new Fault({ title: "the bench has ended", text: how, cause: "", cure: "start it again" }));
    byId("again").hidden = false;
  }

  clear() {
    byId("message").hidden = true;
    byId("again").hidden = true;
    for (const id of ["said", "desk-said", "keep-said", "pulse-said", "time-said"]) say(byId(id), "");
  }

  // Time

  play(speed) {
    this.speed = speed;
    this.played = performance.now();
    // (as fast as it goes, it goes to the end of the log, or of what lies ahead)
    const { now = 0, end = 0, log_end = 0 } = this.state ?? {};
    this.until = Math.max(end, log_end) > now ? Math.max(end, log_end) : LAST_TICK;
    for (const [id, its] of [["pause", 0], ["play1", 1], ["play10", 10], ["playfast", Infinity]]) {
      byId(id).setAttribute("aria-pressed", its === speed);
    }
  }

  pause() {
    this.play(0);
  }

  /** Takes the ticks that are due. */
  beat() {
    if (!this.speed || this.isAsking || this.waiting.length || this.target !== null) return;
    if (this.speed === Infinity) {
      const left = this.until - this.state.now;
      if (left > 0) this.ask({ do: "advance", ticks: Math.min(100000, left) });
      else this.stopped();
      return;
    }
    const due = Math.floor(((performance.now() - this.played) / 100) * this.speed);
    if (due < 1) return;
    this.played += (due * 100) / this.speed;
    // (a page that slept does not catch up)
    this.ask({ do: "advance", ticks: Math.min(due, 60 * this.speed) });
  }

  /** Fast has come to where it ends. */
  stopped() {
    const { now, log_end } = this.state;
    this.pause();
    const where = now === LAST_TICK ? "the last one that there is" : now === log_end ? "where the log ends" : "the end of what lay ahead";
    for (const id of ["said", "time-said"]) say(byId(id), `stopped at tick ${now}, ${where}`);
  }

  /** Goes to a tick, in as many steps as it takes; a newer one takes its place. */
  async go(tick) {
    this.pause();
    const isGoing = this.target !== null;
    this.target = tick;
    if (isGoing) return;
    for (let before = null; this.target !== null; ) {
      const target = this.target;
      await this.ask({ do: "go", tick: target });
      const now = this.state?.now;
      const isThere = now === target || (now === before && target === this.target) || !byId("message").hidden;
      if (isThere && this.target === target) this.target = null;
      before = now;
    }
    byId("scrubber").value = this.state.now;
  }

  /** Goes to a tick, or to the one that begins at a time of the clock. */
  goThere(text) {
    if (!text.includes(":")) {
      this.go(whole(text, "a tick", 0, LAST_TICK));
      return;
    }
    const { day: of, time } = moment(text, false);
    this.pause();
    this.found = null;
    this.ask({ do: "find", moment: of ? `${of} ${time}` : time }).then(() => this.found !== null && this.go(this.found));
  }

  step(ticks) {
    this.pause();
    if (ticks > 0) this.ask({ do: "advance", ticks });
    else this.ask(() => ({ do: "go", tick: Math.max(0, this.state.now + ticks) }));
  }

  listen() {
    const onClick = (id, act) => byId(id).addEventListener("click", act);
    onClick("pause", () => this.pause());
    onClick("play1", () => this.play(1));
    onClick("play10", () => this.play(10));
    onClick("playfast", () => this.play(Infinity));
    onClick("tick-on", () => this.step(1));
    onClick("tick-back", () => this.step(-1));
    onClick("go-there", () => this.tried("time-said", () => this.goThere(byId("go").value)));
    onClick("set-clock", () => this.tried("time-said", () => this.ask({ do: "clock", ...moment(byId("clock-to").value, true) })));
    onClick("undo", () => this.ask({ do: "undo" }));
    onClick("drop", () => this.ask({ do: "drop" }));
    onClick("message-close", () => this.clear());
    onClick("again", () => this.ask({ do: "again" }));
    onClick("free-all", () => this.intersection.freeAll(this.state));
    byId("scrubber").addEventListener("input", () => this.go(Number(byId("scrubber").value)));
    byId("zoom").addEventListener("change", () => this.ask({ do: "look" }));
    for (const diagram of [this.detail, this.overview]) {
      diagram.canvas.addEventListener("click", (event) => {
        const x = event.clientX - diagram.canvas.getBoundingClientRect().left;
        this.go(Math.min(diagram.tickAt(x), this.state.end));
      });
    }
    window.addEventListener("resize", () => this.ask({ do: "look" }));
    document.addEventListener("keydown", (event) => this.key(event));
    this.listenMarks();
    this.listenKeep();
    window.addEventListener("beforeunload", (event) => {
      if (this.state && !this.state.saved && this.state.end) event.preventDefault();
    });
    window.addEventListener("pagehide", () => {
      const body = JSON.stringify({ page: this.page });
      fetch("leave", { method: "POST", headers: { "Content-Type": "application/json" }, body, keepalive: true });
    });
    setInterval(() => this.beat(), BEAT);
    setInterval(() => !this.speed && this.ask({ do: "look" }), ALIVE);
    this.pause();
  }

  key(event) {
    const isTyped = event.target.closest("input, select, textarea, button, [role=button], [role=switch]");
    if (event.ctrlKey || event.metaKey || event.altKey) return;
    if (event.key === " " && !isTyped) {
      event.preventDefault();
      this.play(this.speed ? 0 : 1);
    } else if (!event.target.closest("input, select, textarea") && [",", "."].includes(event.key)) {
      this.step(event.key === "." ? 1 : -1);
    }
  }

  listenMarks() {
    byId("watch").append(...Object.entries(WATCHES).map(([value, name]) => el("option", { value }, name)));
    const isOne = () => ["stage", "trip"].includes(byId("watch").value);
    byId("watch").addEventListener("change", () => (byId("watch-number").disabled = isOne()));
    byId("mark").addEventListener("click", () => {
      this.tried("time-said", () => {
        const number = isOne() ? 0 : whole(byId("watch-number").value, "a number", 1, 64);
        this.ask({ do: "mark", watch: byId("watch").value, number, on: true });
      });
    });
  }

  // Keeping

  listenKeep() {
    byId("save-form").addEventListener("submit", (event) => {
      event.preventDefault();
      this.ask({ do: "save", name: byId("name").value });
    });
    byId("load").addEventListener("click", () => {
      const isSure = this.state.saved || window.confirm("This run is not saved, and would be dropped. Load the other?");
      if (isSure) this.ask({ do: "load", name: byId("runs").value });
    });
    byId("events").addEventListener("click", () => this.fetched("events.csv", { begin: byId("begin-time").value, device: byId("device").value }));
    byId("diagram").addEventListener("click", () => this.tried("keep-said", () => {
      this.fetched("diagram.svg", { seconds: whole(byId("seconds").value, "the seconds of a line", 1, 86400) });
    }));
    byId("plan").addEventListener("click", () => this.fetched("plan.json", {}));
  }

  /** Has a file made, and hands it to the browser. */
  async fetched(name, more) {
    this.pause();
    this.clear();
    await this.ask({ do: "look" });
    this.isAsking = true;
    try {
      const answer = await post(name, { page: this.page, ...more });
      const link = el("a", { href: URL.createObjectURL(await answer.blob()), download: name });
      document.body.append(link);
      link.click();
      link.remove();
      URL.revokeObjectURL(link.href);
      for (const id of ["said", "keep-said"]) say(byId(id), `${name}: made up to tick ${this.state.now}`);
    } catch (fault) {
      this.told(fault);
    }
    this.isAsking = false;
    this.next();
  }
}

const page = new Page();
page.open();
