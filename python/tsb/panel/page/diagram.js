// The phase diagram: a row for each head, read in black and white. Green and walk are
// tall bars, yellow and clearance striped, a flashing yellow arrow striped and broken,
// red and don't walk thin lines. Where a column
// holds more than it can show, the height of its bar is the share of right of way.

import { byId, clock, firstAt } from "./dom.js";

export const GUTTER = 74;
const INK = { G: "#1b7a3d", Y: "#d99a00", R: "#b3261e", W: "#1b7a3d", C: "#d99a00", D: "#8a8a8a", F: "#b3261e" };
const AHEAD = 0.35;

function label(head) {
  if (head === "preempt") return "preempt";
  const number = head.slice(1);
  return { P: number, W: `${number} ped`, O: `overlap ${number}` }[head[0]] ?? head;
}

/** Detectors, buttons and preempt inputs have lower rows. */
const isInput = (head) => /^[DBI]\d/.test(head);

/** A pattern of slanted stripes, so that yellow is told without its colour. */
function striped(context, colour) {
  const tile = document.createElement("canvas");
  tile.width = tile.height = 6;
  const pen = tile.getContext("2d");
  pen.fillStyle = "#fff";
  pen.fillRect(0, 0, 6, 6);
  pen.strokeStyle = colour;
  pen.lineWidth = 2.4;
  for (const at of [-6, 0, 6]) {
    pen.beginPath();
    pen.moveTo(at, 6);
    pen.lineTo(at + 6, 0);
    pen.stroke();
  }
  return context.createPattern(tile, "repeat");
}

export class Diagram {
  constructor(id, row) {
    this.canvas = byId(id);
    this.row = row;
    this.context = this.canvas.getContext("2d");
    this.stripes = { Y: striped(this.context, "#9a6c00"), C: striped(this.context, "#9a6c00") };
    this.seen = null;
  }

  /** The width of what is drawn, in columns of a pixel. */
  get columns() {
    return Math.max(50, Math.min(4000, Math.floor(this.canvas.clientWidth - GUTTER)));
  }

  /** The tick under a point of the canvas. */
  tickAt(x) {
    const { first, last } = this.seen;
    const share = Math.min(1, Math.max(0, (x - GUTTER) / this.columns));
    return Math.round(first + share * (last - first));
  }

  x(tick) {
    const { first, last } = this.seen;
    return GUTTER + ((tick - first) / Math.max(1, last + 1 - first)) * this.columns;
  }

  /** Draws a picture with the present tick in it. */
  draw(picture, now) {
    this.seen = picture;
    const axis = 18;
    const rows = picture.heads.map((it) => (isInput(it.head) ? this.row - 2 : this.row));
    const height = rows.reduce((sum, it) => sum + it, 0) + axis;
    const scale = window.devicePixelRatio || 1;
    const width = this.canvas.clientWidth;
    this.canvas.style.height = `${height}px`;
    this.canvas.width = Math.round(width * scale);
    this.canvas.height = Math.round(height * scale);
    const pen = this.context;
    pen.setTransform(scale, 0, 0, scale, 0, 0);
    pen.clearRect(0, 0, width, height);
    let y = 0;
    picture.heads.forEach((head, at) => {
      this.head(head, y, rows[at] - 2, picture, now);
      y += rows[at];
    });
    this.axis(height - axis, picture);
    this.marks(picture, height - axis);
    const x = Math.round(this.x(now)) + 0.5;
    pen.strokeStyle = "#000";
    pen.lineWidth = 1.5;
    pen.beginPath();
    pen.moveTo(x, 0);
    pen.lineTo(x, height - axis + 4);
    pen.stroke();
  }

  head(head, y, high, picture, now) {
    const pen = this.context;
    if (this.row >= 9) {
      pen.fillStyle = "#000";
      pen.font = `${Math.min(12, high + 2)}px system-ui, sans-serif`;
      pen.textBaseline = "middle";
      pen.textAlign = "right";
      pen.fillText(label(head.head), GUTTER - 6, y + high / 2 + 1);
    }
    if (head.shares) return this.shares(head, y, high, picture, now);
    head.bands.forEach(([tick, letter], at) => {
      const end = at + 1 < head.bands.length ? head.bands[at + 1][0] : picture.known + 1;
      if (isInput(head.head)) this.band(letter, tick, end, y + high / 4, high / 2, now);
      else this.band(letter, tick, end, y, high, now);
    });
  }

  /** A band from one tick to another, paler where it lies ahead of now. */
  band(letter, tick, end, y, high, now) {
    const cut = Math.min(Math.max(now + 1, tick), end);
    this.bar(letter, this.x(tick), this.x(cut), y, high);
    if (cut < end) {
      this.context.globalAlpha = AHEAD;
      this.bar(letter, this.x(cut), this.x(end), y, high);
      this.context.globalAlpha = 1;
    }
  }

  bar(letter, from, to, y, high) {
    const pen = this.context, width = Math.max(to - from, 0.5);
    if (to <= from || letter === "-" || letter === "0") return;
    pen.fillStyle = INK[letter] ?? "#222";
    if (letter === "R" || letter === "D") {
      pen.fillRect(from, y + high - (letter === "R" ? 2 : 1), width, letter === "R" ? 2 : 1);
    } else if (letter === "F") {
      for (let x = from; x < to; x += 6) pen.fillRect(x, y + high / 2, Math.min(3, to - x), high / 2);
    } else if (letter === "P") {
      pen.fillStyle = this.stripes.Y;
      for (let x = from; x < to; x += 9) pen.fillRect(x, y + high * 0.25, Math.min(6, to - x), high * 0.75);
    } else if (this.stripes[letter]) {
      pen.fillStyle = this.stripes[letter];
      pen.fillRect(from, y + (letter === "C" ? high * 0.25 : 0), width, letter === "C" ? high * 0.75 : high);
    } else {
      pen.fillRect(from, y, width, high);
    }
  }

  shares(head, y, high, picture, now) {
    const pen = this.context, column = this.columns / picture.columns;
    const until = this.x(now + 1);
    pen.fillStyle = head.head === "preempt" || isInput(head.head) ? "#222" : INK.G;
    head.shares.forEach((share, at) => {
      if (!share) return;
      const x = GUTTER + at * column, tall = Math.max(1, (high * share) / 100);
      pen.globalAlpha = x < until ? 1 : AHEAD;
      pen.fillRect(x, y + high - tall, Math.max(1, column), tall);
    });
    pen.globalAlpha = 1;
  }

  axis(y, picture) {
    const pen = this.context, span = picture.last - picture.first + 1;
    const steps = [50, 100, 300, 600, 1200, 3000, 6000, 18000, 36000, 72000, 144000, 432000, 864000, 1728000];
    const step = steps.find((it) => span / it <= Math.min(12, this.columns / 80)) ?? 1728000;
    pen.strokeStyle = pen.fillStyle = "#444";
    pen.lineWidth = 1;
    pen.font = "11px system-ui, sans-serif";
    pen.textAlign = "center";
    pen.textBaseline = "bottom";
    const offset = firstAt() - 1;
    for (let tick = Math.ceil((picture.first + offset) / step) * step - offset; tick <= picture.last; tick += step) {
      const x = Math.round(this.x(tick)) + 0.5;
      pen.beginPath();
      pen.moveTo(x, y);
      pen.lineTo(x, y + 4);
      pen.stroke();
      if (x < this.canvas.clientWidth - 20) pen.fillText(clock(tick), x, y + 18);
    }
  }

  /** A triangle and a hairline at each change of a watched value. */
  marks(picture, height) {
    const pen = this.context;
    picture.marks.forEach((watched, at) => {
      for (const tick of watched.ticks) {
        const x = this.x(tick);
        pen.strokeStyle = "rgba(0, 0, 0, 0.45)";
        pen.setLineDash([2, 3]);
        pen.beginPath();
        pen.moveTo(x, 0);
        pen.lineTo(x, height);
        pen.stroke();
        pen.setLineDash([]);
        pen.fillStyle = "#000";
        pen.beginPath();
        pen.moveTo(x - 4, 0);
        pen.lineTo(x + 4, 0);
        pen.lineTo(x, 7);
        pen.fill();
        if (picture.marks.length > 1 && this.row >= 9) {
          pen.font = "10px system-ui, sans-serif";
          pen.textAlign = "left";
          pen.textBaseline = "top";
          pen.fillText(String(at + 1), x + 5, 0);
        }
      }
    });
  }
}
