// What all parts of the page share: elements, times, and events of a press.

const SVG = "http://www.w3.org/2000/svg";

export const byId = (id) => document.getElementById(id);

function filled(node, attributes, children) {
  for (const [name, value] of Object.entries(attributes)) {
    if (name === "on") {
      for (const [event, act] of Object.entries(value)) node.addEventListener(event, act);
    } else if (value === true) {
      node.setAttribute(name, "");
    } else if (value !== false && value !== null && value !== undefined) {
      node.setAttribute(name, value);
    }
  }
  node.append(...children.filter((it) => it !== null));
  return node;
}

/** An element of HTML, with attributes, `on` for events, and children. */
export function el(tag, attributes = {}, ...children) {
  return filled(document.createElement(tag), attributes, children);
}

/** An element of SVG. */
export function svg(tag, attributes = {}, ...children) {
  return filled(document.createElementNS(SVG, tag), attributes, children);
}

/** A text, only where it is another: a screen reader is not told the same again. */
export function say(node, text) {
  if (node.textContent !== text) node.textContent = text;
}

/** A class, on or off. */
export function mark(node, name, on) {
  node.classList.toggle(name, on);
}

/** A time in tenths of a second, as 3.2 s. */
export const seconds = (tenths) => (tenths === null ? "–" : `${(tenths / 10).toFixed(1)} s`);

const DAY = 864000; // tenths of a second
let begun = null; // where a clock is set, the tenths from 1970 to the begin of tick 1

/** A clock shows this moment as the next tick begins, or none is set. */
export function setClock(moment, now) {
  begun = moment === null ? null : Math.round(Date.parse(`${moment.replace(" ", "T")}00Z`) / 100) - now;
}

/** The tenths of a second from midnight to the begin of tick 1. */
export const firstAt = () => (begun === null ? 0 : begun % DAY);

/** The time at which a tick begins, as event logs have it: hours, minutes, seconds and tenths, of the clock where one is set. */
export function clock(tick) {
  const two = (number) => String(number).padStart(2, "0");
  const counted = (firstAt() + Math.max(tick - 1, 0)) % (begun === null ? Infinity : DAY);
  const whole = Math.floor(counted / 10);
  const parts = [Math.floor(whole / 3600), two(Math.floor(whole / 60) % 60), two(whole % 60)];
  return `${parts.join(":")}.${counted % 10}`;
}

/** The day on which a tick begins, and a space; nothing where no clock is set. */
export const day = (tick) => (begun === null ? "" : `${new Date((begun + Math.max(tick - 1, 0)) * 100).toISOString().slice(0, 10)} `);

/** A press that is held, with the pointer or with space and enter: `down`, then `up`. */
export function onPress(node, down, up) {
  let isDown = false;
  const begin = (event) => {
    event.preventDefault();
    if (isDown) return;
    isDown = true;
    node.focus();
    down();
  };
  const end = () => {
    if (!isDown) return;
    isDown = false;
    up();
  };
  node.addEventListener("pointerdown", (event) => {
    if (event.button === 0) {
      if (node.setPointerCapture) node.setPointerCapture(event.pointerId);
      begin(event);
    }
  });
  for (const name of ["pointerup", "pointercancel", "lostpointercapture", "blur"]) {
    node.addEventListener(name, end);
  }
  node.addEventListener("keydown", (event) => {
    if (event.key === " " || event.key === "Enter") begin(event);
  });
  node.addEventListener("keyup", (event) => {
    if (event.key === " " || event.key === "Enter") end();
  });
}
