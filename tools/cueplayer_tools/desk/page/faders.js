"use strict";
// Faders: a page moves them at once, and they rest where the program says. Only the knob moves
// one, from where it stands: a finger that scrolls over a track, or taps it, moves nothing.

const FADER_REST = 500;
const FADER_FULL = 255;
// A finger has to go so far to the side before a knob follows it.
const KNOB_SLOP = 6;

const percent = (level) => `${Math.round(level * 100 / FADER_FULL)} %`;

function part(kind, className) {
  const each = document.createElement(kind);
  each.className = className;
  return each;
}

class Fader {
  constructor(line, name, usual) {
    this.line = line;
    this.name = name;
    this.usual = usual;
    this.wanted = null;
    this.wantedAt = 0;
    this.isSending = false;
    this.grip = null;
    this.restAt = 0;
    this.input = part("input", "level");
    Object.assign(this.input, { type: "range", min: 0, max: FADER_FULL, step: 1 });
    this.input.id = line.replace(" ", "-");
    this.label = part("label", "name");
    this.label.htmlFor = this.input.id;
    this.label.textContent = name;
    this.output = part("output", "share");
    this.track = part("div", "track");
    this.knob = part("div", "knob");
    this.track.append(this.input, part("div", "groove"), part("div", "filled"), this.knob);
    this.row = part("div", "fader");
    this.row.append(this.label, this.output, this.track);
    this.input.addEventListener("input", (event) => this.move(event.timeStamp));
    for (const left of ["blur", "change"]) this.input.addEventListener(left, () => this.rest());
    this.knob.addEventListener("pointerdown", (event) => this.take(event));
    this.knob.addEventListener("pointermove", (event) => this.drag(event));
    for (const left of ["pointerup", "pointercancel"]) {
      this.knob.addEventListener(left, () => this.leave());
    }
    this.show();
  }

  level() {
    if (page.state === null) return this.usual;
    return this.line === "master" ? page.state.grand : page.state.masters[this.line] ?? this.usual;
  }

  isAtRest() {
    return this.level() === this.usual;
  }

  take(event) {
    if (event.button !== 0 || this.input.disabled || isDead() || this.grip) return;
    this.knob.setPointerCapture(event.pointerId);
    this.grip = { x: event.clientX, y: event.clientY, level: Number(this.input.value) };
    this.row.classList.add("is-held");
  }

  drag(event) {
    const { grip } = this;
    if (!grip) return;
    if (!grip.isMoving) {
      const [across, along] = [event.clientX - grip.x, event.clientY - grip.y].map(Math.abs);
      if (across < KNOB_SLOP || along > across) return;
      // From here on, so that nothing jumps.
      Object.assign(grip, { isMoving: true, x: event.clientX });
    }
    const way = this.track.clientWidth - this.knob.offsetWidth;
    const level = grip.level + (event.clientX - grip.x) * FADER_FULL / way;
    const whole = Math.round(Math.min(Math.max(level, 0), FADER_FULL));
    if (whole === Number(this.input.value)) return;
    this.input.value = whole;
    this.move(event.timeStamp);
  }

  leave() {
    if (!this.grip) return;
    this.grip = null;
    this.row.classList.remove("is-held");
    this.rest();
  }

  async move(at) {
    this.wanted = Number(this.input.value);
    this.wantedAt = at;
    this.place();
    if (this.isSending) return;
    this.isSending = true;
    while (this.wanted !== null) {
      const level = this.wanted.toString(16).padStart(2, "0");
      this.wanted = null;
      await command(`${this.line} H${level}`, this.wantedAt);
    }
    this.isSending = false;
    this.rest();
  }

  rest() {
    this.restAt = performance.now() + FADER_REST;
    setTimeout(() => this.show(), FADER_REST + 10);
  }

  place() {
    this.track.style.setProperty("--at", Number(this.input.value) / FADER_FULL);
  }

  show() {
    const level = this.level();
    this.output.textContent = percent(level);
    this.input.setAttribute("aria-valuetext", percent(level));
    this.row.classList.toggle("is-off-rest", !this.isAtRest());
    const isFree = !this.grip && !this.isSending && performance.now() >= this.restAt;
    if (isFree) this.input.value = level;
    this.place();
  }
}

function buildFaders(faders) {
  page.faders = [new Fader("master", "Grand master", FADER_FULL)];
  for (const { line, name } of faders) page.faders.push(new Fader(line, `${line} ${name}`, 0));
  byId("faders").replaceChildren(...page.faders.map((fader) => fader.row));
}

// In each view: the masters that are not at rest, the grand master first.
function showRest() {
  const off = page.state === null ? [] : page.faders.filter((fader) => !fader.isAtRest());
  const words = off.map((fader) => {
    const isDark = fader.line === "master" && fader.level() === 0;
    return isDark ? "BLACKOUT IS ON" : `${fader.name.trim()} ${percent(fader.level())}`;
  });
  const rest = byId("rest");
  if (rest.dataset.words === words.join("\n")) return;
  rest.dataset.words = words.join("\n");
  const shown = words.slice(0, 2);
  if (words.length > 2) shown.push(`+${words.length - 2}`);
  rest.replaceChildren(...shown.map((each) => {
    const button = part("button", each === "BLACKOUT IS ON" ? "is-dark" : "");
    button.type = "button";
    button.textContent = each;
    button.addEventListener("click", () => showView("masters"));
    return button;
  }));
}
