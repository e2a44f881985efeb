"use strict";
// Fingers and keys on buttons: a tap, a hold, a palm. What harms is held, and neither a slip of a
// finger nor a palm does anything.

const SECOND_PRESS = 3000;
// A button that is held for so long is meant. What cannot be undone takes longer.
const LONG_PRESS = 600;
const END_PRESS = 1200;
const KEY_LIT = 150;
const CLICK_TONE = 1400;
const CLICK_SECONDS = 0.03;

// ---- a press that is felt

let audio = null;

function click() {
  audio ??= new AudioContext();
  const tone = audio.createOscillator();
  const volume = audio.createGain();
  const end = audio.currentTime + CLICK_SECONDS;
  volume.gain.setValueAtTime(0.08, audio.currentTime);
  volume.gain.exponentialRampToValueAtTime(0.001, end);
  tone.frequency.value = CLICK_TONE;
  tone.connect(volume).connect(audio.destination);
  tone.start();
  tone.stop(end);
}

// Answers a finger, where the operator wants that.
function feel() {
  if (savedValue("buzz") === "on") navigator.vibrate?.(15);
  if (savedValue("click") === "on") click();
}

// A key lights its button, as a finger does.
function light(button) {
  button.classList.add("is-lit");
  setTimeout(() => button.classList.remove("is-lit"), KEY_LIT);
}

// ---- the fingers on GO and the buttons beside it

const fingers = new Set();
let isPalm = false;

// Two fingers on them at once are a palm, and nothing is meant until all have left.
function watchFingers(dock) {
  dock.addEventListener("pointerdown", (event) => {
    // No finger was there before the first: whatever the browser forgot to say, GO is never stuck.
    if (event.isPrimary) fingers.clear();
    fingers.add(event.pointerId);
    isPalm = fingers.size > 1;
    if (!isPalm) return;
    document.dispatchEvent(new Event("palm"));
    say("Two buttons at once: nothing was sent");
  }, true);
  for (const left of ["pointerup", "pointercancel"]) {
    // Behind the buttons, which ask for the palm as the finger leaves.
    window.addEventListener(left, (event) => {
      fingers.delete(event.pointerId);
      if (fingers.size === 0) isPalm = false;
    });
  }
}

function isOver(button, event) {
  const box = button.getBoundingClientRect();
  return event.clientX >= box.left && event.clientX <= box.right
    && event.clientY >= box.top && event.clientY <= box.bottom;
}

// Carries out a tap as the finger leaves the button. Not by the click: a browser makes none while
// another finger holds a fader.
function onTap(button, act) {
  let pointer = null;
  button.addEventListener("pointerdown", (event) => {
    pointer = event.button === 0 ? event.pointerId : null;
    feel();
  });
  button.addEventListener("pointerup", (event) => {
    if (event.pointerId === pointer && !isPalm && isOver(button, event)) act(event);
    pointer = null;
  });
  button.addEventListener("pointercancel", () => { pointer = null; });
  // A key, or a screen reader, clicks without a finger.
  button.addEventListener("click", (event) => { if (event.detail === 0) act(event); });
  button.addEventListener("contextmenu", (event) => event.preventDefault());
}

// A button that is held until its ring is full. A finger that slides off takes it back, and so
// does a second one. Enter is held too; a screen reader, which cannot hold, clicks twice.
class Hold {
  constructor(button, time, hint, act) {
    Object.assign(this, { button, time, hint, act });
    Object.assign(this, { timer: 0, hasActed: false, askedAt: -Infinity });
    button.style.setProperty("--hold", `${time}ms`);
    button.addEventListener("pointerdown", (event) => {
      if (event.button === 0 && !isPalm) this.begin();
    });
    button.addEventListener("pointermove", (event) => {
      if (!isOver(button, event)) this.leave();
    });
    for (const left of ["pointerup", "pointercancel", "pointerleave", "blur"]) {
      button.addEventListener(left, () => this.leave());
    }
    document.addEventListener("palm", () => this.leave());
    button.addEventListener("keydown", (event) => this.pressKey(event));
    button.addEventListener("keyup", (event) => this.releaseKey(event));
    button.addEventListener("contextmenu", (event) => event.preventDefault());
    button.addEventListener("click", (event) => this.click(event));
  }

  begin() {
    this.leave();
    this.hasActed = false;
    if (!canPress()) return;
    this.button.classList.add("is-held");
    this.timer = setTimeout(() => this.finish(), this.time);
  }

  leave() {
    clearTimeout(this.timer);
    this.button.classList.remove("is-held");
  }

  finish() {
    this.leave();
    this.hasActed = true;
    feel();
    this.act(performance.now());
  }

  pressKey(event) {
    if (event.key !== "Enter") return;
    event.preventDefault();
    if (!event.repeat) this.begin();
  }

  releaseKey(event) {
    this.leave();
    if (event.key === "Enter") this.explain();
  }

  // Says to a finger or a key that has left too soon what the button wants.
  explain() {
    if (canPress() && !this.hasActed) say(this.hint);
  }

  click(event) {
    if (event.detail !== 0) {
      this.explain();
    } else if (performance.now() - this.askedAt < SECOND_PRESS) {
      this.act(event.timeStamp);
    } else {
      this.askedAt = performance.now();
      say(`${this.hint}, or press once more`);
    }
  }
}

// What is asked for twice, in words on the button.
function askTwice(id, words, carryOut) {
  const button = byId(id);
  const usual = button.textContent;
  button.addEventListener("click", (event) => {
    if (button.dataset.asked) {
      carryOut(event);
      return;
    }
    button.dataset.asked = "yes";
    button.textContent = words;
    setTimeout(() => {
      delete button.dataset.asked;
      button.textContent = usual;
    }, SECOND_PRESS);
  });
}

// Calls `short` at a click, and `long` once the button was held: then no click follows.
function onPress(button, short, long) {
  let timer = 0;
  let wasLong = false;
  const leave = () => {
    clearTimeout(timer);
    button.classList.remove("is-held");
  };
  button.addEventListener("pointerdown", (event) => {
    wasLong = false;
    button.classList.add("is-held");
    timer = setTimeout(() => {
      wasLong = true;
      leave();
      long(event.timeStamp + LONG_PRESS);
    }, LONG_PRESS);
  });
  for (const left of ["pointerup", "pointercancel", "pointerleave"]) {
    button.addEventListener(left, leave);
  }
  button.addEventListener("contextmenu", (event) => event.preventDefault());
  button.addEventListener("click", (event) => {
    // A click by a key has no count: it is short, whatever the last press was.
    if (!wasLong || event.detail === 0) short(event);
    wasLong = false;
  });
}

// Space is GO wherever the focus is. Backspace is BACK, but for who looks for a cue.
function pressKey(event) {
  if (event.ctrlKey || event.altKey || event.metaKey) return;
  if (isFinding() && event.key !== " ") return;
  const line = { " ": "go", Backspace: "back" }[event.key];
  if (line === undefined) return;
  event.preventDefault();
  if (event.type !== "keydown" || event.repeat) return;
  light(byId(line));
  command(line, event.timeStamp);
}
