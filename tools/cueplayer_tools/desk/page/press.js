"use strict";
// What is pressed goes to the desk as a line, and its answer comes as an event. A press has a
// second, and counts for the state that was shown when it was made.

// A page that hears nothing for so long is dead: its buttons are grey, and a press does nothing.
const SILENCE = 2000;
const STATES_KEPT = 5000;
// What is pressed is sent within a second, or not at all.
const PRESS_DEADLINE = 1000;
// Clocks run apart, so what was heard of the desk's is not kept for long.
const CLOCK_KEPT = 30000;

const byId = (id) => document.getElementById(id);

const page = {
  state: null,
  role: "play",
  cues: new Map(),
  selected: null,
  tapped: { number: null, at: 0 },
  faders: [],
  heard: 0,
  stateAt: 0,
  // The numbers of the states that were shown lately, and when.
  shown: [],
  isGone: false,
  // A word of this page's own, by which the desk says whom a refusal concerns.
  word: [...crypto.getRandomValues(new Uint32Array(2))]
    .map((half) => half.toString(16).padStart(8, "0")).join(""),
  // Whether this is a page of the machine that sends.
  isHere: true,
  universes: [],
  universe: 0,
  slots: new Map(),
  channels: [],
  reasons: {},
  others: { above: [], beside: [], below: [], crowded: [] },
  clock: [],
  isCrowded: false,
};

async function command(line, pressed) {
  if (!canPress()) return;
  const at = Math.min(pressed, performance.now());
  const left = at + PRESS_DEADLINE - performance.now();
  const stop = new AbortController();
  const timer = setTimeout(() => stop.abort(), left);
  try {
    if (left <= 0) stop.abort();
    const headers = { "Desk-Time": String(deskTime(at)), "Desk-State": String(seenAt(at)),
      "Desk-Page": page.word };
    const request = { method: "POST", body: line, headers, signal: stop.signal };
    const answer = await fetch("command", request);
    if (!answer.ok && answer.status !== 409) say(`${line}: not taken by the desk`);
  } catch {
    say(`${line}: nothing was sent: ${whyUnsent(left, stop.signal.aborted)}`);
  }
  clearTimeout(timer);
}

function whyUnsent(left, isAborted) {
  if (left <= 0) return "this page was busy for a second; press again";
  return isAborted ? "no answer within a second; press again" : "the desk was not reached";
}

// Asks the desk for something that is no command of the night.
async function ask(name) {
  try {
    const answer = await fetch(name, { method: "POST", body: "now" });
    if (!answer.ok) say(`${name}: not taken by the desk`);
  } catch {
    say(`${name}: the desk was not reached`);
  }
}

// The desk says its time with each event. One that took long to come says too little, so of
// those of the last half minute the one counts that says most: no press is made younger by it.
function hearClock(time) {
  const now = performance.now();
  page.clock = page.clock.filter(({ at }) => now - at < CLOCK_KEPT);
  page.clock.push({ at: now, ahead: time - now });
}

function deskTime(at) {
  return Math.max(Math.floor(at + Math.max(...page.clock.map(({ ahead }) => ahead))), 0);
}

// The number of the state that was shown at a press: it may be older than the one of now.
function seenAt(at) {
  const before = page.shown.filter((each) => each.at <= at);
  return (before.at(-1) ?? page.shown[0]).number;
}

function isSilent() {
  return page.isGone || performance.now() - page.heard > SILENCE;
}

function isDead() {
  return isSilent() || page.state === null || page.state.status !== null;
}

// Whether a press on this page may do something now.
function canPress() {
  return !isDead() && page.role === "play";
}

function blackout(pressed) {
  if (!canPress()) return;
  const level = page.state.grand === 0 ? page.state.lit_grand : 0;
  command(`master H${level.toString(16).padStart(2, "0")}`, pressed);
}
