"use strict";
// What came of a press, at the buttons where it was made: a grey line, which fades. It concerns
// the page that pressed, and no other.

const SAID_FOR = 6000;
const FADE_TIME = 1000;
// The notices that are said here; those from Open Sound Control on the machine that sends.
const REFUSALS = ["refused", "late", "osc"];
const REASONS = {
  AtEnd: "this is the last cue",
  AtStart: "there is no cue before",
  NoCue: "there is no such cue",
  NoSub: "there is no such submaster",
  NoGroup: "there is no such group",
};
const BUTTONS = { go: "GO", back: "BACK", goto: "Go to" };

const said = { words: "", times: 0, until: 0, notice: null };
// The number of the newest notice that was heard, null before the first state; and when each came.
let newestNotice = null;
const heardAt = new Map();

function say(words, notice = null) {
  const isAgain = said.words === words && performance.now() < said.until;
  const times = isAgain ? said.times + 1 : 1;
  Object.assign(said, { words, times, notice, until: performance.now() + SAID_FOR });
  setText("said", times > 1 ? `${words} (${times} times)` : words);
  byId("said").classList.add("is-some");
}

// Lets go what the desk has forgotten, since a move has answered it.
function forgetSaid(notices) {
  if (said.notice === null || notices.some(({ number }) => number === said.notice)) return;
  Object.assign(said, { until: 0, notice: null });
}

function fadeSaid() {
  const over = performance.now() - said.until;
  if (over < 0) return;
  byId("said").classList.remove("is-some");
  if (over > FADE_TIME) setText("said", "");
}

// A refusal in an operator's words: for `go: refused, AtEnd`, `GO did nothing: this is the last
// cue`.
function refusalWords(text) {
  const [, name, rest, why] = /^(\w+)((?: [\w.]+)*): (.*)$/.exec(text) ?? [];
  if (!(name in BUTTONS)) return text;
  const [, reason] = /^refused, (\w+)$/.exec(why) ?? [];
  const told = reason ? ` did nothing: ${REASONS[reason] ?? reason}` : `: ${why}`;
  return `${BUTTONS[name]}${rest}${told}`;
}

function concernsUs({ kind, page: word }) {
  if (kind === "osc") return page.isHere;
  return word === "" || word === page.word;
}

// Says what is new of what was refused. What was told before this page was opened is over.
function hearNotices(notices) {
  const isFirst = newestNotice === null;
  for (const notice of notices.filter(({ number }) => number > (newestNotice ?? 0))) {
    newestNotice = notice.number;
    if (isFirst) continue;
    heardAt.set(notice.number, performance.now());
    const isForUs = REFUSALS.includes(notice.kind) && concernsUs(notice) && page.role === "play";
    if (isForUs) say(refusalWords(notice.text), notice.number);
  }
  newestNotice ??= 0;
  forgetSaid(notices);
}
