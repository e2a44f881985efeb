"use strict";
// What is wrong, in one line at the top: the worst first, and how many more. Red: the light is
// wrong now, or cannot be played from here. Amber: it may become so. Grey: good to know, and gone
// by itself.

const RANKS = ["red", "amber", "grey"];
const GREY_FOR = 10000;
// Packets that were lost so long ago are no alarm any more.
const LOST_FOR = 10000;
// Notices that need no answer.
const GOOD_NEWS = ["good", "record"];

const dismissed = new Set();

function withoutMoment(text) {
  return text.replace(/^\d+:\d\d:\d\d /, "").replace(/^night: \S+ \S+ /, "");
}

function sentence(text) {
  const words = withoutMoment(text);
  return words.charAt(0).toUpperCase() + words.slice(1);
}

// ---- what is wrong, each with a key of its own

function pageAlarms() {
  const told = [];
  if (page.isCrowded) {
    const words = `${MOST_PAGES} pages of this browser show the desk: close one, and this goes on`;
    told.push({ key: "crowded", rank: "red", words });
  }
  if (page.heard && isSilent()) {
    const words = "No word from the desk: what is shown is old, and presses do nothing";
    told.push({ key: "silent", rank: "red", words });
  }
  return told;
}

function endAlarm(state) {
  const act = state.resumes && page.role === "play"
    ? { button: "Take it up where it was", act: () => ask("resume") } : {};
  if (state.status !== null) {
    const [rank, words] = state.status === 0 ? ["grey", "The night has ended"]
      : ["red", `Nobody plays the light: live ended with status ${state.status}`];
    return { key: "ended", rank, words, ...act };
  }
  if (state.resumes) {
    const words = "Nobody plays the light, and nobody starts it";
    return { key: "away", rank: "red", words, ...act };
  }
  if (!state.ending) return null;
  return { key: "ending", rank: "amber", words: "The night is ending: receivers are told" };
}

// What is wrong on the network, or with the record, stands there until it is over.
function troubleAlarms(state) {
  const told = state.troubles.map(({ kind, text }) => ({
    key: `trouble ${text}`, rank: kind === "record" ? "amber" : "red", words: sentence(text),
  }));
  if (state.late) {
    const words = "The light does not answer: presses are not carried out";
    told.push({ key: "late", rank: "red", words });
  }
  const { count, universe, ago } = state.lost;
  if (count > 0 && ago + performance.now() - page.stateAt < LOST_FOR) {
    const words = `Packets of universe ${universe} could not be sent`;
    told.push({ key: "lost", rank: "amber", words });
  }
  return told;
}

// A source below us, as a backup is, is no trouble: our light is seen.
function sourceAlarms({ above, beside, crowded }) {
  const told = [];
  if (above.length) {
    const words = `Not our light: the stage shows that of ${above.join("; ")}`;
    told.push({ key: "above", rank: "red", words });
  }
  if (beside.length) {
    const words = "Another source has our priority, so lamps show the higher level";
    told.push({ key: "beside", rank: "amber", words: `${words}: ${beside.join("; ")}` });
  }
  if (crowded.length) {
    const words = `More sources than can be told apart: universe ${crowded.join(", ")}`;
    told.push({ key: "crowd", rank: "amber", words });
  }
  return told;
}

function noticeAlarm({ number, kind, text }, state) {
  const key = `notice ${number}`;
  const words = sentence(text);
  if (GOOD_NEWS.includes(kind)) {
    const isFresh = performance.now() - (heardAt.get(number) ?? -Infinity) < GREY_FOR;
    return isFresh ? { key, rank: "grey", words } : null;
  }
  const isSaid = REFUSALS.includes(kind) || (kind === "away" && state.resumes);
  if (isSaid || dismissed.has(key) || (kind === "guest" && !page.isHere)) return null;
  const rank = kind === "away" ? "red" : "amber";
  return { key, rank, words, button: "Dismiss", act: () => dismissed.add(key) };
}

function alarms() {
  const { state } = page;
  const told = pageAlarms();
  if (state !== null) told.push(endAlarm(state));
  if (state !== null && state.status === null) {
    told.push(...troubleAlarms(state), ...sourceAlarms(page.others));
    told.push(...state.notices.map((notice) => noticeAlarm(notice, state)));
  }
  return told.filter(Boolean).sort((a, b) => RANKS.indexOf(a.rank) - RANKS.indexOf(b.rank));
}

function act(key) {
  alarms().find((each) => each.key === key)?.act?.();
  showAlarms();
}

// ---- the list of all, which lies over the view and never over the buttons

const rows = new Map();

const isListOpen = () => !byId("alarms").hidden;

function alarmRow(key) {
  const row = document.createElement("div");
  const text = document.createElement("span");
  const button = document.createElement("button");
  button.type = "button";
  button.addEventListener("click", () => act(key));
  row.append(text, button);
  return { row, text, button };
}

function fillRow({ row, text, button }, told, isOver) {
  row.className = `alarm is-${isOver ? "over" : told.rank}`;
  const words = isOver ? `${told.words}: over` : told.words;
  if (text.textContent !== words) text.textContent = words;
  button.textContent = told.button ?? "";
  button.classList.toggle("is-none", isOver || !told.button);
  button.setAttribute("aria-label", `${told.button ?? "Nothing to do"}: ${told.words}`);
}

// While the list is open no row moves under a finger: what is over stays, greyed, till it closes.
function showRows(told) {
  const list = byId("alarms");
  const keys = new Set(told.map(({ key }) => key));
  for (const each of told) {
    if (!rows.has(each.key)) rows.set(each.key, alarmRow(each.key));
    const parts = rows.get(each.key);
    parts.told = each;
    fillRow(parts, each, false);
    if (!parts.row.parentNode) list.append(parts.row);
  }
  for (const [key, parts] of rows) {
    if (keys.has(key)) continue;
    if (isListOpen()) fillRow(parts, parts.told, true);
    else forgetRow(key);
  }
  if (!isListOpen()) sortRows(told);
}

function forgetRow(key) {
  rows.get(key).row.remove();
  rows.delete(key);
}

function sortRows(told) {
  const list = byId("alarms");
  told.forEach(({ key }, at) => {
    const { row } = rows.get(key);
    if (list.children[at] !== row) list.insertBefore(row, list.children[at] ?? null);
  });
}

function openList(isOpen) {
  byId("alarms").hidden = !isOpen;
  byId("worst-open").setAttribute("aria-expanded", String(isOpen));
  showAlarms();
}

// ---- the line at the top

function stripWords(told) {
  if (!isListOpen()) {
    return [told[0]?.words ?? "", told.length > 1 ? `+${told.length - 1} more` : ""];
  }
  const count = told.length > 1 ? `: ${told.length}` : "";
  return [told.length ? `What is wrong${count}` : "Nothing is wrong any more", "close"];
}

function showStrip(told) {
  const [worst] = told;
  const isCalm = worst === undefined && !isListOpen();
  byId("strip").dataset.worst = worst?.rank ?? (isCalm ? "calm" : "grey");
  byId("calm").hidden = !isCalm;
  byId("worst").hidden = isCalm;
  const [words, more] = stripWords(told);
  setText("worst-text", words);
  setText("worst-more", more);
  // What is dismissed is read in the list before.
  const isOffered = Boolean(worst?.button) && worst.button !== "Dismiss";
  byId("worst-act").hidden = !isOffered;
  if (isOffered) setText("worst-act", worst.button);
  byId("worst-act").dataset.key = worst?.key ?? "";
}

let spoken = new Set();

// A screen reader says what is new, once.
function speak(told) {
  const words = told.filter(({ rank }) => rank !== "grey").map((each) => each.words);
  const fresh = words.filter((each) => !spoken.has(each));
  if (fresh.length) setText("spoken", fresh.join(". "));
  spoken = new Set(words);
}

function showAlarms() {
  const told = alarms();
  showRows(told);
  showStrip(told);
  speak(told);
}
