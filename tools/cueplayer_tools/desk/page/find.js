"use strict";
// Finding a cue: digits are its number, letters are looked for in the labels. The keys are the
// page's own, so that no keyboard of a tablet lies over GO. Space is GO here too.

const DIGITS = ["1", "2", "3", "4", "5", "6", "7", "8", "9", ".", "0", "⌫"];
const MOST_LETTERS = 40;

const isFinding = () => !byId("finder").hidden;

// A text without case and accents, and without spaces, which are GO.
function plainText(text) {
  return text.normalize("NFD").replace(/[\u0300-\u036f\s]/g, "").toUpperCase();
}

// Shows the cues that match, and selects the one that is meant; the number of the first.
function find(text) {
  const wanted = plainText(text);
  const isNumber = /^[\d.]+$/.test(wanted);
  const found = [];
  for (const [number, cue] of page.cues) {
    const isIt = wanted === "" || (isNumber ? number.startsWith(wanted)
      : plainText(`${number}${cue.name}`).includes(wanted));
    cue.button.parentNode.hidden = !isIt;
    if (isIt && wanted !== "") found.push(number);
  }
  const only = found.length === 1 ? found[0] : null;
  const chosen = found.find((number) => number === wanted) ?? only;
  selectCue(chosen);
  byId("cues").scrollTop = 0;
  return chosen ?? found[0] ?? null;
}

function openFinder(isOpen, first = "") {
  byId("finder").hidden = !isOpen;
  byId("find").setAttribute("aria-expanded", String(isOpen));
  byId("cue-list").classList.toggle("is-finding", isOpen);
  leaveBlind();
  byId("find-text").value = first;
  find(first);
  fitNow();
  if (isOpen) byId("find-text").focus();
  else if (page.state !== null) scrollCues(page.state);
}

function typeInFinder(word) {
  const input = byId("find-text");
  if (word === "⌫") input.value = input.value.slice(0, -1);
  else if (word === "abc" || word === "123") {
    byId("pad").dataset.shows = word;
    return;
  } else input.value += word;
  find(input.value);
}

function padKey(word, kind) {
  const button = part("button", kind);
  button.type = "button";
  button.textContent = word;
  button.tabIndex = -1;
  if (word === "⌫") button.setAttribute("aria-label", "Take back");
  // The focus stays where keys are typed.
  button.addEventListener("mousedown", (event) => event.preventDefault());
  button.addEventListener("click", () => typeInFinder(word));
  return button;
}

// The letters are those of the labels, whatever their script.
function buildPad() {
  const used = new Set();
  for (const { name } of page.cues.values()) {
    for (const letter of plainText(name)) if (/\p{L}/u.test(letter)) used.add(letter);
  }
  const letters = [...used].sort((a, b) => a.localeCompare(b)).slice(0, MOST_LETTERS);
  const keys = DIGITS.map((word) => padKey(word, "digit"));
  if (letters.length) keys.push(padKey("abc", "digit turn"));
  keys.push(...letters.map((word) => padKey(word, "letter")));
  keys.push(padKey("⌫", "letter"), padKey("123", "letter turn"));
  byId("pad").replaceChildren(...keys);
  byId("pad").dataset.shows = "123";
}

function findKey(event) {
  if (event.ctrlKey || event.altKey || event.metaKey) return;
  if (event.key === "Escape") {
    if (isListOpen()) openList(false);
    else if (isFinding()) openFinder(false);
    else selectCue(null);
    return;
  }
  const isOpening = /^[\d/]$/.test(event.key) && page.cues.size > 0;
  if (!isFinding() && isOpening) {
    event.preventDefault();
    showView("play");
    openFinder(true, event.key === "/" ? "" : event.key);
  }
}

function enterInFinder(event) {
  if (event.key !== "Enter") return;
  event.preventDefault();
  const number = page.selected ?? find(byId("find-text").value);
  if (number === null) return;
  selectCue(number);
  showBlind(number);
  byId("goto").focus();
}
