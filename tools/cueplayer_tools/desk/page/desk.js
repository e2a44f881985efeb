"use strict";
// The page of the desk. It shows what the desk says that the program said, and nothing that it
// believes itself.

// A browser has six connections to a desk, and each page keeps one: two are left for presses.
const MOST_PAGES = 4;
const PLACE_EVERY = 1000;
const AGAIN_EVERY = 2000;

// ---- who may come from elsewhere

function drawPicture(rows) {
  const picture = byId("picture");
  picture.toggleAttribute("hidden", rows.length === 0);
  if (rows.length === 0) return;
  const dark = rows.flatMap((row, y) => (
    [...row].map((each, x) => (each === "1" ? `M${x} ${y}h1v1h-1z` : ""))
  ));
  byId("modules").setAttribute("d", dark.join(""));
  picture.setAttribute("viewBox", `0 0 ${rows[0].length} ${rows.length}`);
}

function showGuests(guests) {
  byId("guests").hidden = guests.address === undefined;
  if (guests.address === undefined) return;
  setText("guest-address", guests.address);
  setText("pin-play", guests.pins.play);
  setText("pin-watch", guests.pins.watch);
  drawPicture(guests.picture);
}

// ---- what is shown

function setText(id, words) {
  const part = byId(id);
  if (part.textContent !== words) part.textContent = words;
}

function markPressed(buttons, chosen) {
  for (const button of buttons) button.setAttribute("aria-pressed", String(button === chosen));
}

function showView(view) {
  document.body.dataset.view = view;
  // Who looks for a cue does so in Play: digits are keys again elsewhere.
  if (view !== "play" && isFinding()) openFinder(false);
  const buttons = document.querySelectorAll("[data-to]");
  markPressed(buttons, [...buttons].find((button) => button.dataset.to === view));
  if (page.state !== null) scrollCues(page.state);
  fitNow();
}

function showHand(hand) {
  document.body.dataset.hand = hand;
  const buttons = document.querySelectorAll("[data-hand-is]");
  markPressed(buttons, [...buttons].find((button) => button.dataset.handIs === hand));
}

function showSwitches() {
  for (const id of ["click", "buzz"]) {
    byId(id).setAttribute("aria-pressed", String(savedValue(id) === "on"));
  }
  byId("buzz").hidden = !navigator.vibrate;
}

function showTheme(theme) {
  setTheme(theme);
  const buttons = document.querySelectorAll("[data-theme-is]");
  markPressed(buttons, [...buttons].find((button) => button.dataset.themeIs === theme));
}

function showDoubleTap() {
  byId("double-tap").setAttribute("aria-pressed", String(doubleTapGoes()));
}

function showState(state) {
  const before = page.state;
  page.state = state;
  page.stateAt = performance.now();
  page.shown = page.shown.filter(({ at }) => page.stateAt - at < STATES_KEPT);
  page.shown.push({ at: page.stateAt, number: state.number });
  showCues(state, before);
  for (const fader of page.faders) fader.show();
  const isDark = state.grand === 0;
  document.body.classList.toggle("is-dark", isDark);
  byId("blackout").setAttribute("aria-pressed", String(isDark));
  // No line breaks between the last two words.
  setText("blackout-word", isDark ? "BLACKOUT IS\u00a0ON" : "BLACKOUT");
  for (const id of ["on-word", "blackout-more"]) byId(id).hidden = !isDark;
  const { count, universe, moment } = state.lost;
  const latest = `, the latest of universe ${universe} at ${watchTime(moment)}`;
  setText("lost", `${count} packets could not be sent${count ? latest : ""}`);
  hearNotices(state.notices);
  showRest();
  setText("skipped", state.skipped);
  setText("ways", state.ways.join("; "));
  showButtons();
  showFade();
  showFollow();
  showAlarms();
}

function linkWords() {
  if (page.isCrowded) return "One page too many";
  if (!page.heard) return "Waiting for the desk";
  return isSilent() ? "No word from the desk" : "Connected";
}

function showButtons() {
  document.body.classList.toggle("is-dead", isDead());
  for (const id of ["go", "back", "blackout", "end"]) {
    byId(id).setAttribute("aria-disabled", String(!canPress()));
  }
}

function watch() {
  setText("link", linkWords());
  showButtons();
  showFade();
  showFollow();
  showWatches();
  showAlarms();
  fadeSaid();
}

function showShow(show) {
  page.state = null;
  page.shown = [];
  page.role = show.role;
  page.isHere = show.here;
  page.universes = show.universes;
  page.channels = show.channels;
  document.body.classList.toggle("is-watching", show.role !== "play");
  setText("role", show.role === "play" ? "" : "Watching: nothing here moves light");
  setText("title", show.title);
  setText("osc", show.osc ? `OSC at ${show.osc}` : "");
  buildCues(show.cues);
  buildFaders(show.faders);
  for (const { input } of page.faders) input.disabled = show.role !== "play";
  chooseUniverse(0);
}

function showReceived({ reasons, slots, others }) {
  Object.assign(page, { reasons, others });
  for (const [universe, hex] of Object.entries(slots)) page.slots.set(Number(universe), hex);
  showLevels();
}

// A refusal ends the events for good: without a session the page that asks for the PIN comes.
async function listenAgain() {
  try {
    const answer = await fetch("desk.js");
    if (answer.status === 401) location.reload();
  } catch {
    // The desk is not there, and is asked again.
  }
  listen();
}

function listen() {
  const events = new EventSource("events");
  const hear = (kind, take) => events.addEventListener(kind, (event) => {
    page.heard = performance.now();
    page.isGone = false;
    hearClock(Number(event.lastEventId));
    take(JSON.parse(event.data));
    watch();
  });
  hear("show", showShow);
  hear("state", showState);
  hear("alive", () => {});
  hear("guests", showGuests);
  hear("levels", showReceived);
  events.addEventListener("error", () => {
    page.isGone = true;
    page.heard ||= 1;
    watch();
    // What was cut off is opened again by the browser.
    if (events.readyState === EventSource.CLOSED) setTimeout(listenAgain, AGAIN_EVERY);
  });
}

// Listens in one of the few places that the pages of a browser share, or waits until one is free.
// A place is a lock of the browser, which lets it go with the page, however that ends.
function takePlace(at) {
  const name = `${location.pathname}${at}`;
  navigator.locks.request(name, { ifAvailable: true }, (place) => {
    page.isCrowded = place === null && at === MOST_PAGES;
    if (place !== null) {
      listen();
      return new Promise(() => {});
    }
    if (at < MOST_PAGES) takePlace(at + 1);
    else setTimeout(takePlace, PLACE_EVERY, 1);
    showAlarms();
    return null;
  }).catch(listen);
}

// ---- a screen that stays on

const SLEEPS = "This page cannot keep the screen on: browsers let only encrypted pages do that "
  + "(--certificate). Set the tablet so that it does not sleep, and plug it in. iPad: Settings, "
  + "Display & Brightness, Auto-Lock, Never. Android: Settings, Display, Screen timeout, the "
  + "longest; or Stay awake, in the developer options.";

async function stayAwake() {
  if (document.visibilityState !== "visible") return;
  let isAwake = false;
  try {
    const lock = await navigator.wakeLock.request("screen");
    isAwake = true;
    lock.addEventListener("release", () => stayAwake());
  } catch {
    // An address without encryption, a browser without it, or a battery that is low.
  }
  setText("awake", isAwake ? "The screen stays on while this page is seen." : SLEEPS);
  byId("sleep").hidden = isAwake || !matchMedia("(pointer: coarse)").matches;
}

// ---- the controls

function onClick(selector, act) {
  for (const each of document.querySelectorAll(selector)) {
    each.addEventListener("click", (event) => act(event, each));
  }
}

onTap(byId("go"), (event) => command("go", event.timeStamp));
onTap(byId("back"), (event) => command("back", event.timeStamp));
new Hold(byId("blackout"), LONG_PRESS, "BLACKOUT: hold it until the ring is full", blackout);
new Hold(byId("end"), END_PRESS, "End the night: hold it until the ring is full",
  (at) => command("end", at));
watchFingers(byId("dock"));
onClick("#worst-open", () => openList(!isListOpen()));
onClick("#worst-act", (event, button) => act(button.dataset.key));
onClick("#find", () => openFinder(!isFinding()));
onClick("#leave", () => {
  if (blindCue !== null) selectCue(null);
  else openFinder(false);
});
onClick("#to-on", () => {
  if (isFinding()) openFinder(false);
  selectCue(null);
  if (page.state !== null) scrollCues(page.state);
});
onClick("button[data-shows]", (event, button) => chooseLevels(button.dataset.shows));
onClick("#only-lit", (event, button) => {
  button.setAttribute("aria-pressed", String(!isLitOnly()));
  showLevels();
});
onClick("[data-hand-is]", (event, button) => {
  keep("hand", button.dataset.handIs);
  showHand(button.dataset.handIs);
});
onClick("#click, #buzz", (event, button) => {
  keep(button.id, savedValue(button.id) === "on" ? "off" : "on");
  showSwitches();
  feel();
});
onClick("#sleep", () => showView("more"));
onClick("#before", () => chooseUniverse(-1));
onClick("#after", () => chooseUniverse(1));
onClick("[data-to]", (event, button) => showView(button.dataset.to));
onClick("[data-theme-is]", (event, button) => {
  keep("theme", button.dataset.themeIs);
  showTheme(button.dataset.themeIs);
});
onClick("#double-tap", () => {
  keep("double-tap", doubleTapGoes() ? "selects" : "goes");
  showDoubleTap();
});
onPress(
  byId("goto"),
  (event) => goTo(page.selected, event.shiftKey, event.timeStamp),
  (at) => goTo(page.selected, true, at),
);
askTwice("new-pins", "Press once more: all others are sent out", () => ask("pins"));
byId("cues").addEventListener("keydown", moveInCues);
byId("find-text").addEventListener("input", (event) => find(event.target.value));
byId("find-text").addEventListener("keydown", enterInFinder);
document.addEventListener("keydown", pressKey);
document.addEventListener("keyup", pressKey);
document.addEventListener("keydown", findKey);
// A tablet that is turned shows the current cue too.
window.addEventListener("resize", () => {
  if (page.state !== null && !isFinding()) scrollCues(page.state);
  fitNow();
});
buildGrid();
chooseLevels("channels");
showTheme(savedValue("theme") ?? "dark");
showHand(savedValue("hand") ?? "right");
showSwitches();
showDoubleTap();
document.addEventListener("visibilitychange", stayAwake);
stayAwake();
// Only this machine's own addresses, and encrypted pages, have locks.
if (navigator.locks) takePlace(1);
else listen();
setInterval(watch, 100);
