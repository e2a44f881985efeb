"use strict";
// The cue list: a tap selects a cue and shows its look, blind; a second control goes there, or a
// second tap where the operator wants that. And what was on, what is on, and what is next.

const DOUBLE_TAP = 500;

function cueWords(number) {
  if (!page.state.placed) return "not known yet";
  if (number === null) return "none";
  return `${number} ${page.cues.get(number)?.name ?? ""}`.trim();
}

function cueButton(cue, following) {
  const button = document.createElement("button");
  button.type = "button";
  button.tabIndex = -1;
  const follow = cue.follow === null || !following
    ? "" : `${following.number} follows after ${seconds(cue.follow)}`;
  const parts = { number: cue.number, name: cue.name, times: signsOf(cue),
    follow: follow ? `→ ${following.number} after ${seconds(cue.follow)}` : "" };
  for (const [kind, words] of Object.entries(parts)) {
    const part = document.createElement("span");
    part.className = kind;
    part.textContent = words;
    button.append(part);
  }
  const spoken = [`Cue ${cue.number} ${cue.name}`.trim(), timesOf(cue), follow];
  button.setAttribute("aria-label", spoken.filter(Boolean).join(", "));
  button.setAttribute("aria-pressed", "false");
  button.addEventListener("click", (event) => tapCue(cue.number, event));
  return button;
}

function buildCues(cues) {
  page.cues = new Map();
  const rows = cues.map((cue, at) => {
    const button = cueButton(cue, cues[at + 1]);
    page.cues.set(cue.number, { ...cue, button });
    const row = document.createElement("li");
    row.append(button);
    return row;
  });
  byId("cues").replaceChildren(...rows);
  if (rows.length) rows[0].firstChild.tabIndex = 0;
  page.order = cues.map(({ number }) => number);
  buildPad();
  selectCue(null);
}

function selectCue(number) {
  page.selected = number;
  for (const [each, { button }] of page.cues) {
    button.setAttribute("aria-pressed", String(each === number));
  }
  const chosen = page.cues.get(number);
  byId("goto").setAttribute("aria-disabled", String(chosen === undefined));
  const words = chosen ? `${number} ${chosen.name}`.trim() : "";
  byId("goto").textContent = chosen ? `Go to ${words}` : "Go to: tap a cue";
  if (!chosen) leaveBlind();
}

function tapCue(number, event) {
  const { tapped } = page;
  const isSecond = tapped.number === number && event.timeStamp - tapped.at < DOUBLE_TAP;
  page.tapped = { number: isSecond ? null : number, at: event.timeStamp };
  if (isSecond && doubleTapGoes()) {
    goTo(number, event.shiftKey, event.timeStamp);
  } else {
    selectCue(number);
    // A second tap must find its row, so the look waits until there can be none.
    const wait = doubleTapGoes() ? DOUBLE_TAP : 0;
    setTimeout(() => { if (page.selected === number) showBlind(number); }, wait);
  }
}

function goTo(number, isAtOnce, pressed) {
  if (number === null || isDead()) return;
  command(isAtOnce ? `goto ${number} in 0` : `goto ${number}`, pressed);
  selectCue(null);
  if (isFinding()) openFinder(false);
}

const doubleTapGoes = () => savedValue("double-tap") === "goes";

function moveInCues(event) {
  const buttons = [...page.cues.values()].map((cue) => cue.button)
    .filter((button) => !button.parentNode.hidden);
  const at = buttons.indexOf(document.activeElement);
  const last = buttons.length - 1;
  const to = {
    ArrowDown: Math.min(at + 1, last),
    ArrowUp: Math.max(at - 1, 0),
    Home: 0,
    End: last,
  }[event.key];
  if (to === undefined || at < 0) return;
  event.preventDefault();
  focusable(buttons, buttons[to]);
  buttons[to].focus();
}

function focusable(buttons, chosen) {
  for (const button of buttons) button.tabIndex = button === chosen ? 0 : -1;
}

function showCues(state, before) {
  const at = page.order.indexOf(state.current);
  setText("last", at > 0 ? cueWords(page.order[at - 1]) : "none");
  setText("current", cueWords(state.current));
  setText("next", cueWords(state.next));
  const next = page.cues.get(state.next);
  setText("next-times", next ? signsOf(next) : "");
  setText("go-to", next ? state.next : state.placed ? "no cue follows" : "");
  byId("go").classList.toggle("is-last", state.placed && state.next === null);
  document.title = state.current === null ? byId("title").textContent : cueWords(state.current);
  for (const [number, cue] of page.cues) {
    if (number === state.current) cue.button.setAttribute("aria-current", "true");
    else cue.button.removeAttribute("aria-current");
    cue.button.classList.toggle("is-next", number === state.next);
  }
  if (before?.current !== state.current || before?.next !== state.next) {
    if (!isFinding()) scrollCues(state);
    fitNow();
  }
}

// Long labels are said whole: the letters give way, until all has room. Where even the smallest
// have none, what is on is cut, and never what is next.
function fitNow() {
  const now = byId("now");
  now.classList.remove("is-full");
  for (const fit of [1, 0.9, 0.8, 0.72, 0.64, 0.57, 0.5, 0.44]) {
    now.style.setProperty("--fit", fit);
    if (now.scrollHeight <= now.clientHeight && now.scrollWidth <= now.clientWidth) return;
  }
  now.classList.add("is-full");
}

// The current cue stands near the top of the list, so that the tail of the list is seen. One cue
// before it is seen too, where the next one has room then.
function scrollCues(state) {
  const row = page.cues.get(state.current ?? state.next)?.button.parentNode;
  if (!row) return;
  const list = byId("cues");
  const before = row.previousElementSibling ?? row;
  const last = page.cues.get(state.next)?.button.parentNode ?? row;
  const hasRoom = last.offsetTop + last.offsetHeight - before.offsetTop <= list.clientHeight;
  list.scrollTop = (hasRoom ? before : row).offsetTop;
  const shown = page.cues.get(state.next ?? state.current)?.button;
  const buttons = [...page.cues.values()].map((cue) => cue.button);
  if (shown && !buttons.includes(document.activeElement)) focusable(buttons, shown);
}
