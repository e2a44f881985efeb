"use strict";
// The light that came to this machine: by channels in percent, as a theatre thinks, or by slots,
// as the network does. And the look of a cue, blind: in the same channels, and nothing moves.

const FULL = 255;

const slotsOf = (hex) => (slot) => parseInt(hex.slice(2 * slot - 2, 2 * slot), 16) || 0;

// The percent of a channel, from what its slots have; null where none of them is received.
function channelPercent(channel, universes) {
  let most = null;
  for (const [universe, slot, full] of channel.dimmers) {
    const hex = universes.get(universe);
    if (hex === undefined || full === 0) continue;
    most = Math.max(most ?? 0, Math.min(slotsOf(hex)(slot) * 100 / full, 100));
  }
  return most === null ? null : Math.round(most);
}

function channelCell() {
  const cell = document.createElement("li");
  const parts = ["number", "share", "way"].map((kind) => {
    const part = document.createElement("span");
    part.className = kind;
    return part;
  });
  cell.append(...parts);
  return cell;
}

// Shows these channels: each its number, its percent, and by an arrow whether that is more or less
// than what is on now.
function showChannels(list, told) {
  while (list.childElementCount > told.length) list.lastChild.remove();
  while (list.childElementCount < told.length) list.append(channelCell());
  told.forEach(({ number, percent: share, now }, at) => {
    const cell = list.children[at];
    const way = now === undefined || now === null || Math.abs(share - now) < 1
      ? "" : share > now ? "▲" : "▼";
    const words = `${number} ${share} ${way}`;
    if (cell.dataset.words === words) return;
    cell.dataset.words = words;
    const [numberPart, sharePart, wayPart] = cell.children;
    numberPart.textContent = number;
    sharePart.textContent = share === 0 ? "0" : share;
    wayPart.textContent = way;
    cell.setAttribute("aria-label", `Channel ${number} at ${share} %`);
    cell.classList.toggle("is-lit", share > 0);
    cell.style.setProperty("--share", `${share}%`);
  });
}

function channelsOf(universes) {
  return page.channels
    .map((channel) => ({ number: channel.number, percent: channelPercent(channel, universes) }))
    .filter(({ percent: share }) => share !== null);
}

// ---- what is received

function buildGrid() {
  const cells = Array.from({ length: 512 }, () => document.createElement("div"));
  byId("grid").replaceChildren(...cells);
}

const isLitOnly = () => byId("only-lit").getAttribute("aria-pressed") === "true";

function showReceivedChannels() {
  const all = channelsOf(page.slots);
  const lit = all.filter(({ percent: share }) => share > 0);
  showChannels(byId("channels"), isLitOnly() ? lit : all);
  const reasons = [...new Set(Object.values(page.reasons))];
  const missing = page.channels.length - all.length;
  const why = reasons.length ? `: ${reasons.join("; ")}` : "";
  setText("lit-channels", missing === 0 ? `${lit.length} of ${all.length} channels lit`
    : `${missing} of ${page.channels.length} channels are not received here${why}`);
}

function showSlots() {
  const universe = page.universes[page.universe];
  const slots = page.slots.get(universe);
  byId("grid").classList.toggle("is-none", slots === undefined);
  setText("universe", `Universe ${universe ?? "none"}`);
  if (slots === undefined) {
    const reason = page.reasons[universe];
    setText("lit", `levels are not received here${reason ? `: ${reason}` : ""}`);
    return;
  }
  let lit = 0;
  const at = slotsOf(slots);
  byId("grid").childNodes.forEach((cell, index) => {
    const level = at(index + 1);
    lit += level > 0;
    const words = `${index + 1}\n${level}`;
    if (cell.dataset.words === words) return;
    cell.dataset.words = words;
    cell.replaceChildren(String(index + 1), document.createElement("br"), String(level));
    cell.classList.toggle("is-lit", level > 0);
    cell.style.setProperty("--share", `${level * 50 / FULL}%`);
  });
  setText("lit", `${lit} slots lit`);
}

function showLevels() {
  showSlots();
  showReceivedChannels();
  const { below } = page.others;
  setText("below", below.length ? `Also heard, below this night: ${below.join("; ")}` : "");
}

function chooseUniverse(step) {
  const last = Math.max(page.universes.length - 1, 0);
  page.universe = Math.min(Math.max(page.universe + step, 0), last);
  showLevels();
}

function chooseLevels(kind) {
  byId("levels").dataset.shows = kind;
  const buttons = [...document.querySelectorAll("button[data-shows]")];
  markPressed(buttons, buttons.find((button) => button.dataset.shows === kind));
}

// ---- a cue, blind

let blindCue = null;

// The channels of a cue's look that are lit in it or now, each with what it has now.
async function fetchLook(number) {
  const answer = await fetch(`look/${number}`);
  if (!answer.ok) throw new Error((await answer.text()).trim());
  const slots = Object.entries(await answer.json());
  const look = new Map(slots.map(([universe, hex]) => [Number(universe), hex]));
  const now = new Map(channelsOf(page.slots).map((each) => [each.number, each.percent]));
  return channelsOf(look).map((each) => ({ ...each, now: now.get(each.number) }))
    .filter((each) => each.percent > 0 || each.now > 0);
}

async function showBlind(number) {
  blindCue = number;
  const cue = page.cues.get(number);
  setText("blind-cue", `Blind: ${number} ${cue.name}`.trim());
  setText("blind-times", timesOf(cue));
  byId("blind").hidden = false;
  byId("cue-list").classList.add("is-blind");
  byId("leave").hidden = false;
  fitNow();
  let [channels, words] = [[], ""];
  try {
    channels = await fetchLook(number);
    words = channels.length ? timesOf(cue) : `${timesOf(cue)}; dark`;
  } catch (fault) {
    words = `${timesOf(cue)}; no look: ${fault.message}`;
  }
  if (blindCue !== number) return;
  setText("blind-times", words);
  showChannels(byId("blind-channels"), channels);
}

function leaveBlind() {
  blindCue = null;
  byId("blind").hidden = true;
  byId("cue-list").classList.remove("is-blind");
  byId("leave").hidden = !isFinding();
  fitNow();
}
