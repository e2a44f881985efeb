"use strict";
// Times: those of a cue in words and in signs, and those that run.

function seconds(milliseconds) {
  const whole = Math.floor(milliseconds / 60000);
  const rest = (milliseconds % 60000) / 1000;
  if (whole === 0) return `${Number(rest.toFixed(2))} s`;
  return `${whole}:${String(Number(rest.toFixed(2))).padStart(2, "0")}`;
}

const twoDigits = (number) => String(number).padStart(2, "0");

// As on a watch: `1:05`, and with hours `1:01:05`.
function watchTime(milliseconds) {
  const whole = Math.floor(milliseconds / 1000);
  const hours = Math.floor(whole / 3600);
  const minutes = Math.floor(whole / 60) % 60;
  const front = hours ? `${hours}:${twoDigits(minutes)}` : minutes;
  return `${front}:${twoDigits(whole % 60)}`;
}

// What is left of a time: in tenths below ten seconds, where they count.
function timeLeft(milliseconds) {
  if (milliseconds < 10000) return `${(milliseconds / 1000).toFixed(1)} s`;
  return milliseconds < 60000 ? `${Math.floor(milliseconds / 1000)} s` : watchTime(milliseconds);
}

function rate({ time, delay }) {
  return delay ? `${seconds(time)} after ${seconds(delay)}` : seconds(time);
}

function timesOf(cue) {
  const isOne = cue.up.time === cue.down.time && cue.up.delay === cue.down.delay;
  return isOne ? `up and down ${rate(cue.up)}` : `up ${rate(cue.up)}, down ${rate(cue.down)}`;
}

// The same in signs, for the eye.
function signsOf(cue) {
  const isOne = cue.up.time === cue.down.time && cue.up.delay === cue.down.delay;
  return isOne ? rate(cue.up) : `↑ ${rate(cue.up)}  ↓ ${rate(cue.down)}`;
}

// How much of a time is left; null where that is not known.
function restOf(span) {
  if (!span || span.elapsed === null) return null;
  return Math.max(span.whole - span.elapsed - (performance.now() - page.stateAt), 0);
}

function showFade() {
  const fade = isDead() ? null : page.state.fade;
  const rest = restOf(fade);
  const isRunning = rest !== null && rest > 0;
  byId("fade").value = !fade ? 0 : isRunning ? 1 - rest / fade.whole : 1;
  const isUnknown = !fade && !isDead() && page.state.current !== null;
  setText("fade-text", isUnknown ? "not known" : isRunning ? `${timeLeft(rest)} left` : "");
}

function showWatches() {
  const now = new Date();
  const parts = [now.getHours(), now.getMinutes(), now.getSeconds()];
  setText("clock", parts.map(twoDigits).join(":"));
  const since = isDead() ? null : page.state.since;
  const passed = since === null ? null : since + performance.now() - page.stateAt;
  setText("since", passed === null ? "–:––" : watchTime(passed));
}

function showFollow() {
  const follow = isDead() ? null : page.state.follow;
  const rest = restOf(follow);
  const next = page.state?.next;
  const isComing = Boolean(follow && next);
  const when = rest === null ? "by itself" : `in ${timeLeft(rest)}`;
  setText("follow", isComing ? `${next} ${when}` : "");
  // It runs out: what is left is lit.
  byId("follow-bar").value = isComing && rest !== null && follow.whole ? rest / follow.whole : 0;
  byId("follow-bar").parentNode.classList.toggle("is-some", isComing);
}
