"use strict";
// Who comes from elsewhere shows a PIN, and has a session from then on. The digits are the page's
// own: a tablet's keyboard is white.

const PIN_LENGTH = 6;
const byId = (id) => document.getElementById(id);

async function enter(event) {
  event.preventDefault();
  const pin = byId("pin");
  try {
    const answer = await fetch("session", { method: "POST", body: pin.value.trim() });
    if (answer.ok) {
      location.reload();
      return;
    }
    byId("told").textContent = (await answer.text()).trim();
  } catch {
    byId("told").textContent = "the desk was not reached: try again";
  }
  pin.value = "";
  show();
  pin.focus();
}

function show() {
  byId("enter").setAttribute("aria-disabled", String(byId("pin").value.length < PIN_LENGTH));
}

function digit(word) {
  const pin = byId("pin");
  pin.value = word === "⌫" ? pin.value.slice(0, -1) : (pin.value + word).slice(0, PIN_LENGTH);
  byId("told").textContent = "";
  show();
}

function buildPad() {
  for (const word of ["1", "2", "3", "4", "5", "6", "7", "8", "9", "⌫", "0", "Enter"]) {
    const button = document.createElement("button");
    button.type = word === "Enter" ? "submit" : "button";
    button.textContent = word;
    if (word === "⌫") button.setAttribute("aria-label", "Take back a digit");
    if (word === "Enter") button.id = "enter";
    else button.addEventListener("click", () => digit(word));
    byId("pad").append(button);
  }
}

buildPad();
show();
byId("pin").addEventListener("input", show);
byId("form").addEventListener("submit", enter);
