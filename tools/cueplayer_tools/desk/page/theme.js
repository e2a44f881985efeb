"use strict";
// Dark from the first moment, on each page, unless this browser was told otherwise. Stands in the
// head, so that nothing white is ever shown.

function savedValue(name) {
  try {
    return localStorage.getItem(name);
  } catch {
    return null;
  }
}

function keep(name, value) {
  try {
    localStorage.setItem(name, value);
  } catch {
    // It counts until the page is closed.
  }
}

function setTheme(theme) {
  document.documentElement.dataset.theme = theme;
}

setTheme(savedValue("theme") ?? "dark");
