// Plays each example of the page as a user does, by its buttons and keys, and leaves what was drawn
// after each step in the page, for tests/watch/compare.py. Appended to a copy of the page.
"use strict";

// what stands in the picture of a copy
function drawnCopy(copy) {
  const picture = document.querySelector(`#copy${copy} svg`);
  const nodes = {};
  for (const node of picture.querySelectorAll(".node")) {
    const { left, right, a, b, tag, free } = node.dataset;
    nodes[node.dataset.node] = { left, right, a, b, tag, free };
  }
  const pins = [...picture.querySelectorAll(".pin")].map((pin) => pin.dataset.reader);
  const card = document.getElementById(`copy${copy}`);
  return { root: picture.dataset.root, nodes, pins, about: card.className.split(" ")[2], label: picture.getAttribute("aria-label") };
}

function drawn() {
  const readers = {};
  for (const [r, reader] of page.state.readers) {
    readers[r] = { loads: reader.loads, tries: reader.tries, done: reader.answer !== null, failed: !!reader.failed,
      values: reader.values.map(({ value }) => `${value}`) };
  }
  return {
    event: Number($("number").value), sequence: $("sequence").textContent, sentence: $("sentence").textContent,
    reason: $("reason").textContent, copies: [drawnCopy(0), drawnCopy(1)], readers,
    current: document.querySelector("#steps [aria-current]").dataset.event,
  };
}

const press = (key, target = document) => target.dispatchEvent(new KeyboardEvent("keydown", { key, bubbles: true }));
const wait = (time) => new Promise((done) => setTimeout(done, time));
const faults = [];

function expect(holds, what) {
  if (!holds) faults.push(what);
}

// forward by the button, and then back by the key: the same is drawn
function watched(name) {
  $("example").value = name;
  $("example").dispatchEvent(new Event("change"));
  const states = [drawn()];
  while (!$("next").disabled) {
    $("next").click();
    states.push(drawn());
  }
  expect(states.length === page.run.steps.length, `${name}: not every step was shown`);
  for (let event = states.length - 2; event >= 0; event--) {
    press("ArrowLeft");
    expect(JSON.stringify(drawn()) === JSON.stringify(states[event]), `${name}: event ${event} differs on the way back`);
  }
  return states;
}

async function keysAndFiles() {
  press("End");
  expect(page.event === page.run.count, "End");
  press("Home");
  expect(page.event === 0, "Home");
  press("n");
  expect(TURNS.includes(page.run.steps[page.event].kind), "n");
  press("p");
  press("ArrowRight");
  expect(page.event > 0, "ArrowRight");
  $("range").value = 3;
  $("range").dispatchEvent(new Event("input"));
  expect(page.event === 3, "the slider");
  $("number").value = 5;
  $("number").dispatchEvent(new Event("change"));
  expect(page.event === 5, "the number");
  for (const [asked, shown] of [["1.5", 2], ["0.2", 0], ["1e9", page.run.count], ["", 0]]) {
    $("number").value = asked;
    $("number").dispatchEvent(new Event("change"));
    expect(page.event === shown && $("number").value === `${shown}`, `the number ${asked}`);
  }
  $("steps").children[2].click();
  expect(page.event === 2, "a line of the steps");
  $("theme").click();
  $("theme").click();
  const example = examples()[0];
  await open([new File([example.steps], "my.steps"), new File([example.trace], "my.trace")]);
  expect(page.run.trace === example.trace && page.event === 0, "a file that is opened");
  await open([new File(["latchtrace 1 halfopen 4\n"], "my.trace")]);
  expect(/^Cannot play it: it is a trace.*latchsym trace --steps my.trace /.test($("reason").textContent), "a trace without its steps");
  await open([new File([example.steps.split("\n").slice(2).join("\n")], "cut.steps")]);
  expect(/^Cannot play it: .*latchsym trace --steps FILE >FILE.steps/.test($("reason").textContent), "a file without its beginning");
}

// the keys work where a button has the focus, which takes its Space alone
function keysOnButtons() {
  playExample(examples()[0].name);
  $("next").focus();
  $("next").click();
  press("ArrowRight", $("next"));
  expect(page.event === 2, "ArrowRight on a button");
  press("End", $("next"));
  expect(page.event === page.run.count, "End on a button");
  press("Home", $("last"));
  press("n", $("last"));
  press("n", $("last"));
  const turn = page.event;
  press("p", $("last"));
  expect(page.event > 0 && page.event < turn, "n and p on a button");
  press(" ", $("last"));
  expect(page.timer === null, "Space on a button is the button's");
  press(" ");
  expect(page.timer !== null, "Space plays");
  press(" ");
  press("ArrowRight", $("example"));
  expect(page.event > 0 && page.event < turn, "a list keeps its keys");
}

// at an end the buttons that lead further are off, and the focus stays among the buttons
function ends() {
  for (const [id, event] of [["last", page.run.count], ["first", 0], ["last", page.run.count]]) {
    $(id).focus();
    $(id).click();
    expect(page.event === event && $(id).disabled, `${id} at the end`);
    expect(document.activeElement.closest(".buttons") && !document.activeElement.disabled, `the focus after ${id} is on ${document.activeElement.id || "no button"}`);
  }
  expect($("turn").disabled && $("next").disabled && !$("first").disabled, "buttons that are on at the end");
}

// no copy is said to be changed before the first flip of an update
function beginnings() {
  playExample("one_insert");
  const said = page.run.steps.map((_, event) => {
    show(event);
    return [...document.querySelectorAll(".copy .badge")].map((it) => it.textContent).join(", ");
  });
  const stable = "stable: readers walk it";
  expect(said[5] === `${stable}, update begun` && said[8] === said[5], `an update that has begun: ${said[5]}`);
  expect(said[9] === `being changed, ${stable}`, `after its first flip: ${said[9]}`);
}

// the address names the moment, and is followed
async function addresses() {
  playExample("torn_item");
  show(20);
  await wait(400);
  expect(location.hash === "#example=torn_item&event=20", `the address of a moment: ${location.hash}`);
  location.hash = "#example=every_stop&event=7";
  await wait(100);
  expect(page.example === "every_stop" && page.event === 7, "an address that is followed");
  location.hash = "#example=every_stop&event=9";
  await wait(100);
  expect(page.event === 9, "another event of the same example");
}

// what is said, in words
function words() {
  expect(examples()[0].name === "one_insert", "the first example");
  const said = (name, kind) => {
    playExample(name);
    show(page.run.steps.findIndex((step) => step.kind === kind));
    return $("sentence").textContent;
  };
  expect(said("full_where_full", "open").includes("1 node,"), "one node");
  expect(said("torn_item", "refusal") === "The writer may not erase 0x99: no item has this first word.", "a refusal");
  expect(!$("about").textContent.includes("`") && said("every_stop", "open") && $("about").querySelector("code"), "code in a description");
  const footer = document.querySelector("footer").textContent;
  expect(footer.includes("Space") && footer.includes("previous") && !footer.includes("blank"), "the keys in the footer");
  const intro = document.querySelector(".intro");
  expect(/latched tree is/.test(intro.textContent) && intro.querySelector('a[href="../HOW_IT_WORKS.md"]'), "what a latched tree is");
}

// the contrast of a text with what it stands on, as WCAG computes it
function contrast(element) {
  const light = (color) => {
    const [r, g, b] = color.match(/[\d.]+/g).slice(0, 3).map((it) => it / 255).map((it) => (it <= 0.03928 ? it / 12.92 : ((it + 0.055) / 1.055) ** 2.4));
    return 0.2126 * r + 0.7152 * g + 0.0722 * b + 0.05;
  };
  const style = getComputedStyle(element);
  const [x, y] = [light(style.color), light(style.backgroundColor)];
  return Math.max(x, y) / Math.min(x, y);
}

function badges() {
  for (const theme of ["light", "dark"]) {
    paint(theme);
    for (const event of [0, 16]) {
      playExample("one_insert");
      show(event);
      for (const badge of document.querySelectorAll(".badge")) {
        expect(contrast(badge) >= 4.5, `the contrast of "${badge.textContent}" is ${contrast(badge)} in ${theme}`);
      }
    }
  }
}

// plays to its end by itself
async function played() {
  playExample(examples()[0].name);
  $("speed").value = "180";
  $("play").click();
  await wait(181 * (page.run.count + 2));
  expect(page.event === page.run.count && page.timer === null, "playing ends at the end");
}

async function drive() {
  const shown = {};
  for (const { name } of examples()) shown[name] = watched(name);
  await keysAndFiles();
  keysOnButtons();
  await addresses();
  words();
  ends();
  beginnings();
  badges();
  await played();
  const result = document.createElement("pre");
  result.id = "result";
  result.textContent = btoa(unescape(encodeURIComponent(JSON.stringify({ shown, faults }))));
  document.body.replaceChildren(result);
}

document.addEventListener("DOMContentLoaded", () => drive().catch((error) => {
  document.body.innerHTML = `<pre id="broken">${error.stack}</pre>`;
}));
