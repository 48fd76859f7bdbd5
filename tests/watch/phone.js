// Looks at the page in a frame of 390 x 844, as a phone shows it, and sends the page around the frame
// what is wrong. Appended to a copy of the page, for tests/watch.sh.
"use strict";

const wrong = [];

function expect(holds, what) {
  if (!holds) wrong.push(what);
}

// whether an element is in sight: between the edges of the screen, and above the buttons
function isInSight(element) {
  const box = element.getBoundingClientRect();
  const buttons = document.querySelector(".buttons").getBoundingClientRect();
  return box.top >= 0 && box.bottom <= buttons.top && box.left >= 0 && box.right <= innerWidth;
}

async function look() {
  expect(innerWidth === 390 && innerHeight === 844, `the screen is ${innerWidth} x ${innerHeight}`);
  for (const { name } of examples()) {
    playExample(name);
    for (const event of [0, Math.floor(page.run.count / 2), page.run.count]) {
      show(event);
      scrollTo(0, 0);
      for (const id of ["told", "sequence", "copy0"]) expect(isInSight($(id)), `${name}, event ${event}: ${id} is not in sight of the buttons`);
      expect($("told").offsetHeight <= 180, `${name}, event ${event}: what is told takes ${$("told").offsetHeight} px`);
      for (const label of document.querySelectorAll(".view .label")) {
        if (!label.textContent.startsWith("not linked")) continue;
        const [text, view] = [label, label.closest(".view")].map((it) => it.getBoundingClientRect());
        expect(text.left >= view.left && text.right <= view.right, `${name}, event ${event}: "${label.textContent}" is cut`);
      }
      for (const view of document.querySelectorAll(".view")) expect(view.offsetHeight === view.clientHeight, `${name}: a scroll bar inside a copy`);
      expect($("copy1").getBoundingClientRect().top === $("copy0").getBoundingClientRect().top, `${name}: the copies are not side by side`);
      expect(document.documentElement.scrollWidth <= innerWidth, `${name}: it scrolls sideways`);
    }
  }
  for (const button of document.querySelectorAll(".buttons button")) {
    const box = button.getBoundingClientRect();
    expect(box.height >= 44 && box.width >= 44 && box.bottom <= innerHeight && box.top >= 0, `the button ${button.id}`);
  }
  const drawn = [...document.querySelectorAll("#copy0 .node text, #copy0 .label")].map((it) => {
    const view = it.closest("svg");
    return parseFloat(getComputedStyle(it).fontSize) * (view.getBoundingClientRect().width / view.viewBox.baseVal.width);
  });
  expect(Math.max(...drawn) >= 10, `texts of nodes are ${Math.max(...drawn)} px high`);
  expect(!document.querySelector("#lanes text") || getComputedStyle(document.querySelector("#lanes text")).display === "none", "names in the timeline");
  // what is told stays while one scrolls
  scrollTo(0, 400);
  expect(isInSight($("told")), "what is told scrolls away");
  parent.postMessage(wrong, "*");
}

addEventListener("load", () => look().catch((error) => parent.postMessage([error.stack], "*")));
