// Looks at the page in a frame of 1280 x 900 as it opens, and sends the page around the frame what is
// wrong. Appended to a copy of the page, for tests/watch.sh.
"use strict";

function seen() {
  const wrong = [];
  const expect = (holds, what) => { if (!holds) wrong.push(what); };
  expect(innerWidth === 1280 && innerHeight === 900, `the screen is ${innerWidth} x ${innerHeight}`);
  const { pending, readers } = page.state;
  expect(pending && pending.flips === 1, "no update is at its middle");
  expect(document.querySelectorAll("#copy0 .node:not(.free)").length >= 6, "few nodes");
  expect([...readers.values()].filter((reader) => !reader.answer).length >= 2, "no two readers are at work");
  for (const name of [".short", "#told", ".counter", "#panel", ".legend", "#copy0", "#copy1", "#who .card"]) {
    for (const it of document.querySelectorAll(name)) {
      const { top, bottom, left, right, height } = it.getBoundingClientRect();
      expect(height > 0 && top >= 0 && bottom <= innerHeight && left >= 0 && right <= innerWidth, `${name} is not in sight: ${top} to ${bottom}`);
    }
  }
  return wrong;
}

addEventListener("load", () => {
  try {
    parent.postMessage(seen(), "*");
  } catch (error) {
    parent.postMessage([error.stack], "*");
  }
});
