"use strict";
// For what runs in the page in a real browser: `untilDone(work)` keeps the page from
// being done until the work is, by a frame whose document is open until then, and
// `frame()` waits for the next picture. What goes wrong goes to the console.
const frame = () => new Promise((next) => requestAnimationFrame(next));
const untilDone = async (work) => {
  const open = document.createElement("iframe");
  open.style.display = "none";
  document.body.append(open);
  open.contentDocument.open();
  try {
    await work();
  } catch (error) {
    console.error(error);
  }
  open.contentDocument.close();
};
