"use strict";
// Scrolls through the page of a long week and chooses a swap, frame by frame, and
// leaves the times where the one who opened the page finds them.
untilDone(async () => {
  const FRAMES = 240;
  const round = (time) => time.toFixed(1);
  const scrolled = async () => {
    const times = [];
    let last = await frame();
    for (let k = 0; k !== FRAMES; k += 1) {
      window.scrollBy(0, 300);
      const now = await frame();
      times.push(now - last);
      last = now;
    }
    times.sort((a, b) => a - b);
    return `median ${round(times[FRAMES / 2])}, longest ${round(times[FRAMES - 1])}`;
  };
  const chosen = async () => {
    const start = performance.now();
    document.querySelector("table.lanes a.swap").click();
    await frame();
    await frame();
    return round(performance.now() - start);
  };

  await frame();
  await frame();
  const shown = round(performance.now());
  const frames = await scrolled();
  const choosing = await chosen();
  const afterwards = await scrolled();
  document.documentElement.dataset.times =
    `shown after ${shown} ms; frames while scrolling, in ms: ${frames}; ` +
    `a swap chosen in ${choosing} ms; frames then: ${afterwards}`;
});
