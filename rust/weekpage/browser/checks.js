"use strict";
// Holds the page to the listing, whose lines stand in `listed`, folds and unfolds its
// openings and chooses a swap. What is wrong goes to the console, as an error; the
// number of checks is left where the one who opened the page finds it.
untilDone(async () => {
  let checks = 0;
  const check = (fact, words) => {
    checks += 1;
    if (!fact) console.error(`wrong: ${words}`);
  };
  const all = (selector, within = document) => [...within.querySelectorAll(selector)];
  const same = (found, expected, words) => check(found === expected, `${words}: ${found}, not ${expected}`);

  // Rows and marks against the listing.
  const total = listed.at(-1);
  const lines = listed.slice(0, -1);
  const words = (pattern) => lines.filter((line) => pattern.test(line)).length;
  const rows = all("table.lanes tr.record");
  const parcels = all("table.lanes .parcel").length;
  same(rows.length, lines.length, "rows");
  same(all("table.lanes tfoot code").map((code) => code.textContent).join(), total, "the total");
  rows.forEach((row, k) => same(row.querySelector("code").textContent, lines[k], `line ${k + 1}`));
  same(all("table.lanes .token").length, words(/ OPENED$/), "tokens opened");
  same(all("table.lanes .verdict").length, words(/ (YES|NO) /), "verdicts");
  same(all("table.lanes .vote.fresh").length - parcels, words(/ HEARD /), "full arrows that bring no swap");
  same(all("table.lanes .vote.repeat").length, words(/ AGAIN /), "dashed arrows");
  same(all("table.lanes tr.refused").length, words(/ REFUSED /), "refused records");
  same(all("table.lanes .held-off").length, words(/ REFUSED 17$/), "records held off");
  same(all("table.lanes .turned").length, words(/ TURNED$/), "pantries turned");

  // Where things are drawn: an arrow goes from the sender's lane to the receiver's,
  // as the sentence beside it says.
  const headings = all("table.lanes thead th.lane");
  const lane = (pantry) => headings[pantry].getBoundingClientRect();
  const middle = (pantry) => (lane(pantry).left + lane(pantry).right) / 2;
  const drawn = (row) => {
    const vote = row.querySelector(".vote");
    if (!vote) return;
    const told = row.querySelector(".told").textContent;
    const [, sender, receiver] = /from (?:pantry )?(\d) to (?:pantry )?(\d)/.exec(told);
    const { left, right } = vote.querySelector(".shaft").getBoundingClientRect();
    const line = row.querySelector("code").textContent;
    if (sender === receiver) return same(Math.abs(left - middle(sender)) > 2, false, `${line}: its lane`);
    const [from, to] = Number(sender) > Number(receiver) ? [right, left] : [left, right];
    check(Math.abs(from - middle(sender)) <= 2, `${line}: the arrow begins at ${from}, not at ${middle(sender)}`);
    check(to >= lane(receiver).left && to <= lane(receiver).right, `${line}: the arrow ends at ${to}`);
  };
  rows.forEach(drawn);
  const dashes = (kind) => new Set(all(`table.lanes .vote.${kind} .shaft`).map((shaft) => getComputedStyle(shaft).strokeDasharray));
  check([...dashes("fresh")].every((dash) => dash === "none"), "fresh votes are full lines");
  check([...dashes("repeat")].every((dash) => dash !== "none"), "repeats are dashed lines");
  check(document.documentElement.scrollWidth <= window.innerWidth, "the page is as wide as the window");

  // Every long run of openings is folded at first, but for one that the page was
  // opened at. Its button folds and unfolds it, and so does whatever leads to a row
  // in it; on paper nothing is folded.
  const runs = all("tbody.openings");
  const records = (run) => all("tr.record", run);
  const isThere = (row) => row.getClientRects().length > 0;
  const isInSight = (row) => {
    const { top, bottom } = row.getBoundingClientRect();
    return top >= 0 && bottom <= window.innerHeight;
  };
  const inSight = (row, words) => check(isInSight(row), `${words}: ${row.id} is in sight`);
  const folded = (run, wanted, words) => {
    check(isThere(run.querySelector("tr.run")), `${words}: the heading of ${run.id} is there`);
    check(records(run).every((row) => isThere(row) !== wanted), `${words}: ${run.id} is folded: ${wanted}`);
    const told = run.querySelector("tr.run button").getAttribute("aria-expanded");
    same(told, String(!wanted), `${words}: what is told of ${run.id}`);
  };
  const opened = lines.map((line) => (/ OPENED$/.test(line) ? "+" : " ")).join("");
  const long = opened.split(/ +/).map((run) => run.length).filter((count) => count > 8);
  same(runs.map((run) => records(run).length).join(), long.join(), "long runs of openings");
  same(all("tbody.openings tr[data-swap]").length, 0, "rows of swaps that could be folded");
  const target = document.getElementById(location.hash.slice(1));
  for (let k = 0; k !== 300 && target && !isInSight(target); k += 1) await frame();
  if (target) inSight(target, "at first");
  for (const run of runs) {
    folded(run, !run.contains(target), "at first");
    const button = run.querySelector("tr.run button");
    if (run.contains(target)) button.click();
    button.click();
    folded(run, false, "after a click");
    button.click();
    folded(run, true, "after two clicks");
    const link = document.createElement("a");
    document.body.append(link);
    const [first, ...others] = records(run);
    link.href = `#${others.at(-1).id}`;
    for (const words of ["a link", "the same link again"]) {
      link.click();
      await frame();
      folded(run, false, words);
      inSight(others.at(-1), words);
      button.click();
    }
    link.remove();
    const arrived = new Promise((next) => window.addEventListener("hashchange", next, { once: true }));
    location.hash = first.id;
    await arrived;
    folded(run, false, "another address");
    inSight(first, "another address");
    button.click();
    folded(run, true, "in the end");
  }
  const rules = (list, media) =>
    [...list].flatMap((rule) => (rule instanceof CSSMediaRule ? rules(rule.cssRules, rule.media.mediaText) : [[rule.selectorText, media]]));
  const folding = rules(document.styleSheets[0].cssRules, "all").filter(([selector]) => selector?.includes(".folded"));
  same(folding.map(([, media]) => media).join(), "screen", "where something is folded");
  same(all('[id^="pantry-"]').length, 8, "pantries that links lead to");
  window.scrollTo(0, 0);

  // Choosing a swap: its rows stand out, the others fade.
  const link = document.querySelector("table.lanes a.swap");
  if (!link) return done();
  const swap = link.dataset.swap;
  const faded = () => rows.filter((row) => Number(getComputedStyle(row).opacity) < 0.5);
  const others = rows.filter((row) => row.dataset.swap !== swap).length;
  const bar = document.getElementById("chosen");
  const press = (key) => document.activeElement.dispatchEvent(new KeyboardEvent("keydown", { key, bubbles: true }));
  const over = (target) => target.dispatchEvent(new MouseEvent("mouseover", { bubbles: true }));
  const shown = (count, words) => {
    same(faded().length, count, `${words}: rows that fade`);
    check(faded().every((row) => row.dataset.swap !== swap), `${words}: its own rows stay`);
  };
  same(document.getElementById("choosing").hidden, false, "how to choose, hidden");
  shown(0, "at first");
  over(link);
  shown(others, "with the mouse over it");
  over(document.body);
  shown(0, "with the mouse elsewhere");
  over(document.querySelector(`tr.record[data-swap="${swap}"] .marks`));
  shown(others, "with the mouse over its mark");
  over(document.body);
  // The page is told of the focus only once the window has it.
  for (let k = 0; k !== 300 && !document.hasFocus(); k += 1) await frame();
  link.focus();
  shown(others, "with the focus on it");
  link.blur();
  shown(0, "with the focus elsewhere");
  link.click();
  over(document.body);
  shown(others, "after a click");
  same(bar.hidden, false, "the bar is there, hidden");
  for (const button of all("button", bar).slice(0, 2)) {
    button.click();
    inSight(document.querySelector("tr.here"), button.textContent);
  }
  press("Escape");
  shown(0, "after Escape");
  same(bar.hidden, true, "the bar is gone, hidden");
  link.click();
  link.click();
  shown(0, "after two clicks");
  // From the list of swaps, each can be chosen, and leads to the first of its rows.
  for (const link of all("#swaps a.swap")) {
    link.click();
    const first = rows.find((row) => row.dataset.swap === link.dataset.swap);
    same(document.querySelector("tr.here")?.id, first.id, `${link.textContent}: its first row`);
    same(all("tr.record.lit").length, rows.filter((row) => row.dataset.swap === link.dataset.swap).length, link.textContent);
  }
  press("Escape");
  window.scrollTo(0, 0);
  done();

  function done() {
    document.documentElement.dataset.checks = checks;
    document.documentElement.dataset.height = document.documentElement.scrollHeight;
  }
});
